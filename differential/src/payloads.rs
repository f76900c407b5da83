//! Payload bits and the meter, which the reference doesn't have, beside document 01's two sentences.
use crate::count::Count;
use crate::inputs;
use crate::random::Random;
use dimpstea::{meter, payload_bits};

pub fn run(cases: usize, random: &Random, count: &mut Count) {
    for _ in 0..cases {
        let layout = inputs::layout(random);
        let edges =
            [0.0, -0.0, f64::INFINITY, f64::NEG_INFINITY, f64::MIN_POSITIVE, -f64::MIN_POSITIVE, 5e-324, -5e-324];
        let soft: Vec<f64> = (0..layout.payload)
            .map(|_| if random.one_in(4) { random.pick(&edges) } else { random.between(-9.0, 9.0) })
            .collect();
        let read = payload_bits(&layout, &soft).expect("as many soft bits as a payload has");
        // "A read bit is 1 when the soft bit's sign bit is set."
        let signs: Vec<u8> = soft.iter().map(|s| (s.to_bits() >> 63) as u8).collect();
        count.compare("payloads", read == signs, || format!("payload bits of {}/{}", layout.bandwidth, layout.record));
        // "the differing bits of two payloads"
        let sent = inputs::payload(&layout, 1, random);
        let differing = meter(&layout, &sent, &read).expect("two payloads");
        let expected = sent.iter().zip(&read).filter(|(a, b)| a != b).count() as u64;
        count.compare("meters", differing == expected, || format!("meter: {differing}, counted {expected}"));
    }
}
