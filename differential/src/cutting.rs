//! One signal in two cuttings of its own for each of two receivers: they list equal detections, positions and metrics
//! alike (`SameDetections` in crates/modem/specs/Cutting.antt).
use crate::count::Count;
use crate::random::Random;
use crate::{inputs, signal};
use dimpstea::{Complex, Layout, Receiver, Tables};

pub fn run(cases: usize, random: &Random, count: &mut Count) {
    for case in 0..cases {
        let (bandwidth, record) = Layout::ALL[case % Layout::ALL.len()];
        let layout = Layout::choose(bandwidth, record).expect("a PSK layout");
        let tables = inputs::tables(&layout, random);
        let samples = signal::signal(&layout, &tables, random).samples;
        let (book, start) = (inputs::book(random), random.bits() >> random.within(24, 63));
        let detections = |longest| fed(&layout, &tables, &book, start, &samples, longest, random);
        let (one, other) = (detections(4000), detections(random.pick(&[300, 1000, 4000])));
        count.compare("signals in two cuttings", one == other, || {
            format!("{bandwidth}/{record}: {one:?} in one cutting, {other:?} in another")
        });
        // Of a part of the signal the detections are the first of the whole's.
        let part = &samples[..random.below(samples.len() + 1)];
        let early = fed(&layout, &tables, &book, start, part, 4000, random);
        count.compare("signals and their beginnings", one.starts_with(&early), || {
            format!("{bandwidth}/{record}: {early:?} of {} samples, {one:?} of all", part.len())
        });
    }
}

/// The positions and the metrics' bits of the detections of samples fed in pieces of up to `longest`, empty ones and
/// refused feeds between.
fn fed(
    layout: &Layout,
    tables: &Tables,
    book: &[Complex],
    start: u64,
    samples: &[Complex],
    longest: usize,
    random: &Random,
) -> Vec<(u64, u64)> {
    let mut receiver = Receiver::open(layout, tables, start, book).expect("an accepted opening");
    let (mut at, mut found) = (0, Vec::new());
    while at < samples.len() {
        let piece = &samples[at..samples.len().min(at + random.below(longest + 1))];
        if random.one_in(8) {
            receiver.feed_at(tables, book, start + at as u64 + 1, piece).expect_err("a gap is refused");
        }
        let detection = receiver.feed(tables, book, piece).expect("an accepted feed");
        found.extend(detection.map(|d| (d.position, d.metric.to_bits())));
        at += piece.len();
    }
    found
}
