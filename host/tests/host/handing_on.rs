//! A state that is stored and handed back goes on as if it had never been stored.
use crate::signal::{Frame, Random};
use dimpstea::{flat, raw, rows, Detection, Receiver, State};

#[test]
fn a_resumed_receiver_goes_on() {
    let frame = Frame::new(2300, 6, 40);
    let (samples, book) = (frame.samples(), rows::turn_book());
    let mut kept = Receiver::open(&frame.layout, &frame.tables, 5000, &book).unwrap();
    let mut stored = kept.clone();
    let (random, mut at) = (&mut Random(41), 0);
    let (mut detections, mut others) = (Vec::<Detection>::new(), Vec::<Detection>::new());
    while at < samples.len() {
        let piece = &samples[at..samples.len().min(at + random.below(4001))];
        detections.extend(kept.feed(&frame.tables, &book, piece).unwrap());
        // Only numbers and a copy of the memory go from one feed to the next.
        let state = *stored.state();
        stored = Receiver::resume(&frame.layout, state, stored.memory().to_vec());
        others.extend(stored.feed(&frame.tables, &book, piece).unwrap());
        at += piece.len();
        assert_eq!(stored.state().sample_end(), 5000 + at as u64);
    }
    assert_eq!((detections.len(), &detections), (1, &others));
    assert_eq!(kept.state(), stored.state());
    let t0 = detections[0].position;
    let reading = stored.read(&frame.tables, t0, &[]).unwrap();
    assert_eq!(Ok(&reading), kept.read(&frame.tables, t0, &[]).as_ref());
    assert_eq!(reading.payload(&frame.layout).unwrap(), frame.payload);
}

/// The same through the raw calls, where all that goes on is 19 numbers, a metric and the memory.
#[test]
fn raw_numbers_go_on() {
    let frame = Frame::new(500, 5, 42);
    let (samples, book) = (frame.samples(), rows::turn_book());
    let (kept, expected) = frame.received(&samples, 1234);
    let (markers, phasors) = (&frame.tables.markers[..], flat(&frame.tables.phasors));
    let (mut numbers, mut metric) = ([0; raw::STATE], 0.0);
    raw::open(500, 5, markers, phasors, 0, flat(&book), &mut numbers, &mut metric).unwrap();
    // What the memory holds at first isn't read.
    let mut memory = vec![f64::NAN; 2 * (1 + 3 * 2) * (2 * 16_704 + 4000)];
    let mut released = None;
    for (i, piece) in samples.chunks(999).enumerate() {
        let (mut next, mut next_metric) = (numbers, metric);
        let number = 999 * i as u64;
        let samples = flat(piece);
        let fed =
            raw::feed(500, 5, markers, phasors, flat(&book), &mut next, &mut next_metric, &mut memory, number, samples);
        released = released.or(fed.unwrap());
        (numbers, metric) = (next, next_metric);
    }
    assert_eq!(released, Some(expected));
    let resumed = Receiver::resume(&frame.layout, State { numbers, metric }, memory);
    let reading = resumed.read(&frame.tables, expected.position, &[]);
    assert_eq!(reading, kept.read(&frame.tables, expected.position, &[]));
    assert_eq!(reading.unwrap().payload(&frame.layout).unwrap(), frame.payload);
}

#[test]
fn a_damaged_state_is_refused() {
    let frame = Frame::new(500, 4, 43);
    let (receiver, detection) = frame.received(&frame.samples(), 4000);
    let t0 = detection.position;
    let locate = |receiver: &Receiver| receiver.locate(&frame.tables, t0).map_err(|r| r.number());
    assert!(locate(&receiver).is_ok());
    // Bandwidth, record, and the tracks' bases and lengths: another number is no receiver's of this layout.
    for i in (0..2).chain(5..11) {
        let mut state = *receiver.state();
        state.numbers[i] += 1;
        let damaged = Receiver::resume(&frame.layout, state, receiver.memory().to_vec());
        assert_eq!(locate(&damaged), Err(17), "number {i}");
        assert_eq!(damaged.read(&frame.tables, t0, &[]).unwrap_err().refusal.number(), 17, "number {i}");
    }
    let short = Receiver::resume(&frame.layout, *receiver.state(), receiver.memory()[2..].to_vec());
    assert_eq!(locate(&short), Err(17));
}
