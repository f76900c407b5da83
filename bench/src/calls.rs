//! What is timed: each call on both sides, with everything that it takes made before.
use crate::inputs::{self, numbers, reference_layout, reference_tables, tables};
use dimpstea::{flat, raw, rows, Complex, Layout, Receiver, Sending};
use reference::{adaptor, Complex64};
use std::hint::black_box;
use std::mem::replace;

/// Whose call it is. The harness hands the reference its drift rows by a copy, which is no work of the reference:
/// `Copies` makes these copies alone.
#[derive(Clone, Copy, Debug, PartialEq)]
pub enum Side {
    Port,
    Reference,
    Copies,
}

pub type Run = Box<dyn FnMut()>;

/// A call. A run's time divided by `share` is the time of what `name` says. A side that has nothing to do has no run.
pub struct Call {
    pub word: &'static str,
    pub name: &'static str,
    pub share: fn(&Layout) -> f64,
    pub run: fn(&Layout, Side) -> Option<Run>,
}

const SENDINGS: usize = 10;
const LOCATIONS: usize = 20;
const READINGS: usize = 5;

pub static CALLS: [Call; 7] = [
    Call { word: "symbols", name: "a frame's symbols", share: |_| SENDINGS as f64, run: symbols },
    Call { word: "audio", name: "a second of audio", share: seconds, run: audio },
    Call { word: "audio-lent", name: "a second of audio, waves lent", share: seconds, run: audio_lent },
    Call { word: "feed", name: "a feed of 4,000 samples", share: |_| 1.0, run: |l, side| feed(l, side, 4000, 1) },
    Call { word: "locate", name: "locating", share: |_| LOCATIONS as f64, run: locate },
    Call { word: "read", name: "a reading", share: |_| READINGS as f64, run: |l, side| read(l, side, false) },
    Call {
        word: "read-rows",
        name: "a reading, drift rows",
        share: |_| READINGS as f64,
        run: |l, side| read(l, side, true),
    },
];

fn seconds(l: &Layout) -> f64 {
    l.audio_len(1) as f64 / 48_000.0
}

fn symbols(l: &Layout, side: Side) -> Option<Run> {
    let (l, bits, drawn) = (l.clone(), inputs::payload(l, 1), inputs::draws(l, 1));
    let (r, t, rt, frame) = (reference_layout(&l), tables(&l), reference_tables(&l), vec![bits.clone()]);
    match side {
        Side::Port => Some(Box::new(move || {
            for _ in 0..SENDINGS {
                black_box(Sending::new(&l, &t, 1, black_box(&bits), black_box(&drawn)).expect("a sending"));
            }
        })),
        Side::Reference => Some(Box::new(move || {
            for _ in 0..SENDINGS {
                black_box(adaptor::symbols(r, &rt, black_box(&frame), black_box(&drawn)));
            }
        })),
        Side::Copies => None,
    }
}

/// A frame's rows for the reference.
fn reference_rows(l: &Layout, sending: &Sending) -> Vec<Vec<Complex64>> {
    (0..l.carriers).map(|c| numbers(sending.row(c))).collect()
}

/// A frame's 48 kHz signal, windows of 4,096 places on the port's side, with the cosines and sines of both sides.
fn audio(l: &Layout, side: Side) -> Option<Run> {
    let (r, sending, length) = (reference_layout(l), inputs::sending(l), l.audio_len(1));
    let symbols = reference_rows(l, &sending);
    match side {
        Side::Port => Some(Box::new(move || {
            let mut signal = vec![0.0; length as usize];
            let mut audio = sending.audio();
            for window in signal.chunks_mut(4096) {
                audio.next_window(window).expect("a window");
            }
            black_box(signal);
        })),
        Side::Reference => Some(Box::new(move || {
            let wave = |phase: f32| (f64::from(phase).cos(), f64::from(phase).sin());
            black_box(adaptor::audio(r, black_box(&symbols), &wave));
        })),
        Side::Copies => None,
    }
}

/// The same signal with no cosine or sine on either side: rows lent to the port, a product of the phase in the
/// reference.
fn audio_lent(l: &Layout, side: Side) -> Option<Run> {
    let (r, sending, length) = (reference_layout(l), inputs::sending(l), l.audio_len(1));
    let symbols = reference_rows(l, &sending);
    let (bandwidth, record, carriers) = (l.bandwidth, l.record, l.carriers);
    let waves = vec![0.5; 2 * carriers * 4096];
    match side {
        Side::Port => Some(Box::new(move || {
            let mut signal = vec![0.0; length as usize];
            let mut phases = vec![0.0; carriers];
            for (i, window) in signal.chunks_mut(4096).enumerate() {
                let (place, len) = (4096 * i as u64, window.len());
                let lent = &waves[..2 * carriers * len];
                raw::carrier_audio(bandwidth, record, 1, flat(sending.rows()), place, len, lent, &mut phases, window)
                    .expect("a window");
            }
            black_box(signal);
        })),
        Side::Reference => Some(Box::new(move || {
            let wave = |phase: f32| (0.1 * f64::from(phase), 0.5);
            black_box(adaptor::audio(r, black_box(&symbols), &wave));
        })),
        Side::Copies => None,
    }
}

/// Feeds of `count` samples, `times` of them, into a receiver that has been searching for a while. In each the harness
/// hands the reference a copy of the turn book, about a microsecond's work.
pub fn feed(l: &Layout, side: Side, count: usize, times: usize) -> Option<Run> {
    let (samples, book, t) = (inputs::noise(4000), rows::turn_book(), tables(l));
    let (theirs, their_book) = (numbers(&samples), numbers(&book));
    match side {
        Side::Port => {
            let mut receiver = Receiver::open(l, &t, 0, &book).expect("an opening");
            for _ in 0..12 {
                receiver.feed(&t, &book, &samples).expect("a feed");
            }
            Some(Box::new(move || {
                for _ in 0..times {
                    black_box(receiver.feed(&t, &book, black_box(&samples[..count])).expect("a feed"));
                }
            }))
        }
        Side::Reference => {
            let mut receiver = adaptor::open(reference_layout(l), &reference_tables(l), 0);
            for _ in 0..12 {
                receiver.feed(&theirs, &their_book);
            }
            Some(Box::new(move || {
                for _ in 0..times {
                    black_box(receiver.feed(black_box(&theirs[..count]), &their_book));
                }
            }))
        }
        Side::Copies => None,
    }
}

/// Pieces of a frame's samples: at most 3,965 each, so that a frame's samples are kept until it is released.
const PIECE: usize = 3965;

/// A receiver right after the feed that released a frame, and the frame's position.
pub fn released(l: &Layout) -> (Receiver, u64) {
    let (t, book) = (tables(l), rows::turn_book());
    let mut receiver = Receiver::open(l, &t, 0, &book).expect("an opening");
    for piece in inputs::frame(l).chunks(PIECE) {
        if let Some(detection) = receiver.feed(&t, &book, piece).expect("a feed") {
            return (receiver, detection.position);
        }
    }
    panic!("no detection");
}

fn reference_released(l: &Layout) -> (adaptor::Receiver, i64) {
    let book = numbers(&rows::turn_book());
    let mut receiver = adaptor::open(reference_layout(l), &reference_tables(l), 0);
    for piece in inputs::frame(l).chunks(PIECE) {
        if let [(position, _)] = receiver.feed(&numbers(piece), &book)[..] {
            return (receiver, position);
        }
    }
    panic!("no detection");
}

/// The reference has no such call: locating is the first part of its reading.
fn locate(l: &Layout, side: Side) -> Option<Run> {
    if side != Side::Port {
        return None;
    }
    let ((receiver, t0), t) = (released(l), tables(l));
    Some(Box::new(move || {
        for _ in 0..LOCATIONS {
            black_box(receiver.locate(&t, black_box(t0)).expect("a frame"));
        }
    }))
}

/// The drift rows of a frame at t that is 1.5 Hz too high, or none.
pub fn drift(l: &Layout, t: u64, with_rows: bool) -> Vec<Complex> {
    if with_rows {
        rows::drift(l, t, 1.5)
    } else {
        Vec::new()
    }
}

fn read(l: &Layout, side: Side, with_rows: bool) -> Option<Run> {
    let t = tables(l);
    match side {
        Side::Port => {
            let (receiver, t0) = released(l);
            let lent = drift(l, receiver.locate(&t, t0).expect("a frame").t, with_rows);
            Some(Box::new(move || {
                for _ in 0..READINGS {
                    black_box(receiver.read(&t, t0, black_box(&lent)).expect("a reading"));
                }
            }))
        }
        Side::Reference => {
            let (mut receiver, t0) = reference_released(l);
            let found = receiver.read(t0, &[]).expect("a reading").t;
            let lent = reference_drift(l, found as u64, with_rows);
            Some(Box::new(move || {
                for _ in 0..READINGS {
                    black_box(receiver.read(t0, black_box(&lent)).expect("a reading"));
                }
            }))
        }
        Side::Copies => {
            let lent = reference_drift(l, 1000, with_rows);
            let mut held = lent.clone();
            Some(Box::new(move || {
                for _ in 0..READINGS {
                    for (row, lent) in held.iter_mut().zip(black_box(&lent)) {
                        black_box(replace(row, lent.clone()));
                    }
                }
            }))
        }
    }
}

fn reference_drift(l: &Layout, t: u64, with_rows: bool) -> Vec<Vec<Complex64>> {
    drift(l, t, with_rows).chunks(l.drift_row_len()).map(numbers).collect()
}
