//! How a feed's cost grows: with its samples, and with a layout's carriers and cells.
use crate::calls::feed;
use crate::inputs::{self, cells, layout, numbers, reference_layout, reference_tables, tables, THREE};
use crate::{cpu, micro, picture, Times};
use dimpstea::{flat, raw, rows, Layout};
use reference::adaptor;
use std::fs;

const SAMPLES: [usize; 6] = [0, 1, 10, 100, 1000, 4000];

/// A feed of 4,000 samples searches so many positions.
const POSITIONS: f64 = 2000.0;

/// Seconds of a feed of both sides.
#[derive(Clone, Copy)]
pub struct Cost {
    pub port: f64,
    pub rust: f64,
}

/// What the picture shows: for three layouts a feed's cost by its samples, and for all by their carriers.
pub struct Growth {
    pub by_samples: Vec<(Layout, Vec<(usize, Cost)>)>,
    pub by_carriers: Vec<(Layout, Cost)>,
}

/// Feeds of so many samples, enough of them in a run that the clock's steps don't count.
fn by_samples(l: &Layout, samples: usize) -> Cost {
    let times = (2000 / (samples + 20)).max(1);
    let taken = Times::take(&|side| feed(l, side, samples, times));
    let each = |seconds: f64| seconds / times as f64;
    Cost { port: each(taken.port), rust: each(taken.reference.expect("the reference's side")) }
}

/// The second feed of 4,000 samples into a receiver: it filters as much as a later one, and searches nothing yet.
fn unsearched(l: &Layout) -> Cost {
    let (samples, book, t) = (inputs::noise(4000), rows::turn_book(), tables(l));
    let (theirs, their_book) = (numbers(&samples), numbers(&book));
    let mut memory = vec![0.0; 2 * l.memory_len()];
    let (mut port, mut rust) = (Vec::new(), Vec::new());
    for _ in 0..crate::RUNS {
        let (mut state, mut metric) = ([0; raw::STATE], 0.0);
        raw::open(l.bandwidth, l.record, &t.markers, flat(&t.phasors), 0, flat(&book), &mut state, &mut metric)
            .expect("an opening");
        let mut number = 0;
        let mut next = || {
            let (markers, phasors) = (&t.markers, flat(&t.phasors));
            let (book, samples) = (flat(&book), flat(&samples));
            let memory = &mut memory;
            raw::feed(l.bandwidth, l.record, markers, phasors, book, &mut state, &mut metric, memory, number, samples)
                .expect("a feed");
            number += 4000;
        };
        next();
        port.push(cpu::timed(&mut next));
        assert_eq!(state[11], 0, "nothing was searched");
        let mut receiver = adaptor::open(reference_layout(l), &reference_tables(l), 0);
        receiver.feed(&theirs, &their_book);
        rust.push(cpu::timed(&mut || drop(receiver.feed(&theirs, &their_book))));
    }
    Cost { port: cpu::median(port), rust: cpu::median(rust) }
}

fn ratio(cost: Cost) -> String {
    format!("{:.2}", cost.port / cost.rust)
}

fn sample_table() -> Vec<(Layout, Vec<(usize, Cost)>)> {
    println!("| layout | samples | port, µs | Rust, µs | ratio |\n|---|---|---|---|---|");
    let mut all = Vec::new();
    for l in THREE.map(layout) {
        let costs: Vec<_> = SAMPLES.into_iter().map(|samples| (samples, by_samples(&l, samples))).collect();
        for &(samples, c) in &costs {
            let (port, rust) = (micro(c.port), micro(c.rust));
            println!("| {}/{} | {samples} | {port} | {rust} | {} |", l.bandwidth, l.record, ratio(c));
        }
        all.push((l, costs));
    }
    all
}

const EARLY: &str = "| before the search: port, µs | Rust, µs | ratio | cycles a cell: port | Rust |";

fn carrier_table(clock: f64) -> Vec<(Layout, Cost)> {
    println!("| layout | carriers | taps | cells | a feed: port, µs | Rust, µs | ratio {}", EARLY);
    println!("|---|---|---|---|---|---|---|---|---|---|---|---|");
    let mut layouts = Layout::ALL.map(layout);
    layouts.sort_by_key(|l| (l.carriers, l.bandwidth, l.record));
    let mut all = Vec::new();
    for l in layouts {
        let (whole, early) = (by_samples(&l, 4000), unsearched(&l));
        let cycles = |whole: f64, early: f64| (whole - early) * clock / (POSITIONS * cells(&l) as f64);
        println!(
            "| {}/{} | {} | {} | {} | {} | {} | {} | {} | {} | {} | {:.2} | {:.2} |",
            l.bandwidth,
            l.record,
            l.carriers,
            l.taps,
            cells(&l),
            micro(whole.port),
            micro(whole.rust),
            ratio(whole),
            micro(early.port),
            micro(early.rust),
            ratio(early),
            cycles(whole.port, early.port),
            cycles(whole.rust, early.rust),
        );
        all.push((l, whole));
    }
    all
}

/// Prints both tables and writes the picture.
pub fn report(path: &str) {
    let clock = cpu::clock();
    println!("clock: {:.2} GHz\n", 1e-9 * clock);
    let by_samples = sample_table();
    println!();
    let by_carriers = carrier_table(clock);
    fs::write(path, picture::draw(&Growth { by_samples, by_carriers })).expect("a folder that can be written");
}
