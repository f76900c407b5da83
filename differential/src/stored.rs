//! What a receiver stores, its numbers and its memory, beside the reference's receiver.
use crate::count::{alike, Count};
use crate::reference_side;
use dimpstea::{Layout, Tables};
use reference::adaptor::{self, Held, Stored};
use reference::Complex64;

/// The numbers (f64) of a track's part of the memory.
pub fn part_len(layout: &Layout) -> usize {
    2 * (2 * layout.keep as usize + 4000)
}

/// The part of a carrier's filtered, step or power track; part 0 has the samples.
pub fn part(carrier: usize, track: usize) -> usize {
    1 + 3 * carrier + track
}

/// The reference's receiver of a state that condition 17 accepts, reached by feeds or not.
pub fn resume(layout: &Layout, tables: &Tables, state: &[u64], metric: f64, memory: &[f64]) -> adaptor::Receiver {
    let values = |part: usize, span: usize| -> Vec<Complex64> {
        let from = part * part_len(layout);
        let parts = &memory[from..from + 2 * state[span + 1] as usize];
        parts.chunks(2).map(|z| Complex64::new(z[0], z[1])).collect()
    };
    let samples = values(0, 3);
    let tracks: Vec<[Vec<Complex64>; 3]> = (0..layout.carriers)
        .map(|carrier| [0, 1, 2].map(|track| values(part(carrier, track), 5 + 2 * track)))
        .collect();
    let at = |i: usize| state[i] as i64;
    let there = |i: usize| (state[i] != 0).then_some(at(i + 1));
    let carriers = tracks.iter().map(|[f, s, p]| [(at(5), &f[..]), (at(7), &s[..]), (at(9), &p[..])]).collect();
    let stored = Stored {
        samples: (at(3), &samples),
        carriers,
        search_place: there(11),
        block: there(15),
        held: there(17).map(|held| (held, metric)),
    };
    adaptor::resume(reference_side::layout(layout), &reference_side::tables(layout, tables), &stored)
}

/// The numbers that document 01's receiver has where the reference stands, and the held metric.
fn numbers(layout: &Layout, start: u64, reference: &adaptor::Receiver) -> (Vec<u64>, f64) {
    let span = |(base, values): Held| [base as u64, values.len() as u64];
    let there = |number: Option<i64>| [u64::from(number.is_some()), number.unwrap_or(0) as u64];
    let (block, held) = reference.holds();
    let mut numbers = vec![u64::from(layout.bandwidth), u64::from(layout.record), start];
    numbers.extend(span(reference.samples()));
    numbers.extend(reference.tracks(0).into_iter().flat_map(span));
    numbers.extend(there(reference.search_place()));
    numbers.extend([8, layout.dead]);
    numbers.extend(there(block));
    numbers.extend(there(held.map(|(position, _)| position)));
    (numbers, held.map_or(0.0, |(_, metric)| metric))
}

/// Compares all that a feed leaves: each number of the state, and each value of each track.
pub fn compare(
    layout: &Layout,
    (state, metric): (&[u64], f64),
    memory: &[f64],
    reference: &adaptor::Receiver,
    [states, parts]: [&'static str; 2],
    count: &mut Count,
) {
    let (expected, expected_metric) = numbers(layout, state[2], reference);
    let same = state == expected && alike(metric, expected_metric);
    count.compare(states, same, || {
        format!("state {state:?}, {metric}; the reference has {expected:?}, {expected_metric}")
    });
    if !same {
        return;
    }
    let mut compare_part = |part: usize, values: &[Complex64]| {
        let from = part * part_len(layout);
        count.compare_all(parts, &memory[from..from + 2 * values.len()], &reference_side::parts(values), || {
            format!("{}/{}, part {part} of the memory", layout.bandwidth, layout.record)
        });
    };
    compare_part(0, reference.samples().1);
    for carrier in 0..layout.carriers {
        for (track, (_, values)) in reference.tracks(carrier).into_iter().enumerate() {
            compare_part(part(carrier, track), values);
        }
    }
}
