//! Calls with no fault, one or two: the answer must be the model's number. After a refusal nothing lent may have changed
//! by a bit; a call that is accepted, damaged or not, must leave what the reference leaves, or where that can't be asked
//! what document 01 defines.
mod audio;
mod reading;
mod receiving;
mod sending;
mod small;

use crate::count::Count;
use crate::inputs;
use crate::model::{self, first, Rows};
use crate::random::Random;
use dimpstea::{flat, Complex, Layout, Refusal, Tables};
use reading::Reading;
use receiving::{Feeding, Offering, Opening};
use sending::{Modulating, Phasing, Sounding};
use small::{Choosing, Payloads};

/// Faults are put into calls of each kind, `cases` calls in all.
pub fn run(cases: usize, random: &Random, count: &mut Count) {
    for case in 0..cases {
        let layout = inputs::layout(random);
        match case % 11 {
            0 => damage(Choosing::new(&layout), random, count),
            1 => damage(Modulating::new(&layout, random), random, count),
            2 => damage(Phasing::new(&layout, random), random, count),
            3 => damage(Sounding::new(&layout, random), random, count),
            4 => damage(Opening::new(&layout, random), random, count),
            5 | 6 => damage(Feeding::new(&layout, random), random, count),
            7 | 8 => damage(Reading::new(&layout, random), random, count),
            9 => damage(Offering::new(random), random, count),
            _ => damage(Payloads::new(&layout, random), random, count),
        }
    }
    for (bandwidth, record) in Layout::ALL {
        reading::pairs(&model::layout(bandwidth, record).expect("a PSK layout"), random, count);
    }
}

/// A call and all that it is lent.
trait Call: Clone {
    /// One fault, or a number at the edge of a range.
    fn damage(&mut self, random: &Random);
    fn expected(&self) -> u32;
    fn answer(&mut self) -> u32;
    /// Whether everything that is lent is as it was, by its bits.
    fn unchanged(&self, before: &Self) -> bool;
    /// Compares what the call has left after an acceptance, or after 24.
    fn compare_left(&self, before: &Self, count: &mut Count);
}

fn damage<C: Call>(mut call: C, random: &Random, count: &mut Count) {
    for _ in 0..random.within(0, 2) {
        call.damage(random);
    }
    check(call, count);
}

/// What an accepted call leaves, in numbers.
const LEFT: &str = "numbers left by calls with faults";

fn check<C: Call>(mut call: C, count: &mut Count) {
    let before = call.clone();
    let expected = call.expected();
    let answer = call.answer();
    let leaves = matches!(expected, 0 | 24);
    count.compare("refusals", answer == expected && (leaves || call.unchanged(&before)), || {
        format!("refusal: the model says {expected}, the port {answer}, in a {}", std::any::type_name::<C>())
    });
    count.refused(expected);
    if leaves && answer == expected {
        count.note("calls with faults that leave something");
        call.compare_left(&before, count);
    }
}

fn number(answer: Result<(), Refusal>) -> u32 {
    answer.map_or_else(Refusal::number, |()| 0)
}

fn judge(bandwidth: u32, record: u32, rows: impl FnOnce(&Layout) -> Rows) -> u32 {
    model::layout(bandwidth, record).map_or_else(|number| number, |layout| first(rows(&layout)))
}

fn same(now: &[f64], before: &[f64]) -> bool {
    now.len() == before.len() && now.iter().zip(before).all(|(a, b)| a.to_bits() == b.to_bits())
}

fn same32(now: &[f32], before: &[f32]) -> bool {
    now.len() == before.len() && now.iter().zip(before).all(|(a, b)| a.to_bits() == b.to_bits())
}

/// Makes a buffer one too short, one too long, empty or twice as long.
fn stretch<T: Clone + Default>(buffer: &mut Vec<T>, random: &Random) {
    let len = buffer.len();
    buffer.resize(random.pick(&[len.saturating_sub(1), len + 1, 0, 2 * len]), T::default());
}

/// Puts a number into a random entry.
fn put<T>(buffer: &mut [T], value: T, random: &Random) {
    if !buffer.is_empty() {
        let i = random.below(buffer.len());
        buffer[i] = value;
    }
}

/// A number that is no part of size at most `bound`, or that bound itself.
fn part(bound: f64, random: &Random) -> f64 {
    random.pick(&[
        f64::NAN,
        f64::INFINITY,
        f64::NEG_INFINITY,
        bound,
        -bound,
        bound.next_up(),
        -bound.next_up(),
        2.0 * bound,
    ])
}

/// What most calls take first.
#[derive(Clone)]
struct Level {
    bandwidth: u32,
    record: u32,
}

impl Level {
    fn new(layout: &Layout) -> Self {
        Self { bandwidth: layout.bandwidth, record: layout.record }
    }

    /// The layout of an accepted call, as document 01's table has it.
    fn layout(&self) -> Layout {
        model::layout(self.bandwidth, self.record).expect("a PSK layout")
    }

    fn damage(&mut self, random: &Random) {
        if random.one_in(2) {
            self.bandwidth = random.pick(&[0, 499, 500, 501, 2300, 2301, 2750, u32::MAX]);
        } else {
            self.record = random.pick(&[0, random.below(19) as u32, 18, u32::MAX]);
        }
    }
}

#[derive(Clone)]
struct Lists {
    layout: Layout,
    markers: Vec<u16>,
    phasors: Vec<f64>,
}

impl Lists {
    fn new(layout: &Layout, random: &Random) -> Self {
        let tables = inputs::tables(layout, random);
        Self::of(layout, &tables)
    }

    fn of(layout: &Layout, tables: &Tables) -> Self {
        Self { layout: layout.clone(), markers: tables.markers.clone(), phasors: flat(&tables.phasors).to_vec() }
    }

    /// The tables of an accepted call.
    fn tables(&self) -> Tables {
        let phasors = self.phasors.chunks(2).map(|z| Complex::new(z[0], z[1])).collect();
        Tables { markers: self.markers.clone(), phasors }
    }

    fn damage(&mut self, random: &Random) {
        let values = self.layout.carriers * self.layout.markers;
        let spf = self.layout.spf as u16;
        match random.below(7) {
            0 => stretch(&mut self.markers, random),
            1 => stretch(&mut self.phasors, random),
            2 => put(&mut self.phasors, random.pick(&[f64::NAN, f64::INFINITY, 1.01, 1.005, 0.0, 2.0]), random),
            // A value at an edge, or that another entry has, with the flags as they were.
            3 => self.write(random.below(values), random.pick(&[0, 4, 5, spf - 4, spf - 3, u16::MAX])),
            4 => self.write(random.below(values), self.markers.get(random.below(values)).copied().unwrap_or(0)),
            5 => {
                self.write(values + random.below(self.layout.carriers * (self.layout.spf - 1)), random.below(3) as u16)
            }
            // A size at an edge of 0.99 to 1.01.
            _ => {
                let i = 2 * random.below(self.layout.phasor_count());
                if let Some(pair) = self.phasors.get_mut(i..i + 2) {
                    let size = random.pick(&[0.99f64, 1.01, 0.989_999_999, 1.010_000_001]).sqrt();
                    pair.copy_from_slice(&[size, 0.0]);
                }
            }
        }
    }

    fn write(&mut self, i: usize, value: u16) {
        if let Some(entry) = self.markers.get_mut(i) {
            *entry = value;
        }
    }
}
