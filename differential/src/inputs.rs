//! Random inputs that every call accepts.
use crate::random::Random;
use crate::reference_side;
use crate::turns::{self, scaled, times};
use dimpstea::{Complex, Layout, Tables};

pub fn layout(random: &Random) -> Layout {
    let (bandwidth, record) = random.pick(&Layout::ALL);
    Layout::choose(bandwidth, record).expect("a PSK layout")
}

/// The marker table that the reference sends with, or distinct values on each carrier in any order; and phasors
/// whose sizes are only about 1.
pub fn tables(layout: &Layout, random: &Random) -> Tables {
    let mut values = Vec::new();
    for _ in 0..layout.carriers {
        let mut free: Vec<u16> = (5..=layout.spf as u16 - 4).collect();
        for _ in 0..layout.markers {
            values.push(free.swap_remove(random.below(free.len())));
        }
    }
    let phasors =
        (0..layout.phasor_count()).map(|_| scaled(turns::point(random), random.between(0.996, 1.004))).collect();
    let mut tables = Tables::new(layout, &values, phasors);
    if random.one_in(3) {
        tables.markers = reference_side::layout(layout).own_markers();
    }
    tables
}

pub fn payload(layout: &Layout, frames: usize, random: &Random) -> Vec<u8> {
    (0..frames * layout.payload).map(|_| random.below(2) as u8).collect()
}

pub fn draws(layout: &Layout, frames: usize, random: &Random) -> Vec<u8> {
    (0..layout.draw_count(frames)).map(|_| random.below(layout.points()) as u8).collect()
}

/// The turn book, or one that is turned and smaller.
pub fn book(random: &Random) -> Vec<Complex> {
    let mut book = turns::book();
    if random.one_in(2) {
        let turn = scaled(turns::point(random), random.between(0.7, 1.0));
        book.iter_mut().for_each(|entry| *entry = times(*entry, turn));
    }
    book
}

/// A number of size at most 1: any, or one of the ends and zeros.
fn part(random: &Random) -> f64 {
    if random.one_in(4) {
        random.pick(&[0.0, -0.0, 1.0, -1.0, 5e-324, -1e-200])
    } else {
        random.between(-1.0, 1.0)
    }
}

/// Drift rows for a reading that finds `t`: of a book's turns that take out so many Hz, or of any numbers.
pub fn drift(layout: &Layout, t: u64, hz: i64, random: &Random) -> Vec<Complex> {
    if random.one_in(3) {
        return (0..layout.drift_len()).map(|_| Complex::new(part(random), part(random))).collect();
    }
    let (book, first) = (book(random), t as i64 - layout.delay as i64 - 1);
    let row = |carrier| {
        let hz = layout.carrier_hz(carrier) as i64 + hz;
        (0..layout.drift_row_len() as i64).map(move |i| (hz, first + i))
    };
    (0..layout.carriers).flat_map(row).map(|(hz, n)| turns::entry(&book, hz, n)).collect()
}
