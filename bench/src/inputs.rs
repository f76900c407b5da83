//! The same inputs for both sides.
use dimpstea::{rows, Complex, Layout, Sending, Tables};
use reference::{adaptor, Complex64};
use std::f64::consts::{PI, TAU};

/// A layout of each bandwidth.
pub const THREE: [(u32, u32); 3] = [(500, 4), (2300, 7), (2750, 10)];

pub fn layout((bandwidth, record): (u32, u32)) -> Layout {
    Layout::choose(bandwidth, record).expect("a PSK layout")
}

/// Numbers from 0 to 1 that look random, and are the same in every run (splitmix64).
pub fn spread(i: usize) -> f64 {
    let z = (i as u64 + 1).wrapping_mul(0x9e37_79b9_7f4a_7c15);
    let z = (z ^ (z >> 30)).wrapping_mul(0xbf58_476d_1ce4_e5b9);
    let z = (z ^ (z >> 27)).wrapping_mul(0x94d0_49bb_1331_11eb);
    ((z ^ (z >> 31)) >> 11) as f64 / (1u64 << 53) as f64
}

pub fn tables(l: &Layout) -> Tables {
    let part = (l.spf - 8) / l.markers;
    let values: Vec<u16> = (0..l.carriers * l.markers)
        .map(|i| (5 + i % l.markers * part + (spread(i) * part as f64) as usize) as u16)
        .collect();
    Tables::new(l, &values, rows::phasors((0..l.phasor_count()).map(|i| TAU * spread(i))))
}

pub fn payload(l: &Layout, frames: usize) -> Vec<u8> {
    (0..frames * l.payload).map(|i| (spread(i) < 0.5).into()).collect()
}

pub fn draws(l: &Layout, frames: usize) -> Vec<u8> {
    (0..l.draw_count(frames)).map(|i| (spread(i) * l.points() as f64) as u8).collect()
}

/// One frame.
pub fn sending(l: &Layout) -> Sending {
    Sending::new(l, &tables(l), 1, &payload(l, 1), &draws(l, 1)).expect("a sending")
}

/// Samples in which no frame is.
pub fn noise(count: usize) -> Vec<Complex> {
    (0..count).map(|i| Complex::at_angle(TAU * spread(i))).collect()
}

/// The samples of a frame between quiet ones. A symbol's pulse is a raised cosine over its two neighbours.
pub fn frame(l: &Layout) -> Vec<Complex> {
    const QUIET: usize = 700;
    let (sending, len, book) = (sending(l), l.row_len(1), rows::turn_book());
    let mut samples = vec![Complex::ZERO; QUIET + 32 * len + 1500];
    for carrier in 0..l.carriers {
        let row = sending.row(carrier);
        for i in 0..32 * (len - 1) {
            let late = 0.5 + 0.5 * (PI * (i % 32) as f64 / 32.0).cos();
            let (a, b) = (row[i / 32], row[i / 32 + 1]);
            let (re, im) = (a.re * late + b.re * (1.0 - late), a.im * late + b.im * (1.0 - late));
            let n = QUIET + l.stagger(carrier) as usize + i;
            let turn = book[l.carrier_hz(carrier) as usize * n % 3000];
            samples[n].re += re * turn.re + im * turn.im;
            samples[n].im += im * turn.re - re * turn.im;
        }
    }
    samples
}

/// Marks and kept data cells: the terms of chi at a position.
pub fn cells(l: &Layout) -> usize {
    let all = l.carriers * (l.nsym - 1 - l.markers);
    let kept = (1500.0 / all as f64).min(1.0) * (l.nsym - 1 - l.markers) as f64;
    l.carriers * (l.markers + kept as usize)
}

pub fn numbers(list: &[Complex]) -> Vec<Complex64> {
    list.iter().map(|z| Complex64::new(z.re, z.im)).collect()
}

pub fn reference_layout(l: &Layout) -> adaptor::Layout {
    adaptor::layout(l.bandwidth, l.record).expect("a PSK layout")
}

pub fn reference_tables(l: &Layout) -> adaptor::Tables {
    let t = tables(l);
    adaptor::Tables { phasors: t.phasors.chunks(l.nsym).map(numbers).collect(), markers: t.markers }
}
