//! Phases and audio as document 01 defines them ("Beside the chain"), for phases and waves that the reference, which
//! makes its own from the first place on, can't be lent.
use crate::reference_side;
use dimpstea::Layout;
use reference::{adaptor, Complex64};
use std::f32::consts::TAU;

/// Each carrier's phase before a window and at each place of it.
pub fn phases(layout: &Layout, phases: &[f32], window: usize) -> Vec<Vec<f32>> {
    // From 0 the first place's phase is the step.
    let steps = adaptor::phases(reference_side::layout(layout), 1);
    let row = |(&phase, step): (&f32, &Vec<f32>)| {
        let next = |phase: &f32| {
            let phase = phase + step[0];
            Some(if phase > TAU { phase - TAU } else { phase })
        };
        std::iter::successors(Some(phase), next).take(window + 1).collect()
    };
    phases.iter().zip(&steps).map(row).collect()
}

/// The samples of a window: "the carriers summed in order, none past its own length".
pub fn window(layout: &Layout, symbols: &[f64], place: usize, waves: &[f64], window: usize) -> Vec<f64> {
    let row_len = symbols.len() / layout.carriers;
    let mut total = vec![0.0; window];
    for carrier in 0..layout.carriers {
        let row = &symbols[carrier * row_len..][..row_len];
        let points = interpolated(layout, row, layout.stagger(carrier) as usize, place, window);
        let waves = waves[2 * carrier * window..].chunks(2);
        for ((sample, z), wave) in total.iter_mut().zip(points).zip(waves) {
            *sample += z.re * wave[0] - z.im * wave[1];
        }
    }
    total
}

/// A carrier's points at the places of a window, before its waves, as far as its own length: "Zero symbols and zero 3 kHz
/// points are skipped."
fn interpolated(layout: &Layout, row: &[f64], stagger: usize, place: usize, window: usize) -> Vec<Complex64> {
    let taps = adaptor::interp_taps();
    let len = 16 * row.len() + stagger + layout.taps - 1;
    let end = (place + window).min(16 * len + taps.len() - 1);
    let first = place.saturating_sub(taps.len() - 1) / 16;
    let low: Vec<Complex64> = pulsed(layout, row, stagger, first, len.min(end / 16 + 1));
    let point = |place: usize| {
        let mut sum = Complex64::default();
        for (n, &z) in (first..).zip(&low) {
            if z != Complex64::default() && (16 * n..16 * n + taps.len()).contains(&place) {
                sum += z * taps[place - 16 * n];
            }
        }
        sum
    };
    (place..end).map(point).collect()
}

/// A carrier's 3 kHz points from one number up to another: "The sender's last tap is 0."
fn pulsed(layout: &Layout, row: &[f64], stagger: usize, first: usize, end: usize) -> Vec<Complex64> {
    let mut taps = reference_side::layout(layout).taps();
    *taps.last_mut().expect("a pulse has taps") = 0.0;
    let point = |n: usize| {
        let mut sum = Complex64::default();
        for (k, z) in row.chunks(2).map(|z| Complex64::new(z[0], z[1])).enumerate() {
            let from = stagger + 32 * k;
            if z != Complex64::default() && (from..from + taps.len()).contains(&n) {
                sum += z * taps[n - from];
            }
        }
        sum
    };
    (first..end).map(point).collect()
}
