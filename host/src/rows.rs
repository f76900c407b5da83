//! What document 01 leaves to the host: the turn book, phasors, wave rows and drift rows.
use crate::{Complex, Layout};
use std::f64::consts::TAU;

/// The turn book of a receiver that nothing drifts by: entry k turns by k / 3000 of a circle, clockwise.
pub fn turn_book() -> Vec<Complex> {
    (0..3000).map(|k| Complex::at_angle(-TAU * f64::from(k) / 3000.0)).collect()
}

/// Phasors at these angles, in radians.
pub fn phasors(angles: impl IntoIterator<Item = f64>) -> Vec<Complex> {
    angles.into_iter().map(Complex::at_angle).collect()
}

/// The wave rows of carrier phases: the cosine and the sine of each, in `f64`.
pub fn waves(phases: &[f32]) -> Vec<Complex> {
    phases.iter().map(|&phase| Complex::at_angle(f64::from(phase))).collect()
}

/// The drift rows of a frame at `t` that is `df` Hz too high: for each carrier, [`Layout::drift_row_len`] turns from
/// position t - delay - 1 on, that of position n clockwise by (fc + df) x n / 3000 of a circle.
///
/// A reading takes them for the frame at the t that *it* finds. [`Receiver::locate`](crate::Receiver::locate) finds
/// the same t from the same t0, with the same tables and nothing fed between. Given the located t as its t0, a reading
/// looks 3 samples to either side of that again, and may find another.
pub fn drift(layout: &Layout, t: u64, df: f64) -> Vec<Complex> {
    let first = t.wrapping_sub(layout.delay + 1) as i64;
    let mut rows = Vec::with_capacity(layout.drift_len());
    for carrier in 0..layout.carriers {
        let hz = layout.carrier_hz(carrier) as f64 + df;
        let turn = |i| Complex::at_angle(-TAU * hz * first.wrapping_add(i) as f64 / 3000.0);
        rows.extend((0..layout.drift_row_len() as i64).map(turn));
    }
    rows
}
