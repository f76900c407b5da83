//! The residual in thirty-seconds of a hertz, which the reference doesn't have: beside a model in i128 that goes through
//! all 3,000 directions, and beside the arctangent of this machine.
use crate::count::Count;
use crate::random::Random;
use dimpstea::{Complex, Residual};
use std::f64::consts::TAU;

/// 2^20.
const SCALE: f64 = 1_048_576.0;

/// Entry k points at k / 3,000 of a full turn, at scale 2^30, its parts rounded.
fn directions() -> Vec<(i128, i128)> {
    let scale = f64::from(1 << 30);
    let at = |k: u32| TAU * f64::from(k) / 3000.0;
    (0..3000).map(|k| ((scale * at(k).cos()).round() as i128, (scale * at(k).sin()).round() as i128)).collect()
}

/// What the three conditions of 02 give: all indices that meet them, or refusal 25.
fn modelled(directions: &[(i128, i128)], sum: Complex) -> Option<Vec<usize>> {
    let outside = |part: f64| part.is_nan() || part.abs() > 64.0;
    if outside(sum.re) || outside(sum.im) {
        return None;
    }
    let (x, y) = ((sum.re * SCALE).trunc() as i128, (sum.im * SCALE).trunc() as i128);
    if (x, y) == (0, 0) {
        return None;
    }
    let cross = |k: usize| directions[k].0 * y - directions[k].1 * x;
    let dot = |k: usize| directions[k].0 * x + directions[k].1 * y;
    Some((0..3000).filter(|&i| cross(i) >= 0 && cross((i + 1) % 3000) < 0 && dot(i) > 0).collect())
}

/// The port's answer for a sum beside the model's and the arctangent's.
fn compare(directions: &[(i128, i128)], sum: Complex, count: &mut Count) {
    let answer = Residual::of(sum);
    let Some(indices) = modelled(directions, sum) else {
        let refused = answer.err().map(|refusal| refusal.number());
        return count
            .compare("pilot sums refused", refused == Some(25), || format!("residual of {sum:?}: {answer:?}, not 25"));
    };
    let expected: Vec<(u32, i32)> =
        indices.iter().map(|&i| (i as u32, if i < 1500 { i as i32 } else { i as i32 - 3000 })).collect();
    let got: Vec<(u32, i32)> = answer.iter().map(|residual| (residual.index, residual.thirty_seconds)).collect();
    count.compare("residuals", got == expected, || format!("residual of {sum:?}: {got:?}, the model has {expected:?}"));
    // The truncated sum's own angle: within one step of the index, the full turn taken off.
    let steps = (sum.im * SCALE).trunc().atan2((sum.re * SCALE).trunc()) * 3000.0 / TAU;
    let past = got.first().map_or(f64::NAN, |&(_, residual)| (steps - f64::from(residual)).rem_euclid(3000.0));
    let within = past < 1.001 || past > 2999.999;
    count.compare("residuals beside the arctangent", within, || {
        format!("residual of {sum:?}: {got:?}, the arctangent has {steps}")
    });
}

/// The whole-number sums of at most 2^26 that lie nearest to a direction, on both of its sides: fractions of its
/// continued fraction. They tell a part of the direction that is 1 off, where it isn't the length
/// alone that changes.
fn beside((a, b): (i128, i128)) -> Vec<(i128, i128)> {
    let (mut before, mut last, mut sums) = ((0, 1), (1, 0), Vec::new());
    let (mut n, mut d) = (b.abs(), a.abs());
    while d != 0 {
        let q = n / d;
        let mut next = (before.0 + q * last.0, before.1 + q * last.1);
        if next.0.max(next.1) > 1 << 26 {
            // The last one that still fits, on this side.
            let fits = |r: i128| (before.0 + r * last.0).max(before.1 + r * last.1) <= 1 << 26;
            let r = (0..=q).rev().find(|&r| fits(r)).unwrap_or(0);
            next = (before.0 + r * last.0, before.1 + r * last.1);
            d = 0;
        } else {
            (n, d) = (d, n % d);
        }
        sums.push((next.1 * a.signum(), next.0 * b.signum()));
        (before, last) = (last, next);
    }
    sums
}

pub fn run(cases: usize, random: &Random, count: &mut Count) {
    let directions = directions();
    for &(a, b) in &directions {
        for (x, y) in beside((a, b)) {
            for (dx, dy) in [(0, 0), (1, 0), (-1, 0), (0, 1), (0, -1)] {
                let within = |part: i128| part.clamp(-(1 << 26), 1 << 26) as f64 / SCALE;
                compare(&directions, Complex::new(within(x + dx), within(y + dy)), count);
            }
        }
    }
    let edges =
        [0.0, -0.0, 1.0 / SCALE, -1.0 / SCALE, 0.999 / SCALE, -0.999 / SCALE, 64.0, -64.0, 64.000_000_000_000_01]
            .into_iter()
            .chain([
                -64.000_000_000_000_01,
                f64::MAX,
                f64::INFINITY,
                f64::NEG_INFINITY,
                f64::NAN,
                5e-324,
                -5e-324,
                1.0,
            ]);
    let edges: Vec<f64> = edges.collect();
    for &re in &edges {
        for &im in &edges {
            compare(&directions, Complex::new(re, im), count);
        }
    }
    for _ in 0..cases {
        let size = 64.0 / f64::from(1u32 << random.below(27));
        let part = || if random.one_in(20) { random.pick(&edges) } else { random.between(-size, size) };
        compare(&directions, Complex::new(part(), part()), count);
    }
}
