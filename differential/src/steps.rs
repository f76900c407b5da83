//! One step in an alphabet of 2, 4, 8, 16 or 32 points, beside the reference's demapper; and the call's refusals beside
//! document 02's sentence.
use crate::count::{all_alike, Count};
use crate::random::Random;
use dimpstea::{erased, nearest_point, raw, soft_step, Complex};
use reference::{adaptor, Complex64};

const LARGEST: f64 = 1048576.0;
const LEAST_VARIANCE: f64 = 0.001;
const LARGEST_VARIANCE: f64 = 1152921504606846976.0;

pub fn run(cases: usize, random: &Random, count: &mut Count) {
    let alphabets: Vec<Vec<Complex64>> = (1..=5).map(adaptor::alphabet).collect();
    for _ in 0..cases {
        let bits = random.within(1, 5);
        let step = step(&alphabets[bits - 1], random);
        let nvar = variance(random);
        compare(bits, step, nvar, count);
        compare_nearest(bits, step, count);
    }
    for _ in 0..cases / 10 {
        damaged(random, count);
    }
}

/// A part of at most 2^20 in size.
fn part(random: &Random) -> f64 {
    let sign = random.pick(&[1.0, -1.0]);
    sign * match random.below(5) {
        0 => random.between(0.0, 1.5),
        1 => random.between(0.0, LARGEST),
        2 => random.pick(&[0.0, 5e-324, f64::MIN_POSITIVE, 1e-160, 1e-9, LARGEST]),
        3 => f64::from_bits(random.bits() >> random.within(12, 63)),
        _ => f64::from_bits((random.within(1, 1042) as u64) << 52 | random.bits() >> 12),
    }
}

/// Any step, one of a point's own or close to it, or one between points, where distances tie.
fn step(points: &[Complex64], random: &Random) -> Complex {
    let (a, b) = (random.pick(points), random.pick(points));
    match random.below(6) {
        0 => Complex::new(part(random), part(random)),
        1 => Complex::new(a.re, a.im),
        2 => Complex::new((a.re + b.re) / 2.0, (a.im + b.im) / 2.0),
        3 => Complex::new(random.pick(&[a.re, 0.0, -0.0]), random.pick(&[b.im, 0.0, -0.0])),
        4 => Complex::new(a.re + 0.3 * random.normal(), a.im + 0.3 * random.normal()),
        _ => {
            let x = part(random);
            Complex::new(x, x.copysign(random.pick(&[1.0, -1.0])))
        }
    }
}

fn variance(random: &Random) -> f64 {
    match random.below(4) {
        0 => random.between(LEAST_VARIANCE, 4.0),
        1 => random.pick(&[LEAST_VARIANCE, 1.0, LARGEST_VARIANCE]),
        2 => f64::from_bits((random.within(1014, 1082) as u64) << 52 | random.bits() >> 12),
        _ => random.between(1.0, LARGEST_VARIANCE),
    }
}

fn compare(bits: usize, step: Complex, nvar: f64, count: &mut Count) {
    let soft = soft_step(1 << bits, step, nvar).expect("an accepted step");
    let reference = adaptor::soft_bits(bits, &[Complex64::new(step.re, step.im)], nvar);
    count.compare_all("soft bits of one step", &soft, &reference, || format!("{step:?} of {bits} bits at {nvar:e}"));
    for &s in soft.iter().filter(|&&s| erased(s)) {
        count.note(if s.is_sign_negative() {
            "soft bits of one step erased at -0"
        } else {
            "soft bits of one step erased at +0"
        });
    }
    // "Where a soft bit isn't zero, its sign must agree with the nearest label for every alphabet"
    let label = adaptor::nearest(bits, Complex64::new(step.re, step.im));
    let signs = soft.iter().fold(0, |label, s| 2 * label + usize::from(s.is_sign_negative()));
    count.compare("nearest labels by the signs", signs == label, || {
        format!("{step:?} of {bits} bits: the signs spell {signs}, the nearest label is {label}")
    });
}

/// "the smallest squared distance, as `nearest` rounds it, among the other points"
fn compare_nearest(bits: usize, step: Complex, count: &mut Count) {
    let nearest = nearest_point(1 << bits, step).expect("an accepted step");
    let (label, distance, mut others) = adaptor::distances(bits, Complex64::new(step.re, step.im));
    others.remove(label);
    let runner_up = others.into_iter().fold(f64::INFINITY, f64::min);
    let equal = nearest.label == label && all_alike(&[nearest.distance, nearest.runner_up], &[distance, runner_up]);
    count.compare("nearest points with their runners-up", equal, || {
        format!("{step:?} of {bits} bits: {nearest:?}, the reference has {label}, {distance:e}, {runner_up:e}")
    });
    if nearest.distance == nearest.runner_up {
        count.note("runners-up as near as the nearest");
    }
}

/// "31, before all else in this call, for a size other than 2, 4, 8, 16 or 32; then 11; then 32 for a step part not
/// finite or above 2^20 in size; 33 for an nvar not finite or outside 0.001 to 2^60."
fn expected(size: usize, step: Complex, nvar: f64, len: usize) -> u32 {
    let large = |x: f64| !x.is_finite() || x.abs() > LARGEST;
    let rows = [
        (31, ![2, 4, 8, 16, 32].contains(&size)),
        (11, len != size.trailing_zeros() as usize),
        (32, large(step.re) || large(step.im)),
        (33, !nvar.is_finite() || nvar < LEAST_VARIANCE || nvar > LARGEST_VARIANCE),
    ];
    rows.into_iter().find(|row| row.1).map_or(0, |row| row.0)
}

fn damaged(random: &Random, count: &mut Count) {
    let bits = random.within(1, 5);
    let size =
        if random.one_in(3) { random.pick(&[0, 1, 3, 5, 6, 7, 9, 12, 31, 33, 64, 256, usize::MAX]) } else { 1 << bits };
    let len = if random.one_in(3) { random.below(8) } else { bits };
    let edge = |x: f64| {
        if random.one_in(4) {
            let edges = [LARGEST, -LARGEST, LARGEST.next_up(), -LARGEST.next_up(), f64::INFINITY, f64::NAN, f64::MAX];
            random.pick(&edges)
        } else {
            x
        }
    };
    let step = Complex::new(edge(part(random)), edge(part(random)));
    let edges = [
        LEAST_VARIANCE.next_down(),
        LARGEST_VARIANCE.next_up(),
        0.0,
        -1.0,
        f64::INFINITY,
        f64::NEG_INFINITY,
        f64::NAN,
        5e-324,
        LEAST_VARIANCE,
        LARGEST_VARIANCE,
    ];
    let nvar = if random.one_in(2) { random.pick(&edges) } else { variance(random) };
    let before: Vec<f64> = (0..len).map(|_| random.normal()).collect();
    let mut out = before.clone();
    let answer = raw::soft_step(size, step, nvar, &mut out).err().map_or(0, |refusal| refusal.number());
    let search = nearest_point(size, step).err().map_or(0, |refusal| refusal.number());
    let bits = size.trailing_zeros() as usize;
    let wanted = expected(size, step, LEAST_VARIANCE, bits);
    count.refused(wanted);
    count
        .compare("refusals of a search", search == wanted, || format!("size {size}, {step:?}: {search}, not {wanted}"));
    let expected = expected(size, step, nvar, len);
    count.refused(expected);
    count.compare("refusals of one step", answer == expected, || {
        format!("size {size}, {step:?}, {nvar:e}, {len} places: {answer}, not {expected}")
    });
    count.compare("buffers after refusals of one step", expected == 0 || out == before, || {
        format!("size {size}: written")
    });
}
