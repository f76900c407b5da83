//! Decibels to a tenth, which the reference doesn't have, beside document 02's sentence in whole numbers of any size:
//! "The answer q is the greatest whole number with 10^q at most M to the 200th power." And the SNR that the host makes of
//! them, beside the reference's.
use crate::count::Count;
use crate::natural::Natural;
use crate::random::Random;
use crate::{inputs, reference_side};
use dimpstea::{raw, Refusal};

/// The greatest q that a median gives.
const GREATEST: usize = 1860;

/// 10^0 up to 10^1861, and no table of anything else.
struct Model(Vec<Natural>);

impl Model {
    fn new() -> Self {
        let ten = Natural::new(10);
        Self(std::iter::successors(Some(Natural::new(1)), |power| Some(power.times(&ten))).take(GREATEST + 2).collect())
    }

    fn tenths(&self, m: u64) -> u32 {
        let power = Natural::new(m).power(200);
        self.0.partition_point(|ten| *ten <= power) as u32 - 1
    }

    /// "26, this call's one check, when the median isn't from 0 to 2 or M is 0"
    fn answer(&self, median: f64) -> Result<u32, u32> {
        let m = (median * 1e9) as u64;
        if (0.0..=2.0).contains(&median) && m != 0 {
            Ok(self.tenths(m))
        } else {
            Err(26)
        }
    }

    /// The least M with 10^q at most M^200.
    fn least(&self, q: usize) -> u64 {
        let (mut below, mut reaching) = (0, 2_000_000_000);
        while below + 1 < reaching {
            let middle = (below + reaching) / 2;
            if self.0[q] <= Natural::new(middle).power(200) {
                reaching = middle;
            } else {
                below = middle;
            }
        }
        reaching
    }
}

pub fn run(cases: usize, random: &Random, count: &mut Count) {
    let model = &Model::new();
    for q in 0..=GREATEST {
        let least = model.least(q);
        for m in [least - 1, least, least + 1] {
            for median in around(m as f64 / 1e9) {
                compare("medians at the edges of q", model, median, count);
            }
        }
    }
    let edges = [0.0, -0.0, 2.0, 1.0, 1e-9, 5e-324, -5e-324, f64::INFINITY, f64::NEG_INFINITY, f64::NAN];
    for median in edges.into_iter().flat_map(around) {
        compare("medians at the edges of 26", model, median, count);
    }
    for _ in 0..cases {
        compare("medians", model, median(random), count);
    }
    for _ in 0..cases / 1_000 {
        compare_snr(random, count);
    }
}

/// A number with its neighbours.
fn around(x: f64) -> [f64; 3] {
    [x.to_bits().wrapping_sub(1), x.to_bits(), x.to_bits().wrapping_add(1)].map(f64::from_bits)
}

fn median(random: &Random) -> f64 {
    match random.below(8) {
        0 => f64::from_bits(random.bits()),
        1..=3 => random.between(-0.1, 2.1),
        _ => 2f64.powf(random.between(-31.0, 1.0)),
    }
}

fn compare(what: &'static str, model: &Model, median: f64, count: &mut Count) {
    let mut tenths = 7;
    let answer = raw::decibels(median, &mut tenths).map_err(Refusal::number);
    let expected = model.answer(median);
    let equal = answer == expected.map(|_| ()) && tenths == expected.unwrap_or(7);
    count.compare(what, equal, || format!("decibels of {median:e}: {answer:?} {tenths}, the model has {expected:?}"));
}

/// The reference's decibels are at most a tenth below, and what truncating takes off, below 0.001 dB from 0.0001 on.
fn compare_snr(random: &Random, count: &mut Count) {
    let layout = inputs::layout(random);
    let median = 10f64.powf(random.between(-4.0, 0.3));
    let port = [layout.raw_snr_db(median), layout.snr_db(median)].map(|db| db.expect("an accepted median"));
    let reference = reference_side::layout(&layout).decibels(median);
    let near = port.iter().zip(reference).all(|(p, r)| (-1e-6..0.1 + 1e-3).contains(&(p - r)));
    count.compare("SNRs", near, || format!("SNR of {median:e}: {port:?}, the reference has {reference:?}"));
}
