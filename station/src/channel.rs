//! A simulated channel on complex samples at 3 kHz: two-path fading after Watterson, a frequency offset, white noise.
//!
//! - Fading (Watterson, Juroshek and Bensema, 1970; ITU-R F.1487): two paths of equal mean power, the second so many
//!   milliseconds after the first, each multiplied by a gain of its own. The gains are independent complex Gaussian
//!   processes of mean 0 whose spectrum is Gaussian; the spread is twice its standard deviation. Mean power is kept.
//! - White noise fills the whole 3 kHz. So the SNR is the ratio of the signal's mean power to the noise in 3 kHz.
use crate::random::Random;
use dimpstea::Complex;
use std::f64::consts::{FRAC_1_SQRT_2, PI, SQRT_2, TAU};

/// Samples of a second.
pub const RATE: f64 = 3000.0;
/// 48 kHz places of a sample.
pub const PLACES: usize = 16;
/// A gain is worked out at every eighth sample, and runs straight in between.
const KNOT: usize = 8;
/// A gain's impulses stand this part of the filter's width apart, and count up to six widths away.
const IMPULSES: f64 = 0.5;
const REACH: f64 = 6.0;

/// Two-path fading.
#[derive(Clone, Copy, Debug, PartialEq)]
pub struct Fading {
    /// The Doppler spread, in Hz: twice the standard deviation of the gains' spectrum. 0 is a gain that stays.
    pub spread_hz: f64,
    /// From the first path to the second, in milliseconds.
    pub delay_ms: f64,
}

impl Fading {
    /// The delay in 48 kHz places, rounded to the next.
    pub fn delay_places(&self) -> usize {
        (self.delay_ms * RATE * PLACES as f64 / 1000.0).round() as usize
    }

    /// The sum of the two paths, each with a gain of its own. The late one is the signal at the second path's delay.
    pub fn paths(&self, early: &[Complex], late: &[Complex], random: &mut Random) -> Vec<Complex> {
        let count = early.len().max(late.len());
        let (first, second) = (Gain::new(self.spread_hz, count, random), Gain::new(self.spread_hz, count, random));
        let part = |path: &[Complex], n: usize| path.get(n).copied().unwrap_or(Complex::ZERO);
        let gains = first.samples(count).into_iter().zip(second.samples(count)).enumerate();
        let sum = gains.map(|(n, (a, b))| {
            let (early, late) = (times(part(early, n), a), times(part(late, n), b));
            Complex::new(FRAC_1_SQRT_2 * (early.re + late.re), FRAC_1_SQRT_2 * (early.im + late.im))
        });
        sum.collect()
    }
}

/// A complex Gaussian process of mean power 1 with a Gaussian spectrum: random impulses, even in time, through a
/// filter whose answer is Gaussian.
///
/// With impulses half a width s apart, its correlation over a time d is exp(-d^2 / 4 s^2) up to rounding, which is
/// the spectrum of standard deviation 1 / (2 sqrt(2) pi s).
#[derive(Clone, Debug)]
pub struct Gain {
    /// The filter's width in samples; none for a gain that stays.
    width: Option<f64>,
    impulses: Vec<Complex>,
}

impl Gain {
    /// A gain of so many Hz of spread, for so many samples.
    pub fn new(spread_hz: f64, samples: usize, random: &mut Random) -> Self {
        let width = (spread_hz > 0.0).then(|| RATE / (2.0 * SQRT_2 * PI * (spread_hz / 2.0)));
        let count = width.map_or(1, |width| {
            ((samples + KNOT) as f64 / (IMPULSES * width) + 2.0 * REACH / IMPULSES).ceil() as usize + 1
        });
        Self { width, impulses: (0..count).map(|_| random.complex_normal()).collect() }
    }

    /// The gain at a sample.
    pub fn at(&self, n: f64) -> Complex {
        let width = match self.width {
            Some(width) => width,
            None => return self.impulses[0],
        };
        // Impulse k stands at (k x IMPULSES - REACH) widths.
        let place = n / width + REACH;
        let from = ((place - REACH) / IMPULSES).ceil().max(0.0) as usize;
        let mut sum = Complex::ZERO;
        for (k, impulse) in self.impulses.iter().enumerate().skip(from) {
            let away = k as f64 * IMPULSES - place;
            if away > REACH {
                break;
            }
            let part = (-0.5 * away * away).exp();
            sum.re += part * impulse.re;
            sum.im += part * impulse.im;
        }
        // The squares of the parts sum to sqrt(pi) / IMPULSES.
        let level = (IMPULSES / PI.sqrt()).sqrt();
        Complex::new(level * sum.re, level * sum.im)
    }

    /// The gain at each of the samples.
    pub fn samples(&self, count: usize) -> Vec<Complex> {
        let knots: Vec<Complex> = (0..=count / KNOT + 1).map(|knot| self.at((knot * KNOT) as f64)).collect();
        let straight = (0..count).map(|n| {
            let (a, b, part) = (knots[n / KNOT], knots[n / KNOT + 1], (n % KNOT) as f64 / KNOT as f64);
            Complex::new(a.re + part * (b.re - a.re), a.im + part * (b.im - a.im))
        });
        straight.collect()
    }
}

/// Makes the samples so many Hz higher.
pub fn shift(samples: &mut [Complex], hz: f64) {
    for (n, sample) in samples.iter_mut().enumerate() {
        *sample = times(*sample, Complex::at_angle(TAU * hz * n as f64 / RATE));
    }
}

/// White noise of mean power 1 in 3 kHz.
pub fn noise(count: usize, random: &mut Random) -> Vec<Complex> {
    (0..count).map(|_| random.complex_normal()).collect()
}

/// The samples with noise of mean power 1 added at a power of its own.
pub fn noisy(samples: &[Complex], noise: &[Complex], power: f64) -> Vec<Complex> {
    let level = power.sqrt();
    let pairs = samples.iter().zip(noise);
    pairs.map(|(s, n)| Complex::new(s.re + level * n.re, s.im + level * n.im)).collect()
}

/// The mean power of the samples; 0 where there are none.
pub fn power(samples: &[Complex]) -> f64 {
    samples.iter().map(|z| z.re * z.re + z.im * z.im).sum::<f64>() / samples.len().max(1) as f64
}

/// A ratio of powers, in decibels, as a number.
pub fn ratio(decibels: f64) -> f64 {
    10f64.powf(decibels / 10.0)
}

fn times(a: Complex, b: Complex) -> Complex {
    Complex::new(a.re * b.re - a.im * b.im, a.re * b.im + a.im * b.re)
}

#[cfg(test)]
mod tests {
    use super::*;

    /// The power of a line at so many Hz, for each sample.
    fn line(samples: &[Complex], hz: f64) -> f64 {
        let mut sum = Complex::ZERO;
        for (n, &sample) in samples.iter().enumerate() {
            let turned = times(sample, Complex::at_angle(-TAU * hz * n as f64 / RATE));
            sum = Complex::new(sum.re + turned.re, sum.im + turned.im);
        }
        (sum.re * sum.re + sum.im * sum.im) / samples.len() as f64
    }

    /// 200,000 samples: the mean power within 1 %, and that of lines at low, middle and high frequencies, whose powers
    /// are exponential, within five standard errors.
    #[test]
    fn noise_is_white_and_of_power_one() {
        let noise = noise(200_000, &mut Random::new(11));
        assert!((power(&noise) - 1.0).abs() < 0.01, "{}", power(&noise));
        for band in [0.0, 700.0, 1500.0, 2600.0] {
            let powers: Vec<f64> = noise
                .chunks_exact(1000)
                .flat_map(|block| (0..10).map(move |k| line(block, band + 30.0 * f64::from(k))))
                .collect();
            let mean = powers.iter().sum::<f64>() / powers.len() as f64;
            assert!((mean - 1.0).abs() < 5.0 / (powers.len() as f64).sqrt(), "{band} Hz: {mean}");
        }
    }

    #[test]
    fn noise_is_added_at_the_power_asked_for() {
        let noise = noise(100_000, &mut Random::new(12));
        let silent = vec![Complex::ZERO; noise.len()];
        for decibels in [-20.0, 0.0, 13.0] {
            let measured = power(&noisy(&silent, &noise, ratio(decibels)));
            assert!((10.0 * measured.log10() - decibels).abs() < 0.05, "{decibels} dB: {measured}");
        }
    }

    #[test]
    fn an_offset_moves_a_tone() {
        let mut tone: Vec<Complex> = (0..30_000).map(|n| Complex::at_angle(TAU * f64::from(n) * 0.5)).collect();
        shift(&mut tone, -12.5);
        assert!((line(&tone, 1487.5) / tone.len() as f64 - 1.0).abs() < 1e-6);
        assert!(line(&tone, 1500.0) / (tone.len() as f64) < 1e-6);
        assert!((power(&tone) - 1.0).abs() < 1e-9);
    }

    /// Correlations over 3,000 gains, of mean power 1, are exp(-2 pi^2 sd^2 d^2), which is the Gaussian spectrum of
    /// standard deviation sd = spread / 2; all within five standard errors.
    #[test]
    fn gains_have_a_gaussian_spectrum_of_the_spread() {
        let (spread, count, gains) = (2.0, 3001, 3000);
        let sd: f64 = spread / 2.0;
        let mut random = Random::new(13);
        let late = [0, 300, 600, 900, 1500, 3000];
        let mut sums = [Complex::ZERO; 6];
        for _ in 0..gains {
            let gain = Gain::new(spread, count, &mut random).samples(count);
            for (sum, d) in sums.iter_mut().zip(late) {
                let product = times(gain[d], Complex::new(gain[0].re, -gain[0].im));
                *sum = Complex::new(sum.re + product.re, sum.im + product.im);
            }
        }
        let error = 5.0 / f64::from(gains).sqrt();
        for (sum, d) in sums.iter().zip(late) {
            let expected = (-2.0 * (PI * sd * d as f64 / RATE).powi(2)).exp();
            let (re, im) = (sum.re / f64::from(gains), sum.im / f64::from(gains));
            assert!((re - expected).abs() < error && im.abs() < error, "{d}: {re} {im}, expected {expected}");
        }
    }

    /// A long gain's power is exponential (Rayleigh fading): a tenth of the time it is below 0.105 of its mean.
    #[test]
    fn gains_fade_as_rayleigh_says() {
        let gain = Gain::new(10.0, 1_500_000, &mut Random::new(14)).samples(1_500_000);
        assert!((power(&gain) - 1.0).abs() < 0.05, "{}", power(&gain));
        let below =
            |level: f64| gain.iter().filter(|g| g.re * g.re + g.im * g.im < level).count() as f64 / gain.len() as f64;
        assert!((below(0.10536) - 0.1).abs() < 0.015, "{}", below(0.10536));
        assert!((below(0.69315) - 0.5).abs() < 0.03, "{}", below(0.69315));
    }

    #[test]
    fn straight_lines_between_knots_are_close() {
        let gain = Gain::new(10.0, 30_000, &mut Random::new(15));
        let samples = gain.samples(30_000);
        let error = |n: usize| (samples[n].re - gain.at(n as f64).re).hypot(samples[n].im - gain.at(n as f64).im);
        assert!((0..30_000).step_by(37).map(error).fold(0.0, f64::max) < 0.01);
    }

    #[test]
    fn two_paths_are_independent_and_keep_the_power() {
        let fading = Fading { spread_hz: 1.0, delay_ms: 2.0 };
        assert_eq!(fading.delay_places(), 96);
        let (random, one, none) = (&mut Random::new(16), [Complex::ONE; 2], [Complex::ZERO; 2]);
        let (mut both, mut early, mut cross) = (0.0, 0.0, Complex::ZERO);
        let tries = 4000;
        for _ in 0..tries {
            let mut again = random.clone();
            let a = fading.paths(&one, &none, &mut again)[0];
            let sum = fading.paths(&one, &one, random)[0];
            let b = Complex::new(sum.re - a.re, sum.im - a.im);
            both += sum.re * sum.re + sum.im * sum.im;
            early += a.re * a.re + a.im * a.im;
            let product = times(a, Complex::new(b.re, -b.im));
            cross = Complex::new(cross.re + product.re, cross.im + product.im);
        }
        let (n, error) = (f64::from(tries), 5.0 / f64::from(tries).sqrt());
        assert!((both / n - 1.0).abs() < error && (early / n - 0.5).abs() < error / 2.0, "{both} {early}");
        assert!(cross.re.hypot(cross.im) / n < error / 2.0 * 1.5, "{cross:?}");
    }

    #[test]
    fn a_gain_without_spread_stays() {
        let gain = Gain::new(0.0, 5000, &mut Random::new(17)).samples(5000);
        assert!(gain.iter().all(|&g| g == gain[0]) && gain[0] != Complex::ZERO);
    }
}
