//! The front end: real audio to complex samples at 3 kHz.
//!
//! What it makes is the audio's part at positive frequencies, 100 to 2,900 Hz: sample m is
//!
//! ```text
//! y(m) = sum over k of 2 x(k) h(m / 3000 - k / rate),   h(t) = lowpass(t) cis(2 pi 1500 t)
//! ```
//!
//! with a lowpass of 1,500 Hz, windowed after Kaiser, that is 0 from [`HALF`] seconds on. Nothing is moved in time:
//! sample m stands for the second m / 3000 of the audio, and is ready [`HALF`] seconds after it.
//!
//! Its figures, which tests/frontend.rs measures at every rate: from 100 to 2,900 Hz the gain is 1 within
//! [`RIPPLE_DB`]; what lies below -100 Hz or above 3,100 Hz, and would appear as another frequency at 3 kHz, is
//! [`ALIAS_LOSS_DB`] down at least; between them it falls.
use crate::error::Error;
use dimpstea::Complex;
use std::f64::consts::{PI, TAU};
use std::path::Path;

/// Seconds from the lowpass's middle to its end: 40 samples at 3 kHz, 640 at 48 kHz. That is the delay.
pub const HALF: f64 = 40.0 / 3000.0;
/// How far the gain is from 1 at most from 100 to 2,900 Hz, in decibels.
pub const RIPPLE_DB: f64 = 0.001;
/// How far down what doesn't belong to the band is at least, in decibels.
pub const ALIAS_LOSS_DB: f64 = 80.0;

/// The window's shape: Kaiser's beta for 80 dB, with a little to spare.
const BETA: f64 = 8.0;
/// The middle of the band, in Hz.
const MIDDLE: u32 = 1500;
/// Rates that can be converted: whole multiples of 25 Hz in this range.
const RATES: std::ops::RangeInclusive<u32> = 8_000..=192_000;

/// A front end, which takes audio in pieces and gives samples as they become ready.
#[derive(Clone, Debug)]
pub struct FrontEnd {
    /// 3 kHz samples are `up` for each `down` of audio, in lowest terms.
    up: u64,
    down: u64,
    /// Taps of each of the `up` places that a 3 kHz sample can have between two of audio, one row after the other.
    taps: Vec<f64>,
    row: usize,
    /// Turns that take the band's middle to 0.
    turns: Vec<Complex>,
    /// The turned audio that is still needed, its parts apart, and the number of its first sample.
    re: Vec<f64>,
    im: Vec<f64>,
    base: i64,
    /// Audio that came so far, and the number of the 3 kHz sample that is made next.
    taken: u64,
    made: u64,
}

impl FrontEnd {
    /// The front end of a rate in Hz; `name` is the recording's, for errors.
    pub fn new(rate: u32, name: &Path) -> Result<Self, Error> {
        if !RATES.contains(&rate) || rate % 25 != 0 {
            let fault = format!("its rate of {rate} Hz isn't a multiple of 25 from 8,000 to 192,000");
            return Err(Error::file(name, "", fault, "convert it with `sox FILE -r 48000 out.wav`"));
        }
        let common = gcd(rate.into(), 3000);
        let (up, down) = (3000 / common, u64::from(rate) / common);
        let half = (HALF * f64::from(rate)).floor() as i64;
        let row = 2 * half as usize + 2;
        let mut taps = Vec::with_capacity(up as usize * row);
        for phase in 0..up {
            // The 3 kHz sample lies phase / up of a sample of audio after the one that the row's tap `half` is for.
            let late = phase as f64 / up as f64;
            let places = (0..row).map(|j| (late + half as f64 - j as f64) / f64::from(rate));
            taps.extend(places.map(|t| 2.0 * lowpass(t) / f64::from(rate)));
        }
        let period = rate / gcd(rate.into(), MIDDLE.into()) as u32;
        let turn = |k: u32| Complex::at_angle(-TAU * f64::from(MIDDLE) * f64::from(k) / f64::from(rate));
        let (turns, silence) = ((0..period).map(turn).collect(), vec![0.0; half as usize]);
        Ok(Self { up, down, taps, row, turns, re: silence.clone(), im: silence, base: -half, taken: 0, made: 0 })
    }

    /// Takes audio, and appends the samples that it makes ready.
    pub fn take(&mut self, audio: &[f64], out: &mut Vec<Complex>) {
        for &x in audio {
            let turn = self.turns[(self.taken % self.turns.len() as u64) as usize];
            self.re.push(x * turn.re);
            self.im.push(x * turn.im);
            self.taken += 1;
        }
        self.make(out);
    }

    /// The audio has ended: appends the samples up to its end.
    pub fn end(&mut self, out: &mut Vec<Complex>) {
        let wanted = self.taken * self.up / self.down;
        let silence = vec![0.0; self.row];
        let from = out.len();
        let made = self.made;
        self.take(&silence, out);
        out.truncate(from + wanted.saturating_sub(made) as usize);
    }

    /// Makes every sample whose audio is there.
    fn make(&mut self, out: &mut Vec<Complex>) {
        loop {
            let place = self.made * self.down;
            let (whole, phase) = ((place / self.up) as i64, (place % self.up) as usize);
            let first = (whole - (self.row as i64 / 2 - 1) - self.base) as usize;
            if first + self.row > self.re.len() {
                break;
            }
            let taps = &self.taps[phase * self.row..][..self.row];
            let (re, im) = (product(&self.re[first..], taps), product(&self.im[first..], taps));
            // Back to where the band was: the middle is half a turn for each sample.
            let sign = if self.made % 2 == 0 { 1.0 } else { -1.0 };
            out.push(Complex::new(sign * re, sign * im));
            self.made += 1;
        }
        self.forget();
    }

    /// Forgets the audio that no sample needs any more.
    fn forget(&mut self) {
        let needed = (self.made * self.down / self.up) as i64 - (self.row as i64 / 2 - 1);
        let spent = ((needed - self.base).max(0) as usize).min(self.re.len());
        self.re.drain(..spent);
        self.im.drain(..spent);
        self.base += spent as i64;
    }
}

/// The sum of the products with the taps, in eight sums side by side.
fn product(audio: &[f64], taps: &[f64]) -> f64 {
    let (audio, mut sums) = (&audio[..taps.len()], [0.0; 8]);
    let whole = taps.len() / 8 * 8;
    for (x, tap) in audio.chunks_exact(8).zip(taps.chunks_exact(8)) {
        for lane in 0..8 {
            sums[lane] += x[lane] * tap[lane];
        }
    }
    let rest: f64 = audio[whole..].iter().zip(&taps[whole..]).map(|(x, tap)| x * tap).sum();
    sums.iter().sum::<f64>() + rest
}

/// The lowpass of 1,500 Hz at a time, for each second.
fn lowpass(t: f64) -> f64 {
    let x = t / HALF;
    if x.abs() >= 1.0 {
        return 0.0;
    }
    let cut = f64::from(MIDDLE);
    let sinc = if t == 0.0 { 2.0 * cut } else { (TAU * cut * t).sin() / (PI * t) };
    sinc * bessel(BETA * (1.0 - x * x).sqrt()) / bessel(BETA)
}

/// The modified Bessel function of order 0.
fn bessel(x: f64) -> f64 {
    let (mut sum, mut term, mut k) = (1.0, 1.0, 1.0);
    while term > 1e-17 * sum {
        term *= (x / (2.0 * k)) * (x / (2.0 * k));
        sum += term;
        k += 1.0;
    }
    sum
}

fn gcd(a: u64, b: u64) -> u64 {
    if b == 0 {
        a
    } else {
        gcd(b, a % b)
    }
}
