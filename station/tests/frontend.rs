//! The front end's figures: ripple, alias loss and delay, at every usual rate.
use dimpstea::Complex;
use station::frontend::{FrontEnd, ALIAS_LOSS_DB, HALF, RIPPLE_DB};
use station::random::Random;
use std::f64::consts::TAU;
use std::path::Path;

const RATES: [u32; 14] =
    [8000, 8025, 11025, 12000, 16000, 22050, 24000, 32000, 44100, 48000, 88200, 96000, 176_400, 192_000];

fn through(rate: u32, audio: &[f64]) -> Vec<Complex> {
    let mut front = FrontEnd::new(rate, Path::new("a recording")).unwrap();
    let mut out = Vec::new();
    front.take(audio, &mut out);
    front.end(&mut out);
    out
}

/// The gain at a frequency, of a tone `e^(j 2 pi hz t)` that is given as two real ones.
fn gain(rate: u32, hz: f64, seconds: f64) -> f64 {
    let len = (f64::from(rate) * seconds) as usize;
    let tone =
        |phase: f64| -> Vec<f64> { (0..len).map(|k| (TAU * hz * k as f64 / f64::from(rate) + phase).cos()).collect() };
    let (cosine, sine) = (through(rate, &tone(0.0)), through(rate, &tone(-TAU / 4.0)));
    let skip = (HALF * 3000.0) as usize + 1;
    let mut power = 0.0;
    let middle = skip..cosine.len() - skip;
    for (c, s) in cosine[middle.clone()].iter().zip(&sine[middle.clone()]) {
        // Half of what cos + j sin makes: the front end's gain is 2 for a positive frequency.
        power += ((c.re - s.im) / 2.0).powi(2) + ((c.im + s.re) / 2.0).powi(2);
    }
    (power / middle.len() as f64).sqrt()
}

fn decibels(gain: f64) -> f64 {
    20.0 * gain.log10()
}

#[test]
fn ripple_and_alias_loss_are_as_stated() {
    for rate in RATES {
        let (mut ripple, mut alias) = (0.0f64, f64::NEG_INFINITY);
        for hz in (100..=2900).step_by(if rate > 50_000 { 280 } else { 70 }) {
            ripple = ripple.max(decibels(gain(rate, f64::from(hz), 0.1)).abs());
        }
        let half = rate as i32 / 2;
        let step = if rate > 50_000 { 770 } else { 97 };
        let far = (-half..=-100).step_by(step).chain((3100..half).step_by(step)).chain([-100, -101, 3100, 3101]);
        for hz in far {
            alias = alias.max(decibels(gain(rate, f64::from(hz), 0.1)));
        }
        println!("{rate} Hz: ripple {ripple:.5} dB, alias {alias:.2} dB");
        assert!(ripple <= RIPPLE_DB, "{rate} Hz: ripple {ripple} dB");
        assert!(alias <= -ALIAS_LOSS_DB, "{rate} Hz: alias {alias} dB");
    }
}

/// A tone comes out with the phase that it has at each sample's own time: nothing is moved in time.
#[test]
fn sample_m_is_the_second_m_over_3000() {
    for rate in RATES {
        let (hz, len) = (1234.5, rate as usize / 10);
        let audio: Vec<f64> = (0..len).map(|k| (TAU * hz * k as f64 / f64::from(rate)).cos()).collect();
        let out = through(rate, &audio);
        assert_eq!(out.len(), len * 3000 / rate as usize);
        for (m, z) in out.iter().enumerate().skip(42).take(out.len() - 84) {
            let expected = Complex::at_angle(TAU * hz * m as f64 / 3000.0);
            assert!((z.re - expected.re).hypot(z.im - expected.im) < 4e-4, "{rate} Hz, sample {m}: {z:?}");
        }
    }
}

/// The delay: the sample at m needs the audio up to `HALF` seconds after it, and no more than one sample besides.
#[test]
fn the_delay_is_as_stated() {
    for rate in RATES {
        let mut front = FrontEnd::new(rate, Path::new("a recording")).unwrap();
        let mut out = Vec::new();
        for k in 1..=rate / 2 {
            front.take(&[0.5], &mut out);
            let ready = (f64::from(k) / f64::from(rate) - HALF) * 3000.0;
            assert!(out.len() as f64 <= (ready + 1.0).max(0.0) + 1e-6, "{rate} Hz after {k}");
            assert!(out.len() as f64 >= ready - 3000.0 * 2.0 / f64::from(rate) - 1e-6, "{rate} Hz after {k}");
        }
    }
}

/// Pieces of any length give the same samples, bit for bit.
#[test]
fn pieces_join() {
    let mut random = Random::new(5);
    for rate in [8025, 44100, 48000] {
        let audio: Vec<f64> = (0..rate as usize / 3).map(|_| random.unit() - 0.5).collect();
        let whole = through(rate, &audio);
        let (mut front, mut out, mut at) = (FrontEnd::new(rate, Path::new("a recording")).unwrap(), Vec::new(), 0);
        while at < audio.len() {
            let to = (at + random.below(700)).min(audio.len());
            front.take(&audio[at..to], &mut out);
            at = to;
        }
        front.end(&mut out);
        assert_eq!(out, whole);
    }
}

#[test]
fn other_rates_are_refused_in_words() {
    for rate in [0, 1, 7975, 8001, 47_999, 192_025, u32::MAX] {
        let error = FrontEnd::new(rate, Path::new("in.wav")).unwrap_err().to_string();
        assert!(error.starts_with("in.wav: its rate of") && error.contains("sox"), "{error}");
    }
}

#[test]
fn no_audio_makes_no_samples() {
    assert!(through(48_000, &[]).is_empty());
    assert!(through(48_000, &[1.0; 15]).is_empty());
    assert_eq!(through(48_000, &[1.0; 16]).len(), 1);
}
