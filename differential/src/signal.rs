//! A 3 kHz signal with frames in it: both sides are fed the same samples.
use crate::inputs;
use crate::random::Random;
use crate::sent::Frame;
use crate::turns::{self, conj, scaled, times};
use dimpstea::{Complex, Layout, Sending, Tables};

pub struct Signal {
    pub samples: Vec<Complex>,
    pub frames: Vec<Frame>,
    /// How much too high the frames are.
    pub hz: i64,
}

/// Some sendings with gaps between them, through a channel; or a signal without any.
pub fn signal(layout: &Layout, tables: &Tables, random: &Random) -> Signal {
    if random.one_in(12) {
        return Signal { samples: without_frames(layout, random), frames: Vec::new(), hz: 0 };
    }
    let mut samples = vec![Complex::ZERO; random.below(3000)];
    let mut frames = Vec::new();
    for _ in 0..random.within(1, 2) {
        let count = random.within(1, 2);
        let (payload, draws) = (inputs::payload(layout, count, random), inputs::draws(layout, count, random));
        let sending = Sending::new(layout, tables, count, &payload, &draws).expect("an accepted sending");
        let first = samples.len() + 32 * 8;
        add(layout, &sending, count, &mut samples);
        let sent = payload.chunks(layout.payload).zip(draws.chunks(layout.carriers));
        for (i, (payload, references)) in sent.enumerate() {
            let rows = (0..layout.carriers).map(|carrier| &sending.row(carrier)[8 + i * layout.nsym..][..layout.nsym]);
            frames.push(Frame {
                at: first + 32 * i * layout.nsym,
                symbols: rows.flatten().copied().collect(),
                ..Frame::new(layout, tables, payload, references)
            });
        }
        let gap = random.within(500, 6000);
        samples.resize(samples.len() + gap, Complex::ZERO);
    }
    let hz = random.pick(&[0, random.within(0, 8) as i64 - 4]);
    channel(&mut samples, hz, random);
    Signal { samples, frames, hz }
}

/// Silence of zeros of either sign, or one number over and over: each position is as good as the next one.
fn without_frames(layout: &Layout, random: &Random) -> Vec<Complex> {
    let len = random.within(13_000, 2 * layout.keep as usize + 6000);
    let (level, silent) = (turns::point(random), random.one_in(2));
    (0..len).map(|_| if silent { Complex::new(zero(random), zero(random)) } else { level }).collect()
}

fn zero(random: &Random) -> f64 {
    random.pick(&[0.0, -0.0])
}

/// Adds a sending after what is there. From one symbol to the next a smooth step leads in 32 samples.
fn add(layout: &Layout, sending: &Sending, frames: usize, samples: &mut Vec<Complex>) {
    let (from, len) = (samples.len(), layout.row_len(frames));
    let book = turns::book();
    let pulse: Vec<f64> = (0..32).map(|i| f64::from(i) / 32.0).map(|x| 1.0 - x * x * (3.0 - 2.0 * x)).collect();
    samples.resize(from + 32 * len + layout.max_stagger as usize, Complex::ZERO);
    for carrier in 0..layout.carriers {
        let (row, stagger) = (sending.row(carrier), layout.stagger(carrier) as usize);
        for i in 0..32 * (len - 1) {
            let (k, late) = (i / 32, pulse[i % 32]);
            let (a, b) = (scaled(row[k], late), scaled(row[k + 1], 1.0 - late));
            let n = from + stagger + i;
            let turn = turns::entry(&book, layout.carrier_hz(carrier) as i64, n as i64);
            let z = times(Complex::new(a.re + b.re, a.im + b.im), conj(turn));
            samples[n] = Complex::new(samples[n].re + z.re, samples[n].im + z.im);
        }
    }
}

/// The greatest part that a feed accepts.
const MOST: f64 = 1_048_576.0;

/// Noise, fading, an offset in frequency, and a hole of zeros.
fn channel(samples: &mut [Complex], hz: i64, random: &Random) {
    let gain = match random.one_in(4) {
        true => random.pick(&[1e4, 1e12, 1e-30, 1e-80, 1e-162, 1e-321]),
        false => random.pick(&[1e-6, 0.01, 1.0, 30.0]),
    };
    let noise = random.pick(&[0.0, 1.0, 40.0, 150.0, 400.0]);
    let fading = random.pick(&[0.0, 0.5, 0.95, 1.0]);
    let (period, step) = (random.between(1e3, 5e4), turns::of_hz(hz as f64));
    let mut turn = Complex::ONE;
    for (n, sample) in samples.iter_mut().enumerate() {
        // From 1 down to 1 - fading and up again.
        let level = 1.0 - fading * (1.0 - (n as f64 % period / period - 0.5).abs() * 2.0);
        let z = scaled(times(*sample, turn), level);
        let part = |sent: f64| (gain * (sent + noise * random.normal())).clamp(-MOST, MOST);
        *sample = Complex::new(part(z.re), part(z.im));
        turn = times(turn, step);
    }
    if random.one_in(4) {
        let from = random.below(samples.len());
        let to = samples.len().min(from + random.within(1, 12_000));
        samples[from..to].iter_mut().for_each(|sample| *sample = Complex::new(zero(random), zero(random)));
    }
}
