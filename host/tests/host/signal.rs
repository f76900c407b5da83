//! Frames as base-band samples, and receivers that they were fed to.
use dimpstea::{rows, Complex, Detection, Layout, Receiver, Sending, Tables};
use std::f64::consts::{PI, TAU};

/// Samples before the first lead symbol.
pub const QUIET: usize = 700;
/// Where the frame's first symbol is sent: after the quiet and eight leads.
pub const SENT_AT: u64 = QUIET as u64 + 32 * 8;

/// A small generator (splitmix64), so that every run is the same.
pub struct Random(pub u64);

impl Random {
    pub fn below(&mut self, bound: usize) -> usize {
        self.0 = self.0.wrapping_add(0x9e37_79b9_7f4a_7c15);
        let z = (self.0 ^ (self.0 >> 30)).wrapping_mul(0xbf58_476d_1ce4_e5b9);
        let z = (z ^ (z >> 27)).wrapping_mul(0x94d0_49bb_1331_11eb);
        ((z ^ (z >> 31)) % bound as u64) as usize
    }

    pub fn angle(&mut self) -> f64 {
        TAU * self.below(1 << 20) as f64 / f64::from(1 << 20)
    }
}

/// A frame that was sent.
pub struct Frame {
    pub layout: Layout,
    pub tables: Tables,
    pub payload: Vec<u8>,
    pub sending: Sending,
}

impl Frame {
    /// A frame of random markers, phasors, payload and draws.
    pub fn new(bandwidth: u32, record: u32, seed: u64) -> Self {
        let random = &mut Random(seed);
        let layout = Layout::choose(bandwidth, record).unwrap();
        let tables = tables(&layout, random);
        let payload: Vec<u8> = (0..layout.payload).map(|_| random.below(2) as u8).collect();
        let draws: Vec<u8> = (0..layout.draw_count(1)).map(|_| random.below(layout.points()) as u8).collect();
        let sending = Sending::new(&layout, &tables, 1, &payload, &draws).unwrap();
        Self { layout, tables, payload, sending }
    }

    /// Its samples between quiet ones. A symbol's pulse is a raised cosine over its two neighbours.
    pub fn samples(&self) -> Vec<Complex> {
        let (layout, len, book) = (&self.layout, self.layout.row_len(1), rows::turn_book());
        let mut samples = vec![Complex::ZERO; QUIET + 32 * len + 1500];
        for carrier in 0..layout.carriers {
            let row = self.sending.row(carrier);
            for i in 0..32 * (len - 1) {
                let late = 0.5 + 0.5 * (PI * (i % 32) as f64 / 32.0).cos();
                let (a, b) = (row[i / 32], row[i / 32 + 1]);
                let z = Complex::new(a.re * late + b.re * (1.0 - late), a.im * late + b.im * (1.0 - late));
                let n = QUIET + layout.stagger(carrier) as usize + i;
                let turn = book[layout.carrier_hz(carrier) as usize * n % 3000];
                let sent = times(z, Complex::new(turn.re, -turn.im));
                samples[n].re += sent.re;
                samples[n].im += sent.im;
            }
        }
        samples
    }

    /// A receiver that the samples were fed to in pieces of any length up to `longest`, and the first detection.
    pub fn received(&self, samples: &[Complex], longest: usize) -> (Receiver, Detection) {
        let (random, book) = (&mut Random(longest as u64), rows::turn_book());
        let mut receiver = Receiver::open(&self.layout, &self.tables, 0, &book).unwrap();
        let (mut at, mut first) = (0, None);
        while at < samples.len() {
            let piece = &samples[at..samples.len().min(at + random.below(longest + 1))];
            let detection = receiver.feed(&self.tables, &book, piece).unwrap();
            first = first.or(detection);
            at += piece.len();
        }
        (receiver, first.expect("a detection"))
    }
}

pub fn tables(layout: &Layout, random: &mut Random) -> Tables {
    let mut values = Vec::new();
    for _ in 0..layout.carriers {
        let mut free: Vec<u16> = (5..=layout.spf as u16 - 4).collect();
        values.extend((0..layout.markers).map(|_| free.swap_remove(random.below(free.len()))));
    }
    let phasors = rows::phasors((0..layout.phasor_count()).map(|_| random.angle()));
    Tables::new(layout, &values, phasors)
}

/// The samples, so many Hz higher.
pub fn shifted(samples: &[Complex], hz: f64) -> Vec<Complex> {
    let turn = |n: usize| Complex::at_angle(TAU * hz * n as f64 / 3000.0);
    samples.iter().enumerate().map(|(n, &sample)| times(sample, turn(n))).collect()
}

pub fn times(a: Complex, b: Complex) -> Complex {
    Complex::new(a.re * b.re - a.im * b.im, a.re * b.im + a.im * b.re)
}

pub fn distance(a: Complex, b: Complex) -> f64 {
    (a.re - b.re).hypot(a.im - b.im)
}
