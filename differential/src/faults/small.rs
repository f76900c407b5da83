//! Layouts, payload bits and meters.
use super::{judge, number, put, stretch, Call, Level, LEFT};
use crate::count::Count;
use crate::random::Random;
use crate::{inputs, model};
use dimpstea::{raw, Layout};

#[derive(Clone)]
pub struct Choosing {
    level: Level,
    numbers: Vec<u64>,
}

impl Choosing {
    pub fn new(layout: &Layout) -> Self {
        Self { level: Level::new(layout), numbers: vec![7; raw::LAYOUT] }
    }
}

impl Call for Choosing {
    fn damage(&mut self, random: &Random) {
        match random.below(3) {
            0 => stretch(&mut self.numbers, random),
            _ => self.level.damage(random),
        }
    }

    fn expected(&self) -> u32 {
        judge(self.level.bandwidth, self.level.record, |_| vec![(11, self.numbers.len() != raw::LAYOUT)])
    }

    fn answer(&mut self) -> u32 {
        number(raw::layout(self.level.bandwidth, self.level.record, &mut self.numbers))
    }

    fn unchanged(&self, before: &Self) -> bool {
        self.numbers == before.numbers
    }

    fn compare_left(&self, _: &Self, count: &mut Count) {
        let l = self.level.layout();
        let counts = [l.carriers, l.spf, l.markers, l.bps, l.nsym, l.payload, l.taps].map(|n| n as u64);
        let rest = [l.first_hz, l.spacing_hz, l.delay, l.max_stagger, l.keep, l.dead];
        let expected: Vec<u64> = counts.into_iter().chain(rest).collect();
        count.compare(LEFT, self.numbers == expected, || {
            format!("layout {:?}, the model has {expected:?}", self.numbers)
        });
    }
}

/// Payload bits from soft bits, or a meter of two payloads.
#[derive(Clone)]
pub struct Payloads {
    level: Level,
    metered: bool,
    soft: Vec<f64>,
    sent: Vec<u8>,
    out: Vec<u8>,
    differing: u64,
}

impl Payloads {
    pub fn new(layout: &Layout, random: &Random) -> Self {
        Self {
            level: Level::new(layout),
            metered: random.one_in(2),
            soft: (0..layout.payload).map(|_| random.between(-9.0, 9.0)).collect(),
            sent: inputs::payload(layout, 1, random),
            out: inputs::payload(layout, 1, random),
            differing: 7,
        }
    }
}

impl Call for Payloads {
    fn damage(&mut self, random: &Random) {
        match random.below(7) {
            0 => self.level.damage(random),
            1 => stretch(&mut self.soft, random),
            6 => put(&mut self.soft, random.pick(&[0.0, -0.0, 5e-324, -5e-324, f64::NEG_INFINITY]), random),
            2 => stretch(&mut self.sent, random),
            3 => stretch(&mut self.out, random),
            4 => put(&mut self.sent, random.pick(&[2, 255]), random),
            _ => put(&mut self.out, random.pick(&[2, 255]), random),
        }
    }

    fn expected(&self) -> u32 {
        judge(self.level.bandwidth, self.level.record, |l| match self.metered {
            true => model::meter(l, &self.sent, &self.out),
            false => model::payload_bits(l, self.soft.len(), self.out.len()),
        })
    }

    fn answer(&mut self) -> u32 {
        let Level { bandwidth, record } = self.level;
        match self.metered {
            true => number(raw::meter(bandwidth, record, &self.sent, &self.out).map(|n| self.differing = n)),
            false => number(raw::payload_bits(bandwidth, record, &self.soft, &mut self.out)),
        }
    }

    fn unchanged(&self, before: &Self) -> bool {
        (&self.out, &self.sent, self.differing) == (&before.out, &before.sent, before.differing)
    }

    fn compare_left(&self, before: &Self, count: &mut Count) {
        let (out, differing) = match self.metered {
            true => (before.out.clone(), before.sent.iter().zip(&before.out).filter(|(a, b)| a != b).count() as u64),
            false => (before.soft.iter().map(|s| u8::from(s.is_sign_negative())).collect(), before.differing),
        };
        count.compare(LEFT, (&self.out, self.differing) == (&out, differing), || "payload bits or a meter".to_string());
    }
}
