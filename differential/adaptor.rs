//! The calls that a differential run makes to the reference.
//! A child of the receiver's module, since the engine's fields are private to it.
#![warn(unused)]

use super::{Ctx, PskEngine};
use crate::constellation::constellation;
use crate::dat::{hf_tables, psk_other};
use crate::demap::demapper;
use crate::dsp::{Hold, Track};
use crate::hf::level::{Bandwidth, Level, Record, Waveform};
use crate::hf::psk::{interp16_taps, modulate, nco_phase, pulse_taps, stagger};
use crate::keeper::Keeper;
use crate::rnd::VbRnd;
use num_complex::Complex64;
use std::mem::{swap, take};

/// Cosine and sine of a carrier's phase.
pub type Wave<'a> = &'a (dyn Fn(f32) -> (f64, f64) + Sync);

/// A layout of document 01: a bandwidth and a record that is PSK there.
#[derive(Clone, Copy, Debug, PartialEq)]
pub struct Layout {
    bandwidth: Bandwidth,
    record: Record,
}

/// None where document 01 refuses with 1 or 2.
pub fn layout(bandwidth: u32, record: u32) -> Option<Layout> {
    let bandwidth = Bandwidth::ALL.into_iter().find(|b| b.hz() == bandwidth)?;
    let record = Record::new(record as usize)?;
    let l = Layout { bandwidth, record };
    matches!(l.level().waveform, Waveform::Psk { .. }).then_some(l)
}

impl Layout {
    fn level(self) -> &'static Level {
        self.bandwidth.level(self.record)
    }

    /// The carriers' frequencies in Hz.
    pub fn carriers(self) -> &'static [u32] {
        match self.level().waveform {
            Waveform::Psk { carriers_hz, .. } => carriers_hz,
            _ => unreachable!("a layout is PSK"),
        }
    }

    /// The decibels of a reading's median: raw, and normalised.
    pub fn decibels(self, median: f64) -> [f64; 2] {
        let raw = super::snr::decibels(median, self.level(), super::snr::PSK_K_DB);
        [raw, super::snr::normalise(raw, self.level())]
    }

    pub fn nc(self) -> usize {
        self.carriers().len()
    }

    pub fn spf(self) -> usize {
        self.level().spf() as usize
    }

    pub fn nsym(self) -> usize {
        self.level().data_symbols() as usize
    }

    pub fn markers(self) -> usize {
        self.level().markers() as usize
    }

    pub fn bps(self) -> usize {
        self.level().bps as usize
    }

    /// Payload bits.
    pub fn n(self) -> usize {
        self.level().n() as usize
    }

    pub fn stagger(self, carrier: usize) -> usize {
        stagger(carrier, self.nc())
    }

    /// The pulse as the receiver has it, before it divides by the sum.
    pub fn taps(self) -> Vec<f64> {
        match self.level().waveform {
            Waveform::Psk { pulse, .. } => pulse_taps(pulse),
            _ => unreachable!("a layout is PSK"),
        }
    }

    /// The reference's own marker table, values and then flags.
    pub fn own_markers(self) -> Vec<u16> {
        take(&mut hf_tables(self.bandwidth)[self.record.index()].other)
    }

    /// The marker table that the reference draws from a generator's state, and the state after it.
    pub fn drawn_markers(self, state: u32) -> (Vec<u16>, u32) {
        let mut generator = VbRnd::from_state(state);
        let table = psk_other(&mut generator, self.level());
        (table, generator.state())
    }

    /// How many draws the reference's generator needs for each carrier's markers.
    pub fn row_draws(self, state: u32) -> Vec<u32> {
        let mut generator = VbRnd::from_state(state);
        let level = self.level();
        let row = |_| {
            let (mut values, mut draws) = (Vec::new(), 0);
            while values.len() < level.markers() as usize {
                let value = generator.draw(level.spf() - 8);
                draws += 1;
                if !values.contains(&value) {
                    values.push(value);
                }
            }
            draws
        };
        (0..level.nc()).map(row).collect()
    }
}

/// A marker table (rows of values, then rows of flags) and one row of nsym phasors a carrier.
#[derive(Clone, Debug)]
pub struct Tables {
    pub markers: Vec<u16>,
    pub phasors: Vec<Vec<Complex64>>,
}

/// The rows of symbols that the reference sends: `frames` has a frame's payload bits each.
pub fn symbols(layout: Layout, tables: &Tables, frames: &[Vec<u8>], draws: &[u8]) -> Vec<Vec<Complex64>> {
    let mut draws = draws.iter();
    let mut rows = Vec::new();
    modulate(
        layout.level(),
        &tables.markers,
        &tables.phasors,
        frames,
        &mut |_| u32::from(*draws.next().expect("a draw for each reference and lead point")),
        &mut |made| rows = take(made),
        &|_| unreachable!("no rows are left to be heard"),
    );
    assert!(draws.next().is_none(), "more draws than points");
    rows.into_iter().map(|(_, row)| row).collect()
}

/// The whole 48 kHz signal of `rows`, one row a carrier.
pub fn audio(layout: Layout, rows: &[Vec<Complex64>], wave: Wave) -> Vec<f64> {
    assert_eq!(rows.len(), layout.nc());
    // No frame is sent here: the rows take the place of a lead that nobody hears.
    let markers = vec![0; layout.level().other_len() as usize];
    let phasors = vec![vec![Complex64::new(1.0, 0.0); layout.nsym()]; layout.nc()];
    let mut given: Vec<(usize, Vec<Complex64>)> = rows.iter().cloned().enumerate().collect();
    modulate(layout.level(), &markers, &phasors, &[], &mut |_| 0, &mut |made| swap(made, &mut given), wave)
}

/// The first `count` phases of each carrier.
pub fn phases(layout: Layout, count: usize) -> Vec<Vec<f32>> {
    layout.carriers().iter().map(|&fc| nco_phase(fc, count)).collect()
}

/// The taps between 3 kHz and 48 kHz.
pub fn interp_taps() -> [f64; 32] {
    interp16_taps()
}

/// The label of the alphabet's point nearest to a step, by the reference's demapper for so many bits.
pub fn nearest(bps: usize, step: Complex64) -> usize {
    demapper(constellation(bps as u32)).nearest(step).0
}

/// The soft bits that the reference's demapper gives for steps.
pub fn soft_bits(bps: usize, steps: &[Complex64], nvar: f64) -> Vec<f64> {
    let mut soft = Vec::new();
    demapper(constellation(bps as u32)).soft_bits(steps, nvar, None, &mut soft);
    soft
}

/// The points of the alphabet of so many bits.
pub fn alphabet(bps: usize) -> Vec<Complex64> {
    constellation(bps as u32).to_vec()
}

/// The nearest label and its squared distance, and every point's squared distance as the search rounds it.
pub fn distances(bps: usize, step: Complex64) -> (usize, f64, Vec<f64>) {
    let points = constellation(bps as u32);
    let (label, distance) = demapper(points).nearest(step);
    (label, distance, points.iter().map(|c| (step - c).norm_sqr()).collect())
}

/// The reference's hold.
pub struct Holder(Hold<()>);

pub fn hold(hold: i64, dead: i64) -> Holder {
    Holder(Hold::new(hold, dead))
}

impl Holder {
    /// The same hold with this block, unless it is the first one, and this candidate held.
    pub fn holding(mut self, block: Option<i64>, held: Option<(i64, f64)>) -> Self {
        set_hold(&mut self.0, block, held);
        self
    }

    /// The block, none for the first one, and the candidate that is held.
    pub fn holds(&self) -> (Option<i64>, Option<(i64, f64)>) {
        seen_hold(&self.0)
    }

    /// The position and the metric of a release.
    pub fn offer(&mut self, position: i64, metric: Option<f64>) -> Option<(i64, f64)> {
        self.0.offer(position, metric.map(|m| (m, ()))).map(|(position, metric, ())| (position, metric))
    }
}

fn set_hold(hold: &mut Hold<()>, block: Option<i64>, held: Option<(i64, f64)>) {
    hold.block = block.unwrap_or(hold.block);
    hold.best = held.map(|(position, metric)| (position, metric, ()));
}

fn seen_hold(hold: &Hold<()>) -> (Option<i64>, Option<(i64, f64)>) {
    let first = Hold::<()>::new(0, 0).block;
    ((hold.block != first).then_some(hold.block), hold.best.map(|(position, metric, ())| (position, metric)))
}

/// A track's base and what it holds from there.
pub type Held<'a> = (i64, &'a [Complex64]);

/// What a reading finds. `steps` and `undivided` are nc rows of nsym - 1.
#[derive(Clone, Debug)]
pub struct Reading {
    pub t: i64,
    pub chi: f64,
    pub pilot_sum: Complex64,
    pub g: f64,
    pub nvar: f64,
    pub median: f64,
    pub soft: Vec<f64>,
    pub steps: Vec<Vec<Complex64>>,
    pub undivided: Vec<Vec<Complex64>>,
}

/// The reference's engine with the track of samples that its receiver has.
pub struct Receiver {
    layout: Layout,
    engine: PskEngine,
    samples: Track<Complex64>,
}

fn engine(layout: Layout, tables: &Tables) -> PskEngine {
    PskEngine::new(layout.bandwidth, layout.record, &tables.markers, &tables.phasors)
}

/// A track with document 01's keep.
fn track(layout: Layout, (base, values): Held) -> Track<Complex64> {
    let mut track = Track::new(32 * layout.nsym() + 4096);
    track.base = base;
    track.buf = values.to_vec();
    track
}

pub fn open(layout: Layout, tables: &Tables, start: i64) -> Receiver {
    let mut engine = engine(layout, tables);
    engine.start_at(start);
    Receiver { layout, engine, samples: track(layout, (start, &[])) }
}

/// What a receiver has stored: its tracks, where its search goes on, and its hold.
pub struct Stored<'a> {
    pub samples: Held<'a>,
    /// The filtered, step and power tracks of each carrier.
    pub carriers: Vec<[Held<'a>; 3]>,
    pub search_place: Option<i64>,
    pub block: Option<i64>,
    pub held: Option<(i64, f64)>,
}

/// A receiver that goes on from what was stored, whether a receiver has stored it or not.
pub fn resume(layout: Layout, tables: &Tables, stored: &Stored) -> Receiver {
    let mut engine = engine(layout, tables);
    for (c, held) in engine.carriers.iter_mut().zip(&stored.carriers) {
        [c.filtered, c.diff, c.diff_pow] = held.map(|held| track(layout, held));
    }
    engine.filter_next = engine.carriers[0].filtered.end();
    engine.search_next = stored.search_place;
    set_hold(&mut engine.hold, stored.block, stored.held);
    Receiver { layout, engine, samples: track(layout, stored.samples) }
}

impl Receiver {
    /// Other tables from here on; the tracks, the search place and the hold stay.
    pub fn set_tables(&mut self, tables: &Tables) {
        let mut old = engine(self.layout, tables);
        swap(&mut self.engine, &mut old);
        for (new, old) in self.engine.carriers.iter_mut().zip(old.carriers) {
            (new.filtered, new.diff, new.diff_pow) = (old.filtered, old.diff, old.diff_pow);
        }
        self.engine.filter_next = old.filter_next;
        self.engine.search_next = old.search_next;
        self.engine.hold = old.hold;
    }

    /// The positions and metrics of what the feed releases; `book` turns its samples.
    pub fn feed(&mut self, samples: &[Complex64], book: &[Complex64]) -> Vec<(i64, f64)> {
        assert_eq!(book.len(), 3000);
        self.engine.book = book.to_vec();
        self.samples.append(self.samples.end(), samples.iter().copied());
        let ctx = Ctx { buf: &self.samples, linked: false, search_hz: 0.0, ofdm: &[] };
        self.engine.step(&ctx).into_iter().map(|d| (d.t, d.metric)).collect()
    }

    /// A reading at `t0`; None where the filtered track doesn't reach. `drift` has no rows, or one a carrier
    /// for the positions that 01 names, from t - delay - 1 on.
    pub fn read(&mut self, t0: i64, drift: &[Vec<Complex64>]) -> Option<Reading> {
        let e = &self.engine;
        let reach = e.max_stagger + e.span - super::SPS + 2 * e.delay + 2;
        assert!(drift.is_empty() || drift.len() == self.layout.nc());
        assert!(drift.iter().all(|row| row.len() as i64 == reach));
        for (i, c) in self.engine.carriers.iter_mut().enumerate() {
            c.drift = drift.get(i).cloned().unwrap_or_default();
        }
        let keeper = Keeper::default();
        let d = self.engine.decode(&self.samples, &keeper, t0, 0)?;
        let k = keeper.0.take().expect("a decoded frame was handed on");
        Some(Reading {
            t: d.t,
            chi: d.metric,
            pilot_sum: k.pilot_sum,
            g: k.g,
            nvar: k.nvar,
            median: d.raw_snr_db,
            soft: k.soft,
            steps: k.steps,
            undivided: k.undivided,
        })
    }

    /// The number of the sample that comes next.
    pub fn end(&self) -> i64 {
        self.samples.end()
    }

    /// The samples that are kept.
    pub fn samples(&self) -> Held<'_> {
        (self.samples.base, &self.samples.buf)
    }

    /// The block, none for the first one, and the candidate that is held.
    pub fn holds(&self) -> (Option<i64>, Option<(i64, f64)>) {
        seen_hold(&self.engine.hold)
    }

    /// Where the search goes on; None before the first position was searched.
    pub fn search_place(&self) -> Option<i64> {
        self.engine.search_next
    }

    /// The filtered, step and power tracks of a carrier.
    pub fn tracks(&self, carrier: usize) -> [Held<'_>; 3] {
        let c = &self.engine.carriers[carrier];
        [&c.filtered, &c.diff, &c.diff_pow].map(|t| (t.base, t.buf.as_slice()))
    }
}
