//! A sending's symbols, phases and audio.
use super::{audio, judge, number, part, put, same, same32, stretch, Call, Level, Lists, LEFT};
use crate::count::Count;
use crate::random::Random;
use crate::{inputs, model, reference_side};
use dimpstea::{flat, raw, rows, Layout, Sending};
use reference::adaptor;

#[derive(Clone)]
pub struct Modulating {
    level: Level,
    lists: Lists,
    frames: u32,
    payload: Vec<u8>,
    draws: Vec<u8>,
    rows: Vec<f64>,
}

impl Modulating {
    pub fn new(layout: &Layout, random: &Random) -> Self {
        let frames = random.within(1, 4);
        Self {
            level: Level::new(layout),
            lists: Lists::new(layout, random),
            frames: frames as u32,
            payload: inputs::payload(layout, frames, random),
            draws: inputs::draws(layout, frames, random),
            rows: vec![7.0; 2 * layout.carriers * layout.row_len(frames)],
        }
    }
}

impl Call for Modulating {
    fn damage(&mut self, random: &Random) {
        match random.below(8) {
            0 => self.level.damage(random),
            1 | 2 => self.lists.damage(random),
            3 => self.frames = random.pick(&[0, 1, 4, 5, u32::MAX]),
            4 => stretch(&mut self.payload, random),
            5 => put(&mut self.payload, random.pick(&[2, 255]), random),
            6 => match random.one_in(2) {
                true => stretch(&mut self.draws, random),
                false => put(&mut self.draws, random.pick(&[2, 3, 4, 255]), random),
            },
            _ => stretch(&mut self.rows, random),
        }
    }

    fn expected(&self) -> u32 {
        judge(self.level.bandwidth, self.level.record, |l| {
            let mut rows = model::tables(l, &self.lists.markers, &self.lists.phasors);
            rows.extend(model::sender(l, self.frames, &self.payload, &self.draws, self.rows.len()));
            rows
        })
    }

    fn answer(&mut self) -> u32 {
        number(raw::modulate(
            self.level.bandwidth,
            self.level.record,
            &self.lists.markers,
            &self.lists.phasors,
            self.frames,
            &self.payload,
            &self.draws,
            &mut self.rows,
        ))
    }

    fn unchanged(&self, before: &Self) -> bool {
        same(&self.rows, &before.rows)
    }

    fn compare_left(&self, _: &Self, count: &mut Count) {
        let layout = self.level.layout();
        let payload: Vec<Vec<u8>> = self.payload.chunks(layout.payload).map(<[u8]>::to_vec).collect();
        let tables = reference_side::tables(&layout, &self.lists.tables());
        let rows = adaptor::symbols(reference_side::layout(&layout), &tables, &payload, &self.draws).concat();
        count.compare_all(LEFT, &self.rows, &reference_side::parts(&rows), || "symbols".to_string());
    }
}

/// A window, the phases before it and, for each carrier, a phase at each of its places.
#[derive(Clone)]
pub struct Phasing {
    level: Level,
    window: usize,
    phases: Vec<f32>,
    out: Vec<f32>,
}

fn some_phases(layout: &Layout, random: &Random) -> Vec<f32> {
    (0..layout.carriers).map(|_| random.between(0.0, 6.28) as f32).collect()
}

fn wrong_phase(random: &Random) -> f32 {
    use std::f32::consts::TAU;
    random.pick(&[f32::NAN, -f32::MIN_POSITIVE, -0.0, TAU, TAU.next_up(), f32::INFINITY])
}

impl Phasing {
    pub fn new(layout: &Layout, random: &Random) -> Self {
        let window = random.pick(&[0, 1, random.below(4097), 4096]);
        Self {
            level: Level::new(layout),
            window,
            phases: some_phases(layout, random),
            out: vec![7.0; layout.carriers * window],
        }
    }
}

impl Call for Phasing {
    fn damage(&mut self, random: &Random) {
        match random.below(5) {
            0 => self.level.damage(random),
            1 => {
                self.window = 4097;
                self.out = vec![7.0; self.phases.len() * 4097];
            }
            2 => self.window = random.pick(&[self.window + 1, usize::MAX]),
            3 => match random.one_in(2) {
                true => stretch(&mut self.phases, random),
                false => stretch(&mut self.out, random),
            },
            _ => put(&mut self.phases, wrong_phase(random), random),
        }
    }

    fn expected(&self) -> u32 {
        judge(self.level.bandwidth, self.level.record, |l| model::phases(l, self.window, &self.phases, self.out.len()))
    }

    fn answer(&mut self) -> u32 {
        number(raw::nco_phase(self.level.bandwidth, self.level.record, self.window, &mut self.phases, &mut self.out))
    }

    fn unchanged(&self, before: &Self) -> bool {
        same32(&self.phases, &before.phases) && same32(&self.out, &before.out)
    }

    fn compare_left(&self, before: &Self, count: &mut Count) {
        let rows = audio::phases(&self.level.layout(), &before.phases, self.window);
        let last: Vec<f32> = rows.iter().map(|row| row[self.window]).collect();
        let out: Vec<f32> = rows.iter().flat_map(|row| &row[1..]).copied().collect();
        let equal = same32(&self.phases, &last) && same32(&self.out, &out);
        count.compare(LEFT, equal, || format!("phases from {:?}, {} places", before.phases, self.window));
    }
}

#[derive(Clone)]
pub struct Sounding {
    level: Level,
    frames: u32,
    symbols: Vec<f64>,
    place: u64,
    window: usize,
    waves: Vec<f64>,
    phases: Vec<f32>,
    out: Vec<f64>,
}

impl Sounding {
    pub fn new(layout: &Layout, random: &Random) -> Self {
        let frames = random.within(1, 4);
        let tables = inputs::tables(layout, random);
        let (payload, draws) = (inputs::payload(layout, frames, random), inputs::draws(layout, frames, random));
        let sending = Sending::new(layout, &tables, frames, &payload, &draws).expect("an accepted sending");
        let window = random.below(600);
        let phases = some_phases(layout, random);
        let places: Vec<f32> = (0..layout.carriers * window).map(|i| i as f32).collect();
        Self {
            level: Level::new(layout),
            frames: frames as u32,
            symbols: flat(sending.rows()).to_vec(),
            place: layout.audio_len(frames) - window as u64 - random.pick(&[0, 5000]),
            window,
            waves: flat(&rows::waves(&places)).to_vec(),
            phases,
            out: vec![7.0; window],
        }
    }
}

impl Call for Sounding {
    fn damage(&mut self, random: &Random) {
        match random.below(9) {
            0 => self.level.damage(random),
            1 => self.frames = random.pick(&[0, 1, 2, 3, 4, 5, u32::MAX]),
            2 => stretch(&mut self.symbols, random),
            3 => put(&mut self.symbols, part(256.0, random), random),
            4 => self.place = random.pick(&[self.place + 1, self.place + 6000, u64::MAX, 0]),
            5 => {
                self.window = 4097;
                self.out = vec![7.0; 4097];
                self.waves = vec![0.5; 2 * self.phases.len() * 4097];
            }
            6 => match random.one_in(2) {
                true => stretch(&mut self.waves, random),
                false => put(&mut self.waves, part(1.0, random), random),
            },
            7 => put(&mut self.phases, wrong_phase(random), random),
            _ => match random.one_in(2) {
                true => stretch(&mut self.phases, random),
                false => stretch(&mut self.out, random),
            },
        }
    }

    fn expected(&self) -> u32 {
        judge(self.level.bandwidth, self.level.record, |l| {
            let asked = model::Audio {
                frames: self.frames,
                symbols: &self.symbols,
                place: self.place,
                window: self.window,
                waves: &self.waves,
                phases: &self.phases,
                out: self.out.len(),
            };
            model::audio(l, &asked)
        })
    }

    fn answer(&mut self) -> u32 {
        number(raw::carrier_audio(
            self.level.bandwidth,
            self.level.record,
            self.frames,
            &self.symbols,
            self.place,
            self.window,
            &self.waves,
            &mut self.phases,
            &mut self.out,
        ))
    }

    fn unchanged(&self, before: &Self) -> bool {
        same32(&self.phases, &before.phases) && same(&self.out, &before.out)
    }

    fn compare_left(&self, before: &Self, count: &mut Count) {
        let layout = self.level.layout();
        let rows = audio::phases(&layout, &before.phases, self.window);
        let last: Vec<f32> = rows.iter().map(|row| row[self.window]).collect();
        count.compare(LEFT, same32(&self.phases, &last), || format!("phases from {:?}", before.phases));
        let out = audio::window(&layout, &self.symbols, self.place as usize, &self.waves, self.window);
        count.compare_all(LEFT, &self.out, &out, || format!("audio from place {}", self.place));
    }
}
