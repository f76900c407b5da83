//! Locatings and readings.
use super::receiving::{any_memory, made_up};
use super::{check, judge, number, part, put, same, stretch, Call, Level, Lists, LEFT};
use crate::count::{alike, Count};
use crate::random::Random;
use crate::reading::Written;
use crate::{inputs, model, stored};
use dimpstea::{flat, raw, Layout};
use reference::{adaptor, Complex64};
use std::rc::Rc;

/// A reading, or a locating, which is lent no drift rows, scratch or out buffer.
#[derive(Clone)]
pub struct Reading {
    located: bool,
    level: Level,
    lists: Lists,
    state: Vec<u64>,
    metric: f64,
    memory: Memory,
    t0: u64,
    drift: Vec<f64>,
    written: Written,
}

/// A memory, as much of it as is lent, and a copy.
#[derive(Clone)]
struct Memory {
    lent: Rc<Vec<f64>>,
    len: usize,
    copy: Rc<Vec<f64>>,
}

impl Memory {
    fn new(numbers: Vec<f64>) -> Self {
        Self { len: numbers.len(), copy: Rc::new(numbers.clone()), lent: Rc::new(numbers) }
    }

    fn lent(&self) -> &[f64] {
        &self.lent[..self.len]
    }

    fn unchanged(&self) -> bool {
        same(self.lent(), &self.copy[..self.len])
    }
}

/// The rows that each call takes.
const READING: [u32; 12] = [1, 2, 3, 4, 5, 6, 7, 11, 17, 22, 23, 24];
const LOCATING: [u32; 10] = [1, 2, 3, 4, 5, 6, 7, 11, 17, 22];

/// Every row alone, and with every other one.
pub fn pairs(layout: &Layout, random: &Random, count: &mut Count) {
    let memory = Memory::new(any_memory(layout, random));
    let silent = Memory::new(vec![0.0; 2 * layout.memory_len()]);
    for (located, rows) in [(false, &READING[..]), (true, &LOCATING[..])] {
        for (i, &later) in rows.iter().enumerate() {
            for &earlier in &rows[..=i] {
                let mut call = Reading::over(layout, located, memory.clone(), random);
                call.stand(layout);
                // The later row first, since a wrong length may leave no room for a wrong number.
                call.meet(later, &silent, random);
                if earlier != later {
                    call.meet(earlier, &silent, random);
                }
                let expected = call.expected();
                count.compare("pairs of conditions", expected == earlier, || {
                    format!("the model says {expected} where {earlier} and {later} should be met")
                });
                check(call, count);
            }
        }
    }
}

impl Reading {
    pub fn new(layout: &Layout, random: &Random) -> Self {
        let mut call = Self::over(layout, random.one_in(3), Memory::new(any_memory(layout, random)), random);
        if random.one_in(2) {
            call.stand(layout);
            call.t0 += random.below(2) as u64;
        }
        call
    }

    /// A reading of a made-up state, at a position that is in hand where there is one.
    fn over(layout: &Layout, located: bool, memory: Memory, random: &Random) -> Self {
        let state = made_up(layout, random);
        let n = &state.numbers;
        let (first, last) = in_hand(layout, n);
        let room = last.saturating_sub(first) as usize + 1;
        let mut written = Written::of_reading(layout);
        if located {
            written.result.truncate(raw::LOCATED);
        }
        let mut drift = Vec::new();
        if !located && random.one_in(2) {
            drift = flat(&inputs::drift(layout, first, 0, random)).to_vec();
        }
        Self {
            located,
            level: Level::new(layout),
            lists: Lists::new(layout, random),
            state: n.to_vec(),
            metric: state.metric,
            memory,
            t0: first + random.below(room) as u64,
            drift,
            written,
        }
    }

    /// Lets it stand on a state in which one frame is in hand.
    fn stand(&mut self, layout: &Layout) {
        let n = &mut self.state;
        let (start, len) = (n[2], 40 + 32 * layout.nsym as u64 + layout.max_stagger);
        n.truncate(3);
        n.extend([start, len + 2 * layout.delay]);
        n.extend([start + layout.delay, len].repeat(3));
        n.extend([1, start + layout.delay + 80, 8, layout.dead, 0, 0, 0, 0]);
        self.metric = 0.0;
        self.t0 = in_hand(layout, n).0;
    }

    /// Makes it meet a row of the table.
    fn meet(&mut self, row: u32, silent: &Memory, random: &Random) {
        let layout = self.lists.layout.clone();
        let values = layout.carriers * layout.markers;
        match row {
            1 if random.one_in(2) => self.level.bandwidth = random.pick(&[0, 501, u32::MAX]),
            1 => self.level.record = random.pick(&[0, 18, u32::MAX]),
            2 => self.level.record = random.pick(&[1, 3, 17]),
            3 => stretch(&mut self.lists.markers, random),
            4 => self.lists.write(random.below(values), random.pick(&[0, 4, layout.spf as u16 - 3, u16::MAX])),
            5 => self.lists.write(values, 1),
            6 => stretch(&mut self.lists.phasors, random),
            7 => put(&mut self.lists.phasors, random.pick(&[f64::NAN, f64::INFINITY, 2.0]), random),
            11 if self.located => stretch(&mut self.written.result, random),
            11 => match random.below(3) {
                0 => stretch(&mut self.written.scratch, random),
                1 => stretch(&mut self.written.out, random),
                _ => stretch(&mut self.written.result, random),
            },
            17 if random.one_in(4) => self.memory.len -= random.within(1, 2),
            17 => {
                let i = random.pick(&[0, 1, 4, 5, 6, 7, 8, 9, 10, 13, 14]);
                self.state[i] = self.state[i].wrapping_add(random.pick(&[1, u64::MAX]));
            }
            // The frame's first samples are gone.
            22 if !self.drift.is_empty() && random.one_in(3) => {
                let gone = self.t0 - layout.delay - 3 - self.state[3];
                self.state[3] += gone;
                self.state[4] -= gone;
            }
            22 => {
                let (first, last) = in_hand(&layout, &self.state);
                self.t0 = random.pick(&[0, first - 1, last + 1, u64::MAX, 1 << 63]);
            }
            23 if random.one_in(2) || self.drift.is_empty() => self.drift = vec![0.5; random.pick(&[1, 2, 77])],
            23 => {
                let wrong = random.pick(&[1.0f64.next_up(), -1.0f64.next_up(), f64::NAN, f64::INFINITY]);
                put(&mut self.drift, wrong, random);
            }
            _ => self.memory = silent.clone(),
        }
    }

    /// The reference's reading of an accepted call.
    fn reading(&self, layout: &Layout) -> adaptor::Reading {
        let mut reference = stored::resume(layout, &self.lists.tables(), &self.state, self.metric, &self.memory.copy);
        let numbers: Vec<Complex64> = self.drift.chunks(2).map(|z| Complex64::new(z[0], z[1])).collect();
        let drift: Vec<Vec<Complex64>> = numbers.chunks(layout.drift_row_len()).map(<[Complex64]>::to_vec).collect();
        reference.read(self.t0 as i64, &drift).expect("a frame in hand")
    }
}

/// The first and the last position whose frame is in hand.
fn in_hand(layout: &Layout, state: &[u64]) -> (u64, u64) {
    let end = state[5].wrapping_add(state[6]);
    let most = 4 + layout.max_stagger + 32 * (layout.nsym as u64 - 1);
    (state[5].wrapping_add(35), end.saturating_sub(most))
}

impl Call for Reading {
    fn damage(&mut self, random: &Random) {
        match random.below(16) {
            0 => self.level.damage(random),
            1 => self.lists.damage(random),
            2 => stretch(&mut self.written.result, random),
            3 => stretch(&mut self.written.scratch, random),
            4 => stretch(&mut self.written.out, random),
            5 => stretch(&mut self.state, random),
            6..=9 if !self.state.is_empty() => {
                let i = random.below(self.state.len());
                let old = self.state[i];
                self.state[i] =
                    random.pick(&[0, 1, old.wrapping_sub(1), old.wrapping_add(1), old.wrapping_add(1000), 1 << 49]);
            }
            10 => self.memory.len -= random.within(1, 2),
            11 | 12 => {
                let (first, last) = match self.state.len() {
                    raw::STATE => in_hand(&self.lists.layout, &self.state),
                    _ => (7, 7),
                };
                let drift_first = self.state.get(3).map_or(0, |base| base.wrapping_add(self.lists.layout.delay + 4));
                let (before, after) = (first.wrapping_sub(1), last.wrapping_add(1));
                self.t0 =
                    random.pick(&[first, before, last, after, drift_first, drift_first.wrapping_sub(1), 0, u64::MAX]);
            }
            13 => stretch(&mut self.drift, random),
            _ => put(&mut self.drift, part(1.0, random), random),
        }
    }

    fn expected(&self) -> u32 {
        let met = judge(self.level.bandwidth, self.level.record, |l| {
            let mut rows = model::tables(l, &self.lists.markers, &self.lists.phasors);
            let (result, scratch, out) =
                (self.written.result.len(), self.written.scratch.len(), self.written.out.len());
            rows.push(match self.located {
                true => (11, result != raw::LOCATED),
                false => (11, (result, scratch, out) != (raw::READING, 2 * l.carriers * l.nsym, l.payload)),
            });
            let wrong_state = model::wrong_state(l, &self.state, self.memory.len);
            rows.push((17, wrong_state));
            if !wrong_state {
                rows.extend(model::reading(l, &self.state, self.t0, if self.located { &[] } else { &self.drift }));
            }
            rows
        });
        if met != 0 || self.located {
            return met;
        }
        let layout = self.level.layout();
        Written::of_reading(&layout).expected(&layout, &self.reading(&layout)).0
    }

    fn answer(&mut self) -> u32 {
        let Level { bandwidth, record } = self.level;
        let (markers, phasors) = (&self.lists.markers, &self.lists.phasors);
        let (state, metric, memory) = (&self.state, self.metric, self.memory.lent());
        let Written { t, result, scratch, out } = &mut self.written;
        number(match self.located {
            true => raw::locate(bandwidth, record, markers, phasors, state, metric, memory, self.t0, t, result),
            false => {
                let drift = &self.drift;
                raw::read(
                    bandwidth, record, markers, phasors, state, metric, memory, self.t0, drift, scratch, out, t, result,
                )
            }
        })
    }

    fn unchanged(&self, before: &Self) -> bool {
        self.written.alike(&before.written)
            && self.state == before.state
            && alike(self.metric, before.metric)
            && self.memory.unchanged()
    }

    fn compare_left(&self, before: &Self, count: &mut Count) {
        let layout = self.level.layout();
        let expected = match self.located {
            true => {
                let reading = Self { drift: Vec::new(), ..self.clone() }.reading(&layout);
                let (t, sum) = (reading.t as u64, reading.pilot_sum);
                Written { t, result: vec![reading.chi, sum.re, sum.im], ..before.written.clone() }
            }
            false => before.written.clone().expected(&layout, &self.reading(&layout)).1,
        };
        let place = || format!("a reading at {} of {:?}", self.t0, self.state);
        count.compare(LEFT, self.written.t == expected.t, || format!("t of {}: {}", place(), self.written.t));
        count.compare_all(LEFT, &self.written.result, &expected.result, place);
        count.compare_all(LEFT, &self.written.scratch, &expected.scratch, place);
        count.compare_all(LEFT, &self.written.out, &expected.out, place);
        let kept = Self { written: before.written.clone(), ..self.clone() }.unchanged(before);
        count.compare("states and memories after readings", kept, || format!("state or memory after {}", place()));
    }
}
