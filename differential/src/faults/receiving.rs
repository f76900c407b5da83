//! Openings, feeds and lone offers.
use super::{judge, number, part, put, same, stretch, Call, Level, Lists, LEFT};
use crate::count::{alike, Count};
use crate::random::Random;
use crate::turns::{conj, scaled, times};
use crate::{inputs, model, stored};
use dimpstea::{flat, raw, Detection, Layout, State, Tables};
use reference::{adaptor, Complex64};
use std::sync::OnceLock;

#[derive(Clone)]
pub struct Opening {
    level: Level,
    lists: Lists,
    start: u64,
    book: Vec<f64>,
    state: Vec<u64>,
    metric: f64,
}

impl Opening {
    pub fn new(layout: &Layout, random: &Random) -> Self {
        Self {
            level: Level::new(layout),
            lists: Lists::new(layout, random),
            start: random.bits() >> random.within(24, 63),
            book: flat(&inputs::book(random)).to_vec(),
            state: vec![7; raw::STATE],
            metric: 7.0,
        }
    }
}

impl Call for Opening {
    fn damage(&mut self, random: &Random) {
        match random.below(6) {
            0 => self.level.damage(random),
            1 => self.lists.damage(random),
            2 => self.start = random.pick(&[1 << 40, (1 << 40) + 1, u64::MAX]),
            3 => stretch(&mut self.book, random),
            4 => put(&mut self.book, part(1.0, random), random),
            _ => stretch(&mut self.state, random),
        }
    }

    fn expected(&self) -> u32 {
        judge(self.level.bandwidth, self.level.record, |l| {
            let mut rows = model::tables(l, &self.lists.markers, &self.lists.phasors);
            rows.extend(model::opening(self.start, &self.book, self.state.len()));
            rows
        })
    }

    fn answer(&mut self) -> u32 {
        number(raw::open(
            self.level.bandwidth,
            self.level.record,
            &self.lists.markers,
            &self.lists.phasors,
            self.start,
            &self.book,
            &mut self.state,
            &mut self.metric,
        ))
    }

    fn unchanged(&self, before: &Self) -> bool {
        self.state == before.state && alike(self.metric, before.metric)
    }

    /// "A receiver opens as `new` and then `start_at(start)`, with an empty sample track whose base and end are start."
    fn compare_left(&self, _: &Self, count: &mut Count) {
        let expected = opened(&self.level.layout(), self.start);
        let same = (&self.state[..], self.metric.to_bits()) == (&expected.numbers[..], expected.metric.to_bits());
        count.compare(LEFT, same, || format!("opening at {}: {:?}, {}", self.start, self.state, self.metric));
    }
}

fn opened(layout: &Layout, start: u64) -> State {
    let mut numbers = [0; raw::STATE];
    (numbers[0], numbers[1], numbers[2]) = (u64::from(layout.bandwidth), u64::from(layout.record), start);
    numbers[3] = start;
    for base in [5, 7, 9] {
        numbers[base] = start + layout.delay;
    }
    (numbers[13], numbers[14]) = (8, layout.dead);
    State { numbers, metric: 0.0 }
}

#[derive(Clone)]
pub struct Feeding {
    level: Level,
    lists: Lists,
    book: Vec<f64>,
    state: Vec<u64>,
    metric: f64,
    memory: Vec<f64>,
    number: u64,
    samples: Vec<f64>,
    released: Option<Detection>,
}

impl Feeding {
    /// A feed into a fresh receiver's state, or into one made up so that only its numbers fit, over any memory.
    pub fn new(layout: &Layout, random: &Random) -> Self {
        let tables = inputs::tables(layout, random);
        let state = made_up(layout, random);
        let mut memory = any_memory(layout, random);
        let count = random.pick(&[0, 1, random.below(1200), random.below(4001), 4000]);
        for _ in 0..random.below(3) {
            plant(layout, &tables, &state, random.below(count / 2 + 1) as u64, &mut memory, random);
        }
        Self {
            level: Level::new(layout),
            lists: Lists::of(layout, &tables),
            book: flat(&inputs::book(random)).to_vec(),
            number: state.sample_end(),
            state: state.numbers.to_vec(),
            metric: state.metric,
            memory,
            samples: (0..2 * count).map(|_| random.between(-1.0, 1.0)).collect(),
            released: None,
        }
    }
}

/// A memory that no feed has left: the tracks don't go together.
pub fn any_memory(layout: &Layout, random: &Random) -> Vec<f64> {
    static NOISE: OnceLock<Vec<f64>> = OnceLock::new();
    let noise = NOISE.get_or_init(|| (0..3_000_000).map(|_| random.between(-1.0, 1.0)).collect());
    let mut memory: Vec<f64> = noise[random.below(200_000)..][..2 * layout.memory_len()].to_vec();
    let edges = [0.0, -0.0, 5e-324, 1e-200, 1e200, f64::MAX, f64::INFINITY, f64::NAN];
    for _ in 0..random.pick(&[0, 0, 3, 300]) {
        put(&mut memory, random.pick(&edges), random);
    }
    memory
}

/// Puts the steps of a frame into the step tracks where they are kept, so that a search of new positions finds it.
fn plant(layout: &Layout, tables: &Tables, state: &State, late: u64, memory: &mut [f64], random: &Random) {
    let n = &state.numbers;
    let (base, end) = (n[5], n[5] + n[6]);
    let most = layout.max_stagger + 32 * (layout.nsym as u64 - 1);
    let (Some(at), size) = ((end + late).checked_sub(most), random.pick(&[1.0, 2.0, 2.0])) else { return };
    for carrier in 0..layout.carriers {
        let phasors = &tables.phasors[carrier * layout.nsym..];
        for &v in &tables.markers[carrier * layout.markers..(carrier + 1) * layout.markers] {
            let symbol = usize::from(v);
            let place = at + layout.stagger(carrier) + 32 * symbol as u64;
            if (base..end).contains(&place) {
                let step = scaled(conj(times(phasors[symbol], conj(phasors[symbol - 1]))), size);
                let i = stored::part(carrier, 1) * stored::part_len(layout) + 2 * (place - base) as usize;
                memory[i..i + 2].copy_from_slice(&[step.re, step.im]);
            }
        }
    }
}

/// A fresh receiver's state; or one whose tracks have some length, as feeds could have left them, with a search place
/// and perhaps a held candidate and a block; or one that condition 17 accepts though no feed leaves it, whose filtered
/// track goes on past what its samples give.
pub fn made_up(layout: &Layout, random: &Random) -> State {
    let mut state = opened(layout, random.bits() >> random.within(24, 63));
    let n = &mut state.numbers;
    if random.one_in(4) {
        return state;
    }
    let (start, keep) = (n[2], layout.keep);
    let end = start + 2 * layout.delay + random.below(4 * keep as usize) as u64;
    let len = (end - start).min(random.within(keep as usize, 2 * keep as usize) as u64);
    (n[3], n[4]) = (end - len, len);
    if random.one_in(4) {
        n[2] = end - 2 * layout.delay;
        n[4] -= random.below(len as usize + 1) as u64;
    }
    let filtered_end = end - layout.delay;
    let filtered_len =
        (filtered_end - start - layout.delay).min(random.within(keep as usize, 2 * keep as usize) as u64);
    for span in [5, 7, 9] {
        (n[span], n[span + 1]) = (filtered_end - filtered_len, filtered_len);
    }
    let last = filtered_end as i64 - layout.max_stagger as i64 - 32 * (layout.nsym as i64 - 1);
    if last > n[5] as i64 + 32 {
        let place = last as u64 + last as u64 % 2;
        (n[11], n[12]) = (1, place);
        if random.one_in(2) && place > n[5] + 10 {
            (n[17], n[18]) = (1, place - random.within(1, 5) as u64 * 2);
            state.metric = random.pick(&[random.between(20.0, 900.0), 3.0, f64::INFINITY, f64::NAN]);
        }
        if random.one_in(2) {
            (n[15], n[16]) = (1, place.saturating_sub(random.below(20_000) as u64));
        }
    }
    state
}

impl Call for Feeding {
    fn damage(&mut self, random: &Random) {
        match random.below(16) {
            0 => self.level.damage(random),
            1 => self.lists.damage(random),
            2 => stretch(&mut self.book, random),
            3 => put(&mut self.book, part(1.0, random), random),
            4 => self.memory.truncate(self.memory.len().saturating_sub(random.within(1, 2))),
            5..=8 => {
                if !self.state.is_empty() {
                    let i = random.below(self.state.len());
                    let old = self.state[i];
                    let near = old.wrapping_add(random.within(1, 3) as u64).wrapping_sub(2 * random.below(2) as u64);
                    self.state[i] = random.pick(&[
                        near,
                        0,
                        1,
                        old.wrapping_sub(1),
                        old.wrapping_add(1000),
                        1 << 49,
                        (1 << 49) + 1,
                        u64::MAX,
                    ]);
                }
            }
            9 => stretch(&mut self.state, random),
            10 => self.samples.resize(random.pick(&[8000, 8001, 8002, 1]), 0.5),
            11 | 12 => {
                self.number =
                    random.pick(&[self.number.wrapping_add(1), self.number.wrapping_sub(1), 1 << 48, u64::MAX])
            }
            _ => put(&mut self.samples, part(1_048_576.0, random), random),
        }
    }

    fn expected(&self) -> u32 {
        judge(self.level.bandwidth, self.level.record, |l| {
            let mut rows = model::tables(l, &self.lists.markers, &self.lists.phasors);
            rows.extend(model::feed(l, &self.book, &self.state, self.memory.len(), self.number, &self.samples));
            rows
        })
    }

    fn answer(&mut self) -> u32 {
        number(
            raw::feed(
                self.level.bandwidth,
                self.level.record,
                &self.lists.markers,
                &self.lists.phasors,
                &self.book,
                &mut self.state,
                &mut self.metric,
                &mut self.memory,
                self.number,
                &self.samples,
            )
            .map(|released| self.released = released),
        )
    }

    fn unchanged(&self, before: &Self) -> bool {
        self.state == before.state && alike(self.metric, before.metric) && same(&self.memory, &before.memory)
    }

    fn compare_left(&self, before: &Self, count: &mut Count) {
        let layout = self.level.layout();
        let mut reference = stored::resume(&layout, &self.lists.tables(), &before.state, before.metric, &before.memory);
        let numbers =
            |parts: &[f64]| -> Vec<Complex64> { parts.chunks(2).map(|z| Complex64::new(z[0], z[1])).collect() };
        let expected = reference.feed(&numbers(&self.samples), &numbers(&self.book));
        let released: Vec<(i64, f64)> = self.released.iter().map(|d| (d.position as i64, d.metric)).collect();
        count.compare("feeds into made-up states", same_releases(&released, &expected), || {
            format!("feed into {:?}: {released:?}, the reference has {expected:?}", before.state)
        });
        if !expected.is_empty() {
            count.note("releases out of made-up states");
        }
        stored::compare(&layout, (&self.state, self.metric), &self.memory, &reference, [LEFT, LEFT], count);
    }
}

fn same_releases(port: &[(i64, f64)], reference: &[(i64, f64)]) -> bool {
    port.len() == reference.len() && port.iter().zip(reference).all(|(p, r)| p.0 == r.0 && alike(p.1, r.1))
}

#[derive(Clone)]
pub struct Offering {
    hold: Vec<u64>,
    held_metric: f64,
    position: u64,
    metric: Option<f64>,
    released: Option<Detection>,
}

impl Offering {
    pub fn new(random: &Random) -> Self {
        Self {
            hold: vec![8, 100, random.below(3) as u64, 40, random.below(3) as u64, 50],
            held_metric: 30.0,
            position: random.below(100) as u64,
            metric: random.one_in(2).then_some(25.0),
            released: None,
        }
    }
}

impl Call for Offering {
    fn damage(&mut self, random: &Random) {
        let far = random.pick(&[1 << 48, (1 << 48) + 1, u64::MAX]);
        let metric = random.pick(&[f64::NAN, f64::INFINITY, f64::NEG_INFINITY, f64::MAX]);
        match random.below(5) {
            0 => stretch(&mut self.hold, random),
            1 => put(&mut self.hold, far, random),
            2 => self.held_metric = metric,
            3 => self.position = far,
            _ => self.metric = Some(metric),
        }
    }

    fn expected(&self) -> u32 {
        model::first(model::offer(&self.hold, self.held_metric, self.position, self.metric))
    }

    fn answer(&mut self) -> u32 {
        let answer = raw::offer(&mut self.hold, &mut self.held_metric, self.position, self.metric);
        number(answer.map(|released| self.released = released))
    }

    fn unchanged(&self, before: &Self) -> bool {
        self.hold == before.hold && alike(self.held_metric, before.held_metric)
    }

    fn compare_left(&self, before: &Self, count: &mut Count) {
        let there = |i: usize| (before.hold[i] != 0).then_some(before.hold[i + 1]);
        // The reference has no block above i64::MAX, and no offer is as far: the greatest one stands for all of them.
        let block = there(2).map(|block| i64::try_from(block).unwrap_or(i64::MAX));
        let held = there(4).map(|held| (held as i64, before.held_metric));
        let mut reference = adaptor::hold(before.hold[0] as i64, before.hold[1] as i64).holding(block, held);
        let expected: Vec<_> = reference.offer(self.position as i64, self.metric).into_iter().collect();
        let released: Vec<_> = self.released.iter().map(|d| (d.position as i64, d.metric)).collect();
        let (block, held) = reference.holds();
        let block = block.map(|block| if block == i64::MAX { before.hold[3] } else { block as u64 });
        let hold = [
            before.hold[0],
            before.hold[1],
            u64::from(block.is_some()),
            block.unwrap_or(0),
            u64::from(held.is_some()),
            held.map_or(0, |(position, _)| position as u64),
        ];
        let same = same_releases(&released, &expected)
            && self.hold == hold
            && alike(self.held_metric, held.map_or(0.0, |(_, metric)| metric));
        count.compare(LEFT, same, || {
            format!("offer to {:?}: {released:?}, {:?}; expected {hold:?}", before.hold, self.hold)
        });
    }
}
