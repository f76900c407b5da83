//! The demapper by itself. The library has no call for it, so it is reached through readings of memories whose steps are
//! chosen: every other symbol is 1, so that a chosen symbol v gives the steps v and conj(v).
use crate::count::Count;
use crate::random::Random;
use crate::reading::{self, Asked};
use crate::{inputs, sent, stored, turns};
use dimpstea::{raw, Complex, Layout, Tables};

pub fn run(cases: usize, random: &Random, count: &mut Count) {
    for case in 0..cases {
        // One bit a cell as often as two.
        let (bandwidth, record) = if case % 2 == 0 { (500, 4) } else { random.pick(&Layout::ALL) };
        let layout = Layout::choose(bandwidth, record).expect("a PSK layout");
        compare(&layout, random, count);
    }
}

/// A receiver that has just filtered a frame, and the frame's position.
fn state(layout: &Layout) -> ([u64; raw::STATE], u64) {
    let (base, t0) = (layout.delay, layout.delay + 40);
    let len = t0 + 4 + layout.max_stagger + 32 * (layout.nsym as u64 - 1) - base;
    let place = base + len - layout.max_stagger - 32 * (layout.nsym as u64 - 1);
    let mut state = [0; raw::STATE];
    (state[0], state[1]) = (u64::from(layout.bandwidth), u64::from(layout.record));
    state[4] = base + len + layout.delay;
    for span in [5, 7, 9] {
        (state[span], state[span + 1]) = (base, len);
    }
    (state[11], state[12]) = (1, place + place % 2);
    (state[13], state[14]) = (8, layout.dead);
    (state, t0)
}

/// A part of a chosen step.
fn part(kind: usize, random: &Random) -> f64 {
    let sign = random.pick(&[1.0, -1.0]);
    sign * match kind {
        0 => random.between(0.0, 2.0),
        1 => random.pick(&[0.0, 0.5, 1.0]),
        2 => f64::from_bits(random.bits() >> random.within(12, 63)),
        3 => f64::from_bits((random.within(1, 1533) as u64) << 52 | random.bits() >> 12),
        _ => random.pick(&[0.0, 1.0, 5e-324, f64::MIN_POSITIVE, 1e-160, 1e150]),
    }
}

/// A chosen step: parts of one kind, which are often equal in size, and often zero.
fn chosen(kind: usize, random: &Random) -> Complex {
    let (re, im) = (part(kind, random), part(kind, random));
    match random.below(6) {
        0 => Complex::new(re, re.copysign(im)),
        1 => Complex::new(0.0f64.copysign(re), im),
        2 => Complex::new(re, 0.0f64.copysign(im)),
        3 => Complex::new(0.0f64.copysign(re), 0.0f64.copysign(im)),
        _ => Complex::new(re, im),
    }
}

/// A frame's symbols, carrier by carrier: chosen ones at odd symbols whose step, and the next one, are cells'.
fn symbols(layout: &Layout, tables: &Tables, random: &Random) -> Vec<Complex> {
    let (kind, few) = (random.below(5), random.one_in(3));
    let mut rows = vec![Complex::ONE; layout.phasor_count()];
    let mut marks = vec![true; layout.phasor_count()];
    for (carrier, symbol) in sent::cells(layout, tables) {
        marks[carrier * layout.nsym + symbol] = false;
    }
    (0..layout.carriers).for_each(|carrier| marks[carrier * layout.nsym] = false);
    let odd: Vec<usize> = (0..rows.len()).filter(|i| i % layout.nsym % 2 == 1).collect();
    for &i in odd.iter().filter(|&&i| !marks[i] && marks.get(i + 1) != Some(&true)) {
        if !few || random.one_in(40) {
            rows[i] = chosen(kind, random);
        }
    }
    if random.one_in(4) {
        loud(layout, &mut rows, random);
    }
    match random.below(8) {
        0 => faint(layout, &marks, &mut rows, random),
        1..=4 => noisy(odd.into_iter().filter(|&i| marks[i] && !marks[i + 1]), &mut rows),
        _ => (),
    }
    rows
}

/// A carrier's last step, which is always a cell's, so large that the mean norm is all its own.
fn loud(layout: &Layout, rows: &mut [Complex], random: &Random) {
    let last = random.within(1, layout.carriers) * layout.nsym - 1;
    rows[last - 1] = Complex::ONE;
    rows[last] = turns::scaled(turns::point(random), random.pick(&[1e6, 1e60, 1e153]));
}

/// Markers whose steps are j and −j, as often, and not 1: the noise variance grows, and the turn is 1 as before.
fn noisy(marks: impl Iterator<Item = usize>, rows: &mut [Complex]) {
    for pair in marks.collect::<Vec<_>>().chunks_exact(2).skip(1) {
        (rows[pair[0]], rows[pair[1]]) = (Complex::new(0.0, 1.0), Complex::new(0.0, -1.0));
    }
}

/// Markers whose steps aren't 0, but so faint that their norms are.
fn faint(layout: &Layout, marks: &[bool], rows: &mut [Complex], random: &Random) {
    for i in (0..rows.len()).filter(|&i| marks[i]) {
        let odd = i - (1 - i % layout.nsym % 2);
        rows[odd] = turns::scaled(turns::point(random), 1e-170);
    }
}

fn compare(layout: &Layout, random: &Random, count: &mut Count) {
    let mut tables = inputs::tables(layout, random);
    tables.phasors.fill(Complex::ONE);
    let (state, t0) = state(layout);
    let mut memory = vec![0.0; 2 * layout.memory_len()];
    for (i, z) in symbols(layout, &tables, random).into_iter().enumerate() {
        let (carrier, symbol) = (i / layout.nsym, i % layout.nsym);
        let place = t0 - state[5] + layout.stagger(carrier) + 32 * symbol as u64;
        // The filtered value, and a step of 1 so that the frame is found at t0.
        for (track, value) in [(0, z), (1, Complex::ONE)] {
            let at = stored::part(carrier, track) * stored::part_len(layout) + 2 * place as usize;
            memory[at..at + 2].copy_from_slice(&[value.re, value.im]);
        }
    }
    let mut reference = stored::resume(layout, &tables, &state, 0.0, &memory);
    let asked = Asked { layout, tables: &tables, state: &state, metric: 0.0, memory: &memory, t0, drift: &[] };
    reading::compare(&asked, &mut reference, &[], count);
    note(&asked, count);
}

/// Counts what the demapper was given.
fn note(asked: &Asked, count: &mut Count) {
    let mut written = reading::Written::of_reading(asked.layout);
    if reading::answer(asked, &mut written).is_err() {
        return;
    }
    for step in reading::cell_steps(asked.layout, asked.tables, &written.scratch) {
        let (re, im) = (step.re, step.im);
        let tie = if asked.layout.bps == 1 { re == 0.0 } else { re.abs() == im.abs() };
        if tie && asked.layout.bps == 1 {
            count.note(if re.is_sign_negative() { "steps tied at -0" } else { "steps tied at +0" });
        } else if tie {
            count.note(if re == 0.0 { "steps tied at zero, two bits" } else { "steps tied, two bits" });
        }
        if re.is_subnormal() || im.is_subnormal() {
            count.note("steps with a subnormal part");
        }
        if re.abs().max(im.abs()) > 500.0 {
            count.note("steps above 500");
        }
    }
}
