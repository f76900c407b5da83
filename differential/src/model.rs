//! Document 01, "Where each fault is met", as a model: the number of the first condition that a call meets, or
//! 0. Written from the table alone, over the same inputs as the open calls.
use dimpstea::{raw, Layout};

/// The rows of the table that a call takes, top to bottom.
pub type Rows = Vec<(u32, bool)>;

pub fn first(rows: Rows) -> u32 {
    rows.into_iter().find(|&(_, met)| met).map_or(0, |(number, _)| number)
}

/// The rows of hf/level.rs: bandwidth, record, carriers, spf, markers, bits of a cell, taps, first carrier and spacing.
const LAYOUTS: [(u32, u32, usize, usize, usize, usize, usize, u64, u64); 15] = [
    (500, 4, 2, 394, 18, 1, 33, 1350, 300),
    (500, 5, 2, 395, 18, 2, 33, 1350, 300),
    (500, 6, 3, 376, 12, 2, 129, 1320, 180),
    (500, 14, 2, 451, 18, 2, 33, 1350, 300),
    (2300, 5, 3, 376, 12, 2, 33, 900, 600),
    (2300, 6, 4, 365, 9, 2, 33, 750, 500),
    (2300, 7, 6, 355, 6, 2, 129, 700, 320),
    (2300, 8, 8, 352, 5, 2, 129, 702, 228),
    (2300, 9, 10, 349, 4, 2, 65, 555, 210),
    (2750, 5, 3, 376, 12, 2, 33, 600, 900),
    (2750, 6, 4, 365, 9, 2, 33, 510, 660),
    (2750, 7, 6, 355, 6, 2, 129, 450, 420),
    (2750, 8, 8, 352, 5, 2, 129, 380, 320),
    (2750, 9, 10, 349, 4, 2, 65, 375, 250),
    (2750, 10, 13, 349, 3, 2, 65, 240, 210),
];

/// Rows 1 and 2, or the layout whose rows follow.
pub fn layout(bandwidth: u32, record: u32) -> Result<Layout, u32> {
    if ![500, 2300, 2750].contains(&bandwidth) || !(1..=17).contains(&record) {
        return Err(1);
    }
    let row = LAYOUTS.into_iter().find(|row| (row.0, row.1) == (bandwidth, record)).ok_or(2u32)?;
    let (_, _, carriers, spf, markers, bps, taps, first_hz, spacing_hz) = row;
    let nsym = spf - 1;
    Ok(Layout {
        bandwidth,
        record,
        carriers,
        spf,
        markers,
        bps,
        nsym,
        payload: carriers * (spf - 2 - markers) * bps,
        taps,
        first_hz,
        spacing_hz,
        delay: (taps as u64 - 1) / 2,
        max_stagger: if carriers == 3 { 21 } else { 16 },
        keep: 32 * nsym as u64 + 4096,
        dead: 32 * nsym as u64 - 128,
    })
}

/// Rows 3 to 7.
pub fn tables(l: &Layout, markers: &[u16], phasors: &[f64]) -> Rows {
    if markers.len() != l.carriers * l.markers + l.carriers * (l.spf - 1) {
        return vec![(3, true)];
    }
    let (values, flags) = markers.split_at(l.carriers * l.markers);
    let carriers: Vec<(&[u16], &[u16])> = values.chunks(l.markers).zip(flags.chunks(l.spf - 1)).collect();
    let allowed = 5..=l.spf as u16 - 4;
    let wrong_value = carriers
        .iter()
        .any(|(values, _)| values.iter().enumerate().any(|(i, v)| !allowed.contains(v) || values[..i].contains(v)));
    let wrong_flag = carriers.iter().any(|(values, flags)| {
        flags.iter().enumerate().any(|(i, &flag)| flag != u16::from(values.iter().any(|&v| usize::from(v) == i + 2)))
    });
    let wrong_phasor = phasors.chunks(2).any(|z| match *z {
        [re, im] => !(re.is_finite() && im.is_finite() && (0.99..=1.01).contains(&(re * re + im * im))),
        _ => true,
    });
    vec![(4, wrong_value), (5, wrong_flag), (6, phasors.len() != 2 * l.carriers * l.nsym), (7, wrong_phasor)]
}

fn wrong_payload(payload: &[u8], n: usize) -> bool {
    payload.len() != n || payload.iter().any(|&byte| byte > 1)
}

/// A part outside −1 to 1; a NaN is outside every range.
fn beyond_one(parts: &[f64]) -> bool {
    parts.iter().any(|part| !(-1.0..=1.0).contains(part))
}

/// Rows 8 to 11 of a sending.
pub fn sender(l: &Layout, frames: u32, payload: &[u8], draws: &[u8], rows: usize) -> Rows {
    if !(1..=4).contains(&frames) {
        return vec![(8, true)];
    }
    let frames = frames as usize;
    let wrong_draws = draws.len() != l.carriers * (frames + 8) || draws.iter().any(|&d| usize::from(d) >= 1 << l.bps);
    vec![
        (9, wrong_payload(payload, frames * l.payload)),
        (10, wrong_draws),
        (11, rows != 2 * l.carriers * (9 + frames * l.nsym)),
    ]
}

fn wrong_phases(phases: &[f32]) -> bool {
    phases.iter().any(|phase| !(0.0..=std::f32::consts::TAU).contains(phase))
}

/// Rows 11, 13 and 14 of phases over a window.
pub fn phases(l: &Layout, window: usize, phases: &[f32], out: usize) -> Rows {
    let wrong_buffer = phases.len() != l.carriers || out as u128 != l.carriers as u128 * window as u128;
    vec![(11, wrong_buffer), (13, window > 4096), (14, wrong_phases(phases))]
}

/// What a window of audio is asked with.
pub struct Audio<'a> {
    pub frames: u32,
    pub symbols: &'a [f64],
    pub place: u64,
    pub window: usize,
    pub waves: &'a [f64],
    pub phases: &'a [f32],
    pub out: usize,
}

/// Rows 8 and 11 to 14.
pub fn audio(l: &Layout, a: &Audio) -> Rows {
    if !(1..=4).contains(&a.frames) {
        return vec![(8, true)];
    }
    let row = 9 + a.frames as usize * l.nsym;
    let length = 16 * (32 * row as u64 + l.max_stagger + l.taps as u64 - 1) + 31;
    let wrong_symbols = a.symbols.len() != 2 * l.carriers * row || a.symbols.iter().any(|part| !(part.abs() <= 256.0));
    let wrong_waves = a.waves.len() as u128 != 2 * l.carriers as u128 * a.window as u128 || beyond_one(a.waves);
    vec![
        (11, a.phases.len() != l.carriers || a.out != a.window),
        (12, wrong_symbols),
        (13, a.window > 4096 || u128::from(a.place) + a.window as u128 > u128::from(length)),
        (14, wrong_waves || wrong_phases(a.phases)),
    ]
}

pub fn wrong_book(book: &[f64]) -> bool {
    book.len() != 6000 || beyond_one(book)
}

/// Rows 11, 15 and 16 of an opening.
pub fn opening(start: u64, book: &[f64], state: usize) -> Rows {
    vec![(11, state != raw::STATE), (15, start > 1 << 40), (16, wrong_book(book))]
}

/// Row 17: whether a state and a memory of this length aren't a receiver's of this layout.
pub fn wrong_state(l: &Layout, state: &[u64], memory: usize) -> bool {
    let Ok(numbers) = <[u64; raw::STATE]>::try_from(state) else { return true };
    let n = numbers.map(i128::from);
    let [bandwidth, record, start, sample_base, sample_len, base, len, step_base, step_len, power_base, power_len, ..] =
        n;
    let (searched, place) = (n[11] != 0, n[12]);
    let (hold, dead) = (n[13], n[14]);
    let (blocked, block) = (n[15] != 0, n[16]);
    let (holds, held) = (n[17] != 0, n[18]);
    let (keep, delay) = (i128::from(l.keep), i128::from(l.delay));
    let (sample_end, end) = (sample_base + sample_len, base + len);
    let most = i128::from(l.max_stagger) + 32 * (l.nsym as i128 - 1);
    let from = if searched { place.max(base + 32) } else { base + 32 };
    let even = from + from % 2;
    let far = |p: i128| p > 1 << 49;
    memory != 2 * (1 + 3 * l.carriers) * (2 * l.keep as usize + 4000)
        || (bandwidth, record) != (i128::from(l.bandwidth), i128::from(l.record))
        || hold != 8
        || dead != 32 * l.nsym as i128 - 128
        || [sample_len, len, step_len, power_len].iter().any(|&n| n > 2 * keep)
        || [start, sample_base, sample_end, base, end].into_iter().any(far)
        || (searched && far(place))
        || (blocked && far(block))
        || (holds && far(held))
        || [(step_base, step_len), (power_base, power_len)].iter().any(|&span| span != (base, len))
        || end != (start + delay).max(sample_end - delay)
        || sample_base > end - delay
        || even < end - most
        || (holds && !(searched && (2..=10).contains(&(place - held))))
        || (holds && held < base - 1000)
}

/// Rows 16 to 20 of a feed.
pub fn feed(l: &Layout, book: &[f64], state: &[u64], memory: usize, number: u64, samples: &[f64]) -> Rows {
    if wrong_book(book) {
        return vec![(16, true)];
    }
    if wrong_state(l, state, memory) {
        return vec![(17, true)];
    }
    let count = samples.len() / 2;
    let end = u128::from(number) + count as u128;
    vec![
        (18, samples.len() % 2 != 0 || count > 4000),
        (19, number != state[3] + state[4] || end > 1 << 48),
        (20, samples.iter().any(|part| !(part.abs() <= 1_048_576.0))),
    ]
}

/// Rows 22 and 23 of a reading; row 22 of a locating, which takes no drift rows.
pub fn reading(l: &Layout, state: &[u64], t0: u64, drift: &[f64]) -> Rows {
    let n: Vec<i128> = state.iter().map(|&n| i128::from(n)).collect();
    let (sample_base, base, end) = (n[3], n[5], n[5] + n[6]);
    let (t0, delay) = (i128::from(t0), i128::from(l.delay));
    let (most, last) = (i128::from(l.max_stagger), 32 * (l.nsym as i128 - 1));
    let row = most + last + 2 * delay + 2;
    let wrong_rows = !drift.is_empty() && drift.len() as i128 != 2 * l.carriers as i128 * row;
    vec![
        (22, t0 + most + last + 3 > end - 1 || t0 - 35 < base || (!drift.is_empty() && t0 - delay - 4 < sample_base)),
        (23, wrong_rows || beyond_one(drift)),
    ]
}

/// Row 21.
pub fn offer(hold: &[u64], held_metric: f64, position: u64, metric: Option<f64>) -> Rows {
    let Ok([hold, dead, _, _, holds, held]) = <[u64; raw::HOLD]>::try_from(hold) else { return vec![(21, true)] };
    let far = |n: u64| n > 1 << 48;
    let wrong_held = holds != 0 && (far(held) || !held_metric.is_finite());
    vec![(21, far(hold) || far(dead) || far(position) || wrong_held || metric.is_some_and(|m| !m.is_finite()))]
}

/// Row 9 of a meter.
pub fn meter(l: &Layout, sent: &[u8], read: &[u8]) -> Rows {
    vec![(9, wrong_payload(sent, l.payload) || wrong_payload(read, l.payload))]
}

/// Row 11 of payload bits.
pub fn payload_bits(l: &Layout, soft: usize, out: usize) -> Rows {
    vec![(11, soft != l.payload || out != l.payload)]
}
