//! Marker tables drawn from a state, beside the reference's, with draw limits that are and aren't enough.
use crate::count::Count;
use crate::random::Random;
use crate::reference_side;
use dimpstea::{raw, Layout, Refusal};

/// The state of a generator: any of 24 bits, or one at an end of them.
fn state(random: &Random) -> u32 {
    if random.one_in(16) {
        random.pick(&[0, 1, (1 << 24) - 1, 0x05_0000])
    } else {
        random.below(1 << 24) as u32
    }
}

/// A limit about the longest row's draws, or any that is in range.
fn limit(longest: u32, random: &Random) -> u32 {
    match random.below(4) {
        0 => longest,
        1 => longest - 1,
        2 => random.within(1, longest as usize + 2) as u32,
        _ => random.within(1, 4096) as u32,
    }
}

pub fn run(cases: usize, random: &Random, count: &mut Count) {
    for (bandwidth, record) in Layout::ALL {
        let layout = Layout::choose(bandwidth, record).expect("a PSK layout");
        let reference = reference_side::layout(&layout);
        let length = layout.carriers * (layout.markers + layout.nsym);
        for _ in 0..20 * cases {
            let mut state = state(random);
            let longest = reference.row_draws(state).into_iter().max().expect("carriers");
            let mut limit = limit(longest, random);
            let mut spare = 0;
            if random.one_in(10) {
                match random.below(3) {
                    0 => state = random.pick(&[1 << 24, (1 << 24) + state, u32::MAX]),
                    1 => limit = random.pick(&[0, 4097, u32::MAX]),
                    _ => spare = 1,
                }
            }
            let expected = if state >= 1 << 24 || !(1..=4096).contains(&limit) {
                29
            } else if spare != 0 {
                11
            } else if limit < longest {
                30
            } else {
                0
            };
            let before = vec![9; length + spare];
            let (mut after, mut out) = (state, before.clone());
            let answer = raw::draw_markers(bandwidth, record, &mut after, limit, &mut out);
            let number = answer.err().map_or(0, Refusal::number);
            count.refused(expected);
            if limit == longest && expected == 0 {
                count.note("tables drawn with the very last draw");
            }
            let wanted = if expected == 0 { reference.drawn_markers(state) } else { (before, state) };
            count.compare("drawn tables", number == expected && (out, after) == wanted, || {
                format!("{bandwidth}/{record} from {state}, limit {limit}: {number}, expected {expected}")
            });
        }
    }
}
