//! The stack that each export needs: it is painted below the caller's stack pointer, the call is made, and the lowest
//! word that isn't as it was painted is looked for. The wrapper in host/ that makes the call counts too.
use crate::calls::{drift, released};
use crate::inputs::{draws, layout, noise, payload, tables};
use dimpstea::{flat, nearest_point, raw, rows, Complex, Hold, Layout, Refusal};
use std::arch::asm;
use std::collections::BTreeMap;
use std::thread;

/// How far down is painted.
const DEPTH: usize = 1 << 20;
/// What the painting itself may take.
const GAP: usize = 512;
const PAINT: u64 = 0x5a17_c3d2_96e1_b478;

fn stack_pointer() -> usize {
    let at: usize;
    // SAFETY: reads a register.
    unsafe { asm!("mov {}, rsp", out(reg) at, options(nomem, nostack, preserves_flags)) };
    at
}

#[inline(never)]
fn paint(from: usize, to: usize) {
    for at in (from..to).step_by(8) {
        // SAFETY: this is the thread's own stack, below every frame that is alive.
        unsafe { (at as *mut u64).write_volatile(PAINT) };
    }
}

#[inline(never)]
fn lowest(from: usize, to: usize) -> usize {
    // SAFETY: as in `paint`.
    (from..to).step_by(8).find(|&at| unsafe { (at as *const u64).read_volatile() } != PAINT).unwrap_or(to)
}

/// Bytes of stack that a call touches.
#[inline(never)]
fn touched(call: &mut dyn FnMut()) -> usize {
    let top = stack_pointer() & !7;
    paint(top - DEPTH, top - GAP);
    call();
    let deepest = top - lowest(top - DEPTH, top - GAP);
    assert!(deepest < DEPTH, "deeper than was painted");
    deepest
}

/// The most of each export, by name.
#[derive(Default)]
struct Most(BTreeMap<&'static str, usize>);

impl Most {
    fn note(&mut self, name: &'static str, expected: Result<(), u32>, call: &mut dyn FnMut() -> Result<(), Refusal>) {
        let mut answer = Ok(());
        let bytes = touched(&mut || answer = call());
        assert_eq!(answer.map_err(Refusal::number), expected, "{name}");
        let most = self.0.entry(name).or_default();
        *most = bytes.max(*most);
    }
}

/// Every call of a layout's sending, accepted; and refused, where `record` is of no layout.
fn sending(l: &Layout, record: u32, expected: Result<(), u32>, most: &mut Most) {
    let (bandwidth, t) = (l.bandwidth, tables(l));
    let (bits, drawn, mut sent) = (payload(l, 4), draws(l, 4), vec![0.0; 2 * l.carriers * l.row_len(4)]);
    most.note("layout", expected, &mut || raw::layout(bandwidth, record, &mut [0; raw::LAYOUT]));
    most.note("modulate", expected, &mut || {
        raw::modulate(bandwidth, record, &t.markers, flat(&t.phasors), 4, &bits, &drawn, &mut sent)
    });
    let (mut phases, mut row) = (vec![0.0; l.carriers], vec![0.0; l.carriers * 4096]);
    most.note("nco_phase", expected, &mut || raw::nco_phase(bandwidth, record, 4096, &mut phases, &mut row));
    let (waves, mut window) = (vec![0.5; 2 * l.carriers * 4096], vec![0.0; 4096]);
    most.note("carrier_audio", expected, &mut || {
        raw::carrier_audio(bandwidth, record, 4, &sent, 40_000, 4096, &waves, &mut phases, &mut window)
    });
}

/// Every call of a layout's receiving: a list of feeds that begins to search and trims its tracks, a frame, a silence.
fn receiving(l: &Layout, record: u32, expected: Result<(), u32>, most: &mut Most) {
    let (bandwidth, t, book, samples) = (l.bandwidth, tables(l), rows::turn_book(), noise(4000));
    let (markers, phasors) = (&t.markers, flat(&t.phasors));
    let (mut state, mut metric, mut memory) = ([0; raw::STATE], 0.0, vec![0.0; 2 * l.memory_len()]);
    most.note("open", expected, &mut || {
        raw::open(bandwidth, record, markers, phasors, 0, flat(&book), &mut state, &mut metric)
    });
    for number in (0..12).map(|i| 4000 * i) {
        most.note("feed", expected, &mut || {
            let (book, samples) = (flat(&book), flat(&samples));
            raw::feed(bandwidth, record, markers, phasors, book, &mut state, &mut metric, &mut memory, number, samples)
                .map(drop)
        });
    }
    let (receiver, t0) = released(l);
    let (held, t) = (receiver.state(), receiver.locate(&t, t0).expect("a frame").t);
    let mut found = 0;
    most.note("locate", expected, &mut || {
        let (numbers, memory) = (&held.numbers, receiver.memory());
        let result = &mut [0.0; raw::LOCATED];
        raw::locate(bandwidth, record, markers, phasors, numbers, held.metric, memory, t0, &mut found, result)
    });
    let silence = vec![0.0; receiver.memory().len()];
    let (mut scratch, mut out) = (vec![0.0; 2 * l.scratch_len()], vec![0.0; l.payload]);
    for lent in [drift(l, t, false), drift(l, t, true)] {
        for (memory, expected) in [(receiver.memory(), expected), (&silence, expected.and(Err(24)))] {
            most.note("read", expected, &mut || {
                let (numbers, drift, result) = (&held.numbers, flat(&lent), &mut [0.0; raw::READING]);
                let (metric, scratch, out) = (held.metric, &mut scratch, &mut out);
                raw::read(
                    bandwidth, record, markers, phasors, numbers, metric, memory, t0, drift, scratch, out, &mut found,
                    result,
                )
            });
        }
    }
}

/// The calls on payloads and on a hold by itself.
fn small(l: &Layout, record: u32, expected: Result<(), u32>, most: &mut Most) {
    let (soft, bits) = (vec![0.5; l.payload], payload(l, 1));
    let mut out = vec![0; l.payload];
    most.note("payload_bits", expected, &mut || raw::payload_bits(l.bandwidth, record, &soft, &mut out));
    most.note("meter", expected, &mut || raw::meter(l.bandwidth, record, &bits, &bits).map(drop));
    let (markers, mut timed) = (tables(l).markers, vec![0.0; l.payload]);
    most.note("by_time", expected, &mut || raw::by_time(l.bandwidth, record, &markers, &soft, &mut timed));
    most.note("by_carrier", expected, &mut || raw::by_carrier(l.bandwidth, record, &markers, &soft, &mut timed));
    let mut drawn = vec![0; markers.len()];
    most.note("draw_markers", expected, &mut || raw::draw_markers(l.bandwidth, record, &mut 5, 4096, &mut drawn));
    for bits in 1..=5 {
        let step = Complex::new(0.3, -0.2);
        most.note("soft_step", Ok(()), &mut || raw::soft_step(1 << bits, step, 1.0, &mut [0.0; 5][..bits]));
        most.note("nearest_point", Ok(()), &mut || nearest_point(1 << bits, step).map(drop));
        most.note("nearest_point", Err(31), &mut || nearest_point(6, step).map(drop));
        most.note("soft_step", Err(33), &mut || raw::soft_step(1 << bits, step, 0.0, &mut [0.0; 5][..bits]));
    }
    let mut hold = Hold::new(8, 100);
    for position in [100, 120] {
        most.note("offer", Ok(()), &mut || hold.offer(position, Some(25.0)).map(drop));
    }
    most.note("offer", Err(21), &mut || hold.offer(u64::MAX, None).map(drop));
    most.note("decibels", Ok(()), &mut || raw::decibels(0.5, &mut 0));
    most.note("decibels", Err(26), &mut || raw::decibels(3.0, &mut 0));
    most.note("residual", Ok(()), &mut || raw::residual(1.5, -2.5).map(drop));
    most.note("residual", Err(25), &mut || raw::residual(0.0, 0.0).map(drop));
}

fn measure() -> Most {
    let mut most = Most::default();
    for l in Layout::ALL.map(layout) {
        for (record, expected) in [(l.record, Ok(())), (0, Err(1))] {
            sending(&l, record, expected, &mut most);
            receiving(&l, record, expected, &mut most);
            small(&l, record, expected, &mut most);
        }
    }
    most
}

/// Prints the most of each export over all layouts, accepted calls and refused ones.
pub fn report() {
    let thread = thread::Builder::new().stack_size(4 * DEPTH).spawn(measure).expect("a thread");
    let most = thread.join().expect("no panic");
    println!("| export | stack, bytes |\n|---|---|");
    for (name, bytes) in most.0 {
        println!("| dimpstea_{name} | {} |", crate::grouped(bytes as f64));
    }
}
