//! Symbols and audio of random sendings, on every layout in turn.
use crate::count::Count;
use crate::random::Random;
use crate::{inputs, reference_side};
use dimpstea::{flat, raw, rows, Complex, Layout, Sending};
use reference::{adaptor, Complex64};

pub fn run(cases: usize, random: &Random, count: &mut Count) {
    for case in 0..cases {
        let (bandwidth, record) = Layout::ALL[case % Layout::ALL.len()];
        let layout = Layout::choose(bandwidth, record).expect("a PSK layout");
        compare_numbers(&layout, count);
        compare_sending(&layout, random, count);
    }
}

/// The layout's numbers beside the reference's own.
fn compare_numbers(l: &Layout, count: &mut Count) {
    let r = reference_side::layout(l);
    let port = (l.carriers, l.spf, l.nsym, l.markers, l.bps, l.payload, l.taps);
    let reference = (r.nc(), r.spf(), r.nsym(), r.markers(), r.bps(), r.n(), r.taps().len());
    let carrier = |c: usize| (l.carrier_hz(c), l.stagger(c)) == (u64::from(r.carriers()[c]), r.stagger(c) as u64);
    count.compare("layouts", port == reference && (0..l.carriers).all(carrier), || {
        format!("layout {}/{}: {port:?}, the reference has {reference:?}", l.bandwidth, l.record)
    });
}

fn compare_sending(layout: &Layout, random: &Random, count: &mut Count) {
    let frames = random.within(1, 4);
    let tables = inputs::tables(layout, random);
    let (payload, draws) = (inputs::payload(layout, frames, random), inputs::draws(layout, frames, random));
    let sending = Sending::new(layout, &tables, frames, &payload, &draws).expect("an accepted sending");
    let sent: Vec<Vec<u8>> = payload.chunks(layout.payload).map(<[u8]>::to_vec).collect();
    let (r, t) = (reference_side::layout(layout), reference_side::tables(layout, &tables));
    let rows = adaptor::symbols(r, &t, &sent, &draws);
    let name = || format!("{}/{}, {frames} frames", layout.bandwidth, layout.record);
    count.compare_all("symbol parts", flat(sending.rows()), &reference_side::parts(&rows.concat()), name);
    // Rows as they were sent, or with other symbols, zeros among them, that the sender never makes.
    let mut symbols = sending.rows().to_vec();
    if random.one_in(2) {
        for symbol in &mut symbols {
            let size = random.pick(&[0.0, 1.0, 256.0]);
            *symbol = Complex::new(size * random.between(-1.0, 1.0), size * random.between(-1.0, 1.0));
        }
    }
    compare_audio(layout, frames, &symbols, random, count);
}

/// Some windows of the signal, one at its end, beside the reference's whole signal.
fn compare_audio(layout: &Layout, frames: usize, symbols: &[Complex], random: &Random, count: &mut Count) {
    let rows: Vec<Vec<Complex64>> = symbols.chunks(layout.row_len(frames)).map(reference_side::numbers).collect();
    let whole = adaptor::audio(reference_side::layout(layout), &rows, &|phase| {
        let wave = Complex::at_angle(f64::from(phase));
        (wave.re, wave.im)
    });
    let length = layout.audio_len(frames) as usize;
    count.compare("audio lengths", whole.len() == length, || {
        format!("audio of {}/{}: {length} places, the reference has {}", layout.bandwidth, layout.record, whole.len())
    });
    let name = || format!("{}/{}, {frames} frames", layout.bandwidth, layout.record);
    for last in [false, false, true] {
        let window = random.pick(&[1, random.within(1, 4096), 4096]);
        let place = if last { length - window } else { random.below(length - window + 1) };
        let mut phases = phases_at(layout, place);
        let mut angles = vec![0.0; layout.carriers * window];
        raw::nco_phase(layout.bandwidth, layout.record, window, &mut phases.clone(), &mut angles).expect("phases");
        let mut out = vec![7.0; window];
        raw::carrier_audio(
            layout.bandwidth,
            layout.record,
            frames as u32,
            flat(symbols),
            place as u64,
            window,
            flat(&rows::waves(&angles)),
            &mut phases,
            &mut out,
        )
        .expect("a window");
        count.compare_all("audio samples", &out, &whole[place..place + window], name);
        compare_phases(layout, place + window, &phases, count);
    }
}

/// Each carrier's phase before a place, by windows from the first place on.
fn phases_at(layout: &Layout, place: usize) -> Vec<f32> {
    let mut phases = vec![0.0; layout.carriers];
    let mut left = place;
    while left > 0 {
        let window = left.min(4096);
        let mut out = vec![0.0; layout.carriers * window];
        raw::nco_phase(layout.bandwidth, layout.record, window, &mut phases, &mut out).expect("phases");
        left -= window;
    }
    phases
}

fn compare_phases(layout: &Layout, place: usize, phases: &[f32], count: &mut Count) {
    let expected = adaptor::phases(reference_side::layout(layout), place);
    for (phase, row) in phases.iter().zip(expected) {
        let last = row.last().copied().unwrap_or(0.0);
        count.compare("phases", phase.to_bits() == last.to_bits(), || {
            format!("phase after place {place}: {phase}, the reference has {last}")
        });
    }
}
