//! Readings beside the reference's, on whatever receiver both sides have.
use crate::count::{all_alike, Count};
use crate::model;
use crate::reference_side;
use crate::sent::{self, Frame};
use dimpstea::{flat, meter, payload_bits, raw, Complex, Layout, Refusal, Tables};
use reference::{adaptor, Complex64};

/// What a reading is lent: a receiver's state and memory, tables, a position and drift rows.
pub struct Asked<'a> {
    pub layout: &'a Layout,
    pub tables: &'a Tables,
    pub state: &'a [u64],
    pub metric: f64,
    pub memory: &'a [f64],
    pub t0: u64,
    pub drift: &'a [Complex],
}

/// What a reading is lent to write, and what stands there before.
#[derive(Clone, PartialEq, Debug)]
pub struct Written {
    pub t: u64,
    pub result: Vec<f64>,
    pub scratch: Vec<f64>,
    pub out: Vec<f64>,
}

impl Written {
    pub fn of_reading(layout: &Layout) -> Self {
        let scratch = vec![0.5; 2 * layout.carriers * layout.nsym];
        Self { t: 77, result: vec![0.25; raw::READING], scratch, out: vec![0.75; layout.payload] }
    }

    pub fn alike(&self, other: &Self) -> bool {
        self.t == other.t
            && all_alike(&self.result, &other.result)
            && all_alike(&self.scratch, &other.scratch)
            && all_alike(&self.out, &other.out)
    }

    /// What is left where the reference has read this: the number of the answer, and each buffer.
    pub fn expected(mut self, layout: &Layout, reading: &adaptor::Reading) -> (u32, Self) {
        // "24: g not finite and above 0": the scratch then holds the undivided steps, and nothing else is written.
        if !(reading.g > 0.0 && reading.g.is_finite()) {
            self.scratch = packed(layout, &reading.undivided);
            return (24, self);
        }
        self.t = reading.t as u64;
        let sum = reading.pilot_sum;
        self.result = vec![reading.chi, sum.re, sum.im, reading.g, reading.nvar, reading.median];
        self.scratch = packed(layout, &reading.steps);
        self.out.clone_from(&reading.soft);
        (0, self)
    }
}

/// "steps packed by carrier", the rest zero.
fn packed(layout: &Layout, steps: &[Vec<Complex64>]) -> Vec<f64> {
    let mut scratch = reference_side::parts(&steps.concat());
    scratch.resize(2 * layout.carriers * layout.nsym, 0.0);
    scratch
}

pub fn answer(asked: &Asked, written: &mut Written) -> Result<(), Refusal> {
    let Asked { layout, tables, state, metric, memory, t0, drift } = *asked;
    let Written { t, result, scratch, out } = written;
    let (bandwidth, record, phasors) = (layout.bandwidth, layout.record, flat(&tables.phasors));
    let (markers, drift) = (&tables.markers, flat(drift));
    raw::read(bandwidth, record, markers, phasors, state, metric, memory, t0, drift, scratch, out, t, result)
}

/// Compares a locating and a reading; the reference has the reading's tables. The frames are those that were sent
/// with these tables.
pub fn compare(asked: &Asked, reference: &mut adaptor::Receiver, frames: &[Frame], count: &mut Count) {
    let layout = asked.layout;
    let place = || {
        let rows = if asked.drift.is_empty() { "no drift rows" } else { "drift rows" };
        format!("{}/{} at {} with {rows}", layout.bandwidth, layout.record, asked.t0)
    };
    compare_located(asked, reference, count, place);
    let mut written = Written::of_reading(layout);
    let before = written.clone();
    let number = answer(asked, &mut written).map_or_else(Refusal::number, |()| 0);
    let refused = model::first(model::reading(layout, asked.state, asked.t0, flat(asked.drift)));
    if refused != 0 {
        count.note("readings that meet 22");
        return count.compare("refused readings", number == refused && written == before, || {
            format!("reading of {}: {number}, the model says {refused}", place())
        });
    }
    let drift: Vec<Vec<Complex64>> = asked.drift.chunks(layout.drift_row_len()).map(reference_side::numbers).collect();
    let Some(reading) = reference.read(asked.t0 as i64, &drift) else {
        return count.compare("readings", false, || format!("reading of {}: the reference has none", place()));
    };
    let (expected, left) = before.expected(layout, &reading);
    count.compare("readings", number == expected && written.t == left.t, || {
        format!("reading of {}: {number}, t {}; the reference: {expected}, t {}", place(), written.t, left.t)
    });
    count.compare_all("numbers of readings", &written.result, &left.result, place);
    count.compare_all("scratch parts", &written.scratch, &left.scratch, place);
    count.compare_all("soft bits", &written.out, &left.out, place);
    note(asked, &reading, expected, count);
    if expected == 0 {
        compare_demapped(asked, &written, count, place);
        compare_frames(asked, &written, &reading, frames, count, place);
    }
}

fn note(asked: &Asked, reading: &adaptor::Reading, expected: u32, count: &mut Count) {
    count.note(if asked.drift.is_empty() { "readings without drift rows" } else { "readings with drift rows" });
    if !asked.drift.is_empty() && asked.state[3] > asked.state[2] {
        count.note("readings with drift rows after a trim of the samples");
    }
    if expected == 24 {
        count.note("readings that meet 24");
    }
    if reading.t != asked.t0 as i64 {
        count.note("readings that find another t than t0");
    }
}

fn compare_located(asked: &Asked, reference: &mut adaptor::Receiver, count: &mut Count, place: impl Fn() -> String) {
    let Asked { layout, tables, state, metric, memory, t0, .. } = *asked;
    let (mut t, mut result) = (77, [0.25; raw::LOCATED]);
    let (bandwidth, record, phasors) = (layout.bandwidth, layout.record, flat(&tables.phasors));
    let answer =
        raw::locate(bandwidth, record, &tables.markers, phasors, state, metric, memory, t0, &mut t, &mut result);
    let located = match model::first(model::reading(layout, state, t0, &[])) {
        0 => reference.read(t0 as i64, &[]).map(|r| (r.t as u64, [r.chi, r.pilot_sum.re, r.pilot_sum.im])),
        _ => None,
    };
    let (number, expected) = (answer.map_or_else(Refusal::number, |()| 0), if located.is_some() { 0 } else { 22 });
    let (expected_t, expected_result) = located.unwrap_or((77, [0.25; raw::LOCATED]));
    let same = (number, t) == (expected, expected_t) && all_alike(&result, &expected_result);
    count.compare("locatings", same, || {
        format!(
            "locating of {}: {number}, t {t}, {result:?}; the reference: {expected_t}, {expected_result:?}",
            place()
        )
    });
}

/// The soft bits beside those that the reference's demapper, by itself, gives for the steps that the port has left.
fn compare_demapped(asked: &Asked, written: &Written, count: &mut Count, place: impl Fn() -> String) {
    let layout = asked.layout;
    let steps = cell_steps(layout, asked.tables, &written.scratch);
    let soft = adaptor::soft_bits(layout.bps, &steps, written.result[4]);
    count.compare_all("soft bits of the demapper alone", &written.out, &soft, &place);
    let labels = steps.iter().flat_map(|&step| sent::bits(layout, adaptor::nearest(layout.bps, step)));
    let signs = written.out.iter().map(|s| u8::from(s.is_sign_negative()));
    count.compare("nearest labels of a frame", signs.eq(labels), || format!("signs of soft bits of {}", place()));
}

/// The steps at the data cells.
pub fn cell_steps(layout: &Layout, tables: &Tables, scratch: &[f64]) -> Vec<Complex64> {
    let step = |(carrier, symbol)| {
        let i = 2 * (carrier * (layout.nsym - 1) + symbol - 1);
        Complex64::new(scratch[i], scratch[i + 1])
    };
    sent::cells(layout, tables).into_iter().map(step).collect()
}

/// Demand 3 and the meter's bound, for each frame that was sent: the nearest points are those of the reference's steps,
/// the payload and the meter the port's.
fn compare_frames(
    asked: &Asked,
    written: &Written,
    reading: &adaptor::Reading,
    frames: &[Frame],
    count: &mut Count,
    place: impl Fn() -> String,
) {
    let (layout, alphabet) = (asked.layout, sent::alphabet(asked.layout));
    let cells = sent::cells(layout, asked.tables);
    let nearest: Vec<usize> = cells
        .iter()
        .map(|&(carrier, symbol)| adaptor::nearest(layout.bps, reading.steps[carrier][symbol - 1]))
        .collect();
    let payload: Vec<u8> = nearest.iter().flat_map(|&label| sent::bits(layout, label)).collect();
    let read = payload_bits(layout, &written.out).expect("as many soft bits as a payload has");
    count.compare("payloads read", read == payload, || format!("payload of {}", place()));
    for frame in frames {
        let missed = cells.iter().zip(&nearest).filter(|(&(carrier, symbol), &label)| {
            // "compared as numbers, both zeros alike"
            frame.step(carrier, symbol) != alphabet[label]
        });
        let missed = missed.count() as u64;
        count.compare("frames by demand 3", (read == frame.payload) == (missed == 0), || {
            let equal = read == frame.payload;
            format!("{missed} cells of {} aren't nearest to the step sent; payload equal: {equal}", place())
        });
        let metered = meter(layout, &frame.payload, &read).expect("two payloads");
        let differing = frame.payload.iter().zip(&payload).filter(|(a, b)| a != b).count() as u64;
        let bounded = metered == differing && metered <= layout.bps as u64 * missed;
        count.compare("meters of frames", bounded, || {
            format!("meter of {}: {metered}, counted {differing}, cells missed {missed}", place())
        });
        count.note(match missed {
            0 => "frames read as they were sent",
            _ if 4 * missed < cells.len() as u64 => "frames read with some cells missed",
            _ => "frames other than the one read",
        });
    }
}
