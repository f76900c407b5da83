//! Lists of feeds: each feed's detection beside the reference's, with readings and refused feeds between, neither of
//! which changes anything.
use crate::count::Count;
use crate::random::Random;
use crate::reading::{self, Asked};
use crate::signal::{self, Signal};
use crate::turns::{conj, scaled, times};
use crate::{inputs, reference_side, stored};
use dimpstea::{flat, Complex, Detection, Layout, Receiver, Tables};
use reference::adaptor;

pub fn run(cases: usize, random: &Random, count: &mut Count) {
    for case in 0..cases {
        let (bandwidth, record) = Layout::ALL[case % Layout::ALL.len()];
        let layout = Layout::choose(bandwidth, record).expect("a PSK layout");
        List::new(&layout, random).compare(random, count);
    }
}

/// A list of feeds, and the receivers of both sides.
struct List<'a> {
    layout: &'a Layout,
    signal: Signal,
    start: u64,
    /// Most lists keep their book and their tables; others change them from feed to feed.
    tables: Tables,
    other: Option<Tables>,
    books: Vec<Vec<Complex>>,
    port: Receiver,
    reference: adaptor::Receiver,
}

impl<'a> List<'a> {
    fn new(layout: &'a Layout, random: &Random) -> Self {
        let tables = inputs::tables(layout, random);
        let signal = signal::signal(layout, &tables, random);
        let books: Vec<Vec<Complex>> = (0..random.within(1, 3)).map(|_| inputs::book(random)).collect();
        let other = random.one_in(4).then(|| inputs::tables(layout, random));
        let start = random.bits() >> random.within(24, 63);
        let port = Receiver::open(layout, &tables, start, &books[0]).expect("an accepted opening");
        let (r, t) = (reference_side::layout(layout), reference_side::tables(layout, &tables));
        let reference = adaptor::open(r, &t, start as i64);
        Self { layout, signal, start, tables, other, books, port, reference }
    }

    fn compare(mut self, random: &Random, count: &mut Count) {
        self.compare_points(count);
        let longest = random.pick(&[1, 100, 4000, 4000, 4000]);
        let mut at = 0;
        while at < self.signal.samples.len() {
            let mut len = random.pick(&[0, 1, longest, random.below(longest + 1)]);
            if longest < 4000 && random.one_in(3) {
                len = random.below(4001);
            }
            let next = self.signal.samples[at..self.signal.samples.len().min(at + len)].to_vec();
            at += next.len();
            if random.one_in(8) {
                compare_refused(&mut self.port, &self.tables, &self.books[0], &next, random, count);
            }
            let detection = self.feed(&next, random, count);
            if let Some(detection) = detection {
                count.note("detections");
                self.read_both(detection.position, random, count);
            }
            if random.one_in(20) || detection.is_some() {
                let t0 = self.some_t0(random);
                self.read_both(t0, random, count);
            }
        }
        // Frames that were sent and are still in hand, whether they were detected or not.
        for i in 0..self.signal.frames.len() {
            let t0 = self.start + self.signal.frames[i].at as u64 + random.below(7) as u64;
            self.read_both(t0.saturating_sub(3), random, count);
        }
        let state = self.port.state();
        let kinds = ["states after lists of feeds", "track parts"];
        let memory = self.port.memory();
        stored::compare(self.layout, (&state.numbers, state.metric), memory, &self.reference, kinds, count);
    }

    /// The running points of the frames beside the symbols that were sent: "Symbol = d × conj(phasor) × 178, left to
    /// right".
    fn compare_points(&self, count: &mut Count) {
        let layout = self.layout;
        for frame in &self.signal.frames {
            let points = frame.points.iter().flatten().zip(&self.tables.phasors);
            let made: Vec<Complex> = points.map(|(&d, &phasor)| scaled(times(d, conj(phasor)), 178.0)).collect();
            count.compare_all("parts of sent points", flat(&frame.symbols), flat(&made), || {
                format!("a frame of {}/{}", layout.bandwidth, layout.record)
            });
        }
    }

    fn brought(&self, random: &Random) -> &Tables {
        self.other.as_ref().filter(|_| random.one_in(3)).unwrap_or(&self.tables)
    }

    fn feed(&mut self, samples: &[Complex], random: &Random, count: &mut Count) -> Option<Detection> {
        let book = self.books[random.below(self.books.len())].clone();
        let tables = self.brought(random).clone();
        if self.other.is_some() {
            self.reference.set_tables(&reference_side::tables(self.layout, &tables));
        }
        let expected = self.reference.feed(&reference_side::numbers(samples), &reference_side::numbers(&book));
        let detection = self.port.feed(&tables, &book, samples).expect("an accepted feed");
        compare_detection(detection, &expected, count);
        detection
    }

    /// A position whose frame is in hand, one at an edge of these, or any.
    fn some_t0(&self, random: &Random) -> u64 {
        let n = &self.port.state().numbers;
        let (first, end) = (n[5] + 35, n[5] + n[6]);
        let last = end.saturating_sub(4 + self.layout.max_stagger + 32 * (self.layout.nsym as u64 - 1));
        if first >= last {
            return random.pick(&[0, first, last, u64::MAX]);
        }
        let drift_first = (n[3] + self.layout.delay + 4).clamp(first, last);
        let any = first + random.below((last - first + 1) as usize) as u64;
        let kept = drift_first + random.below((last - drift_first + 1) as usize) as u64;
        random.pick(&[any, any, any, kept, kept, first, first - 1, last, last + 1, drift_first, drift_first - 1])
    }

    /// A reading without drift rows and one with them, by the frames' tables or by others.
    fn read_both(&mut self, t0: u64, random: &Random, count: &mut Count) {
        let tables = self.brought(random).clone();
        self.reference.set_tables(&reference_side::tables(self.layout, &tables));
        let t = self.port.locate(&tables, t0).map_or(t0, |located| located.t);
        let hz = random.pick(&[self.signal.hz, random.within(0, 8) as i64 - 4]);
        let drift = inputs::drift(self.layout, t, hz, random);
        let frames = if tables == self.tables { &self.signal.frames[..] } else { &[] };
        let state = self.port.state();
        for drift in [&[][..], &drift] {
            let asked = Asked {
                layout: self.layout,
                tables: &tables,
                state: &state.numbers,
                metric: state.metric,
                memory: self.port.memory(),
                t0,
                drift,
            };
            reading::compare(&asked, &mut self.reference, frames, count);
        }
        if self.other.is_none() {
            self.reference.set_tables(&reference_side::tables(self.layout, &self.tables));
        }
    }
}

fn compare_detection(detection: Option<Detection>, expected: &[(i64, f64)], count: &mut Count) {
    let bits = |(position, metric): (i64, f64)| (position, metric.to_bits());
    let port: Vec<_> = detection.iter().map(|d| bits((d.position as i64, d.metric))).collect();
    let reference: Vec<_> = expected.iter().copied().map(bits).collect();
    count.compare("feeds", port == reference, || format!("feed: {detection:?}, the reference has {expected:?}"));
}

/// A refused feed leaves the state and the memory as they were.
fn compare_refused(
    port: &mut Receiver,
    tables: &Tables,
    book: &[Complex],
    samples: &[Complex],
    random: &Random,
    count: &mut Count,
) {
    let before = port.clone();
    let number = port.state().sample_end();
    let mut spoilt = samples.to_vec();
    spoilt.push(Complex::new(0.0, f64::NAN));
    let (answer, refusal) = match random.below(4) {
        0 => (port.feed_at(tables, book, number + 1, samples), 19),
        1 => (port.feed(tables, &book[1..], samples), 16),
        2 => (port.feed(tables, book, &vec![Complex::ZERO; 4001]), 18),
        _ => (port.feed(tables, book, &spoilt[spoilt.len().saturating_sub(4000)..]), 20),
    };
    let same = answer.err().map(|r| r.number()) == Some(refusal)
        && port.state() == before.state()
        && port.memory().iter().zip(before.memory()).all(|(a, b)| a.to_bits() == b.to_bits());
    count.compare("refused feeds", same, || format!("a feed that meets {refusal}: {answer:?}"));
}
