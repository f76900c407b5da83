//! The fixed list: what the programs replay_symbols, replay_audio, replay_detections, feed_cases, replay_readings and
//! replay_soft_bits print, made from the reference's answers to the inputs of crates/replay_inputs, beside what the
//! repository has them print.
use crate::count::Count;
use reference::adaptor::{self, Layout, Reading, Tables};
use reference::Complex64;
use std::fmt::Write;
use std::fs;
use std::path::Path;

/// Writes the reference's text of each program to target/replays, and compares it with the program's `stdout`.
pub fn run(count: &mut Count) {
    let repository = Path::new(env!("CARGO_MANIFEST_DIR")).join("..");
    let written = repository.join("target/replays");
    fs::create_dir_all(&written).expect("target/replays");
    let programs = [
        ("replay_symbols", symbols()),
        ("replay_audio", audio()),
        ("replay_detections", format!("500 6\n{}", detections(6, 25_700))),
        ("feed_cases", cuttings()),
        ("replay_readings", readings()),
        ("replay_soft_bits", soft_bits()),
    ];
    for (program, text) in programs {
        fs::write(written.join(program), &text).expect("target/replays");
        let kept = fs::read_to_string(repository.join("crates").join(program).join("stdout")).unwrap_or_default();
        count.compare("fixed lists", kept == text, || {
            format!("crates/{program}/stdout isn't target/replays/{program}, which the reference gives")
        });
    }
}

/// The generator of crates/replay_inputs.
struct Chain(u64);

impl Chain {
    fn next(&mut self) -> u64 {
        self.0 = self.0.wrapping_mul(6_364_136_223_846_793_005).wrapping_add(1_442_695_040_888_963_407);
        self.0
    }

    fn draw(&mut self, below: usize) -> usize {
        (self.next() >> 33) as usize % below
    }

    fn draws(&mut self, count: usize, below: usize) -> Vec<u8> {
        (0..count).map(|_| self.draw(below) as u8).collect()
    }

    fn noise(&mut self) -> f64 {
        (self.next() >> 33) as f64 * 0.000_000_000_465_661_287_307_739_3 * 16.0 - 8.0
    }

    fn tables(&mut self, layout: Layout, book: &[Complex64]) -> Tables {
        let (nc, per, row) = (layout.nc(), layout.markers(), layout.spf() - 1);
        let part = (layout.spf() - 8) / per;
        let mut markers = vec![0; nc * (per + row)];
        for carrier in 0..nc {
            for i in 0..per {
                let value = 5 + i * part + self.draw(part);
                markers[carrier * per + i] = value as u16;
                markers[nc * per + carrier * row + value - 2] = 1;
            }
        }
        let phasors = (0..nc).map(|_| (0..layout.nsym()).map(|_| book[self.draw(3000)]).collect()).collect();
        Tables { markers, phasors }
    }

    /// The rows of frames of drawn bits.
    fn rows(&mut self, layout: Layout, tables: &Tables, frames: usize) -> Vec<Vec<Complex64>> {
        let payload: Vec<Vec<u8>> = (0..frames).map(|_| self.draws(layout.n(), 2)).collect();
        let draws = self.draws(layout.nc() * (frames + 8), 1 << layout.bps());
        adaptor::symbols(layout, tables, &payload, &draws)
    }

    /// Each symbol held for 32 samples, turned to its carrier, with noise.
    fn signal(
        &mut self,
        layout: Layout,
        rows: &[Vec<Complex64>],
        book: &[Complex64],
        lead: usize,
        len: usize,
    ) -> Vec<Complex64> {
        let sample = |n: usize| {
            let mut z = Complex64::default();
            for (carrier, row) in rows.iter().enumerate() {
                let late = n.checked_sub(lead + layout.stagger(carrier)).and_then(|k| row.get(k / 32));
                if let Some(symbol) = late {
                    z += symbol * book[layout.carriers()[carrier] as usize * n % 3000].conj();
                }
            }
            z
        };
        (0..len).map(|n| sample(n) + Complex64::new(self.noise(), self.noise())).collect()
    }
}

fn book() -> Vec<Complex64> {
    let turn = Complex64::new(0.999_997_806_755_379_3, -0.002_094_393_571_219_374);
    std::iter::successors(Some(Complex64::new(0.9999, 0.0)), |z| Some(z * turn)).take(3000).collect()
}

fn layout(record: u32) -> Layout {
    adaptor::layout(500, record).expect("a PSK layout")
}

/// The sending of one frame that symbols and audio are made from.
fn one_frame(record: u32) -> Vec<Vec<Complex64>> {
    let (layout, book, mut chain) = (layout(record), book(), Chain(1));
    let tables = chain.tables(layout, &book);
    chain.rows(layout, &tables, 1)
}

fn symbols() -> String {
    let mut text = String::new();
    for record in [4, 6] {
        writeln!(text, "500 {record}").unwrap();
        for symbol in one_frame(record).concat() {
            writeln!(text, "{:016x} {:016x}", symbol.re.to_bits(), symbol.im.to_bits()).unwrap();
        }
    }
    text
}

/// Three windows: place, length, and how many of its last samples are printed.
fn windows(record: u32) -> [(usize, usize, usize); 3] {
    let last = if record == 4 { (204_000, 2623, 48) } else { (196_000, 3023, 48) };
    [(0, 48, 48), (100_000, 96, 96), last]
}

fn audio() -> String {
    let book = book();
    let wave = |phase: f32| {
        let turn = book[phase.to_bits() as usize % 3000];
        (turn.re, turn.im)
    };
    let mut text = String::new();
    for record in [4, 6] {
        let whole = adaptor::audio(layout(record), &one_frame(record), &wave);
        for (place, window, printed) in windows(record) {
            writeln!(text, "500 {record} {place}").unwrap();
            let end = place + window;
            for sample in &whole[end - printed..end] {
                writeln!(text, "{:016x}", sample.to_bits()).unwrap();
            }
            let phases: Vec<String> = adaptor::phases(layout(record), end)
                .iter()
                .map(|row| format!("{:08x}", row[end - 1].to_bits()))
                .collect();
            writeln!(text, "{}", phases.join(" ")).unwrap();
        }
    }
    text
}

/// The detections in so many samples of two frames.
fn detections(record: u32, len: usize) -> String {
    let (layout, book, mut chain) = (layout(record), book(), Chain(1));
    let tables = chain.tables(layout, &book);
    let rows = chain.rows(layout, &tables, 2);
    let samples = chain.signal(layout, &rows, &book, 700, len);
    let mut receiver = adaptor::open(layout, &tables, 1000);
    let mut text = String::new();
    for feed in samples.chunks(4000) {
        for (position, metric) in receiver.feed(feed, &book) {
            writeln!(text, "{position} {:016x}", metric.to_bits()).unwrap();
        }
    }
    text
}

/// feed_cases feeds one signal in three cuttings, whose detections are alike.
fn cuttings() -> String {
    let len = 26_800;
    let found = detections(4, len);
    let cuttings = ["feeds of 4,000 samples", "feeds of drawn lengths", "small feeds"];
    let mut text: String = cuttings.iter().map(|name| format!("{name}\n{len} as told\n{found}")).collect();
    text += "equal\n";
    text
}

fn hex(x: f64) -> String {
    format!("{:016x}", x.to_bits())
}

/// What a reading measures, then every soft bit, four a line.
fn measured(r: &Reading) -> String {
    let mut text = format!("    g {} nvar {} median {}\n", hex(r.g), hex(r.nvar), hex(r.median));
    for line in r.soft.chunks(4) {
        let line: Vec<String> = line.iter().map(|&x| hex(x)).collect();
        writeln!(text, "{}", line.join(" ")).unwrap();
    }
    text
}

fn located(r: &Reading) -> String {
    let sum = r.pilot_sum;
    format!("  read: t {} chi {} pilot sum {} {}\n", r.t, hex(r.chi), hex(sum.re), hex(sum.im))
}

/// Drift rows for a frame at t that turn by `more` Hz more than the book does for the carriers.
fn drift_rows(layout: Layout, book: &[Complex64], t: i64, more: usize) -> Vec<Vec<Complex64>> {
    let delay = (layout.taps().len() - 1) / 2;
    let stagger = (0..layout.nc()).map(|c| layout.stagger(c)).max().unwrap_or(0);
    let first = t as usize - delay - 1;
    let count = stagger + 32 * (layout.nsym() - 1) + 2 * delay + 2;
    let entry = |hz: u32, n: usize| book[(hz as usize + more) * n % 3000];
    layout.carriers().iter().map(|&hz| (first..first + count).map(|n| entry(hz, n)).collect()).collect()
}

/// Two frames of 500/4, each after the feeds that release its detection; the first with drift rows too.
fn readings() -> String {
    let (layout, book, mut chain) = (layout(4), book(), Chain(1));
    let tables = chain.tables(layout, &book);
    let rows = chain.rows(layout, &tables, 2);
    let samples = chain.signal(layout, &rows, &book, 700, 26_800);
    let mut receiver = adaptor::open(layout, &tables, 1000);
    let mut text = String::new();
    for (part, drifting) in [(&samples[..16_000], true), (&samples[16_000..], false)] {
        let released: Vec<_> = part.chunks(4000).flat_map(|feed| receiver.feed(feed, &book)).collect();
        let t0 = released.last().expect("a detection").0;
        let r = receiver.read(t0, &[]).expect("a frame in hand");
        write!(text, "500/4 at {t0}\n{}{}", located(&r), measured(&r)).unwrap();
        if drifting {
            let r = receiver.read(t0, &drift_rows(layout, &book, r.t, 1)).expect("a frame in hand");
            write!(text, "500/4 with drift rows at {t0}\n{}{}", located(&r), measured(&r)).unwrap();
        }
    }
    text
}

/// A frame of each of two larger layouts, read at its detection.
fn soft_bits() -> String {
    let mut text = String::new();
    for (bandwidth, record, len) in [(2300, 7, 12_400), (2750, 10, 12_400)] {
        let layout = adaptor::layout(bandwidth, record).expect("a PSK layout");
        let (book, mut chain) = (book(), Chain(1));
        let tables = chain.tables(layout, &book);
        let rows = chain.rows(layout, &tables, 1);
        let samples = chain.signal(layout, &rows, &book, 700, len);
        let mut receiver = adaptor::open(layout, &tables, 1000);
        let released: Vec<_> = samples.chunks(4000).flat_map(|feed| receiver.feed(feed, &book)).collect();
        let r = receiver.read(released.last().expect("a detection").0, &[]).expect("a frame in hand");
        write!(text, "{bandwidth}/{record}, the frame at {}\n{}", r.t, measured(&r)).unwrap();
    }
    text
}
