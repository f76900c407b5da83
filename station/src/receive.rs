//! `dimpstea receive`: a recording's frames, found and read.
use crate::source::{Source, PIECE};
use crate::{cli, error::Error, interrupt, output, plot::Pictures, progress::Progress, tables, threads};
use clap::Args;
use dimpstea::{rows, Complex, Detection, Layout, Located, ReadRefusal, Reading, Receiver, Refusal, Residual, Tables};
use rayon::{prelude::*, ThreadPool};
use std::fs::{self, File};
use std::io::Write;
use std::path::{Path, PathBuf};

/// The words of `receive`.
#[derive(Args, Debug)]
pub struct Words {
    /// The recording: a WAV file of any rate from 8 to 192 kHz; `-` is standard input
    recording: PathBuf,
    /// A layout, as 500/4; may be given more than once
    #[arg(short, long, value_parser = cli::layout)]
    layout: Vec<Layout>,
    /// All fifteen layouts at once (which is also done where no layout is given)
    #[arg(long, conflicts_with = "layout")]
    all_layouts: bool,
    /// Marker tables and phasors; without it the program's own
    #[arg(long, value_name = "FILE")]
    tables: Option<PathBuf>,
    /// The seed that the program's own marks are drawn from, below 2^24: both ends need the same
    #[arg(long, default_value_t = tables::SEED, value_name = "SEED", conflicts_with = "tables")]
    marker_seed: u32,
    /// The channel of the recording, from 1 on
    #[arg(long, default_value_t = 1, value_parser = clap::value_parser!(u16).range(1..))]
    channel: u16,
    /// The recording is complex samples at 3 kHz: two little-endian 32-bit floats each, the real part first
    #[arg(long, conflicts_with = "channel")]
    raw: bool,
    /// Writes each frame's soft bits to a file of this folder: little-endian 64-bit floats
    #[arg(long, value_name = "DIR")]
    soft: Option<PathBuf>,
    /// Writes the payload bits to a file, as text, a line for each frame
    #[arg(short, long, value_name = "FILE")]
    output: Option<PathBuf>,
    /// Prints a JSON object for each detection
    #[arg(long)]
    json: bool,
    /// Draws pictures into this folder
    #[arg(long, value_name = "DIR")]
    plot: Option<PathBuf>,
    /// Threads; without it one for each core
    #[arg(long, value_parser = cli::threads)]
    threads: Option<usize>,
}

/// A detection that was released, and what locating and reading it answered.
pub struct Found {
    /// The detection: its position counts 3 kHz samples from the recording's start.
    pub detection: Detection,
    /// Where the frame lies, or refusal 22.
    pub located: Result<Located, Refusal>,
    /// The reading, with drift rows where the residual exceeds 1 Hz.
    pub reading: Result<Reading, ReadRefusal>,
    /// The payload that the soft bits' signs give; empty where the reading was refused.
    pub bits: Vec<u8>,
}

impl Found {
    /// Locates and reads the frame of a detection that the last feed released.
    pub fn new(layout: &Layout, tables: &Tables, receiver: &Receiver, detection: Detection) -> Self {
        let located = receiver.locate(tables, detection.position);
        let reading = match &located {
            Ok(found) => receiver.read(tables, detection.position, &found.drift_rows(layout)),
            Err(_) => receiver.read(tables, detection.position, &[]),
        };
        let bits = reading.as_ref().ok().and_then(|reading| reading.payload(layout).ok()).unwrap_or_default();
        Self { detection, located, reading, bits }
    }

    /// The position of the frame's first symbol, in 3 kHz samples.
    pub fn position(&self) -> u64 {
        self.located.as_ref().map_or(self.detection.position, |located| located.t)
    }

    /// The time of the frame's first symbol, in seconds from the recording's start.
    pub fn seconds(&self) -> f64 {
        self.position() as f64 / 3000.0
    }

    /// The metric where the frame lies.
    fn metric(&self) -> f64 {
        self.located.as_ref().map_or(self.detection.metric, |located| located.chi)
    }

    /// The residual in Hz that drift rows take out, which is 0 unless it exceeds 1 Hz in size.
    fn drift_hz(&self) -> f64 {
        self.located.as_ref().map_or(0.0, Located::residual_hz)
    }

    /// The residual in thirty-seconds of a hertz, the same on every machine; none where the frame isn't located.
    fn residual(&self) -> Option<Residual> {
        self.located.as_ref().ok().and_then(|located| located.residual().ok())
    }
}

/// Does what they ask for.
pub fn run(words: &Words) -> Result<(), Error> {
    let mut source = Source::open(&words.recording, words.raw, usize::from(words.channel) - 1)?;
    for folder in [&words.soft, &words.plot].into_iter().flatten() {
        fs::create_dir_all(folder).map_err(|error| Error::io(folder, "making the folder", &error))?;
    }
    let mut show = Show::new(words)?;
    let mut desks = desks(words)?;
    let received = receive(&mut source, &mut desks, &mut show, &threads::pool(words.threads)?);
    for desk in desks {
        if let Some(pictures) = desk.pictures {
            pictures.finish()?;
        }
    }
    received?;
    if let Some(cut) = source.cut() {
        cut.show();
    }
    interrupt::check()?;
    output::note(&format!("{} found in {:.1} s of audio", show.count(), source.made() as f64 / 3000.0));
    if show.found == 0 {
        return Err(Error::NoFrame);
    }
    Ok(())
}

/// The receivers that the words ask for.
fn desks(words: &Words) -> Result<Vec<Desk>, Error> {
    let chosen = match (&words.layout[..], &words.tables) {
        ([], None) => {
            let all = Layout::ALL.iter().map(|&(bandwidth, record)| {
                let layout = Layout::choose(bandwidth, record)
                    .map_err(|r| Error::refused("layout", r, "build the library again"))?;
                let tables = tables::own(&layout, words.marker_seed)?;
                Ok((layout, tables))
            });
            all.collect::<Result<_, Error>>()?
        }
        ([], Some(file)) => tables::all(file)?,
        (layouts, file) => {
            let loaded = layouts
                .iter()
                .map(|layout| Ok((layout.clone(), tables::load(layout, file.as_deref(), words.marker_seed)?)));
            loaded.collect::<Result<_, Error>>()?
        }
    };
    chosen.into_iter().map(|(layout, tables)| Desk::new(layout, tables, words.plot.as_deref())).collect()
}

/// Feeds the recording to every desk, piece by piece, and shows what they find. This thread reads, for it is the one
/// whose waiting Ctrl-C breaks off; the pool's threads feed.
fn receive(source: &mut Source, desks: &mut [Desk], show: &mut Show, pool: &ThreadPool) -> Result<(), Error> {
    let (book, progress) = (rows::turn_book(), Progress::new("receiving", source.left()));
    let mut piece = Vec::with_capacity(PIECE);
    loop {
        let more = source.next(&mut piece)?;
        if interrupt::met() {
            return Err(Error::Interrupted);
        }
        let feed = |desk: &mut Desk| if more { desk.feed(&book, &piece) } else { desk.end(&book) };
        let found: Vec<_> = pool.install(|| desks.par_iter_mut().map(feed).collect());
        for (desk, found) in desks.iter().zip(found) {
            if let Some(found) = found.map_err(|refusal| refused(refusal, source))? {
                progress.aside(|| show.found(&desk.layout, &found))?;
            }
        }
        if !more {
            return Ok(());
        }
        progress.advance(piece.len() as u64);
    }
}

fn refused(refusal: Refusal, source: &Source) -> Error {
    let seconds = source.made() as f64 / 3000.0;
    let remedy = match refusal.number() {
        20 => "record it again, or convert it with `sox FILE -b 16 out.wav`",
        _ => "check the tables",
    };
    Error::refused("feed", refusal, format!("{} within the half second before {seconds:.1} s; {remedy}", source.name()))
}

/// A layout's receiver.
struct Desk {
    layout: Layout,
    tables: Tables,
    receiver: Receiver,
    pictures: Option<Pictures>,
}

impl Desk {
    fn new(layout: Layout, tables: Tables, plot: Option<&Path>) -> Result<Self, Error> {
        let receiver = Receiver::open(&layout, &tables, 0, &rows::turn_book())
            .map_err(|refusal| Error::refused("open", refusal, "check the tables"))?;
        let pictures = plot.map(|folder| Pictures::new(folder, &layout)).transpose()?;
        Ok(Self { layout, tables, receiver, pictures })
    }

    fn feed(&mut self, book: &[Complex], samples: &[Complex]) -> Result<Option<Found>, Refusal> {
        let detection = self.receiver.feed(&self.tables, book, samples)?;
        let found = detection.map(|detection| Found::new(&self.layout, &self.tables, &self.receiver, detection));
        if let Some(pictures) = &mut self.pictures {
            pictures.fed(&self.receiver, &self.tables, samples);
            if let Some(found) = &found {
                pictures.found(&self.tables, found);
            }
        }
        Ok(found)
    }

    /// Feeds the silence after a recording's end that releases a frame whose last symbol the recording still has: the
    /// filter's delay, and the 10 positions after which a held candidate is released.
    fn end(&mut self, book: &[Complex]) -> Result<Option<Found>, Refusal> {
        self.feed(book, &vec![Complex::ZERO; self.layout.delay as usize + 12])
    }
}

/// Shows what was found, in lines and in files.
struct Show<'a> {
    words: &'a Words,
    payload: Option<File>,
    shorten: bool,
    found: u64,
}

/// Bits that a line shows at a terminal.
const SHOWN: usize = 24;

impl<'a> Show<'a> {
    fn new(words: &'a Words) -> Result<Self, Error> {
        let make = |path: &PathBuf| File::create(path).map_err(|error| Error::io(path, "making the file", &error));
        let payload = words.output.as_ref().map(make).transpose()?;
        Ok(Self { words, payload, shorten: output::at_terminal(), found: 0 })
    }

    fn count(&self) -> String {
        let plural = if self.found == 1 { "" } else { "s" };
        format!("{} frame{plural}", self.found)
    }

    fn found(&mut self, layout: &Layout, found: &Found) -> Result<(), Error> {
        self.found += 1;
        let bits: String = found.bits.iter().map(|&bit| if bit == 0 { '0' } else { '1' }).collect();
        let soft = match (&self.words.soft, &found.reading) {
            (Some(folder), Ok(reading)) => Some(write_soft(folder, layout, found.position(), reading)?),
            _ => None,
        };
        if let (Some(file), Some(path), Ok(_)) = (&mut self.payload, &self.words.output, &found.reading) {
            writeln!(file, "{bits}").map_err(|error| Error::io(path, "writing", &error))?;
        }
        let text =
            if self.words.json { json(layout, found, &bits, soft.as_deref()) } else { self.line(layout, found, &bits) };
        output::line(&text)
    }

    fn line(&self, layout: &Layout, found: &Found, bits: &str) -> String {
        let (name, seconds) = (format!("{}/{}", layout.bandwidth, layout.record), found.seconds());
        let begin = format!(
            "{seconds:>9.3} s  {name:<7}  position {:>8}  metric {:>7.2}  residual {} Hz",
            found.position(),
            found.metric(),
            found.residual().map_or_else(|| format!("{:>9}", "-"), |residual| format!("{:>+9.5}", residual.hz()))
        );
        match &found.reading {
            Ok(reading) if self.shorten && bits.len() > SHOWN => {
                format!("{begin}  {}  {} bits {}...", figures(layout, reading), bits.len(), &bits[..SHOWN])
            }
            Ok(reading) => format!("{begin}  {}  bits {bits}", figures(layout, reading)),
            Err(refused) => format!("{begin}  read {refused}"),
        }
    }
}

/// A reading's figures; a median without decibels (refusal 26, as of a frame without any noise) has no SNR.
fn figures(layout: &Layout, reading: &Reading) -> String {
    let snr = reading.snr_db(layout).map_or_else(|_| format!("{:>5}", "-"), |snr| format!("{snr:>+5.1}"));
    format!("noise {:.5}  median {:.5}  SNR {snr} dB", reading.nvar, reading.median)
}

/// A detection as a JSON object.
fn json(layout: &Layout, found: &Found, bits: &str, soft: Option<&Path>) -> String {
    let mut fields = vec![
        format!("\"layout\":\"{}/{}\"", layout.bandwidth, layout.record),
        format!("\"seconds\":{}", found.seconds()),
        format!("\"position\":{}", found.position()),
        format!("\"released_position\":{}", found.detection.position),
        format!("\"metric\":{}", found.metric()),
        format!("\"residual_hz\":{}", found.drift_hz()),
        format!(
            "\"residual_thirty_seconds\":{}",
            found.residual().map_or_else(|| "null".into(), |residual| residual.thirty_seconds.to_string())
        ),
    ];
    match &found.reading {
        Ok(reading) => {
            fields.push(format!("\"noise_variance\":{}", reading.nvar));
            fields.push(format!("\"median\":{}", reading.median));
            let snr = reading.snr_db(layout).map_or_else(|_| "null".to_string(), |snr| format!("{snr:.1}"));
            fields.push(format!("\"snr_db\":{snr}"));
            fields.push(format!("\"bits\":\"{bits}\""));
        }
        Err(refused) => {
            fields.push(format!("\"refused\":{}", refused.refusal.number()));
            fields.push(format!("\"words\":{}", quoted(refused.refusal.meaning())));
        }
    }
    fields.extend(soft.map(|path| format!("\"soft\":{}", quoted(&path.display().to_string()))));
    format!("{{{}}}", fields.join(","))
}

/// Text as JSON has it.
fn quoted(text: &str) -> String {
    let mut quoted = String::from("\"");
    for c in text.chars() {
        match c {
            '"' | '\\' => quoted.extend(['\\', c]),
            c if c < ' ' => quoted.push_str(&format!("\\u{:04x}", c as u32)),
            c => quoted.push(c),
        }
    }
    quoted.push('"');
    quoted
}

/// Writes a frame's soft bits to its own file of the folder.
fn write_soft(folder: &Path, layout: &Layout, position: u64, reading: &Reading) -> Result<PathBuf, Error> {
    let path = folder.join(format!("{}-{}-{position:010}.f64", layout.bandwidth, layout.record));
    let bytes: Vec<u8> = reading.soft.iter().flat_map(|soft| soft.to_le_bytes()).collect();
    fs::write(&path, bytes).map_err(|error| Error::io(&path, "writing", &error))?;
    Ok(path)
}
