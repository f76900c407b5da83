//! `dimpstea send`: a payload to audio.
use crate::wav::{self, Depth, Writer};
use crate::{cli, error::Error, interrupt, output, progress::Progress, random::Random, tables};
use clap::Args;
use dimpstea::{Layout, Sending, Tables};
use std::fs;
use std::io::{self, Read};
use std::path::{Path, PathBuf};

/// The words of `send`.
#[derive(Args, Debug)]
pub struct Words {
    /// The file of payload bits: text of 0 and 1 (blanks and line ends don't count), or else packed bytes, the high bit
    /// first; `-` is standard input. The last frame is filled up with zeros
    payload: PathBuf,
    /// The layout, as 500/4
    #[arg(short, long, value_parser = cli::layout)]
    layout: Layout,
    /// The WAV file to be written, 48 kHz; `-` is standard output
    #[arg(short, long, value_name = "FILE")]
    output: PathBuf,
    /// Marker tables and phasors; without it the program's own
    #[arg(long, value_name = "FILE")]
    tables: Option<PathBuf>,
    /// The seed that the program's own marks are drawn from, below 2^24: both ends need the same
    #[arg(long, default_value_t = tables::SEED, value_name = "SEED", conflicts_with = "tables")]
    marker_seed: u32,
    /// The seed of the references and leads
    #[arg(long, default_value_t = 1)]
    seed: u64,
    /// Frames of a sending
    #[arg(long, default_value_t = 4, value_parser = clap::value_parser!(u8).range(1..=4))]
    frames: u8,
    /// Seconds of silence after each sending
    #[arg(long, default_value_t = 0.5, value_parser = gap)]
    gap: f64,
    /// Writes 32-bit floats instead of 16-bit numbers
    #[arg(long)]
    float: bool,
    /// Takes the payload for packed bytes even if it looks like text of 0 and 1
    #[arg(long)]
    packed: bool,
}

fn gap(words: &str) -> Result<f64, String> {
    words.parse().ok().filter(|s| (0.0..=3600.0).contains(s)).ok_or_else(|| "seconds from 0 to 3600".into())
}

/// Places of a window of audio.
const WINDOW: usize = 4096;
/// What a carrier's audio stays below in size, whatever is sent: 178 times 1.005, which is as large as a phasor may
/// be, times the greatest sum of a pulse's sizes over places a symbol apart, interpolated; 1.4706 for the longest.
const CARRIER_PEAK: f64 = 1.48;
/// What a file's audio stays below in size, full scale being 1.
pub const FULL: f64 = 0.95;

/// The factor that takes a layout's audio to a file's scale.
pub fn scale(layout: &Layout) -> f64 {
    FULL / (CARRIER_PEAK * layout.carriers as f64)
}

/// Does what they ask for.
pub fn run(words: &Words) -> Result<(), Error> {
    let layout = &words.layout;
    let tables = tables::load(layout, words.tables.as_deref(), words.marker_seed)?;
    let mut bits = payload(&words.payload, words.packed)?;
    let filled = (layout.payload - bits.len() % layout.payload) % layout.payload;
    bits.resize(bits.len() + filled, 0);
    let frames = bits.len() / layout.payload;
    let depth = if words.float { Depth::Float32 } else { Depth::Pcm16 };
    let (most, gap) = (usize::from(words.frames), (words.gap * 48_000.0).round() as u64);
    let samples: u64 = sizes(frames, most).map(|frames| layout.audio_len(frames) + gap).sum();
    if samples * depth.bytes() as u64 > wav::MOST_BYTES {
        return Err(Error::Words(format!("{frames} frames don't fit into a WAV file of 4 GB; send them in parts")));
    }
    let mut writer = Writer::create(&words.output, 48_000, depth, samples)?;
    let progress = Progress::new("sending", Some(samples));
    let mut random = Random::new(words.seed);
    for (part, frames) in bits.chunks(most * layout.payload).zip(sizes(frames, most)) {
        let draws: Vec<u8> = (0..layout.draw_count(frames)).map(|_| random.below(layout.points()) as u8).collect();
        let sent = audio(layout, &tables, frames, part, &draws, |window| {
            progress.advance(window.len() as u64);
            writer.write(window)?;
            interrupt::check()
        });
        let silence = match sent {
            Ok(()) => writer.write(&vec![0.0; gap as usize]),
            Err(error) => Err(error),
        };
        progress.advance(gap);
        writer.settle()?;
        silence?;
    }
    drop(progress);
    report(words, frames, filled, samples)
}

/// The frames of each sending.
fn sizes(frames: usize, most: usize) -> impl Iterator<Item = usize> {
    (0..frames).step_by(most).map(move |from| (frames - from).min(most))
}

/// A sending's audio at the file's scale, window after window.
pub fn audio(
    layout: &Layout,
    tables: &Tables,
    frames: usize,
    payload: &[u8],
    draws: &[u8],
    mut each: impl FnMut(&[f64]) -> Result<(), Error>,
) -> Result<(), Error> {
    let remedy = "check the tables";
    let refused = |refusal| Error::refused("modulate", refusal, remedy);
    let sending = Sending::new(layout, tables, frames, payload, draws).map_err(refused)?;
    let (mut audio, mut window, scale) = (sending.audio(), vec![0.0; WINDOW], scale(layout));
    while audio.left() > 0 {
        window.truncate(audio.left().min(WINDOW as u64) as usize);
        audio.next_window(&mut window).map_err(|refusal| Error::refused("carrier_audio", refusal, remedy))?;
        window.iter_mut().for_each(|x| *x *= scale);
        each(&window)?;
    }
    Ok(())
}

/// The payload bits of a file, a byte each.
fn payload(path: &Path, packed: bool) -> Result<Vec<u8>, Error> {
    let stdin = path == Path::new("-");
    let name = if stdin { Path::new("standard input") } else { path };
    let bytes = if stdin { all(&mut io::stdin()) } else { fs::read(path) };
    let bytes = bytes.map_err(|error| Error::io(name, "reading", &error))?;
    interrupt::check()?;
    let text = !packed && bytes.iter().all(|b| matches!(b, b'0' | b'1') || b.is_ascii_whitespace());
    let bits: Vec<u8> = if text {
        bytes.iter().filter(|b| !b.is_ascii_whitespace()).map(|b| b - b'0').collect()
    } else {
        bytes.iter().flat_map(|b| (0..8).rev().map(move |i| b >> i & 1)).collect()
    };
    if bits.is_empty() {
        return Err(Error::file(name, "", "it has no payload bits", "give text of 0 and 1, or packed bytes"));
    }
    Ok(bits)
}

/// Everything that a stream has, or had when Ctrl-C was met.
fn all(stream: &mut impl Read) -> io::Result<Vec<u8>> {
    let (mut bytes, mut part) = (Vec::new(), [0; 4096]);
    loop {
        let got = wav::fill(stream, &mut part)?;
        bytes.extend(&part[..got]);
        if got < part.len() {
            return Ok(bytes);
        }
    }
}

fn report(words: &Words, frames: usize, filled: usize, samples: u64) -> Result<(), Error> {
    if filled > 0 {
        output::note(&format!("the last frame was filled up with {filled} zeros"));
    }
    if words.output != Path::new("-") {
        let (name, seconds) = (words.output.display(), samples as f64 / 48_000.0);
        let plural = if frames == 1 { "" } else { "s" };
        output::line(&format!("{name}: {frames} frame{plural}, {seconds:.3} s of audio"))?;
    }
    Ok(())
}
