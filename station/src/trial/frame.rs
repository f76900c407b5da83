//! One frame of a trial: sent by the proved `modulate` and `carrier_audio`, through the front end and the channel, fed
//! in random pieces, detected, located, read, and compared with what was sent.
use super::cells;
use super::counts::Counts;
use crate::channel::{self, Fading, PLACES};
use crate::error::Error;
use crate::frontend::FrontEnd;
use crate::random::Random;
use crate::{interrupt, tables};
use dimpstea::{meter, rows, Complex, Detection, Layout, Receiver, Refusal, Sending, Tables};
use std::path::Path;

/// The longest piece that is fed: with it, a frame that was just released can be read with drift rows.
const PIECE: usize = 3965;
/// Half a symbol, in samples: how far from the frame's first symbol it still counts as detected.
const HALF_SYMBOL: f64 = 16.0;

/// What is sent, and through which channel.
#[derive(Clone, Debug)]
pub struct Setting {
    layout: Layout,
    tables: Tables,
    cells: Vec<(usize, usize)>,
    book: Vec<Complex>,
    front_end: FrontEnd,
    fading: Option<Fading>,
    offset_hz: f64,
    seed: u64,
}

/// A frame as it comes out of the channel, but for the noise.
struct Arrived {
    payload: Vec<u8>,
    samples: Vec<Complex>,
    /// The signal's mean power before fading.
    power: f64,
    /// Where the frame's first symbol lies, in samples: on the first path and on the last.
    first_symbol: (f64, f64),
}

/// The streams of random numbers of a frame: each depends on the seed and on the frame's index only.
enum Stream {
    Payload,
    Timing,
    Fading,
    Noise,
    Pieces,
}

impl Setting {
    /// Frames of a layout with the program's own tables, through a channel.
    pub fn new(layout: &Layout, fading: Option<Fading>, offset_hz: f64, seed: u64) -> Result<Self, Error> {
        let tables = tables::own(layout, tables::SEED)?;
        let front_end = FrontEnd::new(48_000, Path::new("the trial's audio"))?;
        let (cells, book) = (cells::cells(layout, &tables), rows::turn_book());
        Ok(Self { layout: layout.clone(), tables, cells, book, front_end, fading, offset_hz, seed })
    }

    /// What one frame counts at each of the SNRs, in dB. It is the same frame, fading and noise at each of them; only
    /// the noise's level differs. Nothing once Ctrl-C was met.
    pub fn frame(&self, index: u64, snrs: &[f64]) -> Result<Option<Vec<Counts>>, Error> {
        if interrupt::met() {
            return Ok(None);
        }
        let arrived = self.send(index)?;
        let noise = channel::noise(arrived.samples.len(), &mut self.random(index, Stream::Noise));
        let mut counts = Vec::with_capacity(snrs.len());
        for &snr in snrs {
            if interrupt::met() {
                return Ok(None);
            }
            let samples = channel::noisy(&arrived.samples, &noise, arrived.power / channel::ratio(snr));
            counts.push(self.receive(index, &arrived, &samples));
        }
        Ok(Some(counts))
    }

    fn random(&self, index: u64, stream: Stream) -> Random {
        Random::of(self.seed, &[index, stream as u64])
    }

    fn send(&self, index: u64) -> Result<Arrived, Error> {
        let (layout, mut random) = (&self.layout, self.random(index, Stream::Payload));
        let payload = random.bits(layout.payload);
        let draws: Vec<u8> = (0..layout.draw_count(1)).map(|_| random.below(layout.points()) as u8).collect();
        let sending = Sending::new(layout, &self.tables, 1, &payload, &draws)
            .map_err(|refusal| Error::refused("modulate", refusal, REPORT))?;
        let audio = audio(&sending)?;
        let mut timing = self.random(index, Stream::Timing);
        // Any 48 kHz place from 400 to 1,000 samples on, so that a symbol falls anywhere between two samples.
        let quiet = PLACES * 400 + timing.below(PLACES * 600);
        let tail = PLACES * 200 + timing.below(PLACES * 200);
        let late = self.fading.map_or(0, |fading| fading.delay_places());
        let path = |delay: usize| {
            let (mut front_end, mut samples) = (self.front_end.clone(), Vec::new());
            front_end.take(&vec![0.0; quiet + delay], &mut samples);
            front_end.take(&audio, &mut samples);
            front_end.take(&vec![0.0; tail + late - delay], &mut samples);
            front_end.end(&mut samples);
            samples
        };
        let early = path(0);
        // The pulse's middle is the delay after the symbol, and that of `interp16_taps` one sample more.
        let lead = quiet as f64 / PLACES as f64 + layout.delay as f64 + 1.0;
        let first_symbol = lead + 32.0 * 8.0;
        let sent = lead as usize..(lead as usize + 32 * (7 + layout.nsym)).min(early.len());
        let power = channel::power(&early[sent]);
        let mut samples = match self.fading {
            Some(fading) => fading.paths(&early, &path(late), &mut self.random(index, Stream::Fading)),
            None => early,
        };
        channel::shift(&mut samples, self.offset_hz);
        let first_symbol = (first_symbol, first_symbol + late as f64 / PLACES as f64);
        Ok(Arrived { payload, samples, power, first_symbol })
    }

    fn receive(&self, index: u64, arrived: &Arrived, samples: &[Complex]) -> Counts {
        let mut counts = Counts { sent: 1, ..Counts::default() };
        if let Err(refusal) = self.feed(index, arrived, samples, &mut counts) {
            *counts.refusals.entry(refusal.number()).or_default() += 1;
        }
        counts
    }

    fn feed(&self, index: u64, arrived: &Arrived, samples: &[Complex], counts: &mut Counts) -> Result<(), Refusal> {
        let mut receiver = Receiver::open(&self.layout, &self.tables, 0, &self.book)?;
        let mut pieces = self.random(index, Stream::Pieces);
        let mut rest = samples;
        while !rest.is_empty() {
            let (piece, after) = rest.split_at(pieces.below(PIECE + 1).min(rest.len()));
            rest = after;
            if let Some(detection) = receiver.feed(&self.tables, &self.book, piece)? {
                let (from, to) = (arrived.first_symbol.0 - HALF_SYMBOL, arrived.first_symbol.1 + HALF_SYMBOL);
                if (from..=to).contains(&(detection.position as f64)) {
                    counts.detected += 1;
                    self.read(&receiver, detection, &arrived.payload, counts)?;
                } else {
                    counts.elsewhere += 1;
                }
            }
        }
        Ok(())
    }

    /// Reads the frame of a detection, with drift rows where the residual exceeds 1 Hz, and compares it.
    fn read(&self, receiver: &Receiver, at: Detection, sent: &[u8], counts: &mut Counts) -> Result<(), Refusal> {
        let located = receiver.locate(&self.tables, at.position)?;
        let reading = receiver.read(&self.tables, at.position, &located.drift_rows(&self.layout))?;
        let wrong = meter(&self.layout, sent, &reading.payload(&self.layout)?)?;
        counts.exact += u64::from(wrong == 0);
        counts.bits += sent.len() as u64;
        counts.bits_wrong += wrong;
        counts.cells += self.cells.len() as u64;
        counts.cells_wrong += cells::wrong(&self.layout, &self.cells, sent, &reading.steps);
        Ok(())
    }
}

const REPORT: &str = "a trial's own sending is never refused: please report it";

/// A sending's whole 48 kHz signal.
fn audio(sending: &Sending) -> Result<Vec<f64>, Error> {
    let (mut audio, mut window) = (sending.audio(), vec![0.0; 4096]);
    let mut all = Vec::with_capacity(audio.left() as usize);
    while audio.left() > 0 {
        window.truncate(audio.left() as usize);
        audio.next_window(&mut window).map_err(|refusal| Error::refused("carrier_audio", refusal, REPORT))?;
        all.extend_from_slice(&window);
    }
    Ok(all)
}
