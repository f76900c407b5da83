//! Where samples at 3 kHz come from: a WAV file through the front end, or raw complex samples.
use crate::wav::{self, Reader};
use crate::{error::Error, frontend::FrontEnd};
use dimpstea::Complex;
use std::fs::File;
use std::io::{self, Read};
use std::path::{Path, PathBuf};

/// Samples of a piece at most: half a second.
pub const PIECE: usize = 1500;

/// A recording that is taken piece by piece, so that memory doesn't grow with its length.
pub struct Source {
    kind: Kind,
    name: PathBuf,
    made: u64,
    cut: Option<Error>,
}

enum Kind {
    Audio(Box<Audio>),
    Raw(Box<dyn Read + Send>),
}

/// A WAV file, and the front end that it goes through.
struct Audio {
    reader: Reader,
    channel: usize,
    front: FrontEnd,
    /// Samples that are made and not yet taken.
    ready: Vec<Complex>,
    ended: bool,
}

impl Source {
    /// Opens a recording; `-` is standard input. Channels are counted from 0.
    pub fn open(path: &Path, raw: bool, channel: usize) -> Result<Self, Error> {
        let stdin = path == Path::new("-");
        let name = if stdin { PathBuf::from("standard input") } else { path.into() };
        let kind = match (raw, stdin) {
            (true, true) => Kind::Raw(Box::new(io::stdin())),
            (true, false) => Kind::Raw(Box::new(raw_file(path)?)),
            (false, true) => audio(Reader::stream(io::stdin(), &name)?, channel, &name)?,
            (false, false) => audio(Reader::open(path)?, channel, &name)?,
        };
        Ok(Self { kind, name, made: 0, cut: None })
    }

    /// The recording's name, for errors.
    pub fn name(&self) -> String {
        self.name.display().to_string()
    }

    /// Samples at 3 kHz that are still to come, about, if the recording says so.
    pub fn left(&self) -> Option<u64> {
        match &self.kind {
            Kind::Audio(a) => Some(a.reader.left()?.saturating_mul(3000) / u64::from(a.reader.format().rate)),
            Kind::Raw(_) => None,
        }
    }

    /// Samples that were taken so far.
    pub fn made(&self) -> u64 {
        self.made
    }

    /// What was wrong with the recording's end, if anything.
    pub fn cut(&mut self) -> Option<Error> {
        self.cut.take()
    }

    /// The next piece, which replaces what `piece` held: false where the recording has ended.
    pub fn next(&mut self, piece: &mut Vec<Complex>) -> Result<bool, Error> {
        piece.clear();
        match &mut self.kind {
            Kind::Audio(audio) => {
                while audio.ready.is_empty() && !audio.ended {
                    audio.make_ready()?;
                    self.cut = self.cut.take().or_else(|| audio.reader.cut());
                }
                piece.extend(audio.ready.drain(..audio.ready.len().min(PIECE)));
            }
            Kind::Raw(source) => {
                let mut bytes = vec![0; 8 * PIECE];
                let got = wav::fill(source, &mut bytes).map_err(|error| Error::io(&self.name, "reading", &error))?;
                piece.extend(bytes[..got].chunks_exact(8).map(complex));
                if got % 8 != 0 {
                    let place = format!("sample {}", self.made + piece.len() as u64);
                    let fault = format!("the recording ends within it, {} bytes into it", got % 8);
                    self.cut = Some(Error::file(&self.name, place, fault, "what is there was used"));
                }
            }
        }
        self.made += piece.len() as u64;
        Ok(!piece.is_empty())
    }
}

impl Audio {
    /// Reads half a second, or comes to the end.
    fn make_ready(&mut self) -> Result<(), Error> {
        let (mut audio, block) = (Vec::new(), PIECE * self.reader.format().rate as usize / 3000);
        if self.reader.read(self.channel, block, &mut audio)? > 0 {
            self.front.take(&audio, &mut self.ready);
        } else {
            self.front.end(&mut self.ready);
            self.ended = true;
        }
        Ok(())
    }
}

fn raw_file(path: &Path) -> Result<File, Error> {
    let file = File::open(path).map_err(|error| Error::io(path, "opening", &error))?;
    match file.metadata() {
        Ok(about) if about.is_dir() => Err(Error::file(path, "", "it is a folder", "give a file")),
        Ok(about) if about.is_file() && about.len() == 0 => {
            Err(Error::file(path, "", "it is empty", "record it again"))
        }
        _ => Ok(file),
    }
}

fn audio(reader: Reader, channel: usize, name: &Path) -> Result<Kind, Error> {
    let format = reader.format();
    if channel >= format.channels {
        let fault = format!("it has {} channels, and channel {} was asked for", format.channels, channel + 1);
        return Err(Error::file(name, "", fault, "give --channel from 1 on"));
    }
    let front = FrontEnd::new(format.rate, name)?;
    Ok(Kind::Audio(Box::new(Audio { reader, channel, front, ready: Vec::new(), ended: false })))
}

/// A complex number of two 32-bit floats.
fn complex(b: &[u8]) -> Complex {
    let part = |i: usize| f64::from(f32::from_le_bytes([b[i], b[i + 1], b[i + 2], b[i + 3]]));
    Complex::new(part(0), part(4))
}
