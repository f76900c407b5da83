//! WAV files, read and written as streams: PCM of 8, 16, 24 and 32 bits and floats of 32 and 64, any channels.
//!
//! The chunks may come in any order in a file; in a stream `fmt ` must come before `data`. A data chunk whose length
//! is 0 or that of a recorder that didn't know it (from 2^31 - 4096 on) runs to the end, if it comes from a stream.
use crate::error::Error;
use std::fs::File;
use std::io::{self, Read, Seek, SeekFrom, Write};
use std::path::{Path, PathBuf};

/// How a sample is stored.
#[derive(Clone, Copy, Debug, PartialEq, Eq)]
pub enum Depth {
    Pcm8,
    Pcm16,
    Pcm24,
    Pcm32,
    Float32,
    Float64,
}

impl Depth {
    /// Bytes of a sample.
    pub fn bytes(self) -> usize {
        match self {
            Self::Pcm8 => 1,
            Self::Pcm16 => 2,
            Self::Pcm24 => 3,
            Self::Pcm32 | Self::Float32 => 4,
            Self::Float64 => 8,
        }
    }

    /// The sample of as many bytes, full scale being 1.
    fn sample(self, b: &[u8]) -> f64 {
        match self {
            Self::Pcm8 => (f64::from(b[0]) - 128.0) / 128.0,
            Self::Pcm16 => f64::from(i16::from_le_bytes([b[0], b[1]])) / 32768.0,
            Self::Pcm24 => f64::from(i32::from_le_bytes([0, b[0], b[1], b[2]])) / 2_147_483_648.0,
            Self::Pcm32 => f64::from(i32::from_le_bytes([b[0], b[1], b[2], b[3]])) / 2_147_483_648.0,
            Self::Float32 => f64::from(f32::from_le_bytes([b[0], b[1], b[2], b[3]])),
            Self::Float64 => f64::from_le_bytes([b[0], b[1], b[2], b[3], b[4], b[5], b[6], b[7]]),
        }
    }
}

/// What the `fmt ` chunk says.
#[derive(Clone, Copy, Debug, PartialEq, Eq)]
pub struct Format {
    pub channels: usize,
    pub rate: u32,
    pub depth: Depth,
}

impl Format {
    /// Bytes of one sample of every channel.
    fn block(&self) -> usize {
        self.channels * self.depth.bytes()
    }

    /// The format of the chunk's bytes, or what is wrong with it.
    fn of(b: &[u8]) -> Result<Self, String> {
        let u16_at = |i: usize| u16::from_le_bytes([b[i], b[i + 1]]);
        if b.len() < 16 {
            return Err(format!("the chunk \"fmt \" has {} bytes, not 16 or more", b.len()));
        }
        // An extensible format has its own number at byte 24.
        let extensible = u16_at(0) == 0xfffe && b.len() >= 26;
        let (kind, bits) = (if extensible { u16_at(24) } else { u16_at(0) }, u16_at(14));
        let depth = match (kind, bits) {
            (1, 8) => Depth::Pcm8,
            (1, 16) => Depth::Pcm16,
            (1, 24) => Depth::Pcm24,
            (1, 32) => Depth::Pcm32,
            (3, 32) => Depth::Float32,
            (3, 64) => Depth::Float64,
            _ => return Err(format!("format {kind} with {bits} bits isn't PCM of 8, 16, 24, 32 or float of 32, 64")),
        };
        let format = Self { channels: u16_at(2).into(), rate: u32::from_le_bytes([b[4], b[5], b[6], b[7]]), depth };
        match (format.channels, format.block() == usize::from(u16_at(12))) {
            (0, _) => Err("there are no channels".into()),
            (_, false) => Err(format!("a block of {} bytes isn't {} x {bits} bits", u16_at(12), format.channels)),
            _ => Ok(format),
        }
    }
}

/// A source that chunks can be skipped in.
trait Source: Read + Send {
    /// Skips so many bytes.
    fn skip(&mut self, bytes: u64) -> io::Result<()>;
    /// Goes back to a byte: false where that can't be done.
    fn go_back(&mut self, to: u64) -> io::Result<bool>;
    /// Whether it may still be written to, so that lengths may be unknown.
    fn is_stream(&self) -> bool;
}

impl Source for io::BufReader<File> {
    fn skip(&mut self, bytes: u64) -> io::Result<()> {
        self.seek(SeekFrom::Current(i64::try_from(bytes).unwrap_or(i64::MAX))).map(|_| ())
    }
    fn go_back(&mut self, to: u64) -> io::Result<bool> {
        self.seek(SeekFrom::Start(to)).map(|_| true)
    }
    fn is_stream(&self) -> bool {
        false
    }
}

/// Anything that is read once, from its start to its end.
struct Stream<R>(R);

impl<R: Read> Read for Stream<R> {
    fn read(&mut self, out: &mut [u8]) -> io::Result<usize> {
        self.0.read(out)
    }
}

impl<R: Read + Send> Source for Stream<R> {
    fn skip(&mut self, bytes: u64) -> io::Result<()> {
        let skipped = io::copy(&mut (&mut self.0).take(bytes), &mut io::sink())?;
        if skipped < bytes {
            return Err(io::ErrorKind::UnexpectedEof.into());
        }
        Ok(())
    }
    fn go_back(&mut self, _to: u64) -> io::Result<bool> {
        Ok(false)
    }
    fn is_stream(&self) -> bool {
        true
    }
}

/// A WAV file that is read from its first sample to its last.
pub struct Reader {
    source: Box<dyn Source>,
    name: PathBuf,
    format: Format,
    /// The byte that is read next.
    at: u64,
    /// Bytes of the data chunk that are still to come, if that is known.
    left: Option<u64>,
    cut: Option<Error>,
}

const CONVERT: &str = "convert it with `sox FILE -b 16 out.wav`";

impl Reader {
    /// Opens a file.
    pub fn open(path: &Path) -> Result<Self, Error> {
        let file = File::open(path).map_err(|error| Error::io(path, "opening", &error))?;
        match file.metadata() {
            Ok(about) if about.is_dir() => Err(Error::file(path, "", "it is a folder", "give a WAV file")),
            Ok(about) if about.is_file() => Self::new(Box::new(io::BufReader::with_capacity(1 << 16, file)), path),
            _ => Self::stream(file, path),
        }
    }

    /// Reads a stream, as standard input is one; `name` is for errors.
    pub fn stream(source: impl Read + Send + 'static, name: &Path) -> Result<Self, Error> {
        Self::new(Box::new(Stream(source)), name)
    }

    fn new(mut source: Box<dyn Source>, name: &Path) -> Result<Self, Error> {
        let (format, at, left) = Chunks::find(&mut *source, name)?;
        Ok(Self { source, name: name.into(), format, at, left, cut: None })
    }

    /// The format.
    pub fn format(&self) -> Format {
        self.format
    }

    /// Samples of a channel that are still to come, if the file says so.
    pub fn left(&self) -> Option<u64> {
        self.left.map(|bytes| bytes / self.format.block() as u64)
    }

    /// What is wrong with the end, once it was reached: fewer bytes than promised, or half a sample.
    pub fn cut(&mut self) -> Option<Error> {
        self.cut.take()
    }

    /// Appends up to `most` samples of a channel, counted from 0: fewer at the end, none after it.
    pub fn read(&mut self, channel: usize, most: usize, out: &mut Vec<f64>) -> Result<usize, Error> {
        let (block, depth) = (self.format.block(), self.format.depth);
        // A file of very many channels is read in smaller parts.
        let most = most.min((1 << 20) / block + 1) * block;
        let wanted = self.left.map_or(most, |left| left.min(most as u64) as usize);
        let mut bytes = vec![0; wanted];
        let got = fill(&mut *self.source, &mut bytes).map_err(|error| Error::io(&self.name, "reading", &error))?;
        self.at += got as u64;
        if let Some(left) = &mut self.left {
            *left -= got as u64;
        }
        if got < wanted || got % block != 0 {
            self.end(got % block, wanted - got);
        }
        let from = channel * depth.bytes();
        out.extend(bytes[..got].chunks_exact(block).map(|b| depth.sample(&b[from..])));
        Ok(got / block)
    }

    /// Notes how the data ended before its time.
    fn end(&mut self, odd: usize, missing: usize) {
        let fault = match self.left {
            Some(left) if missing > 0 => format!("the recording was cut: {left} bytes of its samples are missing"),
            _ if odd > 0 => format!("the recording ends within a sample, {odd} bytes into it"),
            _ => return,
        };
        self.left = Some(0);
        self.cut = Some(Error::file(&self.name, format!("byte {}", self.at), fault, "what is there was used"));
    }
}

/// Goes through the chunks, from the first byte on.
struct Chunks<'a> {
    source: &'a mut dyn Source,
    name: &'a Path,
    at: u64,
    format: Option<Format>,
    /// The data chunk's first byte and its length.
    data: Option<(u64, u64)>,
    /// The data chunk's length of a file above 4 GB.
    long: Option<u64>,
}

impl<'a> Chunks<'a> {
    /// Finds the format and the samples, and leaves the source at the first of them: their format, first byte and
    /// length, if that is known.
    fn find(source: &'a mut dyn Source, name: &'a Path) -> Result<(Format, u64, Option<u64>), Error> {
        let mut chunks = Self { source, name, at: 0, format: None, data: None, long: None };
        chunks.head()?;
        loop {
            let end = chunks.next()?;
            if let (Some(format), Some((data_at, len))) = (chunks.format, chunks.data) {
                chunks.go_to(data_at, end)?;
                let unknown = chunks.source.is_stream() && (len == 0 || len >= (1 << 31) - 4096);
                return Ok((format, data_at, (!unknown).then_some(len)));
            }
        }
    }

    fn broken(&self, fault: impl Into<String>) -> Error {
        Error::file(self.name, format!("byte {}", self.at), fault, CONVERT)
    }

    /// So many bytes, or as many as there are.
    fn bytes(&mut self, count: u64) -> Result<Vec<u8>, Error> {
        let mut bytes = vec![0; count as usize];
        let got = fill(self.source, &mut bytes).map_err(|error| Error::io(self.name, "reading", &error))?;
        bytes.truncate(got);
        Ok(bytes)
    }

    fn skip(&mut self, count: u64) -> Result<(), Error> {
        self.source.skip(count).map_err(|error| Error::io(self.name, "reading", &error))
    }

    /// The file's first twelve bytes.
    fn head(&mut self) -> Result<(), Error> {
        let head = self.bytes(12)?;
        if head.is_empty() {
            return Err(Error::file(self.name, "", "it is empty", "record or send it again"));
        }
        if head.len() < 12 || !matches!(&head[..4], b"RIFF" | b"RF64") || &head[8..] != b"WAVE" {
            let remedy = "give a WAV file, or --raw for complex samples at 3 kHz";
            return Err(Error::file(self.name, "byte 0", "it isn't a WAV file", remedy));
        }
        self.at = 12;
        Ok(())
    }

    /// Takes the next chunk, and answers where it ends. The first data chunk after `fmt ` isn't gone into.
    fn next(&mut self) -> Result<u64, Error> {
        let head = self.bytes(8)?;
        if head.len() < 8 {
            let missing = if self.data.is_none() { "\"data\"" } else { "\"fmt \"" };
            return Err(self.broken(format!("it ends before its chunk {missing}")));
        }
        self.at += 8;
        let mut len = u64::from(u32::from_le_bytes([head[4], head[5], head[6], head[7]]));
        let mut used = 0;
        match &head[..4] {
            b"fmt " => {
                let bytes = self.bytes(len.min(64))?;
                self.format = Some(Format::of(&bytes).map_err(|fault| self.broken(fault))?);
                used = len.min(64);
            }
            b"ds64" => {
                let bytes = self.bytes(len.min(16))?;
                self.long = bytes.get(8..16).and_then(|b| b.try_into().ok()).map(u64::from_le_bytes);
                used = len.min(16);
            }
            b"data" => {
                len = self.long.filter(|_| len == u64::from(u32::MAX)).unwrap_or(len);
                self.data = Some((self.at, len));
            }
            _ => {}
        }
        let padded = len.saturating_add(len % 2);
        if !(&head[..4] == b"data" && self.format.is_some()) {
            self.skip(padded - used)?;
        }
        self.at = self.at.saturating_add(padded);
        Ok(self.at)
    }

    /// Goes back to the samples, if they came before `fmt `, which ends at `end`.
    fn go_to(&mut self, data_at: u64, end: u64) -> Result<(), Error> {
        let (_, len) = self.data.unwrap_or_default();
        let before = end > data_at.saturating_add(len).saturating_add(len % 2);
        let went = !before || self.source.go_back(data_at).map_err(|e| Error::io(self.name, "reading", &e))?;
        if went {
            return Ok(());
        }
        let fault = "the chunk \"data\" comes before \"fmt \", which a stream can't be read with";
        Err(Error::file(self.name, format!("byte {data_at}"), fault, "save it to a file first"))
    }
}

/// Fills as much of `out` as there is, and answers how much; Ctrl-C ends it, also where it breaks off a waiting read.
pub fn fill(source: &mut (impl Read + ?Sized), out: &mut [u8]) -> io::Result<usize> {
    let mut got = 0;
    while got < out.len() && !crate::interrupt::met() {
        match source.read(&mut out[got..]) {
            Ok(0) => break,
            Ok(n) => got += n,
            Err(error) if error.kind() == io::ErrorKind::Interrupted => {}
            Err(error) => return Err(error),
        }
    }
    Ok(got)
}

/// A WAV file of one channel that is written sample after sample.
pub struct Writer {
    file: Box<dyn Sink>,
    name: PathBuf,
    rate: u32,
    depth: Depth,
    samples: u64,
}

/// What is written to: a file, whose header can be put right, or standard output.
trait Sink: Write + Seek + Send {}
impl Sink for io::BufWriter<File> {}

/// Standard output, which can't go back.
struct Out(io::Stdout);

impl Write for Out {
    fn write(&mut self, bytes: &[u8]) -> io::Result<usize> {
        self.0.write(bytes)
    }
    fn flush(&mut self) -> io::Result<()> {
        self.0.flush()
    }
}

impl Seek for Out {
    fn seek(&mut self, _to: SeekFrom) -> io::Result<u64> {
        Err(io::ErrorKind::Unsupported.into())
    }
}

impl Sink for Out {}

/// Bytes of samples that a WAV file can have.
pub const MOST_BYTES: u64 = u32::MAX as u64 - 64;

impl Writer {
    /// Makes a file, or writes to standard output where the name is `-`: the header promises `samples` then.
    pub fn create(path: &Path, rate: u32, depth: Depth, samples: u64) -> Result<Self, Error> {
        let to_stdout = path == Path::new("-");
        let file: Box<dyn Sink> = if to_stdout {
            Box::new(Out(io::stdout()))
        } else {
            let file = File::create(path).map_err(|error| Error::io(path, "making the file", &error))?;
            Box::new(io::BufWriter::with_capacity(1 << 16, file))
        };
        let name = if to_stdout { "standard output".into() } else { path.into() };
        let mut writer = Self { file, name, rate, depth, samples: if to_stdout { samples } else { 0 } };
        let header = writer.header();
        writer.put(&header)?;
        writer.samples = 0;
        Ok(writer)
    }

    fn header(&self) -> Vec<u8> {
        let width = self.depth.bytes() as u32;
        let bytes = self.samples as u32 * width;
        let kind: u16 = if matches!(self.depth, Depth::Float32 | Depth::Float64) { 3 } else { 1 };
        let mut header = Vec::with_capacity(44);
        header.extend(b"RIFF");
        header.extend((36 + bytes + bytes % 2).to_le_bytes());
        header.extend(b"WAVEfmt ");
        header.extend(16u32.to_le_bytes());
        header.extend(kind.to_le_bytes());
        header.extend(1u16.to_le_bytes());
        header.extend(self.rate.to_le_bytes());
        header.extend((self.rate * width).to_le_bytes());
        header.extend((width as u16).to_le_bytes());
        header.extend((8 * width as u16).to_le_bytes());
        header.extend(b"data");
        header.extend(bytes.to_le_bytes());
        header
    }

    fn put(&mut self, bytes: &[u8]) -> Result<(), Error> {
        self.file.write_all(bytes).map_err(|error| self.fault(&error))
    }

    fn fault(&self, error: &io::Error) -> Error {
        match error.kind() {
            io::ErrorKind::BrokenPipe => Error::Closed,
            _ => Error::io(&self.name, "writing", error),
        }
    }

    /// Writes samples, full scale being 1. What is above it is clipped in PCM.
    pub fn write(&mut self, samples: &[f64]) -> Result<(), Error> {
        if (self.samples + samples.len() as u64) * self.depth.bytes() as u64 > MOST_BYTES {
            return Err(Error::file(&self.name, "", "a WAV file can't be longer than 4 GB", "send it in parts"));
        }
        let mut bytes = Vec::with_capacity(samples.len() * self.depth.bytes());
        for &sample in samples {
            match self.depth {
                Depth::Float32 => bytes.extend((sample as f32).to_le_bytes()),
                Depth::Float64 => bytes.extend(sample.to_le_bytes()),
                Depth::Pcm8 => bytes.push((whole(sample, 128.0) + 128) as u8),
                Depth::Pcm16 => bytes.extend((whole(sample, 32768.0) as i16).to_le_bytes()),
                Depth::Pcm24 => bytes.extend(&(whole(sample, 8_388_608.0) as i32).to_le_bytes()[..3]),
                Depth::Pcm32 => bytes.extend((whole(sample, 2_147_483_648.0) as i32).to_le_bytes()),
            }
        }
        self.samples += samples.len() as u64;
        self.put(&bytes)
    }

    /// Puts the header right for what was written so far, so that the file is whole if nothing follows.
    pub fn settle(&mut self) -> Result<(), Error> {
        let header = self.header();
        let settled = match self.file.seek(SeekFrom::Start(0)) {
            Ok(_) => self.file.write_all(&header).and_then(|()| self.file.seek(SeekFrom::End(0)).map(|_| ())),
            Err(error) if error.kind() == io::ErrorKind::Unsupported => Ok(()),
            Err(error) => Err(error),
        };
        settled.and_then(|()| self.file.flush()).map_err(|error| self.fault(&error))
    }
}

/// The nearest whole number of a sample at a scale, clipped to it.
fn whole(sample: f64, scale: f64) -> i64 {
    (sample * scale).round().clamp(-scale, scale - 1.0) as i64
}
