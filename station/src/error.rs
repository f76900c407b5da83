//! What can go wrong, in words that name the file, the place and the remedy.
use dimpstea::Refusal;
use std::{fmt, io, path::Path};

/// A command that couldn't be done.
#[derive(Debug)]
pub enum Error {
    /// Words of the command line that can't be meant so: what is wrong, and the remedy.
    Words(String),
    /// A file, or a stream: its name, the place in it or nothing, what is wrong there, and the remedy.
    File { name: String, place: String, fault: String, remedy: String },
    /// A proved call refused: which one, its number in document 01, and the remedy.
    Refused { call: &'static str, refusal: Refusal, remedy: String },
    /// `receive` came to the end and no frame was found.
    NoFrame,
    /// Ctrl-C: what was done by then is left.
    Interrupted,
    /// Whoever read standard output has had enough of it (`| head`).
    Closed,
}

impl Error {
    /// A file with a fault at some place.
    pub fn file(name: &Path, place: impl Into<String>, fault: impl Into<String>, remedy: impl Into<String>) -> Self {
        let name = name.display().to_string();
        Self::File { name, place: place.into(), fault: fault.into(), remedy: remedy.into() }
    }

    /// An answer of the operating system about a file.
    pub fn io(name: &Path, doing: &str, error: &io::Error) -> Self {
        let (fault, remedy) = match error.kind() {
            io::ErrorKind::NotFound => ("there is no such file or folder".into(), "check the name"),
            io::ErrorKind::PermissionDenied => ("permission was denied".into(), "check who may read or write it"),
            io::ErrorKind::AlreadyExists => ("it is there already".into(), "give another name"),
            _ if error.raw_os_error() == Some(28) => ("the disk is full".into(), "make room, or write elsewhere"),
            _ if error.raw_os_error() == Some(21) => ("it is a folder".into(), "give a file"),
            _ => (error.to_string(), "check the name and the disk"),
        };
        Self::file(name, "", format!("{doing} failed: {fault}"), remedy)
    }

    /// A refusal of a proved call.
    pub fn refused(call: &'static str, refusal: impl Into<Refusal>, remedy: impl Into<String>) -> Self {
        Self::Refused { call, refusal: refusal.into(), remedy: remedy.into() }
    }

    /// The exit status: see `dimpstea --help`.
    pub fn status(&self) -> u8 {
        match self {
            Self::Closed => 0,
            Self::NoFrame => 1,
            Self::Words(_) => 2,
            Self::File { .. } => 3,
            Self::Refused { .. } => 4,
            Self::Interrupted => 130,
        }
    }

    /// One line on standard error; nothing where nobody listens any more.
    pub fn show(&self) {
        use io::Write;
        if !matches!(self, Self::Closed) {
            let _ = writeln!(io::stderr(), "dimpstea: {self}");
        }
    }
}

impl fmt::Display for Error {
    fn fmt(&self, f: &mut fmt::Formatter<'_>) -> fmt::Result {
        match self {
            Self::Words(words) => write!(f, "{words}"),
            Self::File { name, place, fault, remedy } if place.is_empty() => write!(f, "{name}: {fault}; {remedy}"),
            Self::File { name, place, fault, remedy } => write!(f, "{name}, {place}: {fault}; {remedy}"),
            Self::Refused { call, refusal, remedy } => write!(f, "{call} {refusal}; {remedy}"),
            Self::NoFrame => write!(f, "no frame was found; check the layout and the tables, or try --all-layouts"),
            Self::Interrupted => write!(f, "interrupted; what was done by then is left"),
            Self::Closed => write!(f, "standard output was closed"),
        }
    }
}

impl std::error::Error for Error {}
