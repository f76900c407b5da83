//! Lines on standard output, flushed one by one, so that what is done stays; and notes on standard error.
use crate::error::Error;
use indicatif::ProgressDrawTarget;
use std::io::{self, Write};
use std::path::Path;

/// Writes a line to standard output.
pub fn line(text: &str) -> Result<(), Error> {
    let mut out = io::stdout().lock();
    let written = writeln!(out, "{text}").and_then(|()| out.flush());
    written.map_err(|error| match error.kind() {
        io::ErrorKind::BrokenPipe => Error::Closed,
        _ => Error::io(Path::new("standard output"), "writing", &error),
    })
}

/// Writes a note to standard error.
pub fn note(text: &str) {
    let _ = writeln!(io::stderr(), "dimpstea: {text}");
}

/// Whether a person looks at standard output.
pub fn at_terminal() -> bool {
    !ProgressDrawTarget::stdout().is_hidden()
}
