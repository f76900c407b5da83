//! The station program over the proved modem: audio in, payload out.
//!
//! It isn't proved. Every decision about the signal is a proved call's (crate `dimpstea`); what is here reads and
//! writes files, turns audio into 3 kHz samples, and shows what the calls answered.

pub mod channel;
pub mod cli;
pub mod error;
pub mod frontend;
pub mod interrupt;
pub mod layouts;
pub mod output;
pub mod plot;
pub mod progress;
pub mod random;
pub mod receive;
pub mod send;
pub mod source;
pub mod tables;
pub mod threads;
pub mod trial;
pub mod wav;

use clap::Parser;
use std::process::ExitCode;

/// Does what the words of the command line ask for, and answers with the exit status.
pub fn main() -> ExitCode {
    interrupt::watch();
    let words = cli::Words::parse();
    match cli::run(&words) {
        Ok(()) => ExitCode::SUCCESS,
        Err(error) => {
            error.show();
            ExitCode::from(error.status())
        }
    }
}
