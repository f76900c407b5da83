//! The command line.
use crate::{error::Error, layouts, receive, send, trial};
use clap::{Parser, Subcommand};
use dimpstea::Layout;

/// The station program over the proved PSK modem: audio in, payload out.
///
/// Every decision about the signal is a proved call's: sending, finding, locating and reading frames, and counting
/// differing bits. This program isn't proved: it reads and writes files, turns audio into the 3 kHz samples that the
/// calls take, and shows what they answered.
#[derive(Parser, Debug)]
#[command(name = "dimpstea", version, after_help = AFTER)]
pub struct Words {
    #[command(subcommand)]
    pub command: Command,
}

const AFTER: &str = "\
Examples:
  dimpstea trial
  dimpstea send --layout 500/4 payload.txt -o out.wav
  dimpstea receive out.wav --layout 500/4
  dimpstea layouts

Exit status:
  0    done
  1    receive: no frame was found
  2    words of the command line that can't be meant so
  3    a file or folder that can't be read or written, or is damaged
  4    a call of the modem refused; the line has the number and document 01's words
  130  Ctrl-C; what was done by then is left (a second Ctrl-C ends the program at once)";

#[derive(Subcommand, Debug)]
pub enum Command {
    /// Makes audio of a payload
    #[command(after_help = SEND)]
    Send(send::Words),
    /// Finds and reads the frames of a recording
    #[command(after_help = RECEIVE)]
    Receive(receive::Words),
    /// Sends random payloads through a simulated channel, and counts what is read
    Trial(trial::Words),
    /// Shows the fifteen layouts: payload bits, seconds of a frame, bit rate, carriers
    Layouts(layouts::Words),
}

const SEND: &str = "\
Examples:
  dimpstea send --layout 500/4 payload.txt -o out.wav
  head -c 1000 mail.gz | dimpstea send --layout 2300/7 --float - -o out.wav
  dimpstea send --layout 500/4 payload.txt -o - | aplay

The frames go out in sendings of up to four. A payload of another length than a whole number of frames is filled up
with zeros, and a note says with how many.";

const RECEIVE: &str = "\
Examples:
  dimpstea receive in.wav --layout 500/4
  arecord -r 48000 -f S16_LE -c 1 | dimpstea receive - --all-layouts --json
  dimpstea receive in.wav --layout 2300/7 --soft soft --plot pictures

Each detection is a line, printed as it is released: time of the frame's first symbol in seconds, layout, position in
3 kHz samples, metric, residual in Hz (a whole number of thirty-seconds), noise variance, median phase error of the
marks, SNR to a tenth of a dB (for peaks of 9.4 dB) and the payload bits (at a terminal the first of them). The soft
bits' files load with
  numpy.fromfile('soft/500-4-0000000273.f64', '<f8')
where a negative number means a 1.

Exit status 1 where no frame was found; `dimpstea --help` has the others.";

/// Does what the words ask for.
pub fn run(words: &Words) -> Result<(), Error> {
    match &words.command {
        Command::Send(words) => send::run(words),
        Command::Receive(words) => receive::run(words),
        Command::Trial(words) => trial::run(words),
        Command::Layouts(words) => layouts::run(words),
    }
}

/// A layout from words like `500/4`: for `value_parser`.
pub fn layout(words: &str) -> Result<Layout, String> {
    let remedy = "a layout is BANDWIDTH/RECORD, as 500/4; `dimpstea layouts` shows all fifteen";
    let (bandwidth, record) = words.split_once('/').ok_or(remedy)?;
    match (bandwidth.parse(), record.parse()) {
        (Ok(bandwidth), Ok(record)) => Layout::choose(bandwidth, record).map_err(|r| format!("{r}; {remedy}")),
        _ => Err(remedy.into()),
    }
}

/// A count of threads: for `value_parser`.
pub fn threads(words: &str) -> Result<usize, String> {
    words.parse().ok().filter(|threads| (1..=1024).contains(threads)).ok_or_else(|| "a number from 1 to 1024".into())
}
