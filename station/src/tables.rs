//! Marker tables and phasors: from a file, or the program's own.
//!
//! A file has, for each of its layouts, the words below, a line each; `#` begins a remark:
//!
//! ```text
//! layout 500/4
//! markers 12 40 77 ...      for each carrier: the symbols that are marks, each from 5 to spf - 4
//! phasors 0.25 3.1 ...      for each carrier: nsym angles in radians
//! ```
use crate::{cli, error::Error, random::Random};
use dimpstea::{rows, Layout, Tables};
use std::f64::consts::TAU;
use std::fmt::Write;
use std::path::Path;

/// The seed of the program's own marks where none is given: the state that rnd.rs starts with.
pub const SEED: u32 = 0x05_0000;

/// The most draws of a carrier's marks: all that the modem allows.
const DRAWS: u32 = 4096;

/// The marks and angles that tables are made of, carrier after carrier.
#[derive(Clone, Debug, Default, PartialEq)]
pub struct Numbers {
    markers: Vec<u16>,
    angles: Vec<f64>,
}

impl Numbers {
    /// The program's own numbers of a layout: the modem's generator draws the marks from the seed.
    fn own(layout: &Layout, seed: u32) -> Result<Self, Error> {
        let mut state = seed;
        let drawn = Tables::drawn(layout, &mut state, DRAWS, Vec::new());
        let drawn = drawn.map_err(|refusal| Error::refused("draw_markers", refusal, "give another --marker-seed"))?;
        let mut markers = drawn.markers;
        markers.truncate(layout.carriers * layout.markers);
        let mut random = Random::of(1, &[layout.bandwidth.into(), layout.record.into()]);
        let angles = (0..layout.phasor_count()).map(|_| TAU * random.unit()).collect();
        Ok(Self { markers, angles })
    }

    fn tables(self, layout: &Layout) -> Tables {
        Tables::new(layout, &self.markers, rows::phasors(self.angles))
    }
}

/// The program's own tables of a layout and a seed: the same on every machine, in `send`, `receive` and `trial`.
pub fn own(layout: &Layout, seed: u32) -> Result<Tables, Error> {
    Ok(Numbers::own(layout, seed)?.tables(layout))
}

/// The program's own tables of a layout and a seed, as a file has them.
pub fn own_text(layout: &Layout, seed: u32) -> Result<String, Error> {
    let numbers = Numbers::own(layout, seed)?;
    let mut text = format!("layout {}/{}\n", layout.bandwidth, layout.record);
    let mut row = |word: &str, numbers: Vec<String>| {
        let _ = writeln!(text, "{word} {}", numbers.join(" "));
    };
    for values in numbers.markers.chunks(layout.markers) {
        row("markers", values.iter().map(u16::to_string).collect());
    }
    for angles in numbers.angles.chunks(layout.nsym) {
        row("phasors", angles.iter().map(f64::to_string).collect());
    }
    text.pop();
    Ok(text)
}

/// The tables of a file for one layout, or the program's own where no file is given.
pub fn load(layout: &Layout, file: Option<&Path>, seed: u32) -> Result<Tables, Error> {
    let path = match file {
        None => return own(layout, seed),
        Some(path) => path,
    };
    let found = all(path)?.into_iter().find(|(of, _)| of == layout);
    let fault = || format!("it has no tables of {}/{}", layout.bandwidth, layout.record);
    found.map(|(_, tables)| tables).ok_or_else(|| Error::file(path, "", fault(), "add a section, or give another file"))
}

/// All tables of a file, in its order.
pub fn all(path: &Path) -> Result<Vec<(Layout, Tables)>, Error> {
    let text = std::fs::read(path).map_err(|error| Error::io(path, "reading", &error))?;
    let text = String::from_utf8_lossy(&text);
    let mut sections: Vec<(Layout, Numbers)> = Vec::new();
    for (number, line) in (1..).zip(text.lines()) {
        let wrong = |fault: String| Error::file(path, format!("line {number}"), fault, "see station/README.md");
        let mut words = line.split('#').next().unwrap_or("").split_whitespace();
        match (words.next(), sections.last_mut()) {
            (None, _) => {}
            (Some("layout"), _) => {
                let layout = cli::layout(words.next().unwrap_or("")).map_err(&wrong)?;
                sections.push((layout, Numbers::default()));
            }
            (Some("markers"), Some((_, numbers))) => {
                numbers.markers.extend::<Vec<u16>>(parsed(words, "mark").map_err(&wrong)?)
            }
            (Some("phasors"), Some((_, numbers))) => {
                numbers.angles.extend::<Vec<f64>>(parsed(words, "angle").map_err(&wrong)?)
            }
            (Some(word), Some(_)) => return Err(wrong(format!("`{word}` isn't layout, markers or phasors"))),
            (Some(_), None) => return Err(wrong("a line `layout BANDWIDTH/RECORD` must come first".into())),
        }
    }
    if sections.is_empty() {
        return Err(Error::file(path, "", "it has no tables", "`dimpstea layouts --tables 500/4` shows the form"));
    }
    Ok(sections
        .into_iter()
        .map(|(layout, numbers)| {
            let tables = numbers.tables(&layout);
            (layout, tables)
        })
        .collect())
}

fn parsed<'a, T: std::str::FromStr>(words: impl Iterator<Item = &'a str>, what: &str) -> Result<Vec<T>, String> {
    words.map(|word| word.parse().map_err(|_| format!("`{word}` isn't a number for a {what}"))).collect()
}
