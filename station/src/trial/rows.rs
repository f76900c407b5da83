//! A trial's rows, as a table to look at and as CSV files, which add up.
use super::counts::Counts;
use crate::channel::Fading;
use crate::cli;
use crate::error::Error;
use crate::plot::{Curve, Panel, Rate};
use dimpstea::Layout;
use std::path::Path;

/// The first line of a CSV file.
pub fn head() -> String {
    format!("layout,fading_hz,delay_spread_ms,offset_hz,snr_db,{}", Counts::FIELDS)
}

/// What the frames were sent through.
#[derive(Clone, Copy, Debug, PartialEq)]
pub struct Through {
    /// The fading; none is white noise alone.
    pub fading: Option<Fading>,
    /// The frequency offset, in Hz.
    pub offset_hz: f64,
}

impl Through {
    /// In words.
    pub fn words(&self) -> String {
        let fading = match self.fading {
            None => "white noise".into(),
            Some(Fading { spread_hz, delay_ms }) => format!("two-path fading, {spread_hz} Hz, {delay_ms} ms"),
        };
        match self.offset_hz {
            0.0 => fading,
            hz => format!("{fading}, {hz} Hz off"),
        }
    }
}

/// The counts of a layout through a channel at one SNR.
#[derive(Clone, Debug, PartialEq)]
pub struct Row {
    /// The layout.
    pub layout: Layout,
    /// The channel.
    pub through: Through,
    /// The SNR, in dB.
    pub snr_db: f64,
    /// What was counted.
    pub counts: Counts,
}

impl Row {
    /// The row as a line of a CSV file.
    pub fn csv(&self) -> String {
        let Self { layout: Layout { bandwidth, record, .. }, through, snr_db, counts } = self;
        let (spread, delay) = match through.fading {
            Some(Fading { spread_hz, delay_ms }) => (spread_hz.to_string(), delay_ms.to_string()),
            None => (String::new(), String::new()),
        };
        format!("{bandwidth}/{record},{spread},{delay},{},{snr_db},{}", through.offset_hz, counts.csv())
    }

    fn of(line: &str) -> Option<Self> {
        let fields: Vec<&str> = line.split(',').collect();
        let (layout, spread, delay, offset, snr, counts) = match fields[..] {
            [layout, spread, delay, offset, snr, ref counts @ ..] => (layout, spread, delay, offset, snr, counts),
            _ => return None,
        };
        let fading = match (spread, delay) {
            ("", "") => None,
            _ => Some(Fading { spread_hz: number(spread)?, delay_ms: number(delay)? }),
        };
        let (layout, through) = (cli::layout(layout).ok()?, Through { fading, offset_hz: number(offset)? });
        Some(Self { layout, through, snr_db: number(snr)?, counts: Counts::of(counts)? })
    }

    fn adds_to(&self, other: &Self) -> bool {
        self.layout == other.layout && self.through == other.through && self.snr_db == other.snr_db
    }
}

fn number(text: &str) -> Option<f64> {
    text.parse().ok().filter(|number: &f64| number.abs() <= 1000.0)
}

/// The rows of CSV files, those of the same layout, channel and SNR added up, in order.
pub fn added(files: &[impl AsRef<Path>]) -> Result<Vec<Row>, Error> {
    let mut rows: Vec<Row> = Vec::new();
    for file in files {
        for row in read(file.as_ref())? {
            match rows.iter_mut().find(|other| other.adds_to(&row)) {
                Some(other) => other.counts += &row.counts,
                None => rows.push(row),
            }
        }
    }
    // The order of what isn't an SNR stays that of the files.
    let order: Vec<(Layout, Through)> = rows.iter().map(|row| (row.layout.clone(), row.through)).collect();
    let place = |row: &Row| order.iter().position(|key| (&key.0, &key.1) == (&row.layout, &row.through));
    rows.sort_by(|a, b| place(a).cmp(&place(b)).then(a.snr_db.total_cmp(&b.snr_db)));
    Ok(rows)
}

fn read(file: &Path) -> Result<Vec<Row>, Error> {
    let text = std::fs::read_to_string(file).map_err(|error| Error::io(file, "reading", &error))?;
    let mut lines = text.lines().enumerate();
    let remedy = "give a file that `dimpstea trial --csv` wrote";
    if lines.next().map(|(_, line)| line) != Some(&head()) {
        return Err(Error::file(file, "line 1", "it isn't the first line of a trial's CSV file", remedy));
    }
    let rows = lines.map(|(number, line)| {
        Row::of(line)
            .ok_or_else(|| Error::file(file, format!("line {}", number + 1), "it isn't a row of a trial", remedy))
    });
    rows.collect()
}

/// The rows as a table, with a heading for each layout and channel.
pub fn table(rows: &[Row]) -> String {
    let mut text = String::new();
    let mut before: Option<&Row> = None;
    for row in rows {
        if !before.map_or(false, |other| other.layout == row.layout && other.through == row.through) {
            if before.is_some() {
                text.push('\n');
            }
            text += &heading(row);
        }
        text += &line(row);
        before = Some(row);
    }
    text
}

fn heading(row: &Row) -> String {
    let Layout { bandwidth, record, payload, .. } = row.layout;
    format!(
        "{bandwidth}/{record} through {}; frames of {payload} bits; SNR in 3 kHz\n\
         {:>7} {:>6} {:>8} {:>6} {:>19} {:>19} {:>9}  {:<20} {}\n",
        row.through.words(),
        "SNR, dB",
        "sent",
        "detected",
        "read",
        "bits wrong",
        "cells wrong",
        "elsewhere",
        "read █ detected ░",
        "refusals"
    )
}

fn line(row: &Row) -> String {
    let counts = &row.counts;
    let share = |part: u64, whole: u64| match (part, whole) {
        (0, _) | (_, 0) => part.to_string(),
        _ => format!("{part} ({:.1e})", part as f64 / whole as f64),
    };
    let refusals = if counts.refusals.is_empty() { "none".into() } else { counts.refusals_text() };
    format!(
        "{:>7} {:>6} {:>8} {:>6} {:>19} {:>19} {:>9}  {:<20} {}\n",
        row.snr_db,
        counts.sent,
        counts.detected,
        counts.exact,
        share(counts.bits_wrong, counts.bits),
        share(counts.cells_wrong, counts.cells),
        counts.elsewhere,
        bar(counts),
        refusals
    )
}

/// Both rates, in twentieths.
fn bar(counts: &Counts) -> String {
    let twentieths = |count: u64| (20.0 * count as f64 / counts.sent.max(1) as f64).round().min(20.0) as usize;
    let (exact, detected) = (twentieths(counts.exact), twentieths(counts.detected));
    "█".repeat(exact) + &"░".repeat(detected.saturating_sub(exact))
}

/// The rows as panels of a picture, one for each channel, with a curve for each layout.
pub fn panels(rows: &[Row]) -> Vec<Panel> {
    let mut panels: Vec<Panel> = Vec::new();
    for row in rows {
        let title = format!("Frames over SNR: {}", row.through.words());
        let name = format!("{}/{}", row.layout.bandwidth, row.layout.record);
        let Counts { sent, detected, exact, .. } = row.counts;
        let rate = Rate { snr_db: row.snr_db, sent, detected, exact };
        let panel = place(&mut panels, |p| p.title == title, || Panel { title: title.clone(), curves: Vec::new() });
        let curve = place(&mut panel.curves, |c| c.name == name, || Curve { name: name.clone(), rates: Vec::new() });
        curve.rates.push(rate);
    }
    panels
}

/// The first thing that is meant, or a new one at the end.
fn place<T>(things: &mut Vec<T>, meant: impl Fn(&T) -> bool, new: impl FnOnce() -> T) -> &mut T {
    let at = things.iter().position(meant).unwrap_or(things.len());
    if at == things.len() {
        things.push(new());
    }
    &mut things[at]
}

#[cfg(test)]
mod tests {
    use super::*;

    fn row(record: u32, fading: Option<Fading>, snr_db: f64, sent: u64) -> Row {
        let counts = Counts {
            sent,
            detected: sent,
            exact: sent / 2,
            bits: 10 * sent,
            bits_wrong: sent / 3,
            cells: 5 * sent,
            cells_wrong: sent / 4,
            elsewhere: 1,
            refusals: [(24, sent)].into(),
        };
        let layout = Layout::choose(500, record).unwrap();
        Row { layout, through: Through { fading, offset_hz: -2.5 }, snr_db, counts }
    }

    const FADING: Option<Fading> = Some(Fading { spread_hz: 0.5, delay_ms: 2.0 });

    #[test]
    fn rows_come_back_from_their_lines() {
        for row in [row(4, None, -6.0, 40), row(14, FADING, 7.125, 0)] {
            assert_eq!(Row::of(&row.csv()), Some(row));
        }
        assert_eq!(Row::of("500/4,,,0,0,1,1,1,1,1,1,1,x,"), None);
        assert_eq!(Row::of("500/7,,,0,0,1,1,1,1,1,1,1,1,"), None);
        assert_eq!(Row::of("500/4,,,nan,0,1,1,1,1,1,1,1,1,"), None);
        assert_eq!(Row::of(""), None);
        assert_eq!(head().split(',').count(), row(4, None, 0.0, 1).csv().split(',').count());
    }

    #[test]
    fn files_add_up() {
        let folder = std::env::temp_dir().join(format!("dimpstea-rows-{}", std::process::id()));
        std::fs::create_dir_all(&folder).unwrap();
        let (first, second) = (folder.join("1.csv"), folder.join("2.csv"));
        let lines = |rows: &[Row]| rows.iter().fold(head(), |text, row| text + "\n" + &row.csv()) + "\n";
        std::fs::write(&first, lines(&[row(4, FADING, 2.0, 3), row(4, None, 2.0, 10)])).unwrap();
        std::fs::write(&second, lines(&[row(4, None, -1.0, 7), row(4, None, 2.0, 30)])).unwrap();
        let rows = added(&[&first, &second]).unwrap();
        let keys: Vec<(bool, f64, u64)> =
            rows.iter().map(|row| (row.through.fading.is_some(), row.snr_db, row.counts.sent)).collect();
        assert_eq!(keys, [(true, 2.0, 3), (false, -1.0, 7), (false, 2.0, 40)]);
        assert_eq!(rows[2].counts.refusals, [(24, 40)].into());
        assert_eq!(panels(&rows).len(), 2);
        std::fs::write(&first, "something else\n").unwrap();
        assert!(added(&[&first]).unwrap_err().to_string().contains("line 1"));
        std::fs::write(&first, head() + "\n500/4,1\n").unwrap();
        assert!(added(&[&first]).unwrap_err().to_string().contains("line 2"));
        assert!(added(&[folder.join("none.csv")]).is_err());
        std::fs::remove_dir_all(folder).unwrap();
    }

    #[test]
    fn a_table_has_a_heading_for_each_channel() {
        let table = table(&[row(4, None, -6.0, 40), row(4, None, -4.0, 40), row(4, FADING, -6.0, 40)]);
        assert_eq!(table.matches("500/4 through").count(), 2);
        assert!(table.contains("white noise, -2.5 Hz off") && table.contains("two-path fading, 0.5 Hz, 2 ms"));
        assert!(table.contains("24:40") && table.contains("██████████░░░░░░░░░░"));
        assert!(bar(&Counts::default()).is_empty());
        let most = Counts { exact: u64::MAX, ..Counts::default() };
        assert_eq!(bar(&most).chars().count(), 20);
    }
}
