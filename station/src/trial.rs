//! `dimpstea trial`: random payloads through a simulated channel, read and compared.
pub mod cells;
pub mod counts;
pub mod frame;
pub mod rows;

use crate::channel::Fading;
use crate::error::Error;
use crate::progress::Progress;
use crate::{cli, interrupt, output, plot, threads};
use clap::Args;
use counts::Counts;
use dimpstea::Layout;
use frame::Setting;
use rayon::prelude::*;
use rows::{Row, Through};
use std::fs::{self, File};
use std::io::Write;
use std::path::{Path, PathBuf};

const EXAMPLES: &str = "\
Examples:
  dimpstea trial
      a first result: 500/4 through white noise
  dimpstea trial --layout 500/4,2300/7,2750/10 --snr -12:18:2 --fading 1 --delay-spread 2 --plot pictures
      three layouts through fading, with a picture of the rates over SNR
  parallel dimpstea trial --frames 8000 --threads 1 --shard {}/8 --csv shard-{}.csv ::: $(seq 8)
      GNU parallel: eight shards of one trial
  sbatch --array=1-64 --wrap 'dimpstea trial --frames 64000 --threads 1 \\
      --shard $SLURM_ARRAY_TASK_ID/64 --csv shard-$SLURM_ARRAY_TASK_ID.csv'
      Slurm: sixty-four shards
  dimpstea trial --add shard-*.csv --plot pictures
      adds the shards up

Frames are sent by the proved calls `modulate` and `carrier_audio`, and brought to 3 kHz by the program's front end.
The channel works there: SNR is the frame's mean power before fading to that of white noise in 3 kHz. Timing is
random to a sixteenth of a sample. Samples are fed to the proved `feed` in random pieces; a detection within half a
symbol of the frame is located and read, with drift rows where the residual exceeds 1 Hz. Wrong bits are counted by the
proved meter. A frame depends on the seed and its index only, and is the same at every SNR but for the noise's level:
threads and shards change no number.";

/// The words of `trial`.
#[derive(Args, Clone, Debug)]
#[command(after_long_help = EXAMPLES)]
pub struct Words {
    /// Layouts, as 500/4; several with commas between them
    #[arg(short, long, value_parser = cli::layout, value_delimiter = ',', default_value = "500/4")]
    pub layout: Vec<Layout>,
    /// SNRs in dB, in 3 kHz: FROM:TO:STEP, or some with commas between them
    #[arg(long, value_name = "SNRS", value_parser = snrs, allow_hyphen_values = true, default_value = "-12:6:2")]
    pub snr: Snrs,
    /// Two-path fading of this Doppler spread (twice the standard deviation; 0 stays)
    #[arg(long, value_name = "HZ", value_parser = |text: &str| within(text, 0.0, 50.0))]
    pub fading: Option<f64>,
    /// From the first path to the second; 2 where only --fading is given
    #[arg(long, value_name = "MS", requires = "fading", value_parser = |text: &str| within(text, 0.0, 20.0))]
    pub delay_spread: Option<f64>,
    /// How much too high the signal is
    #[arg(long, value_name = "HZ", default_value = "0", allow_hyphen_values = true)]
    #[arg(value_parser = |text: &str| within(text, -200.0, 200.0))]
    pub offset: f64,
    /// Frames at each SNR
    #[arg(long, value_name = "N", default_value = "100", value_parser = clap::value_parser!(u64).range(1..))]
    pub frames: u64,
    /// Another seed is another trial
    #[arg(long, value_name = "S", default_value = "1")]
    pub seed: u64,
    /// Only shard K of N of the frames
    #[arg(long, value_name = "K/N", value_parser = shard, default_value = "1/1")]
    pub shard: Shard,
    /// Writes the counts to a file
    #[arg(long, value_name = "FILE")]
    pub csv: Option<PathBuf>,
    /// Draws the rates over SNR: trial.svg in this folder
    #[arg(long, value_name = "DIR")]
    pub plot: Option<PathBuf>,
    /// Threads; one for each core where none is given
    #[arg(long, value_name = "N", value_parser = cli::threads)]
    pub threads: Option<usize>,
    /// Adds up the rows of files that --csv wrote, in place of a trial
    #[arg(long, value_name = "FILE", num_args = 1.., conflicts_with_all = OF_A_TRIAL)]
    pub add: Vec<PathBuf>,
}

/// The words that only a trial of its own takes.
const OF_A_TRIAL: [&str; 9] =
    ["layout", "snr", "fading", "delay_spread", "offset", "frames", "seed", "shard", "threads"];

/// Frames that are shared out to the threads at a time; after each batch Ctrl-C is looked for.
const BATCH: u64 = 512;

/// SNRs in dB.
#[derive(Clone, Debug, PartialEq)]
pub struct Snrs(pub Vec<f64>);

/// The frames of one shard: those whose index is k - 1 modulo n.
#[derive(Clone, Copy, Debug, PartialEq, Eq)]
pub struct Shard {
    /// Which one, from 1 on.
    pub k: u64,
    /// Of how many.
    pub n: u64,
}

/// Does what they ask for.
pub fn run(words: &Words) -> Result<(), Error> {
    // Rows are read before anything is written, perhaps to one of their files.
    let sum = if words.add.is_empty() { None } else { Some(rows::added(&words.add)?) };
    // Files that can't be written are met before the work.
    let mut csv = words.csv.as_deref().map(Csv::new).transpose()?;
    if let Some(folder) = &words.plot {
        fs::create_dir_all(folder).map_err(|error| Error::io(folder, "making the folder", &error))?;
    }
    let rows = match sum {
        Some(rows) => show(&rows, &mut csv).map(|()| rows)?,
        None => tried(words, &mut csv)?,
    };
    if let Some(folder) = &words.plot {
        plot::rates(&folder.join("trial.svg"), &rows::panels(&rows))?;
    }
    interrupt::check()
}

/// Tries each layout, and shows its rows as soon as it is done; after Ctrl-C those of the frames that were.
fn tried(words: &Words, csv: &mut Option<Csv>) -> Result<Vec<Row>, Error> {
    let pool = threads::pool(words.threads)?;
    let units = words.shard.count(words.frames).saturating_mul(words.layout.len() as u64);
    let progress = Progress::new("trial", Some(units));
    let mut rows = Vec::new();
    for layout in &words.layout {
        let of_layout = pool.install(|| layout_rows(words, layout, &progress))?;
        progress.aside(|| {
            if !rows.is_empty() {
                output::line("")?;
            }
            show(&of_layout, csv)
        })?;
        rows.extend(of_layout);
        if interrupt::met() {
            break;
        }
    }
    Ok(rows)
}

fn show(rows: &[Row], csv: &mut Option<Csv>) -> Result<(), Error> {
    if let Some(csv) = csv {
        csv.write(rows)?;
    }
    output::line(rows::table(rows).trim_end())
}

/// The rows of a layout: counts are whole numbers, so that the order of the frames doesn't matter.
pub fn layout_rows(words: &Words, layout: &Layout, progress: &Progress) -> Result<Vec<Row>, Error> {
    let through = Through { fading: words.channel(), offset_hz: words.offset };
    let setting = Setting::new(layout, through.fading, through.offset_hz, words.seed)?;
    let snrs = &words.snr.0;
    let none = || vec![Counts::default(); snrs.len()];
    let add = |mut sums: Vec<Counts>, counts: Vec<Counts>| {
        sums.iter_mut().zip(&counts).for_each(|(sum, count)| *sum += count);
        sums
    };
    let (mut counts, mut done, all) = (none(), 0, words.shard.count(words.frames));
    while done < all && !interrupt::met() {
        let batch = (all - done).min(BATCH);
        let counted = (0..batch as usize).into_par_iter().with_max_len(1).map(|number| {
            let counted = setting.frame(words.shard.index(done + number as u64), snrs)?;
            progress.advance(1);
            Ok(counted.unwrap_or_else(none))
        });
        counts = add(counts, counted.try_reduce(none, |sums, counts| Ok(add(sums, counts)))?);
        done += batch;
    }
    let row = |(&snr_db, counts)| Row { layout: layout.clone(), through, snr_db, counts };
    Ok(snrs.iter().zip(counts).map(row).collect())
}

impl Words {
    fn channel(&self) -> Option<Fading> {
        let delay_ms = self.delay_spread.unwrap_or(2.0);
        self.fading.map(|spread_hz| Fading { spread_hz, delay_ms })
    }
}

impl Shard {
    /// How many of the frames it has.
    pub fn count(self, frames: u64) -> u64 {
        frames.checked_sub(self.k).map_or(0, |after| after / self.n + 1)
    }

    /// The index of one of them.
    pub fn index(self, number: u64) -> u64 {
        self.k - 1 + number * self.n
    }
}

/// A CSV file under way.
struct Csv {
    name: PathBuf,
    file: File,
}

impl Csv {
    fn new(name: &Path) -> Result<Self, Error> {
        let file = File::create(name).map_err(|error| Error::io(name, "writing", &error))?;
        let mut csv = Self { name: name.into(), file };
        csv.line(&rows::head())?;
        Ok(csv)
    }

    fn write(&mut self, rows: &[Row]) -> Result<(), Error> {
        rows.iter().try_for_each(|row| self.line(&row.csv()))
    }

    fn line(&mut self, line: &str) -> Result<(), Error> {
        writeln!(self.file, "{line}").map_err(|error| Error::io(&self.name, "writing", &error))
    }
}

fn within(text: &str, low: f64, high: f64) -> Result<f64, String> {
    let number = text.parse().ok().filter(|number| (low..=high).contains(number));
    number.ok_or_else(|| format!("it isn't a number from {low} to {high}"))
}

/// SNRs from words like `-6:12:2` or `-3,0,3`.
fn snrs(text: &str) -> Result<Snrs, String> {
    let remedy =
        "give FROM:TO:STEP with a STEP above 0, as -6:12:2, or numbers with commas, up to 200 from -200 to 200";
    let decibels = |part: &str| within(part, -200.0, 200.0).map_err(|_| remedy);
    let snrs: Vec<f64> = match text.split(':').collect::<Vec<_>>()[..] {
        [from, to, step] => {
            let (from, to, step) = (decibels(from)?, decibels(to)?, decibels(step)?);
            if step <= 0.0 || from > to || (to - from) / step > 199.0 {
                return Err(remedy.into());
            }
            let count = ((to - from) / step + 1e-9).floor() as u32;
            // Thousandths, so that -6 + 3 x 0.1 is -5.7.
            (0..=count).map(|i| ((from + f64::from(i) * step) * 1000.0).round() / 1000.0).collect()
        }
        [list] => list.split(',').map(decibels).collect::<Result<_, _>>()?,
        _ => return Err(remedy.into()),
    };
    if snrs.len() > 200 {
        return Err(remedy.into());
    }
    Ok(Snrs(snrs))
}

/// A shard from words like `3/8`.
fn shard(text: &str) -> Result<Shard, String> {
    let remedy = "give K/N, as 3/8 for the third of eight";
    let (k, n) = text.split_once('/').ok_or(remedy)?;
    match (k.parse(), n.parse()) {
        (Ok(k), Ok(n)) if 1 <= k && k <= n && n <= 1_000_000 => Ok(Shard { k, n }),
        _ => Err(remedy.into()),
    }
}

#[cfg(test)]
mod tests {
    use super::*;

    #[test]
    fn snrs_of_words() {
        assert_eq!(snrs("-6:12:6"), Ok(Snrs(vec![-6.0, 0.0, 6.0, 12.0])));
        assert_eq!(snrs("0:0.35:0.1"), Ok(Snrs(vec![0.0, 0.1, 0.2, 0.3])));
        assert_eq!(snrs("3:3:1"), Ok(Snrs(vec![3.0])));
        assert_eq!(snrs("-3,0,4.5"), Ok(Snrs(vec![-3.0, 0.0, 4.5])));
        for bad in
            ["", "a", "1:2", "1:2:0", "2:1:1", "1:2:-1", "1:2:3:4", "nan", "0:inf:1", "-100:100:0.5", "-300", "1,,2"]
        {
            assert!(snrs(bad).is_err(), "{bad}");
        }
    }

    #[test]
    fn shards_share_the_frames() {
        assert_eq!(shard("3/8"), Ok(Shard { k: 3, n: 8 }));
        for bad in ["", "3", "0/4", "5/4", "1/0", "-1/2", "1/2/3"] {
            assert!(shard(bad).is_err(), "{bad}");
        }
        let indices = |shard: Shard, frames: u64| (0..shard.count(frames)).map(move |number| shard.index(number));
        for frames in 0..20 {
            let mut all: Vec<u64> = (1..=4).flat_map(|k| indices(Shard { k, n: 4 }, frames)).collect();
            all.sort_unstable();
            assert_eq!(all, (0..frames).collect::<Vec<_>>());
        }
    }
}
