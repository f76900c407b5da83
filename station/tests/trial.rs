//! Trials, as a user types them and frame by frame.
use dimpstea::Layout;
use station::channel::Fading;
use station::trial::counts::Counts;
use station::trial::frame::Setting;
use std::path::{Path, PathBuf};
use std::process::{Command, Output, Stdio};
use std::time::Duration;

/// A folder of a test's own, which goes with it.
struct Folder(PathBuf);

impl Folder {
    fn new(test: &str) -> Self {
        let folder = std::env::temp_dir().join(format!("dimpstea-{test}-{}", std::process::id()));
        std::fs::create_dir_all(&folder).unwrap();
        Self(folder)
    }

    fn file(&self, name: &str) -> String {
        self.0.join(name).display().to_string()
    }
}

impl Drop for Folder {
    fn drop(&mut self) {
        let _ = std::fs::remove_dir_all(&self.0);
    }
}

fn dimpstea(words: &str, more: &[&str]) -> Output {
    Command::new(env!("CARGO_BIN_EXE_dimpstea")).args(words.split_whitespace()).args(more).output().unwrap()
}

/// What was printed, of a run that went well.
fn printed(words: &str, more: &[&str]) -> String {
    let output = dimpstea(words, more);
    let (out, err) = (String::from_utf8(output.stdout).unwrap(), String::from_utf8_lossy(&output.stderr).into_owned());
    assert!(output.status.success(), "{words}: {err}");
    out
}

/// The status and the one line of a run that failed.
fn failed(words: &str, more: &[&str]) -> (Option<i32>, String) {
    let output = dimpstea(words, more);
    let error = String::from_utf8(output.stderr).unwrap();
    assert!(!output.status.success() && !error.contains("panicked"), "{words}: {error}");
    (output.status.code(), error)
}

/// The counts of so many frames at one SNR.
fn counts(layout: &Layout, fading: Option<Fading>, offset_hz: f64, snr: f64, frames: u64) -> Counts {
    let setting = Setting::new(layout, fading, offset_hz, 7).unwrap();
    let mut sum = Counts::default();
    for index in 0..frames {
        sum += &setting.frame(index, &[snr]).unwrap().unwrap()[0];
    }
    sum
}

#[test]
fn a_clean_channel_reads_every_frame_on_every_layout() {
    for (bandwidth, record) in Layout::ALL {
        let layout = Layout::choose(bandwidth, record).unwrap();
        for offset_hz in [0.0, 4.0] {
            let counts = counts(&layout, None, offset_hz, f64::INFINITY, 2);
            let bits = 2 * layout.payload as u64;
            let cells = bits / layout.bps as u64;
            let expected = Counts { sent: 2, detected: 2, exact: 2, bits, cells, ..Counts::default() };
            assert_eq!(counts, expected, "{bandwidth}/{record}, {offset_hz} Hz");
        }
    }
}

/// Threads and shards change no number, here with fading, an offset and two layouts.
#[test]
fn threads_and_shards_change_nothing() {
    let folder = Folder::new("shards");
    let words = "trial --layout 500/4,500/6 --snr -6,0,9 --fading 1 --delay-spread 1.5 --offset -3 --frames 7 --seed 5";
    let csv = |name: &str| std::fs::read_to_string(folder.file(name)).unwrap();
    let one = printed(words, &["--threads", "1", "--csv", &folder.file("one.csv")]);
    let two = printed(words, &["--threads", "2", "--csv", &folder.file("two.csv")]);
    assert_eq!(one, two);
    assert_eq!(csv("one.csv"), csv("two.csv"));
    let mut shards = Vec::new();
    for k in 1..=4 {
        let (shard, file) = (format!("{k}/4"), folder.file(&format!("shard-{k}.csv")));
        printed(words, &["--shard", &shard, "--csv", &file]);
        assert_ne!(csv(&format!("shard-{k}.csv")), csv("one.csv"));
        shards.push(file);
    }
    let mut add = vec!["--csv".to_string(), folder.file("sum.csv"), "--add".into()];
    add.extend(shards);
    let sum = printed("trial", &add.iter().map(String::as_str).collect::<Vec<_>>());
    assert_eq!(csv("sum.csv"), csv("one.csv"));
    assert_eq!(sum, one);
    // A file that is added may be written over.
    printed("trial", &["--csv", &folder.file("sum.csv"), "--add", &folder.file("sum.csv")]);
    assert_eq!(csv("sum.csv"), csv("one.csv"));
    let other = printed(&words.replace("--seed 5", "--seed 6"), &[]);
    assert_ne!(other, one);
}

/// Two bits a cell, and noise that leaves both kinds of frames: the meter's count is at most bps x the wrong cells, and
/// at least as great as theirs, but for ties.
#[test]
fn wrong_bits_and_wrong_cells_fit() {
    let layout = Layout::choose(500, 6).unwrap();
    let counts = counts(&layout, None, 0.0, 0.0, 8);
    assert_eq!((counts.sent, counts.detected, counts.bits), (8, 8, 8 * 2172));
    assert!(counts.bits_wrong > 0 && counts.bits_wrong <= 2 * counts.cells_wrong, "{counts:?}");
    assert!(counts.cells_wrong <= counts.bits_wrong && counts.cells == counts.bits / 2, "{counts:?}");
}

/// Differential BPSK in white noise has exp(-Es/N0) / 2 of its bits wrong. Es/N0 is the SNR x 3,000 Hz, for each of the
/// carriers' 93.75 symbols a second: so the noise's power and bandwidth are what they are said to be.
#[test]
fn wrong_bits_in_white_noise_are_those_of_theory() {
    let layout = Layout::choose(500, 4).unwrap();
    let snr = -8.0;
    let counts = counts(&layout, None, 0.0, snr, 40);
    let energy = 10f64.powf(snr / 10.0) * 3000.0 / (93.75 * layout.carriers as f64);
    let (expected, measured) = ((-energy).exp() / 2.0, counts.bits_wrong as f64 / counts.bits as f64);
    assert_eq!(counts.detected, 40);
    assert!((measured / expected - 1.0).abs() < 0.15, "{measured} of the bits, expected {expected}");
}

/// In slow Rayleigh fading it is 1 / (2 + 2 Es/N0) of the bits: two hundred times as many as in white noise alone.
#[test]
fn wrong_bits_in_fading_are_those_of_theory() {
    let layout = Layout::choose(500, 4).unwrap();
    let fading = Fading { spread_hz: 1.0, delay_ms: 0.0 };
    let counts = counts(&layout, Some(fading), 0.0, -2.0, 80);
    let energy = 10f64.powf(-0.2) * 3000.0 / (93.75 * layout.carriers as f64);
    let (expected, measured) = (0.5 / (1.0 + energy), counts.bits_wrong as f64 / counts.bits as f64);
    assert!(counts.detected >= 78, "{counts:?}");
    assert!((measured / expected - 1.0).abs() < 0.3, "{measured} of the bits, expected {expected}");
}

/// An offset beyond what drift rows take out, noise alone, and samples that no feed takes (condition 20).
#[test]
fn what_cannot_be_read_is_counted() {
    let layout = Layout::choose(500, 4).unwrap();
    assert_eq!(counts(&layout, None, 0.0, -40.0, 4).detected, 0);
    let loud = counts(&layout, None, 0.0, -180.0, 3);
    assert_eq!(loud, Counts { sent: 3, refusals: [(20, 3)].into(), ..Counts::default() });
    let table = printed("trial --snr -180 --frames 2", &[]);
    assert!(table.contains("20:2"), "{table}");
}

#[test]
fn the_picture_and_the_table() {
    let folder = Folder::new("picture");
    let table = printed("trial --layout 500/4 --layout 500/14 --snr -3:3:3 --frames 2 --plot", &[&folder.file("a/b")]);
    assert_eq!(table.lines().count(), 2 * 5 + 1, "{table}");
    assert!(table.contains("500/14 through white noise"));
    let picture = std::fs::read_to_string(Path::new(&folder.file("a/b")).join("trial.svg")).unwrap();
    assert!(picture.contains("500/14") && picture.contains("500/4") && picture.contains("white noise"));
}

/// Ctrl-C: the table and the file have the frames that were done.
#[cfg(unix)]
#[test]
fn an_interrupted_trial_leaves_what_is_done() {
    let folder = Folder::new("interrupted");
    let csv = folder.file("some.csv");
    let mut command = Command::new(env!("CARGO_BIN_EXE_dimpstea"));
    command.args(["trial", "--frames", "1000000000000", "--threads", "1", "--snr", "0", "--csv", &csv]);
    let child = command.stdout(Stdio::piped()).stderr(Stdio::piped()).spawn().unwrap();
    // The file is there once Ctrl-C is watched for.
    while !Path::new(&csv).exists() {
        std::thread::sleep(Duration::from_millis(20));
    }
    std::thread::sleep(Duration::from_millis(700));
    assert!(Command::new("kill").args(["-INT", &child.id().to_string()]).status().unwrap().success());
    let output = child.wait_with_output().unwrap();
    assert_eq!(output.status.code(), Some(130));
    assert!(String::from_utf8(output.stdout).unwrap().contains("500/4 through white noise"));
    assert!(String::from_utf8(output.stderr).unwrap().contains("interrupted"));
    let text = std::fs::read_to_string(&csv).unwrap();
    let sent: u64 = text.lines().nth(1).and_then(|line| line.split(',').nth(5)).unwrap().parse().unwrap();
    assert!(0 < sent && sent < 1_000_000_000_000, "{text}");
}

#[test]
fn wrong_words_are_answered() {
    for words in [
        "trial --layout 500/7",
        "trial --layout 600/4",
        "trial --snr 5:1:1",
        "trial --snr",
        "trial --frames 0",
        "trial --shard 5/4",
        "trial --fading -1",
        "trial --fading x",
        "trial --delay-spread 2",
        "trial --offset 5000",
        "trial --threads 0",
        "trial --seed -1",
        "trial --add a.csv --frames 5",
    ] {
        let (status, error) = failed(words, &[]);
        assert_eq!(status, Some(2), "{words}: {error}");
    }
    let (_, error) = failed("trial --layout 500/7", &[]);
    assert!(error.contains("refused 2: record isn't PSK there"), "{error}");
}

#[test]
fn files_that_cannot_be_are_named() {
    let folder = Folder::new("files");
    let missing = folder.file("none/x.csv");
    let (status, error) = failed("trial --frames 1 --csv", &[&missing]);
    assert!(status == Some(3) && error.contains(&missing) && error.lines().count() == 1, "{error}");
    let (status, error) = failed("trial --frames 1 --snr 0 --csv /dev/full", &[]);
    assert!(status == Some(3) && error.contains("the disk is full"), "{error}");
    let (status, error) = failed("trial --frames 1 --snr 0", &["--plot", "/dev/null/x"]);
    assert!(status == Some(3) && error.contains("/dev/null/x"), "{error}");
    let (status, error) = failed("trial --add", &[&missing]);
    assert!(status == Some(3) && error.contains(&missing), "{error}");
    let text = folder.file("text.csv");
    std::fs::write(&text, "some,other,file\n1,2,3\n").unwrap();
    let (status, error) = failed("trial --add", &[&text]);
    assert!(status == Some(3) && error.contains("line 1"), "{error}");
}
