//! The program's words: what it says, and the status it ends with.
use crate::{err, folder, out, payload, program, typed};
use station::wav::{Depth, Writer};
use std::fs;
use std::io::{BufRead, BufReader, Write};
use std::process::{Command, Stdio};

#[test]
fn help_has_examples_and_statuses() {
    let folder = folder("help");
    let help = out(&typed(&folder, "--help"));
    for words in ["Examples:", "dimpstea trial", "Exit status:", "130  Ctrl-C", "isn't proved"] {
        assert!(help.contains(words), "{words}");
    }
    for command in ["send", "receive", "trial", "layouts"] {
        let help = typed(&folder, &format!("{command} --help"));
        assert_eq!(help.status.code(), Some(0));
        assert!(out(&help).contains(&format!("Usage: dimpstea {command}")), "{}", out(&help));
    }
    for command in ["send", "receive"] {
        assert!(out(&typed(&folder, &format!("{command} --help"))).contains("Examples:"));
    }
}

#[test]
fn layouts_are_fifteen() {
    let shown = out(&typed(&folder("layouts"), "layouts"));
    assert_eq!(shown.lines().count(), 16);
    assert!(shown.contains("500/4             748    4.192   178.4  1350 1650\n"), "{shown}");
    assert!(shown.ends_with("240 450 660 870 1080 1290 1500 1710 1920 2130 2340 2550 2760\n"), "{shown}");
}

/// Each fault has one line that names the file and the remedy, and a documented status.
#[test]
fn faults_have_a_line_and_a_status() {
    let folder = folder("faults");
    let at = |name: &str| folder.join(name);
    fs::write(at("empty"), "").unwrap();
    fs::write(at("text.wav"), "this is no recording at all").unwrap();
    fs::write(at("p.txt"), payload(748, 1)).unwrap();
    fs::create_dir(at("dir")).unwrap();
    let mut writer = Writer::create(&at("odd.wav"), 47_999, Depth::Pcm16, 0).unwrap();
    writer.write(&[0.0; 100]).unwrap();
    writer.settle().unwrap();
    let mut writer = Writer::create(&at("nan.wav"), 48_000, Depth::Float32, 0).unwrap();
    writer.write(&[f64::NAN; 9000]).unwrap();
    writer.settle().unwrap();
    let mut writer = Writer::create(&at("quiet.wav"), 48_000, Depth::Pcm16, 0).unwrap();
    writer.write(&[0.0; 48_000]).unwrap();
    writer.settle().unwrap();
    let tables = out(&typed(&folder, "layouts --tables 500/4"));
    let twice: String = tables
        .lines()
        .map(|l| if l.starts_with('m') { "markers".to_string() + &" 9".repeat(18) } else { l.into() } + "\n")
        .collect();
    fs::write(at("twice"), twice).unwrap();
    fs::write(at("few"), tables.lines().next().unwrap()).unwrap();
    fs::write(at("word"), format!("{tables}marker 5\n")).unwrap();
    let full =
        if fs::metadata("/dev/full").is_ok() { "send -l 500/4 p.txt -o /dev/full" } else { "receive missing.wav" };
    let cases = [
        ("receive missing.wav", 3, "missing.wav: opening failed: there is no such file or folder; check the name"),
        ("receive dir", 3, "dir: it is a folder; give a WAV file"),
        ("receive empty", 3, "empty: it is empty; record or send it again"),
        ("receive empty --raw", 3, "empty: it is empty; record it again"),
        ("receive text.wav", 3, "text.wav, byte 0: it isn't a WAV file; give a WAV file, or --raw"),
        ("receive odd.wav", 3, "odd.wav: its rate of 47999 Hz isn't a multiple of 25 from 8,000 to 192,000; convert"),
        (
            "receive quiet.wav --channel 2",
            3,
            "quiet.wav: it has 1 channels, and channel 2 was asked for; give --channel",
        ),
        ("receive quiet.wav -l 500/4", 1, "no frame was found; check the layout and the tables"),
        (
            "receive nan.wav -l 500/4",
            4,
            "feed refused 20: sample part not finite or above 2^20 in size; nan.wav within",
        ),
        ("receive quiet.wav --soft p.txt/x", 3, "p.txt/x: making the folder failed"),
        (
            "receive quiet.wav --tables twice",
            4,
            "open refused 4: marker value outside 5 to spf - 4, or twice on a carrier",
        ),
        ("receive quiet.wav --tables few", 4, "open refused 3: marker table length; check the tables"),
        ("receive quiet.wav --tables word", 3, "word, line 6: `marker` isn't layout, markers or phasors; see"),
        ("receive quiet.wav --tables empty", 3, "empty: it has no tables; `dimpstea layouts --tables 500/4` shows"),
        ("receive quiet.wav -l 500/5 --tables few", 3, "few: it has no tables of 500/5; add a section"),
        ("send -l 500/4 missing -o out.wav", 3, "missing: reading failed: there is no such file or folder"),
        ("send -l 500/4 empty -o out.wav", 3, "empty: it has no payload bits; give text of 0 and 1, or packed bytes"),
        ("send -l 500/4 p.txt -o dir", 3, "dir: making the file failed: it is a folder"),
        ("send -l 500/4 p.txt -o no/out.wav", 3, "no/out.wav: making the file failed: there is no such file or folder"),
        ("send -l 500/4 p.txt -o out.wav --tables twice", 4, "modulate refused 4: marker value outside 5"),
        ("send -l 500/7 p.txt -o out.wav", 2, "refused 2: record isn't PSK there; a layout is BANDWIDTH/RECORD"),
        ("send -l 501/4 p.txt -o out.wav", 2, "refused 1: bandwidth not 500, 2300, 2750, or record not 1 to 17"),
        ("send -l 4 p.txt -o out.wav", 2, "a layout is BANDWIDTH/RECORD, as 500/4"),
        ("send -l 500/4 p.txt", 2, "--output <FILE>"),
        ("receive quiet.wav --all-layouts -l 500/4", 2, "cannot be used with"),
        ("receive quiet.wav --threads 0", 2, "a number from 1 to 1024"),
        ("sned", 2, "sned"),
        (
            full,
            3,
            if full.starts_with("send") {
                "/dev/full: writing failed: the disk is full; make room"
            } else {
                "missing.wav"
            },
        ),
    ];
    for (words, status, said) in cases {
        let output = typed(&folder, words);
        assert_eq!(output.status.code(), Some(status), "{words}: {}", err(&output));
        assert!(err(&output).contains(said), "{words}: {}", err(&output));
        assert!(!err(&output).contains("backtrace"), "{words}");
        assert!(status == 1 || status == 2 || err(&output).lines().count() == 1, "{words}: {}", err(&output));
    }
}

/// `| head`: whoever reads has had enough, and that is no fault.
#[test]
fn a_closed_pipe_is_no_fault() {
    let mut child = program().arg("layouts").stdout(Stdio::piped()).stderr(Stdio::piped()).spawn().unwrap();
    drop(child.stdout.take());
    let output = child.wait_with_output().unwrap();
    assert_eq!((output.status.code(), err(&output)), (Some(0), String::new()));
}

fn interrupt(pid: u32) {
    assert!(Command::new("kill").args(["-INT", &pid.to_string()]).status().unwrap().success());
}

/// Ctrl-C while a piece is fed, and while standard input is silent: the frames found so far stay, and the status is 130.
#[test]
fn ctrl_c_leaves_what_is_done() {
    let folder = folder("interrupt");
    fs::write(folder.join("p.txt"), payload(748, 2)).unwrap();
    let sent = typed(&folder, "send -l 500/4 p.txt -o - --gap 3");
    for wait in [0, 400] {
        let mut child = program()
            .current_dir(&folder)
            .args("receive - -l 500/4 -o read.txt".split(' '))
            .stdin(Stdio::piped())
            .stdout(Stdio::piped())
            .stderr(Stdio::piped())
            .spawn()
            .unwrap();
        let mut stdin = child.stdin.take().unwrap();
        stdin.write_all(&sent.stdout[..sent.stdout.len() - 9600]).unwrap();
        let mut lines = BufReader::new(child.stdout.take().unwrap()).lines();
        assert!(lines.next().unwrap().unwrap().contains("position"));
        std::thread::sleep(std::time::Duration::from_millis(wait));
        interrupt(child.id());
        let output = child.wait_with_output().unwrap();
        drop(stdin);
        assert_eq!(output.status.code(), Some(130));
        assert_eq!(err(&output), "dimpstea: interrupted; what was done by then is left\n");
        assert_eq!(fs::read_to_string(folder.join("read.txt")).unwrap().trim_end(), payload(748, 2));
    }
}

/// Ctrl-C while sending: the file is a whole WAV file of what was sent by then.
#[test]
fn an_interrupted_sending_is_a_whole_file() {
    let folder = folder("interrupted_sending");
    fs::write(folder.join("p.txt"), payload(6860 * 400, 3)).unwrap();
    let child = program()
        .current_dir(&folder)
        .args("send -l 2300/9 p.txt -o out.wav".split(' '))
        .stderr(Stdio::piped())
        .spawn()
        .unwrap();
    while fs::metadata(folder.join("out.wav")).map_or(0, |about| about.len()) < 3_000_000 {
        std::thread::sleep(std::time::Duration::from_millis(5));
    }
    interrupt(child.id());
    let output = child.wait_with_output().unwrap();
    assert_eq!(output.status.code(), Some(130), "{}", err(&output));
    let len = fs::metadata(folder.join("out.wav")).unwrap().len();
    let reader = station::wav::Reader::open(&folder.join("out.wav")).unwrap();
    assert_eq!(reader.left(), Some((len - 44) / 2));
    assert!(typed(&folder, "receive out.wav -l 2300/9").status.success());
}

/// Standard error is no terminal here: no bars on it.
#[test]
fn bars_are_for_terminals() {
    let folder = folder("bars");
    fs::write(folder.join("p.txt"), payload(6860 * 60, 4)).unwrap();
    let output = typed(&folder, "send -l 2300/9 p.txt -o out.wav");
    assert_eq!(err(&output), "");
}
