//! Payloads that are sent to a file and read from it again.
use crate::{err, folder, out, payload, program, typed};
use dimpstea::{Complex, Layout};
use station::frontend::FrontEnd;
use station::send::FULL;
use station::wav::{Depth, Reader, Writer};
use std::fs;
use std::path::Path;

fn samples(path: &Path) -> Vec<f64> {
    let mut reader = Reader::open(path).unwrap();
    let mut samples = Vec::new();
    while reader.read(0, 48_000, &mut samples).unwrap() > 0 {}
    samples
}

/// Two sendings, of four frames and of one, on every layout: all frames are read, each at its place. The audio stays
/// within the file's scale, and uses it.
#[test]
fn every_layout_reads_what_was_sent() {
    let folder = folder("every");
    for (seed, (bandwidth, record)) in (1..).zip(Layout::ALL) {
        let layout = Layout::choose(bandwidth, record).unwrap();
        let sent = payload(5 * layout.payload, seed);
        fs::write(folder.join("payload.txt"), &sent).unwrap();
        let depth = if seed % 2 == 0 { " --float" } else { "" };
        let name = format!("{bandwidth}/{record}");
        let made = typed(&folder, &format!("send --layout {name} --seed {seed} payload.txt -o out.wav{depth}"));
        assert_eq!(made.status.code(), Some(0), "{}", err(&made));
        assert!(out(&made).starts_with("out.wav: 5 frames, "), "{}", out(&made));
        let peak = samples(&folder.join("out.wav")).iter().fold(0.0f64, |peak, x| peak.max(x.abs()));
        assert!((0.1..FULL).contains(&peak), "{name}: peak {peak}");
        let read = typed(&folder, &format!("receive out.wav --layout {name} -o read.txt"));
        assert_eq!(read.status.code(), Some(0), "{name}: {}", err(&read));
        let bits = fs::read_to_string(folder.join("read.txt")).unwrap().replace('\n', "");
        assert_eq!(bits, sent, "{name}");
        // The ninth symbol's pulse has its middle there, one sample late for the interpolation. Without noise the
        // metric is flat around it.
        let first = 8 * 32 + layout.delay + 1;
        let sending = layout.audio_len(4) + 24_000;
        for (i, line) in out(&read).lines().enumerate() {
            let late = if i == 4 { sending as f64 / 16.0 } else { (32 * layout.nsym * i) as f64 };
            let position: f64 =
                line.split_whitespace().skip_while(|w| *w != "position").nth(1).unwrap().parse().unwrap();
            assert!((position - first as f64 - late).abs() <= 4.0, "{name}, frame {i}: {line}");
            assert!(line.ends_with(&sent[i * layout.payload..(i + 1) * layout.payload]), "{name}: {line}");
        }
    }
}

/// Fifteen recordings joined into one: with all layouts at once each frame is found by its own and by no other.
#[test]
fn all_layouts_at_once_find_each_frame_once() {
    let folder = folder("all");
    let mut joined = Writer::create(&folder.join("joined.wav"), 48_000, Depth::Pcm16, 0).unwrap();
    for (seed, (bandwidth, record)) in (50..).zip(Layout::ALL) {
        let layout = Layout::choose(bandwidth, record).unwrap();
        fs::write(folder.join("p.txt"), payload(layout.payload, seed)).unwrap();
        typed(&folder, &format!("send -l {bandwidth}/{record} p.txt -o one.wav"));
        joined.write(&samples(&folder.join("one.wav"))).unwrap();
    }
    joined.settle().unwrap();
    drop(joined);
    let all = typed(&folder, "receive joined.wav --all-layouts --json --soft soft");
    let found: Vec<String> = out(&all).lines().map(String::from).collect();
    assert_eq!(found.len(), 15, "{}", err(&all));
    for (seed, (line, (bandwidth, record))) in (50..).zip(found.iter().zip(Layout::ALL)) {
        let layout = Layout::choose(bandwidth, record).unwrap();
        assert!(line.starts_with(&format!("{{\"layout\":\"{bandwidth}/{record}\",\"seconds\":")), "{line}");
        let bits = payload(layout.payload, seed);
        assert!(line.contains(&format!("\"bits\":\"{bits}\"")), "{bandwidth}/{record}");
        let number = |name: &str| -> f64 {
            line.split(&format!("\"{name}\":")).nth(1).unwrap().split(',').next().unwrap().parse().unwrap()
        };
        assert_eq!(number("snr_db"), (10.0 * layout.snr_db(number("median")).unwrap()).round() / 10.0, "{line}");
        let soft = line.split("\"soft\":\"").nth(1).unwrap().split('"').next().unwrap();
        let soft: Vec<f64> = fs::read(folder.join(soft))
            .unwrap()
            .chunks_exact(8)
            .map(|b| f64::from_le_bytes(b.try_into().unwrap()))
            .collect();
        let signs: String = soft.iter().map(|s| if s.is_sign_negative() { '1' } else { '0' }).collect();
        assert_eq!(signs, bits);
    }
    assert_eq!(out(&typed(&folder, "receive joined.wav --threads 1 --json --soft soft")), out(&all));
}

/// Packed bytes, high bit first; the last frame is filled up, and a note says so. `-` is standard input and output.
#[test]
fn packed_bytes_go_through_pipes() {
    use std::io::Write;
    let folder = folder("packed");
    let bytes: Vec<u8> = (0..250u32).map(|i| (i * 37 + 5) as u8).collect();
    fs::write(folder.join("mail"), &bytes).unwrap();
    let sent = typed(&folder, "send -l 500/5 mail -o - --float");
    assert_eq!(err(&sent), "dimpstea: the last frame was filled up with 1000 zeros\n");
    let mut child = program()
        .args(["receive", "-", "-l", "500/5"])
        .stdin(std::process::Stdio::piped())
        .stdout(std::process::Stdio::piped())
        .stderr(std::process::Stdio::piped())
        .spawn()
        .unwrap();
    child.stdin.take().unwrap().write_all(&sent.stdout).unwrap();
    let read = child.wait_with_output().unwrap();
    let bits: String = out(&read).lines().map(|line| line.rsplit(' ').next().unwrap().to_string()).collect();
    let expected: String = bytes.iter().map(|b| format!("{b:08b}")).collect::<String>() + &"0".repeat(1000);
    assert_eq!(bits, expected, "{}", err(&read));
}

/// Recordings at other rates: every k-th sample, and between samples for 44.1 kHz.
#[test]
fn other_rates_are_converted() {
    let folder = folder("rates");
    let sent = payload(1500, 9);
    fs::write(folder.join("p.txt"), &sent).unwrap();
    typed(&folder, "send -l 500/5 p.txt -o out.wav --float");
    let audio = samples(&folder.join("out.wav"));
    for rate in [8000, 12_000, 16_000, 24_000, 44_100, 96_000] {
        let count = audio.len() * rate / 48_000 - 2;
        let at = |k: usize| {
            let place = k as f64 * 48_000.0 / rate as f64;
            let (i, late) = (place as usize, place.fract());
            audio[i] * (1.0 - late) + audio[i + 1] * late
        };
        let converted: Vec<f64> = (0..count).map(at).collect();
        let mut writer = Writer::create(&folder.join("r.wav"), rate as u32, Depth::Pcm16, 0).unwrap();
        writer.write(&converted).unwrap();
        writer.settle().unwrap();
        let read = typed(&folder, "receive r.wav -l 500/5");
        assert!(out(&read).starts_with("    0.091 s  500/5    position      27"), "{rate}: {}", out(&read));
        assert!(out(&read).trim_end().ends_with(&sent), "{rate}");
    }
}

/// Raw complex samples that are 9 Hz too high, or 7.5 too low: the residual is shown, and drift rows undo it.
#[test]
fn shifted_recordings_are_read_with_drift_rows() {
    let folder = folder("shifted");
    for (name, hz, seed) in [("500/4", 9.0, 1), ("2300/8", -5.0, 2), ("500/6", -7.5, 3)] {
        let (bandwidth, record) = name.split_once('/').unwrap();
        let layout = Layout::choose(bandwidth.parse().unwrap(), record.parse().unwrap()).unwrap();
        let sent = payload(layout.payload, seed);
        fs::write(folder.join("p.txt"), &sent).unwrap();
        typed(&folder, &format!("send -l {name} p.txt -o out.wav"));
        let (mut front, mut made) = (FrontEnd::new(48_000, Path::new("")).unwrap(), Vec::new());
        front.take(&samples(&folder.join("out.wav")), &mut made);
        let mut raw = Vec::new();
        for (n, z) in made.iter().enumerate() {
            let turn = Complex::at_angle(std::f64::consts::TAU * hz * n as f64 / 3000.0);
            raw.extend(((z.re * turn.re - z.im * turn.im) as f32).to_le_bytes());
            raw.extend(((z.re * turn.im + z.im * turn.re) as f32).to_le_bytes());
        }
        fs::write(folder.join("raw"), raw).unwrap();
        let read = typed(&folder, &format!("receive raw --raw -l {name} --json"));
        let line = out(&read);
        let residual: f64 = line.split("\"residual_hz\":").nth(1).unwrap().split(',').next().unwrap().parse().unwrap();
        assert!((residual - hz).abs() < 0.5, "{name}: residual {residual}");
        let shown: f64 =
            line.split("\"residual_thirty_seconds\":").nth(1).unwrap().split(',').next().unwrap().parse().unwrap();
        assert!((shown / 32.0 - residual).abs() < 0.04, "{name}: {shown} thirty-seconds, {residual} Hz");
        assert!(line.contains(&format!("\"bits\":\"{sent}\"")), "{name}: {line}");
    }
}

/// The program's own marks are drawn from a seed, which both ends need to give alike.
#[test]
fn own_marks_go_by_a_seed() {
    let folder = folder("seed");
    fs::write(folder.join("p.txt"), "01".repeat(374)).unwrap();
    typed(&folder, "send -l 500/4 p.txt -o seed.wav --marker-seed 5");
    typed(&folder, "receive seed.wav -l 500/4 --marker-seed 5 -o same.txt");
    typed(&folder, "receive seed.wav -l 500/4 -o other.txt");
    let read = |name: &str| fs::read_to_string(folder.join(name)).unwrap_or_default();
    assert_eq!(read("same.txt").trim(), read("p.txt"));
    assert_ne!(read("other.txt").trim(), read("p.txt"));
    assert_eq!(typed(&folder, "receive seed.wav -l 500/4 --marker-seed 16777216").status.code(), Some(4));
}

/// Tables that are written to a file and given back are the program's own; with others nothing is found.
#[test]
fn tables_come_from_a_file() {
    let folder = folder("tables");
    let own = out(&typed(&folder, "layouts --tables 2300/6"));
    fs::write(
        folder.join("own"),
        format!("# as the program has them\n\n{own}{}", out(&typed(&folder, "layouts --tables 500/4"))),
    )
    .unwrap();
    // Every angle the other way round.
    let other: String =
        own.lines().map(|l| if l.starts_with('p') { l.replace(' ', " -") } else { l.into() } + "\n").collect();
    fs::write(folder.join("other"), other).unwrap();
    fs::write(folder.join("p.txt"), payload(2832, 4)).unwrap();
    typed(&folder, "send -l 2300/6 p.txt -o plain.wav");
    typed(&folder, "send -l 2300/6 p.txt -o own.wav --tables own");
    assert!(fs::read(folder.join("plain.wav")).unwrap() == fs::read(folder.join("own.wav")).unwrap());
    assert_eq!(typed(&folder, "receive own.wav --tables own").status.code(), Some(0));
    let none = typed(&folder, "receive own.wav --tables other");
    assert_eq!((none.status.code(), out(&none)), (Some(1), String::new()));
    typed(&folder, "send -l 2300/6 p.txt -o other.wav --tables other");
    assert_eq!(typed(&folder, "receive other.wav --tables other -l 2300/6").status.code(), Some(0));
}
