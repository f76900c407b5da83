//! Memory doesn't grow with a recording's length.
use crate::program;
use station::random::Random;
use std::fs;
use std::io::Write;
use std::process::Stdio;

/// The greatest memory that receiving so many seconds of noise from standard input took, in kB.
fn most(seconds: usize) -> u64 {
    let mut child = program()
        .args(["receive", "-", "--layout", "500/4", "--threads", "1"])
        .stdin(Stdio::piped())
        .stdout(Stdio::null())
        .stderr(Stdio::null())
        .spawn()
        .unwrap();
    let mut stdin = child.stdin.take().unwrap();
    let mut header = b"RIFF\xff\xff\xff\xffWAVEfmt \x10\0\0\0\x01\0\x01\0".to_vec();
    header.extend(48_000u32.to_le_bytes());
    header.extend(96_000u32.to_le_bytes());
    header.extend(b"\x02\0\x10\0data\xff\xff\xff\xff");
    stdin.write_all(&header).unwrap();
    let mut random = Random::new(1);
    for _ in 0..seconds {
        let second: Vec<u8> = (0..96_000).map(|i| if i % 2 == 0 { random.below(256) as u8 } else { 0 }).collect();
        stdin.write_all(&second).unwrap();
    }
    let status = fs::read_to_string(format!("/proc/{}/status", child.id())).unwrap();
    drop(stdin);
    child.wait().unwrap();
    let line = status.lines().find(|line| line.starts_with("VmHWM:")).unwrap();
    line.split_whitespace().nth(1).unwrap().parse().unwrap()
}

#[test]
fn ten_minutes_need_no_more_than_twenty_seconds() {
    let (short, long) = (most(20), most(600));
    println!("20 s: {short} kB, 600 s: {long} kB");
    assert!(long < short + 1000, "20 s: {short} kB, 600 s: {long} kB");
}
