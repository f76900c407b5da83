//! The proved modem and the reference on the same inputs, in one process. bench/run has the words.
mod calls;
mod cpu;
mod growth;
mod inputs;
mod later;
mod picture;
mod stack;

use calls::{Call, Run, Side, CALLS};
use dimpstea::Layout;
use std::env;

/// Runs of each side, in turns, whose medians are taken.
const RUNS: usize = 31;

/// Seconds of a run of each side; the reference's without the copies that the harness makes for it.
struct Times {
    port: f64,
    reference: Option<f64>,
}

impl Times {
    fn take(run: &dyn Fn(Side) -> Option<Run>) -> Self {
        let mut sides = [Side::Port, Side::Reference, Side::Copies].map(run);
        let mut times = [const { Vec::new() }; 3];
        for _ in 0..RUNS {
            for (side, times) in sides.iter_mut().zip(&mut times) {
                times.extend(side.as_mut().map(|run| cpu::timed(run)));
            }
        }
        let [port, reference, copies] = times.map(|t| (!t.is_empty()).then(|| cpu::median(t)));
        Self { port: port.expect("the port's side"), reference: reference.map(|r| r - copies.unwrap_or(0.0)) }
    }
}

/// A number with commas between thousands.
fn grouped(x: f64) -> String {
    let digits = format!("{x:.0}");
    let mut out = String::new();
    for (i, digit) in digits.chars().enumerate() {
        if i > 0 && (digits.len() - i) % 3 == 0 {
            out.push(',');
        }
        out.push(digit);
    }
    out
}

/// Microseconds, three figures at least.
fn micro(seconds: f64) -> String {
    let us = 1e6 * seconds;
    match us {
        _ if us >= 99.95 => grouped(us),
        _ if us >= 9.995 => format!("{us:.1}"),
        _ => format!("{us:.2}"),
    }
}

/// A call's time on each side and their ratio, as three cells of a table.
fn cells(call: &Call, l: &Layout) -> String {
    let times = Times::take(&|side| (call.run)(l, side));
    let share = (call.share)(l);
    let (rust, ratio) = match times.reference {
        Some(r) => (micro(r / share), format!("{:.2}", times.port / r)),
        None => ("-".into(), "-".into()),
    };
    format!("{} | {rust} | {ratio}", micro(times.port / share))
}

/// Every call for three layouts.
fn three() {
    println!("| call | layout | port, µs | Rust, µs | ratio |\n|---|---|---|---|---|");
    for call in &CALLS {
        for l in inputs::THREE.map(inputs::layout) {
            println!("| {} | {}/{} | {} |", call.name, l.bandwidth, l.record, cells(call, &l));
        }
    }
}

/// A feed and readings for all layouts.
fn all() {
    let calls = ["feed", "read", "read-rows"].map(named);
    let heads: String = calls.iter().map(|call| format!(" {}: port, µs | Rust, µs | ratio |", call.name)).collect();
    println!("| layout |{heads}\n|---{}|", "|---".repeat(3 * calls.len()));
    for l in Layout::ALL.map(inputs::layout) {
        let row: String = calls.iter().map(|call| format!(" {} |", cells(call, &l))).collect();
        println!("| {}/{} |{row}", l.bandwidth, l.record);
    }
}

fn named(word: &str) -> &'static Call {
    CALLS.iter().find(|call| call.word == word).expect("a call")
}

/// What callgrind counts.
#[no_mangle]
#[inline(never)]
extern "C" fn counted(run: &mut Run) {
    run();
}

/// One run of one side, its instructions to be counted; nothing where the side has none.
fn count(side: &str, word: &str, layout: (u32, u32)) {
    let side = [Side::Port, Side::Reference, Side::Copies].into_iter().find(|s| format!("{s:?}") == side);
    if let Some(mut run) = (named(word).run)(&inputs::layout(layout), side.expect("a side")) {
        counted(&mut run);
    }
}

fn main() {
    let words: Vec<String> = env::args().skip(1).collect();
    match &words.iter().map(String::as_str).collect::<Vec<_>>()[..] {
        [] => three(),
        ["--all"] => all(),
        ["--growth", picture] => growth::report(picture),
        ["--later"] => later::report(),
        ["--stack"] => stack::report(),
        ["--count", side, word, bandwidth, record] => {
            count(side, word, (bandwidth.parse().unwrap(), record.parse().unwrap()));
        }
        other => panic!("no such words: {other:?}"),
    }
}
