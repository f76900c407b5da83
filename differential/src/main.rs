//! Compares the proved modem with the Rust reference and with the model of refusals, on random inputs.
mod count;
mod cutting;
mod decibels;
mod demapping;
mod drawing;
mod faults;
mod holds;
mod inputs;
mod model;
mod natural;
mod payloads;
mod random;
mod reading;
mod receiving;
mod reference_side;
mod replay;
mod residuals;
mod sending;
mod sent;
mod signal;
mod soft_order;
mod steps;
mod stored;
mod turns;

use count::Count;
use random::Random;
use std::process::ExitCode;

const USAGE: &str = "usage: differential [--cases N] [--seed S]";

fn main() -> ExitCode {
    let (mut cases, mut seed) = (200, None);
    let mut words = std::env::args().skip(1);
    while let Some(word) = words.next() {
        let value = words.next().and_then(|value| value.parse().ok());
        match (word.as_str(), value) {
            ("--cases", Some(n)) => cases = n as usize,
            ("--seed", Some(s)) => seed = Some(s),
            _ => {
                eprintln!("{USAGE}");
                return ExitCode::from(2);
            }
        }
    }
    let seed =
        seed.unwrap_or_else(|| std::time::UNIX_EPOCH.elapsed().map_or(1, |t| t.as_nanos() as u64 % 1_000_000_000));
    println!("seed {seed}, {cases} cases");
    let random = &Random::new(seed);
    let count = &mut Count::default();
    sending::run(cases, random, count);
    receiving::run(cases, random, count);
    cutting::run(cases / 2, random, count);
    demapping::run(2 * cases, random, count);
    holds::run(20 * cases, random, count);
    replay::run(count);
    payloads::run(cases, random, count);
    steps::run(1000 * cases, random, count);
    faults::run(20 * cases, random, count);
    decibels::run(5_000 * cases, random, count);
    residuals::run(50 * cases, random, count);
    soft_order::run(cases / 10 + 1, random, count);
    drawing::run(cases, random, count);
    count.report()
}
