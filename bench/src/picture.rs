//! The picture of a feed's cost: by samples on the left, by carriers on the right. Plain SVG.
use crate::growth::{Cost, Growth};
use dimpstea::Layout;
use std::fmt::Write;

const COLOURS: [&str; 3] = ["#0b7a55", "#1f4e9c", "#b3263e"];
const TOP: f64 = 40.0;
const HEIGHT: f64 = 260.0;
const WIDTH: f64 = 290.0;
const FIRST: f64 = 60.0;
const SECOND: f64 = 430.0;

const HEAD: &str = r##"<svg xmlns="http://www.w3.org/2000/svg" viewBox="0 0 760 390"
 font-family="sans-serif" font-size="11" fill="#222">
<style>
.axis { stroke: #999; fill: none }
.grid { stroke: #e4e4e4 }
.port { stroke-width: 2; fill: none }
.rust { stroke-width: 1.3; stroke-dasharray: 5 4; fill: none }
</style>
<rect width="760" height="390" fill="#fff"/>
"##;

fn text(out: &mut String, x: f64, y: f64, anchor: &str, words: &str) {
    writeln!(out, r#"<text x="{x:.0}" y="{y:.0}" text-anchor="{anchor}">{words}</text>"#).unwrap();
}

/// A panel's frame, with lines and words at these heights and words at these places.
fn panel(out: &mut String, left: f64, title: &str, heights: &[(f64, String)], places: &[(f64, String)]) {
    for (y, words) in heights {
        writeln!(out, r#"<path class="grid" d="M{left} {y:.1}h{WIDTH}"/>"#).unwrap();
        text(out, left - 6.0, y + 4.0, "end", words);
    }
    for (x, words) in places {
        text(out, *x, TOP + HEIGHT + 16.0, "middle", words);
    }
    writeln!(out, r#"<path class="axis" d="M{left} {TOP}v{HEIGHT}h{WIDTH}"/>"#).unwrap();
    text(out, left + WIDTH / 2.0, TOP - 16.0, "middle", title);
}

/// Where a count of samples stands: by its logarithm, and 0 a step before 1.
fn sample_place(samples: usize) -> f64 {
    let log = if samples == 0 { -1.0 } else { (samples as f64).log10() };
    FIRST + 14.0 + (log + 1.0) * (WIDTH - 28.0) / 4.7
}

fn line(out: &mut String, class: &str, colour: &str, points: impl Iterator<Item = (f64, f64)>) {
    let points: Vec<String> = points.map(|(x, y)| format!("{x:.1},{y:.1}")).collect();
    writeln!(out, r#"<polyline class="{class}" stroke="{colour}" points="{}"/>"#, points.join(" ")).unwrap();
}

fn by_samples(out: &mut String, all: &[(Layout, Vec<(usize, Cost)>)]) {
    let logs = || all.iter().flat_map(|(_, costs)| costs).flat_map(|(_, c)| [c.port, c.rust]).map(f64::log10);
    let (low, high) = (logs().fold(0.0, f64::min).floor(), logs().fold(-9.0, f64::max).ceil());
    let height = |seconds: f64| TOP + HEIGHT * (high - seconds.log10()) / (high - low);
    let powers: Vec<f64> = (low as i32..=high as i32).map(|k| 10f64.powi(k)).collect();
    let heights: Vec<_> = powers.into_iter().map(|s| (height(s), crate::micro(s))).collect();
    let places: Vec<_> = all[0].1.iter().map(|&(n, _)| (sample_place(n), n.to_string())).collect();
    panel(out, FIRST, "µs of a feed by its samples (both axes by logarithm)", &heights, &places);
    for ((_, costs), colour) in all.iter().zip(COLOURS) {
        line(out, "port", colour, costs.iter().map(|&(n, c)| (sample_place(n), height(c.port))));
        line(out, "rust", colour, costs.iter().map(|&(n, c)| (sample_place(n), height(c.rust))));
    }
    text(out, FIRST + WIDTH / 2.0, TOP + HEIGHT + 34.0, "middle", "samples");
}

fn by_carriers(out: &mut String, all: &[(Layout, Cost)]) {
    let greatest = all.iter().map(|(_, c)| 1e3 * c.rust.max(c.port)).fold(0.0, f64::max).ceil();
    let most = all.iter().map(|(l, _)| l.carriers).max().expect("some layout") as f64;
    let height = |seconds: f64| TOP + HEIGHT * (1.0 - 1e3 * seconds / greatest);
    let place = |carriers: usize| SECOND + 8.0 + carriers as f64 * (WIDTH - 16.0) / most;
    let heights: Vec<_> = (0..=greatest as u32).map(|ms| (height(1e-3 * f64::from(ms)), ms.to_string())).collect();
    let mut carriers: Vec<usize> = all.iter().map(|(l, _)| l.carriers).collect();
    carriers.dedup();
    let places: Vec<_> = carriers.iter().map(|&n| (place(n), n.to_string())).collect();
    panel(out, SECOND, "ms of a feed of 4,000 samples by carriers, 15 layouts", &heights, &places);
    for (l, cost) in all {
        let colour = COLOURS[[500, 2300, 2750].iter().position(|&b| b == l.bandwidth).expect("a bandwidth")];
        let x = place(l.carriers);
        let (port, rust) = (height(cost.port), height(cost.rust));
        writeln!(out, r#"<circle cx="{x:.1}" cy="{port:.1}" r="3.5" fill="{colour}"/>"#).unwrap();
        writeln!(out, r#"<circle cx="{x:.1}" cy="{rust:.1}" r="3.5" fill="none" stroke="{colour}"/>"#).unwrap();
    }
    text(out, SECOND + WIDTH / 2.0, TOP + HEIGHT + 34.0, "middle", "carriers");
}

/// What the lines and the dots mean.
fn key(out: &mut String, all: &[(Layout, Vec<(usize, Cost)>)]) {
    let y = TOP + HEIGHT + 60.0;
    for (i, ((l, _), colour)) in all.iter().zip(COLOURS).enumerate() {
        let x = FIRST + 95.0 * i as f64;
        writeln!(out, r#"<path class="port" stroke="{colour}" d="M{x} {y}h22"/>"#).unwrap();
        text(out, x + 27.0, y + 4.0, "start", &format!("{}/{}", l.bandwidth, l.record));
    }
    text(out, FIRST, y + 22.0, "start", "full lines: the port; broken lines: the Rust");
    for (i, (bandwidth, colour)) in ["500", "2300", "2750"].into_iter().zip(COLOURS).enumerate() {
        let x = SECOND + 95.0 * i as f64;
        writeln!(out, r#"<circle cx="{x}" cy="{y}" r="3.5" fill="{colour}"/>"#).unwrap();
        text(out, x + 9.0, y + 4.0, "start", bandwidth);
    }
    text(out, SECOND, y + 22.0, "start", "full dots: the port; empty dots: the Rust");
}

pub fn draw(growth: &Growth) -> String {
    let mut out = HEAD.to_string();
    by_samples(&mut out, &growth.by_samples);
    by_carriers(&mut out, &growth.by_carriers);
    key(&mut out, &growth.by_samples);
    out + "</svg>\n"
}
