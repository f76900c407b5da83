//! Pictures, as SVG files.
//!
//! [`steps`] shows a frame's received steps, [`soft`] its soft bits over time, [`Chi`] the metric over time,
//! [`Waterfall`] the spectrum over time, and [`rates`] a trial's rates over SNR. [`Pictures`] are those of a recording;
//! what they keep doesn't grow with its length.
mod chi;
mod pictures;
mod png;
mod rates;
mod soft;
mod steps;
mod waterfall;

pub use chi::Chi;
pub use pictures::Pictures;
pub use rates::{rates, Curve, Panel, Rate};
pub use soft::soft;
pub use steps::steps;
pub use waterfall::{Mark, Waterfall};

use crate::error::Error;
use plotters::style::RGBColor;
use std::{error, path::Path};

/// Seconds of a position.
fn seconds(position: f64) -> f64 {
    position / 3000.0
}

/// Colours that the colour-blind can tell apart (Okabe and Ito).
const COLOURS: [RGBColor; 7] = [
    RGBColor(0, 114, 178),
    RGBColor(213, 94, 0),
    RGBColor(0, 158, 115),
    RGBColor(204, 121, 167),
    RGBColor(230, 159, 0),
    RGBColor(86, 180, 233),
    RGBColor(0, 0, 0),
];

fn colour(number: usize) -> RGBColor {
    COLOURS[number % COLOURS.len()]
}

/// The picture that `draw` leaves in a text, written to a file.
fn write<E: error::Error>(file: &Path, draw: impl FnOnce(&mut String) -> Result<(), E>) -> Result<(), Error> {
    let mut svg = String::new();
    draw(&mut svg).map_err(|error| Error::file(file, "", format!("drawing failed: {error}"), "leave out --plot"))?;
    std::fs::write(file, svg).map_err(|error| Error::io(file, "writing", &error))
}

/// A range that isn't empty, from the least to the greatest of the numbers.
fn range(numbers: impl Iterator<Item = f64> + Clone, margin: f64) -> std::ops::Range<f64> {
    let low = numbers.clone().fold(f64::INFINITY, f64::min);
    let high = numbers.fold(f64::NEG_INFINITY, f64::max);
    if low <= high && (high - low).is_finite() {
        low - margin..high + margin
    } else {
        0.0..1.0
    }
}
