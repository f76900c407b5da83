use super::{png, seconds, write};
use crate::error::Error;
use dimpstea::{Layout, Reading, Tables};
use plotters::prelude::*;
use std::path::Path;

/// Shades to either side of the middle one.
const SIDE: u8 = 31;
/// The shade of a mark.
const MARK: u8 = 2 * SIDE + 1;

/// A frame's soft bits over time, next to the waterfall: a row for each bit of a carrier, the highest carrier on top, a
/// column for each symbol. Blue reads 0 and orange 1, the fuller the surer; marks are grey.
pub fn soft(file: &Path, layout: &Layout, tables: &Tables, reading: &Reading) -> Result<(), Error> {
    let timed = reading.soft_by_time(layout, tables).map_err(|r| Error::refused("by_time", r, "check the tables"))?;
    let image = png::data_uri(layout.nsym - 1, &dots(layout, tables, &timed), &colours());
    write(file, |svg| {
        let (x, y, w, h) = axes(svg, layout, reading)?;
        // The rest stands inside the picture that plotters has closed.
        svg.truncate(svg.trim_end().trim_end_matches("</svg>").len());
        let stretched = "preserveAspectRatio=\"none\" style=\"image-rendering:pixelated\"";
        *svg += &format!(
            "<image x=\"{x}\" y=\"{y}\" width=\"{w}\" height=\"{h}\" {stretched} href=\"{image}\"/>\n</svg>\n"
        );
        Ok::<(), DrawingAreaErrorKind<std::io::Error>>(())
    })
}

/// The shades of the picture's rows, from the top. The soft bits are in the order in which time meets the cells.
fn dots(layout: &Layout, tables: &Tables, timed: &[f64]) -> Vec<u8> {
    let (columns, rows) = (layout.nsym - 1, layout.carriers * layout.bps);
    let greatest = timed.iter().map(|soft| soft.abs()).fold(1e-300, f64::max);
    let mut dots = vec![MARK; columns * rows];
    let mut bits = timed.iter();
    for symbol in 1..layout.nsym {
        for carrier in (0..layout.carriers).filter(|&carrier| !marked(layout, tables, carrier, symbol)) {
            for (bit, soft) in (0..layout.bps).zip(&mut bits) {
                let row = rows - 1 - (carrier * layout.bps + bit);
                dots[row * columns + symbol - 1] = shade(*soft, greatest);
            }
        }
    }
    dots
}

fn marked(layout: &Layout, tables: &Tables, carrier: usize, symbol: usize) -> bool {
    tables.markers[carrier * layout.markers..][..layout.markers].contains(&(symbol as u16))
}

/// 0 is the surest bit of 1, `2 * SIDE` the surest of 0.
fn shade(soft: f64, greatest: f64) -> u8 {
    let part = (soft / greatest).clamp(-1.0, 1.0);
    (f64::from(SIDE) * (1.0 + part)).round() as u8
}

/// From orange through white to blue, and the grey of marks.
fn colours() -> Vec<[u8; 3]> {
    let mixed = |shade: u8| {
        let part = (f64::from(shade) - f64::from(SIDE)) / f64::from(SIDE);
        let end: [f64; 3] = if part < 0.0 { [213.0, 94.0, 0.0] } else { [0.0, 114.0, 178.0] };
        end.map(|colour| (255.0 + (colour - 255.0) * part.abs()) as u8)
    };
    (0..=2 * SIDE).map(mixed).chain([[128; 3]]).collect()
}

/// Draws the axes; where the picture's inside lies, and its size, in dots.
fn axes(
    svg: &mut String,
    layout: &Layout,
    reading: &Reading,
) -> Result<(f64, f64, f64, f64), DrawingAreaErrorKind<std::io::Error>> {
    let (from, to) = (seconds(reading.located.t as f64), seconds(reading.located.t_end(layout) as f64));
    let root = SVGBackend::with_string(svg, (960, 300)).into_drawing_area();
    root.fill(&WHITE)?;
    let mut chart = ChartBuilder::on(&root)
        .caption(format!("Soft bits of {}/{}", layout.bandwidth, layout.record), ("sans-serif", 18))
        .margin(12)
        .x_label_area_size(40)
        .y_label_area_size(56)
        .build_cartesian_2d(from..to, 0.0..layout.carriers as f64)?;
    chart.configure_mesh().x_desc("time, s").y_desc("carrier").disable_mesh().draw()?;
    let (across, down) = chart.plotting_area().get_pixel_range();
    root.present()?;
    let (x, y) = (f64::from(across.start), f64::from(down.start));
    Ok((x, y, f64::from(across.end) - x, f64::from(down.end) - y))
}
