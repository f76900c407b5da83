use super::{colour, write};
use crate::error::Error;
use crate::trial::cells;
use dimpstea::{nearest_point, Layout, Nearest, Steps};
use plotters::prelude::*;
use std::path::Path;

/// Further from the middle than this nothing is shown.
const EDGE: f64 = 2.0;

/// How clear the choice of a step's nearest point was: 1 at the point itself, 0 where another is as near.
fn clearness(nearest: &Nearest) -> f64 {
    (nearest.runner_up - nearest.distance) / (nearest.runner_up + nearest.distance)
}

/// A frame's received steps, each in the colour of the point it is nearest to, and the paler the nearer another one is.
pub fn steps(file: &Path, layout: &Layout, steps: &Steps) -> Result<(), Error> {
    let all = (0..layout.carriers).flat_map(|carrier| steps.row(carrier));
    write(file, |svg| {
        let root = SVGBackend::with_string(svg, (620, 640)).into_drawing_area();
        root.fill(&WHITE)?;
        let mut chart = ChartBuilder::on(&root)
            .caption(format!("Received steps of {}/{}", layout.bandwidth, layout.record), ("sans-serif", 18))
            .margin(12)
            .x_label_area_size(40)
            .y_label_area_size(48)
            .build_cartesian_2d(-EDGE..EDGE, -EDGE..EDGE)?;
        chart.configure_mesh().x_desc("real").y_desc("imaginary").light_line_style(TRANSPARENT).draw()?;
        let shown = all.filter(|step| step.re.abs() < EDGE && step.im.abs() < EDGE);
        let dots = shown.filter_map(|&step| Some((step, nearest_point(1 << layout.bps, step).ok()?)));
        chart.draw_series(dots.map(|(step, nearest)| {
            let shade = colour(nearest.label).mix(0.15 + 0.85 * clearness(&nearest));
            Circle::new((step.re, step.im), 1, shade.filled())
        }))?;
        let points = cells::alphabet(layout);
        chart.draw_series(points.iter().map(|point| Cross::new((point.re, point.im), 7, BLACK.stroke_width(2))))?;
        root.present()
    })
}
