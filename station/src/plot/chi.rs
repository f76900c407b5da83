use super::{colour, seconds, write};
use crate::error::Error;
use dimpstea::{Detection, Layout, Receiver, Tables};
use plotters::prelude::*;
use std::path::Path;

/// Columns of the picture at most.
const COLUMNS: usize = 1600;
/// Positions that one locating looks at.
const LOOKS_AT: u64 = 7;
/// What a candidate needs, by document 01.
const CANDIDATE: f64 = 20.0;

/// The metric chi over time: the greatest of each column, by the proved `locate`.
#[derive(Clone, Debug)]
pub struct Chi {
    title: String,
    last: u64,
    from: Option<u64>,
    next: u64,
    width: u64,
    columns: Vec<f64>,
}

impl Chi {
    /// Nothing yet.
    pub fn new(layout: &Layout) -> Self {
        Self {
            title: format!("Metric of {}/{}", layout.bandwidth, layout.record),
            last: layout.max_stagger + 32 * (layout.nsym as u64 - 1) + 4,
            from: None,
            next: 0,
            width: LOOKS_AT,
            columns: Vec::new(),
        }
    }

    /// Takes in the positions that the last feed brought in hand: to be called after each feed.
    pub fn take(&mut self, receiver: &Receiver, tables: &Tables) {
        let numbers = &receiver.state().numbers;
        let (base, end) = (numbers[5], numbers[5].saturating_add(numbers[6]));
        let first = base.saturating_add(35);
        let from = *self.from.get_or_insert(first);
        self.next = self.next.max(first);
        while self.next.saturating_add(self.last) <= end {
            if let Ok(located) = receiver.locate(tables, self.next) {
                self.put(self.next - from, located.chi);
            }
            self.next += LOOKS_AT;
        }
    }

    fn put(&mut self, late: u64, chi: f64) {
        while late / self.width >= COLUMNS as u64 {
            self.columns = self.columns.chunks(2).map(|pair| pair.iter().copied().fold(0.0, f64::max)).collect();
            self.width *= 2;
        }
        let column = (late / self.width) as usize;
        if self.columns.len() <= column {
            self.columns.resize(column + 1, 0.0);
        }
        self.columns[column] = self.columns[column].max(chi);
    }

    /// Writes the picture, with the detections that were released.
    pub fn write(&self, file: &Path, detections: &[Detection]) -> Result<(), Error> {
        let from = self.from.unwrap_or(0) as f64;
        let at = |column: usize| seconds(from + (column as u64 * self.width) as f64);
        let metrics = detections.iter().map(|detection| detection.metric);
        let highest = self.columns.iter().copied().chain(metrics).fold(2.0 * CANDIDATE, f64::max);
        let end = at(self.columns.len().max(2));
        write(file, |svg| {
            let root = SVGBackend::with_string(svg, (900, 360)).into_drawing_area();
            root.fill(&WHITE)?;
            let mut chart = ChartBuilder::on(&root)
                .caption(&self.title, ("sans-serif", 18))
                .margin(12)
                .x_label_area_size(40)
                .y_label_area_size(56)
                .build_cartesian_2d(at(0)..end, 0.0..1.08 * highest)?;
            chart
                .configure_mesh()
                .x_desc("time of the first symbol, s")
                .y_desc("chi")
                .y_label_formatter(&|chi| format!("{chi:.0}"))
                .max_light_lines(0)
                .draw()?;
            let line = self.columns.iter().enumerate().map(|(column, &chi)| (at(column), chi));
            chart.draw_series(LineSeries::new(line, colour(0)))?;
            let least = PathElement::new([(at(0), CANDIDATE), (end, CANDIDATE)], colour(6).mix(0.5));
            chart.draw_series([least])?.label("a candidate's least").legend(|(x, y)| line_sample(x, y));
            chart
                .draw_series(detections.iter().map(|detection| {
                    Circle::new((seconds(detection.position as f64), detection.metric), 5, colour(1).stroke_width(2))
                }))?
                .label("detections")
                .legend(|(x, y)| Circle::new((x + 9, y), 5, colour(1).stroke_width(2)));
            chart
                .configure_series_labels()
                .position(SeriesLabelPosition::UpperMiddle)
                .background_style(WHITE.mix(0.8))
                .draw()?;
            root.present()
        })
    }
}

fn line_sample(x: i32, y: i32) -> PathElement<(i32, i32)> {
    PathElement::new([(x, y), (x + 18, y)], colour(6).mix(0.5))
}

#[cfg(test)]
mod tests {
    use super::*;

    #[test]
    fn columns_stay_few_and_keep_the_greatest() {
        let layout = Layout::choose(500, 4).unwrap();
        let mut chi = Chi::new(&layout);
        for late in (0..10_000_000).step_by(7) {
            chi.put(late, if late == 7_000_000 { 300.0 } else { 3.0 });
        }
        assert!(chi.columns.len() <= COLUMNS && chi.columns.len() > COLUMNS / 2);
        assert_eq!(chi.columns[(7_000_000 / chi.width) as usize], 300.0);
        assert_eq!(chi.columns.iter().filter(|&&value| value > 3.0).count(), 1);
    }

    #[test]
    fn a_picture_of_nothing() {
        let file = std::env::temp_dir().join(format!("dimpstea-chi-{}.svg", std::process::id()));
        let chi = Chi::new(&Layout::choose(2300, 7).unwrap());
        chi.write(&file, &[]).unwrap();
        assert!(std::fs::read_to_string(&file).unwrap().contains("2300/7"));
        std::fs::remove_file(file).unwrap();
    }
}
