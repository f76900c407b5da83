use super::{colour, range, write};
use crate::error::Error;
use plotters::coord::{types::RangedCoordf64, Shift};
use plotters::prelude::*;
use std::path::Path;

/// A trial's counts at one SNR.
#[derive(Clone, Copy, Debug, PartialEq)]
pub struct Rate {
    /// The SNR, in dB.
    pub snr_db: f64,
    /// Frames sent.
    pub sent: u64,
    /// Frames detected.
    pub detected: u64,
    /// Frames read exactly.
    pub exact: u64,
}

/// The rates of one layout.
#[derive(Clone, Debug, PartialEq)]
pub struct Curve {
    /// What the legend says.
    pub name: String,
    /// The rates, by rising SNR.
    pub rates: Vec<Rate>,
}

/// The curves of one channel.
#[derive(Clone, Debug, PartialEq)]
pub struct Panel {
    /// What stands above.
    pub title: String,
    /// The curves.
    pub curves: Vec<Curve>,
}

type Area<'a> = DrawingArea<SVGBackend<'a>, Shift>;
type Chart<'a, 'b> = ChartContext<'a, SVGBackend<'b>, Cartesian2d<RangedCoordf64, RangedCoordf64>>;
type Drawn<'a> = Result<(), DrawingAreaErrorKind<<SVGBackend<'a> as DrawingBackend>::ErrorType>>;

/// Frames read exactly (thick, with intervals of 95 %) and frames detected (thin) over SNR, a panel for each channel.
pub fn rates(file: &Path, panels: &[Panel]) -> Result<(), Error> {
    let mut names: Vec<&str> = Vec::new();
    for curve in panels.iter().flat_map(|panel| &panel.curves) {
        if !names.contains(&&curve.name[..]) {
            names.push(&curve.name);
        }
    }
    let count = panels.len().max(1);
    let width = 560 * count as u32;
    let across = (width as usize - 60) / NAME;
    let legend = LINE * (1 + (names.len() + across - 1) / across) as i32 + 12;
    write(file, |svg| {
        let root = SVGBackend::with_string(svg, (width, 400 + legend as u32)).into_drawing_area();
        root.fill(&WHITE)?;
        let (top, below) = root.split_vertically(legend);
        draw_legend(&top, &names, across)?;
        for (panel, area) in panels.iter().zip(below.split_evenly((1, count))) {
            draw(&area, panel, &names)?;
        }
        root.present()
    })
}

/// A name's place in the legend, in dots.
const NAME: usize = 100;
const LINE: i32 = 22;

fn draw_legend<'a>(area: &Area<'a>, names: &[&str], across: usize) -> Drawn<'a> {
    let words = "read exactly: thick, with intervals of 95 %; detected: thin";
    area.draw(&Text::new(words, (60, 10), ("sans-serif", 15)))?;
    for (number, name) in names.iter().enumerate() {
        let (x, y) = (60 + (number % across * NAME) as i32, 10 + LINE * (1 + (number / across) as i32));
        area.draw(&PathElement::new([(x, y + 6), (x + 24, y + 6)], colour(number).stroke_width(3)))?;
        area.draw(&Text::new(*name, (x + 30, y), ("sans-serif", 15)))?;
    }
    Ok(())
}

fn draw<'a>(area: &Area<'a>, panel: &Panel, names: &[&str]) -> Drawn<'a> {
    let snrs = panel.curves.iter().flat_map(|curve| curve.rates.iter().map(|rate| rate.snr_db));
    let mut chart = ChartBuilder::on(area)
        .caption(&panel.title, ("sans-serif", 18))
        .margin(12)
        .x_label_area_size(42)
        .y_label_area_size(52)
        .build_cartesian_2d(range(snrs, 0.5), 0.0..104.0)?;
    chart
        .configure_mesh()
        .x_desc("SNR in 3 kHz, dB")
        .y_desc("frames, %")
        .y_labels(6)
        .x_labels(10)
        .light_line_style(TRANSPARENT)
        .y_label_formatter(&|percent| format!("{percent:.0}"))
        .x_label_formatter(&|snr| format!("{snr:.0}"))
        .draw()?;
    for curve in &panel.curves {
        let number = names.iter().position(|name| *name == curve.name).unwrap_or(0);
        draw_curve(&mut chart, curve, colour(number))?;
    }
    Ok(())
}

fn draw_curve<'a>(chart: &mut Chart<'_, 'a>, curve: &Curve, colour: RGBColor) -> Drawn<'a> {
    let percent = |count: u64, sent: u64| (100.0 * count as f64 / sent.max(1) as f64).min(100.0);
    let exact = curve.rates.iter().map(|rate| (rate.snr_db, percent(rate.exact, rate.sent)));
    let detected = curve.rates.iter().map(|rate| (rate.snr_db, percent(rate.detected, rate.sent)));
    let (thick, thin) = (colour.stroke_width(2), colour.mix(0.55).stroke_width(1));
    chart.draw_series(LineSeries::new(detected.clone(), thin))?;
    chart.draw_series(detected.map(|at| TriangleMarker::new(at, 4, thin)))?;
    chart.draw_series(curve.rates.iter().map(|rate| {
        let (low, high) = interval(rate.exact, rate.sent);
        PathElement::new([(rate.snr_db, 100.0 * low), (rate.snr_db, 100.0 * high)], thin)
    }))?;
    chart.draw_series(LineSeries::new(exact.clone(), thick))?;
    chart.draw_series(exact.map(|at| Circle::new(at, 3, colour.filled())))?;
    Ok(())
}

/// Wilson's interval, of 95 %, of a rate of which `met` of `tried` were met.
pub(super) fn interval(met: u64, tried: u64) -> (f64, f64) {
    if tried == 0 {
        return (0.0, 1.0);
    }
    let (n, p, z) = (tried as f64, (met as f64 / tried as f64).min(1.0), 1.96f64);
    let middle = p + z * z / (2.0 * n);
    let half = z * (p * (1.0 - p) / n + z * z / (4.0 * n * n)).sqrt();
    let whole = 1.0 + z * z / n;
    (((middle - half) / whole).max(0.0), ((middle + half) / whole).min(1.0))
}

#[cfg(test)]
mod tests {
    use super::*;

    #[test]
    fn intervals() {
        assert_eq!(interval(0, 0), (0.0, 1.0));
        // Wilson's interval of 5 of 10, as tables have it.
        let (low, high) = interval(5, 10);
        assert!((low - 0.2366).abs() < 1e-4 && (high - 0.7634).abs() < 1e-4, "{low} {high}");
        let (low, high) = interval(40, 40);
        assert!(low > 0.9 && high == 1.0);
    }

    #[test]
    fn a_picture_has_every_curve() {
        let file = std::env::temp_dir().join(format!("dimpstea-rates-{}.svg", std::process::id()));
        let rate = |snr_db, exact| Rate { snr_db, sent: 10, detected: 10, exact };
        let curve = |name: &str| Curve { name: name.into(), rates: vec![rate(-6.0, 1), rate(0.0, 9)] };
        let panel = |title: &str| Panel { title: title.into(), curves: vec![curve("500/4"), curve("2300/7")] };
        for panels in [vec![], vec![panel("white noise")], vec![panel("white noise"), panel("fading")]] {
            rates(&file, &panels).unwrap();
            let svg = std::fs::read_to_string(&file).unwrap();
            assert!(svg.starts_with("<svg") && svg.trim_end().ends_with("</svg>"));
            for panel in &panels {
                assert!(svg.contains(&panel.title), "{}", panel.title);
            }
            for name in ["500/4", "2300/7"] {
                assert_eq!(svg.matches(name).count(), usize::from(!panels.is_empty()), "{name}");
            }
            // A dot for each rate.
            assert_eq!(svg.matches("<circle").count(), 4 * panels.len());
        }
        std::fs::remove_file(file).unwrap();
    }

    #[test]
    fn a_folder_that_is_not_there_is_named() {
        let error = rates(Path::new("/there/is/no/such/folder.svg"), &[]).unwrap_err();
        assert!(error.to_string().contains("/there/is/no/such/folder.svg"), "{error}");
    }
}
