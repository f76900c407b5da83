use super::{png, seconds, write};
use crate::error::Error;
use dimpstea::{Complex, Layout, Located};
use plotters::prelude::*;
use std::f64::consts::TAU;
use std::path::Path;

/// Samples of a spectrum, which has as many lines over 0 to 3,000 Hz.
const BLOCK: usize = 128;
/// Columns of the picture at most.
const COLUMNS: usize = 640;
/// Shades, from dark to light.
const SHADES: usize = 64;

/// A frame to be marked.
#[derive(Clone, Debug, PartialEq)]
pub struct Mark {
    /// What is written beside it.
    pub name: String,
    /// The frame's first position.
    pub from: u64,
    /// The position after its last.
    pub to: u64,
    /// Its lowest and its highest frequency, in Hz.
    pub hz: (f64, f64),
}

impl Mark {
    /// The mark of a located frame.
    pub fn of(layout: &Layout, located: &Located) -> Self {
        let first = layout.first_hz as f64;
        let last = (layout.first_hz + (layout.carriers as u64 - 1) * layout.spacing_hz) as f64;
        let half = layout.spacing_hz as f64 / 2.0;
        Self {
            name: format!("{}/{}", layout.bandwidth, layout.record),
            from: located.t,
            to: located.t_end(layout),
            hz: ((first - half).max(0.0), (last + half).min(3000.0)),
        }
    }
}

/// The spectrum over time.
#[derive(Clone, Debug)]
pub struct Waterfall {
    start: u64,
    waiting: Vec<Complex>,
    blocks: usize,
    width: usize,
    columns: Vec<[f64; BLOCK]>,
}

impl Waterfall {
    /// Nothing yet; the first sample will be at this position.
    pub fn new(start: u64) -> Self {
        Self { start, waiting: Vec::with_capacity(BLOCK), blocks: 0, width: 1, columns: Vec::new() }
    }

    /// Takes in the next samples.
    pub fn take(&mut self, samples: &[Complex]) {
        for &sample in samples {
            self.waiting.push(sample);
            if self.waiting.len() == BLOCK {
                self.put(&spectrum(&self.waiting));
                self.waiting.clear();
            }
        }
    }

    fn put(&mut self, powers: &[f64; BLOCK]) {
        if self.blocks == COLUMNS * self.width {
            let half = |pair: &[[f64; BLOCK]]| std::array::from_fn(|line| pair.iter().map(|powers| powers[line]).sum());
            self.columns = self.columns.chunks(2).map(half).collect();
            self.width *= 2;
        }
        let column = self.blocks / self.width;
        if self.columns.len() <= column {
            self.columns.push([0.0; BLOCK]);
        }
        for (sum, power) in self.columns[column].iter_mut().zip(powers) {
            *sum += power;
        }
        self.blocks += 1;
    }

    /// Writes the picture, with frames marked.
    pub fn write(&self, file: &Path, marks: &[Mark]) -> Result<(), Error> {
        write(file, |svg| {
            let frame = self.axes(svg)?;
            // The rest stands inside the picture that plotters has closed.
            svg.truncate(svg.trim_end().trim_end_matches("</svg>").len());
            let Frame { x, y, w, h, .. } = frame;
            let (stretched, image) = ("preserveAspectRatio=\"none\" style=\"image-rendering:pixelated\"", self.image());
            *svg +=
                &format!("<image x=\"{x}\" y=\"{y}\" width=\"{w}\" height=\"{h}\" {stretched} href=\"{image}\"/>\n");
            for mark in marks {
                *svg += &frame.outline(mark);
            }
            svg.push_str("</svg>\n");
            Ok::<(), Fault>(())
        })
    }

    /// Draws the axes; where the picture's inside lies.
    fn axes(&self, svg: &mut String) -> Result<Frame, Fault> {
        let samples = (self.columns.len().max(1) * self.width * BLOCK) as u64;
        let (from, to) = (seconds(self.start as f64), seconds((self.start + samples) as f64));
        let root = SVGBackend::with_string(svg, (960, 460)).into_drawing_area();
        root.fill(&WHITE)?;
        let mut chart = ChartBuilder::on(&root)
            .caption("Waterfall", ("sans-serif", 18))
            .margin(12)
            .x_label_area_size(40)
            .y_label_area_size(56)
            .build_cartesian_2d(from..to, 0.0..3000.0)?;
        chart
            .configure_mesh()
            .x_desc("time, s")
            .y_desc("Hz")
            .y_label_formatter(&|hz| format!("{hz:.0}"))
            .disable_mesh()
            .draw()?;
        let (across, down) = chart.plotting_area().get_pixel_range();
        root.present()?;
        let (x, y) = (f64::from(across.start), f64::from(down.start));
        Ok(Frame { x, y, w: f64::from(across.end) - x, h: f64::from(down.end) - y, from, to })
    }

    /// The spectra as a picture, the highest frequency on top, light where there is much power.
    fn image(&self) -> String {
        let decibels = |power: f64| 10.0 * (power + 1e-30).log10();
        let mut sorted: Vec<f64> = self.columns.iter().flatten().map(|&power| decibels(power)).collect();
        sorted.sort_by(f64::total_cmp);
        let share = |part: f64| sorted.get((part * sorted.len() as f64) as usize).copied().unwrap_or(0.0);
        let (dark, light) = (share(0.05).max(share(0.995) - 50.0), share(0.995));
        let shade = |power: f64| {
            let part = (decibels(power) - dark) / (light - dark).max(1e-9);
            (part * (SHADES - 1) as f64).clamp(0.0, (SHADES - 1) as f64) as u8
        };
        let lines = (0..BLOCK).rev().flat_map(|line| self.columns.iter().map(move |column| shade(column[line])));
        let dots: Vec<u8> = lines.collect();
        png::data_uri(self.columns.len(), &dots, &colours())
    }
}

type Fault = DrawingAreaErrorKind<std::io::Error>;

/// The picture's inside, in dots, and the seconds at its edges.
struct Frame {
    x: f64,
    y: f64,
    w: f64,
    h: f64,
    from: f64,
    to: f64,
}

impl Frame {
    /// A frame's outline, with its name.
    fn outline(&self, mark: &Mark) -> String {
        let Self { x, y, w, h, from, to } = self;
        let place = |position: u64| (x + w * (seconds(position as f64) - from) / (to - from)).clamp(*x, x + w);
        let height = |hz: f64| y + h * (1.0 - hz / 3000.0);
        let (left, top) = (place(mark.from), height(mark.hz.1));
        let (wide, high) = (place(mark.to) - left, height(mark.hz.0) - top);
        let line = "fill=\"none\" stroke=\"#ffffff\" stroke-width=\"1.5\" stroke-dasharray=\"6 3\"";
        let letters = "font-family=\"sans-serif\" font-size=\"13\" fill=\"#ffffff\"";
        // Above the outline where there is room.
        let (right, base, name) = (left + 2.0, if top - y > 18.0 { top - 4.0 } else { top + 15.0 }, &mark.name);
        format!(
            "<rect x=\"{left:.1}\" y=\"{top:.1}\" width=\"{wide:.1}\" height=\"{high:.1}\" {line}/>\n\
             <text x=\"{right:.1}\" y=\"{base:.1}\" {letters}>{name}</text>\n"
        )
    }
}

/// From black through blue and orange to near white, ever lighter.
fn colours() -> Vec<[u8; 3]> {
    let stops = [[0, 0, 20], [30, 40, 120], [150, 50, 120], [240, 130, 50], [255, 245, 180]].map(|c| c.map(f64::from));
    let mixed = |shade: usize| {
        let along = shade as f64 / (SHADES - 1) as f64 * (stops.len() - 1) as f64;
        let stop = (along as usize).min(stops.len() - 2);
        let part = along - stop as f64;
        std::array::from_fn(|i| (stops[stop][i] * (1.0 - part) + stops[stop + 1][i] * part) as u8)
    };
    (0..SHADES).map(mixed).collect()
}

/// The powers of a block's lines (Hann's window).
fn spectrum(block: &[Complex]) -> [f64; BLOCK] {
    let mut numbers: [Complex; BLOCK] = std::array::from_fn(|n| {
        let window = 0.5 - 0.5 * (TAU * n as f64 / BLOCK as f64).cos();
        Complex::new(window * block[n].re, window * block[n].im)
    });
    transform(&mut numbers);
    numbers.map(|z| z.re * z.re + z.im * z.im)
}

/// The discrete Fourier transform, in place, of a power of two of numbers.
fn transform(numbers: &mut [Complex]) {
    let len = numbers.len();
    let bits = len.trailing_zeros();
    for i in 0..len {
        let j = i.reverse_bits() >> (usize::BITS - bits);
        if i < j {
            numbers.swap(i, j);
        }
    }
    let mut half = 1;
    while half < len {
        for (i, k) in (0..len).step_by(2 * half).flat_map(|i| (0..half).map(move |k| (i, k))) {
            let turn = Complex::at_angle(-std::f64::consts::PI * k as f64 / half as f64);
            let (a, b) = (numbers[i + k], numbers[i + k + half]);
            let b = Complex::new(b.re * turn.re - b.im * turn.im, b.re * turn.im + b.im * turn.re);
            numbers[i + k] = Complex::new(a.re + b.re, a.im + b.im);
            numbers[i + k + half] = Complex::new(a.re - b.re, a.im - b.im);
        }
        half *= 2;
    }
}

#[cfg(test)]
mod tests {
    use super::*;

    #[test]
    fn a_tone_stands_at_its_line() {
        for line in [0, 1, 37, 64, 127] {
            let tone: Vec<Complex> =
                (0..BLOCK).map(|n| Complex::at_angle(TAU * (line * n) as f64 / BLOCK as f64)).collect();
            let powers = spectrum(&tone);
            let highest = (0..BLOCK).max_by(|&a, &b| powers[a].total_cmp(&powers[b]));
            assert_eq!(highest, Some(line));
        }
    }

    #[test]
    fn columns_stay_few() {
        let mut waterfall = Waterfall::new(0);
        for _ in 0..5 * COLUMNS / 2 {
            waterfall.take(&[Complex::ONE; BLOCK]);
        }
        assert_eq!(waterfall.width, 4);
        assert_eq!(waterfall.columns.len(), 5 * COLUMNS / 2 / 4);
        let (first, last) = (waterfall.columns[0][0], waterfall.columns[waterfall.columns.len() - 1][0]);
        assert!((first - last).abs() < 1e-9 * first, "{first} {last}");
    }

    #[test]
    fn pictures_of_nothing_and_of_silence() {
        let file = std::env::temp_dir().join(format!("dimpstea-waterfall-{}.svg", std::process::id()));
        let mut waterfall = Waterfall::new(0);
        for _ in 0..2 {
            let mark = Mark { name: "500/4".into(), from: 0, to: 4000, hz: (1000.0, 2000.0) };
            waterfall.write(&file, &[mark]).unwrap();
            let svg = std::fs::read_to_string(&file).unwrap();
            assert!(svg.starts_with("<svg") && svg.ends_with("</svg>\n") && svg.contains("500/4</text>"));
            assert_eq!(svg.matches("</svg>").count(), 1);
            waterfall.take(&[Complex::ZERO; 5000]);
        }
        std::fs::remove_file(file).unwrap();
    }
}
