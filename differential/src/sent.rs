//! A sent frame as document 01 defines it, "Sending symbols": the running point d at each symbol.
use crate::turns::{conj, times};
use dimpstea::{Complex, Layout, Tables};

/// "1, −1 for one bit; 1, j, −j, −1 for two".
pub fn alphabet(layout: &Layout) -> Vec<Complex> {
    let [one, j] = [Complex::ONE, Complex::new(0.0, 1.0)];
    let minus = |z: Complex| Complex::new(-z.re, -z.im);
    match layout.bps {
        1 => vec![one, minus(one)],
        _ => vec![one, j, minus(j), minus(one)],
    }
}

/// A label's bits, "high bit first".
pub fn bits(layout: &Layout, label: usize) -> impl Iterator<Item = u8> {
    (0..layout.bps).rev().map(move |bit| (label >> bit & 1) as u8)
}

/// Whether a table marks a carrier's symbol.
fn marked(layout: &Layout, tables: &Tables, carrier: usize, symbol: usize) -> bool {
    let values = &tables.markers[carrier * layout.markers..(carrier + 1) * layout.markers];
    values.iter().any(|&v| usize::from(v) == symbol)
}

/// The data cells, carrier by carrier, then by symbol.
pub fn cells(layout: &Layout, tables: &Tables) -> Vec<(usize, usize)> {
    let all = (0..layout.carriers).flat_map(|carrier| (1..layout.nsym).map(move |symbol| (carrier, symbol)));
    all.filter(|&(carrier, symbol)| !marked(layout, tables, carrier, symbol)).collect()
}

#[derive(Clone)]
pub struct Frame {
    /// The sample of its first symbol.
    pub at: usize,
    pub payload: Vec<u8>,
    /// The running point at each symbol, carrier by carrier.
    pub points: Vec<Vec<Complex>>,
    /// The symbols as they were sent, carrier by carrier.
    pub symbols: Vec<Complex>,
}

impl Frame {
    /// The frame of a payload, with a draw for each carrier's reference point.
    pub fn new(layout: &Layout, tables: &Tables, payload: &[u8], references: &[u8]) -> Self {
        let alphabet = alphabet(layout);
        let mut points: Vec<Vec<Complex>> = references.iter().map(|&d| vec![alphabet[usize::from(d)]]).collect();
        let mut labels = payload.chunks(layout.bps).map(|bits| bits.iter().fold(0, |v, &bit| 2 * v + usize::from(bit)));
        for (carrier, row) in points.iter_mut().enumerate() {
            for symbol in 1..layout.nsym {
                let d = row[symbol - 1];
                let next = match marked(layout, tables, carrier, symbol) {
                    true => d,
                    false => times(d, alphabet[labels.next().expect("a label for each cell")]),
                };
                row.push(next);
            }
        }
        assert!(labels.next().is_none(), "more labels than cells");
        Self { at: 0, payload: payload.to_vec(), points, symbols: Vec::new() }
    }

    /// "The step sent at a symbol is d there times conj(d) at the symbol before".
    pub fn step(&self, carrier: usize, symbol: usize) -> Complex {
        let row = &self.points[carrier];
        times(row[symbol], conj(row[symbol - 1]))
    }
}
