//! Cells and points, as document 01 has them: for counting and colouring what a reading left.
use dimpstea::{Complex, Layout, Steps, Tables};

const TWO: [Complex; 2] = [Complex::ONE, Complex::new(-1.0, 0.0)];
const FOUR: [Complex; 4] = [Complex::ONE, Complex::new(0.0, 1.0), Complex::new(0.0, -1.0), Complex::new(-1.0, 0.0)];

/// The points of a layout's alphabet, by label.
pub fn alphabet(layout: &Layout) -> &'static [Complex] {
    match layout.bps {
        1 => &TWO,
        _ => &FOUR,
    }
}

/// The label of the point that is nearest to a step, first of equals.
pub fn nearest(layout: &Layout, step: Complex) -> usize {
    let square = |point: &Complex| (step.re - point.re).powi(2) + (step.im - point.im).powi(2);
    let points = alphabet(layout);
    (1..points.len()).fold(0, |best, label| if square(&points[label]) < square(&points[best]) { label } else { best })
}

/// The data cells, carrier by carrier, then by symbol: each symbol from 1 to nsym - 1 that no marker value marks.
pub fn cells(layout: &Layout, tables: &Tables) -> Vec<(usize, usize)> {
    let carriers = tables.markers.chunks(layout.markers).take(layout.carriers).enumerate();
    let data = carriers.flat_map(|(carrier, values)| {
        let free = (1..layout.nsym).filter(|&symbol| !values.contains(&(symbol as u16)));
        free.map(move |symbol| (carrier, symbol))
    });
    data.collect()
}

/// How many cells have a nearest point that isn't the one sent.
pub fn wrong(layout: &Layout, cells: &[(usize, usize)], payload: &[u8], steps: &Steps) -> u64 {
    let labels = payload.chunks(layout.bps).map(|bits| bits.iter().fold(0, |label, &bit| 2 * label + usize::from(bit)));
    let pairs = cells.iter().zip(labels);
    pairs.filter(|(&(carrier, symbol), sent)| nearest(layout, steps.at(carrier, symbol)) != *sent).count() as u64
}

#[cfg(test)]
mod tests {
    use super::*;
    use crate::tables;

    #[test]
    fn as_many_cells_as_the_payload_fills() {
        for (bandwidth, record) in Layout::ALL {
            let layout = Layout::choose(bandwidth, record).unwrap();
            let cells = cells(&layout, &tables::own(&layout, tables::SEED).unwrap());
            assert_eq!(cells.len() * layout.bps, layout.payload, "{bandwidth}/{record}");
            assert!(cells.windows(2).all(|pair| pair[0] < pair[1]));
        }
    }

    /// Document 01: "step 1+j, nvar 1: label 0", "step -1+j: label 1", "bits 1,0 mean -j".
    #[test]
    fn nearest_points() {
        let four = Layout::choose(500, 5).unwrap();
        assert_eq!(four.bps, 2);
        assert_eq!(nearest(&four, Complex::new(1.0, 1.0)), 0);
        assert_eq!(nearest(&four, Complex::new(-1.0, 1.0)), 1);
        assert_eq!(nearest(&four, Complex::new(0.1, -0.7)), 0b10);
        assert_eq!(nearest(&four, Complex::new(-0.9, 0.3)), 3);
        let two = Layout::choose(500, 4).unwrap();
        assert_eq!((two.bps, nearest(&two, Complex::new(-0.1, 5.0)), nearest(&two, Complex::ZERO)), (1, 1, 0));
    }
}
