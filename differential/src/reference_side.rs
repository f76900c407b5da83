//! The same inputs in the reference's types.
use dimpstea::{Complex, Layout, Tables};
use reference::{adaptor, Complex64};

pub fn layout(l: &Layout) -> adaptor::Layout {
    adaptor::layout(l.bandwidth, l.record).expect("a PSK layout")
}

pub fn numbers(list: &[Complex]) -> Vec<Complex64> {
    list.iter().map(|z| Complex64::new(z.re, z.im)).collect()
}

/// The parts of the numbers, one after the other.
pub fn parts(list: &[Complex64]) -> Vec<f64> {
    list.iter().flat_map(|z| [z.re, z.im]).collect()
}

pub fn tables(l: &Layout, t: &Tables) -> adaptor::Tables {
    adaptor::Tables { markers: t.markers.clone(), phasors: t.phasors.chunks(l.nsym).map(numbers).collect() }
}
