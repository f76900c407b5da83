use crate::{raw, Complex, Refusal};

/// The soft bits of one step in an alphabet of `size` points (2, 4, 8, 16 or 32), the label's high bit first.
///
/// A soft bit's sign bit is that bit of the label whose point is nearest, the first of equals. A soft bit of zero is an
/// erasure, of either sign: see [`erased`].
///
/// ```
/// let soft = dimpstea::soft_step(4, dimpstea::Complex::new(1.0, 1.0), 1.0)?;
/// assert_eq!(soft, [4.0, 0.0]);
/// assert!(!dimpstea::erased(soft[0]) && dimpstea::erased(soft[1]));
/// # Ok::<(), dimpstea::Refusal>(())
/// ```
pub fn soft_step(size: usize, step: Complex, nvar: f64) -> Result<Vec<f64>, Refusal> {
    let mut out = vec![0.0; size.checked_ilog2().unwrap_or(0) as usize];
    raw::soft_step(size, step, nvar, &mut out)?;
    Ok(out)
}

/// Whether a soft bit of [`soft_step`] says nothing: among the points that the demapper compares, one with the other bit
/// is as near as the nearest. Both zeros are erasures.
pub fn erased(soft: f64) -> bool {
    soft == 0.0
}

/// How clear the choice of a step's nearest point is.
#[derive(Clone, Copy, Debug, PartialEq)]
pub struct Nearest {
    /// The label of the nearest point, the first of equals.
    pub label: usize,
    /// Its squared distance.
    pub distance: f64,
    /// The smallest squared distance among the other points; equal to `distance` at a tie, and never infinite.
    pub runner_up: f64,
}

/// The nearest point of a step in an alphabet of `size` points (2, 4, 8, 16 or 32).
///
/// ```
/// let nearest = dimpstea::nearest_point(2, dimpstea::Complex::new(0.5, 0.0))?;
/// assert_eq!((nearest.label, nearest.distance, nearest.runner_up), (0, 0.25, 2.25));
/// # Ok::<(), dimpstea::Refusal>(())
/// ```
pub fn nearest_point(size: usize, step: Complex) -> Result<Nearest, Refusal> {
    let (mut label, mut distance, mut runner_up) = (0, 0.0, 0.0);
    raw::nearest_point(size, step, &mut label, &mut distance, &mut runner_up)?;
    Ok(Nearest { label: label as usize, distance, runner_up })
}
