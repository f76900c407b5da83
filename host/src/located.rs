use crate::{rows, Complex, Layout, Refusal, Residual};
use std::f64::consts::TAU;

/// Where a frame lies: the position of greatest chi among t0 - 3 to t0 + 3, first of equals.
#[derive(Clone, Copy, Debug, PartialEq)]
pub struct Located {
    /// The position of the frame's first symbol, in 3 kHz samples.
    pub t: u64,
    /// The metric there.
    pub chi: f64,
    /// The pilot sum there: its angle is the frame's mean turn over a symbol that nothing was sent by.
    pub pilot_sum: Complex,
}

impl Located {
    /// The residual in thirty-seconds of a hertz, for showing it: the drift rows go by [`Self::residual_hz`].
    pub fn residual(&self) -> Result<Residual, Refusal> {
        Residual::of(self.pilot_sum)
    }

    /// The residual `df`, in Hz: how much too high the frame still is. It is 0 unless it exceeds 1 Hz in size, and
    /// within 46.875 Hz.
    pub fn residual_hz(&self) -> f64 {
        let df = self.pilot_sum.angle() * 3000.0 / (TAU * 32.0);
        if df.abs() > 1.0 {
            df
        } else {
            0.0
        }
    }

    /// The drift rows of the residual, for a reading at the t0 that this frame was located from (see [`rows::drift`]):
    /// none where it is 0.
    pub fn drift_rows(&self, layout: &Layout) -> Vec<Complex> {
        let df = self.residual_hz();
        if df == 0.0 {
            return Vec::new();
        }
        rows::drift(layout, self.t, df)
    }

    /// Where the frame ends: t + greatest stagger + 32 x nsym.
    pub fn t_end(&self, layout: &Layout) -> u64 {
        self.t.saturating_add(layout.max_stagger + 32 * layout.nsym as u64)
    }
}
