use crate::{raw, Complex, Refusal};

/// How much too high a frame still is, in whole numbers: the same on every machine.
#[derive(Clone, Copy, Debug, PartialEq, Eq, Hash)]
pub struct Residual {
    /// The last of the 3,000 directions that the pilot sum isn't before: it points at index / 3,000 of a full turn.
    pub index: u32,
    /// Thirty-seconds of a hertz, -1,500 to 1,499.
    pub thirty_seconds: i32,
}

impl Residual {
    /// The residual of a pilot sum: refused (25) where a part isn't finite or is above 64 in size, or where both parts
    /// times 2^20 truncate to zero.
    pub fn of(pilot_sum: Complex) -> Result<Self, Refusal> {
        let (index, thirty_seconds) = raw::residual(pilot_sum.re, pilot_sum.im)?;
        Ok(Self { index, thirty_seconds })
    }

    /// In Hz, exactly.
    pub fn hz(self) -> f64 {
        f64::from(self.thirty_seconds) / 32.0
    }
}
