use crate::{raw, Detection, Refusal};

/// A hold by itself: document 01's history rule over offers that the host makes.
#[derive(Clone, Copy, Debug, PartialEq)]
pub struct Hold {
    numbers: [u64; raw::HOLD],
    metric: f64,
}

impl Hold {
    /// A hold that has been offered nothing.
    pub const fn new(hold: u64, dead: u64) -> Self {
        Self { numbers: [hold, dead, 0, 0, 0, 0], metric: 0.0 }
    }

    /// Offers a position, with a candidate's metric or none: the release that it brings, or refusal 21.
    pub fn offer(&mut self, position: u64, metric: Option<f64>) -> Result<Option<Detection>, Refusal> {
        raw::offer(&mut self.numbers, &mut self.metric, position, metric)
    }
}
