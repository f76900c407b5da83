use crate::{payload_bits, Layout, Located, Refusal, Steps};
use std::{error::Error, fmt};

/// A frame that was read.
#[derive(Clone, Debug, PartialEq)]
pub struct Reading {
    /// Where the frame lies.
    pub located: Located,
    /// The steps' mean norm g, by which they were divided.
    pub g: f64,
    /// The noise variance, at least 0.001.
    pub nvar: f64,
    /// The median phase error of the marks; [`Reading::snr_db`] has it in decibels.
    pub median: f64,
    /// The n soft bits: the sign of each says the bit, its size how sure that is.
    pub soft: Vec<f64>,
    /// The received steps, which are the divided ones.
    pub steps: Steps,
}

impl Reading {
    /// The payload that the soft bits' sign bits give, a byte of 0 or 1 for each.
    ///
    /// 11 where there are more or fewer soft bits than the layout's n.
    pub fn payload(&self, layout: &Layout) -> Result<Vec<u8>, Refusal> {
        payload_bits(layout, &self.soft)
    }
}

/// The first fault that a reading met, and what it left.
#[derive(Clone, Debug, PartialEq)]
pub struct ReadRefusal {
    /// The fault.
    pub refusal: Refusal,
    /// After 24 the steps, which could not be divided; after any other refusal nothing.
    pub undivided: Option<Steps>,
}

impl ReadRefusal {
    pub(crate) fn new(refusal: Refusal, scratch: Steps) -> Self {
        Self { refusal, undivided: (refusal.number() == 24).then_some(scratch) }
    }
}

impl From<ReadRefusal> for Refusal {
    fn from(read: ReadRefusal) -> Self {
        read.refusal
    }
}

impl fmt::Display for ReadRefusal {
    fn fmt(&self, f: &mut fmt::Formatter<'_>) -> fmt::Result {
        self.refusal.fmt(f)
    }
}

impl Error for ReadRefusal {}
