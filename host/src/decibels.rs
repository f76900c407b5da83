//! Decibels to a tenth, and the fixed terms that a layout's SNR has beside them.
use crate::{raw, Layout, Reading, Refusal};

/// What the SNR of every PSK layout is less by, in dB.
const PSK_DB: f64 = 20.91;
/// The peaks that an SNR is given for, in dB over the mean power.
const PEAKS_DB: f64 = 9.4;

/// Decibels to a tenth: the greatest q with 10^q at most M^200, where M is the median times 10^9 without its fraction.
///
/// So -20 lg of the median is 180 - q / 10 dB, or less than a tenth below it. q is at most 1,860. 26 where the median
/// isn't from 0 to 2, or so small that M is 0.
pub fn decibels(median: f64) -> Result<u32, Refusal> {
    let mut tenths = 0;
    raw::decibels(median, &mut tenths)?;
    Ok(tenths)
}

impl Layout {
    /// How far the peaks of the layout's signal stand above its mean power, in dB.
    pub fn papr_db(&self) -> f64 {
        match (self.bandwidth, self.record) {
            (500, 6) => 7.2,
            (500, _) => 4.4,
            (_, 5) => 6.1,
            (_, 6) => 7.1,
            (2300, 7) => 8.5,
            (2300, 8) => 8.6,
            (2300, _) => 8.9,
            (_, 7) => 8.4,
            (_, 8) => 8.7,
            _ => 8.8,
        }
    }

    /// What the layout adds to -20 lg of a median, in dB: 64 samples to a symbol's 32, its carriers, and what every PSK
    /// layout is less by.
    pub fn snr_terms_db(&self) -> f64 {
        10.0 * 2f64.log10() + 10.0 * (self.carriers as f64).log10() - PSK_DB
    }

    /// The SNR of a median, in dB and in steps of a tenth; 26 as [`decibels`].
    pub fn raw_snr_db(&self, median: f64) -> Result<f64, Refusal> {
        Ok(180.0 - f64::from(decibels(median)?) / 10.0 + self.snr_terms_db())
    }

    /// The same for peaks of 9.4 dB, so that layouts can be compared: what the layout's own peaks leave free is taken
    /// off.
    pub fn snr_db(&self, median: f64) -> Result<f64, Refusal> {
        Ok(self.raw_snr_db(median)? - (PEAKS_DB - self.papr_db()))
    }
}

impl Reading {
    /// The reading's SNR in dB, as [`Layout::snr_db`] of its median.
    pub fn snr_db(&self, layout: &Layout) -> Result<f64, Refusal> {
        layout.snr_db(self.median)
    }
}
