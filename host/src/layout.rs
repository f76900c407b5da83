use crate::{raw, Refusal};

/// One of the fifteen PSK layouts, with every number that document 01 derives.
///
/// # Panics
///
/// Nothing of this crate panics, save where it says so, with the numbers that [`Layout::choose`] gave. With numbers
/// that a host has changed, lengths may be wrong, which the calls refuse, or no lengths at all, which panics.
#[derive(Clone, Debug, PartialEq, Eq)]
pub struct Layout {
    /// The bandwidth, in Hz.
    pub bandwidth: u32,
    /// The record's number.
    pub record: u32,
    /// Carriers (nc).
    pub carriers: usize,
    /// Symbols of a frame as the layout's table counts them (spf).
    pub spf: usize,
    /// Markers of a carrier.
    pub markers: usize,
    /// Bits of a data cell (bps).
    pub bps: usize,
    /// Symbols of a frame that are sent, its reference first (nsym = spf - 1).
    pub nsym: usize,
    /// Payload bits of a frame (n).
    pub payload: usize,
    /// Taps of the pulse.
    pub taps: usize,
    /// The first carrier, in Hz.
    pub first_hz: u64,
    /// From carrier to carrier, in Hz.
    pub spacing_hz: u64,
    /// The filter's delay, in 3 kHz samples.
    pub delay: u64,
    /// The greatest stagger of a carrier, in 3 kHz samples.
    pub max_stagger: u64,
    /// Samples that a track keeps when it is trimmed.
    pub keep: u64,
    /// The dead time after a release, in 3 kHz samples.
    pub dead: u64,
}

impl Layout {
    /// The bandwidth and record of each layout.
    pub const ALL: [(u32, u32); 15] = [
        (500, 4),
        (500, 5),
        (500, 6),
        (500, 14),
        (2300, 5),
        (2300, 6),
        (2300, 7),
        (2300, 8),
        (2300, 9),
        (2750, 5),
        (2750, 6),
        (2750, 7),
        (2750, 8),
        (2750, 9),
        (2750, 10),
    ];

    /// The layout of a bandwidth and a record, or refusal 1 or 2.
    pub fn choose(bandwidth: u32, record: u32) -> Result<Self, Refusal> {
        let mut numbers = [0; raw::LAYOUT];
        raw::layout(bandwidth, record, &mut numbers)?;
        let [carriers, spf, markers, bps, nsym, payload, taps, first_hz, spacing_hz, delay, max_stagger, keep, dead] =
            numbers;
        Ok(Self {
            bandwidth,
            record,
            carriers: carriers as usize,
            spf: spf as usize,
            markers: markers as usize,
            bps: bps as usize,
            nsym: nsym as usize,
            payload: payload as usize,
            taps: taps as usize,
            first_hz,
            spacing_hz,
            delay,
            max_stagger,
            keep,
            dead,
        })
    }

    /// A carrier's frequency, in Hz.
    ///
    /// # Panics
    ///
    /// Where there is no such carrier.
    pub fn carrier_hz(&self, carrier: usize) -> u64 {
        assert!(carrier < self.carriers, "a carrier of the layout");
        self.first_hz + carrier as u64 * self.spacing_hz
    }

    /// A carrier's stagger, in 3 kHz samples.
    ///
    /// # Panics
    ///
    /// Where there is no such carrier.
    pub fn stagger(&self, carrier: usize) -> u64 {
        assert!(carrier < self.carriers, "a carrier of the layout");
        match (self.carriers, carrier) {
            (3, c) => [0, 11, 21][c],
            (_, c) => 16 * (c as u64 % 2),
        }
    }

    /// Points of the alphabet.
    pub fn points(&self) -> usize {
        1 << self.bps
    }

    /// Entries of the marker table, each a `u16`: the values, then the flags.
    pub fn marker_table_len(&self) -> usize {
        self.carriers * (self.markers + self.spf - 1)
    }

    /// Phasors of all carriers: as many complex numbers, twice as many `f64`.
    pub fn phasor_count(&self) -> usize {
        self.carriers * self.nsym
    }

    /// Draws of a sending: a reference for each frame and carrier, and eight leads for each carrier.
    ///
    /// A count of frames that no call accepts has some length too: here and below, sums stop at the greatest number.
    pub fn draw_count(&self, frames: usize) -> usize {
        self.carriers.saturating_mul(frames.saturating_add(8))
    }

    /// Symbols of a carrier's row: eight leads, the frames, a zero. As many complex numbers, twice as many `f64`.
    pub fn row_len(&self, frames: usize) -> usize {
        frames.saturating_mul(self.nsym).saturating_add(9)
    }

    /// Places of a sending's 48 kHz signal.
    pub fn audio_len(&self, frames: usize) -> u64 {
        let samples = (self.row_len(frames) as u64).saturating_mul(32);
        samples.saturating_add(self.max_stagger + self.taps as u64 - 1).saturating_mul(16).saturating_add(31)
    }

    /// Complex numbers of a receiver's memory; twice as many `f64`.
    pub fn memory_len(&self) -> usize {
        (1 + 3 * self.carriers) * (2 * self.keep as usize + 4000)
    }

    /// Complex numbers of a reading's scratch, nc x nsym; twice as many `f64`.
    pub fn scratch_len(&self) -> usize {
        self.carriers * self.nsym
    }

    /// Complex numbers of a carrier's drift row: positions t - delay - 1 up to, not including,
    /// t + greatest stagger + 32 x (nsym - 1) + delay + 1.
    pub fn drift_row_len(&self) -> usize {
        (self.max_stagger + 2 * self.delay) as usize + 32 * (self.nsym - 1) + 2
    }

    /// Complex numbers of all drift rows; twice as many `f64`.
    pub fn drift_len(&self) -> usize {
        self.carriers * self.drift_row_len()
    }
}
