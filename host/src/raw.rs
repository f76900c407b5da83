//! The open calls as they are: any numbers and lengths may be given, and nothing is tested on this side.
//!
//! Complex numbers are two `f64`, the real part first ([`flat`](crate::flat) gives them so). After a refusal
//! nothing lent has changed, save the scratch of [`read`] after 24.
//!
//! Lengths, each the count of a slice's own elements, with nc, spf, nsym and n of the layout:
//!
//! | slice | length |
//! |---|---|
//! | `markers` | nc x (markers + spf - 1) |
//! | `phasors` | 2 x nc x nsym |
//! | `payload`, `sent`, `read` | frames x n, and n for [`meter`] |
//! | `draws` | nc x (frames + 8) |
//! | `rows`, `symbols` | 2 x nc x (9 + frames x nsym) |
//! | `phases` | nc |
//! | `waves` | 2 x nc x window |
//! | `out` | nc x window for [`nco_phase`], window for [`carrier_audio`], n for [`read`] and [`payload_bits`], a label's bits for [`soft_step`] |
//! | `out` of [`draw_markers`] | nc x (markers + nsym) |
//! | `book` | 6,000 |
//! | `state`, `numbers`, `hold`, `result` | [`STATE`], [`LAYOUT`], [`HOLD`], and [`LOCATED`] or [`READING`] |
//! | `memory` | 2 x (1 + 3 x nc) x (2 x keep + 4000) |
//! | `samples` | 2 for each sample, so at most 8,000 |
//! | `drift` | 0, or 2 x nc x (greatest stagger + 32 x (nsym - 1) + 2 x delay + 2) |
//! | `scratch` | 2 x nc x nsym |
//! | `soft`, `timed` | n, as `out` for [`by_time`] and [`by_carrier`] |
use crate::ffi;
use crate::refusal::judged;
use crate::{Complex, Detection, Refusal};

/// How many numbers [`layout`] writes.
pub const LAYOUT: usize = 13;
/// How many numbers a receiver's state has, beside its metric; include/dimpstea.h has their order.
pub const STATE: usize = 19;
/// How many numbers a located frame hands over beside its position: chi, and the pilot sum's two parts.
pub const LOCATED: usize = 3;
/// How many numbers a reading hands over beside its position: chi, the pilot sum's two parts, g, the noise variance,
/// the median.
pub const READING: usize = 6;
/// How many numbers a hold by itself has, beside its metric.
pub const HOLD: usize = 6;

/// A layout's numbers: conditions 1 2 11.
pub fn layout(bandwidth: u32, record: u32, numbers: &mut [u64]) -> Result<(), Refusal> {
    // SAFETY: here and below, each pointer goes with the length of its own slice, and Rust keeps what is lent
    // for writing apart from everything else.
    judged(unsafe { ffi::dimpstea_layout(bandwidth, record, numbers.as_mut_ptr(), numbers.len()) })
}

/// The symbol rows of one to four frames: conditions 1 to 11.
#[allow(clippy::too_many_arguments)]
pub fn modulate(
    bandwidth: u32,
    record: u32,
    markers: &[u16],
    phasors: &[f64],
    frames: u32,
    payload: &[u8],
    draws: &[u8],
    rows: &mut [f64],
) -> Result<(), Refusal> {
    judged(unsafe {
        ffi::dimpstea_modulate(
            bandwidth,
            record,
            markers.as_ptr(),
            markers.len(),
            phasors.as_ptr(),
            phasors.len(),
            frames,
            payload.as_ptr(),
            payload.len(),
            draws.as_ptr(),
            draws.len(),
            rows.as_mut_ptr(),
            rows.len(),
        )
    })
}

/// Each carrier's phase at each place of a window, and the phases after it: conditions 1 2 11 13 14.
pub fn nco_phase(
    bandwidth: u32,
    record: u32,
    window: usize,
    phases: &mut [f32],
    out: &mut [f32],
) -> Result<(), Refusal> {
    judged(unsafe {
        ffi::dimpstea_nco_phase(
            bandwidth,
            record,
            window,
            phases.as_mut_ptr(),
            phases.len(),
            out.as_mut_ptr(),
            out.len(),
        )
    })
}

/// A window of the 48 kHz signal, and the phases after it: conditions 1 2 8 11 to 14.
#[allow(clippy::too_many_arguments)]
pub fn carrier_audio(
    bandwidth: u32,
    record: u32,
    frames: u32,
    symbols: &[f64],
    place: u64,
    window: usize,
    waves: &[f64],
    phases: &mut [f32],
    out: &mut [f64],
) -> Result<(), Refusal> {
    judged(unsafe {
        ffi::dimpstea_carrier_audio(
            bandwidth,
            record,
            frames,
            symbols.as_ptr(),
            symbols.len(),
            place,
            window,
            waves.as_ptr(),
            waves.len(),
            phases.as_mut_ptr(),
            phases.len(),
            out.as_mut_ptr(),
            out.len(),
        )
    })
}

/// A fresh receiver's state: conditions 1 to 7, 11, 15 16.
#[allow(clippy::too_many_arguments)]
pub fn open(
    bandwidth: u32,
    record: u32,
    markers: &[u16],
    phasors: &[f64],
    start: u64,
    book: &[f64],
    state: &mut [u64],
    metric: &mut f64,
) -> Result<(), Refusal> {
    judged(unsafe {
        ffi::dimpstea_open(
            bandwidth,
            record,
            markers.as_ptr(),
            markers.len(),
            phasors.as_ptr(),
            phasors.len(),
            start,
            book.as_ptr(),
            book.len(),
            state.as_mut_ptr(),
            state.len(),
            metric,
        )
    })
}

/// Feeds samples, the first of which has that number: conditions 1 to 7, 16 to 20.
#[allow(clippy::too_many_arguments)]
pub fn feed(
    bandwidth: u32,
    record: u32,
    markers: &[u16],
    phasors: &[f64],
    book: &[f64],
    state: &mut [u64],
    metric: &mut f64,
    memory: &mut [f64],
    number: u64,
    samples: &[f64],
) -> Result<Option<Detection>, Refusal> {
    let mut release = Release::default();
    judged(unsafe {
        ffi::dimpstea_feed(
            bandwidth,
            record,
            markers.as_ptr(),
            markers.len(),
            phasors.as_ptr(),
            phasors.len(),
            book.as_ptr(),
            book.len(),
            state.as_mut_ptr(),
            state.len(),
            metric,
            memory.as_mut_ptr(),
            memory.len(),
            number,
            samples.as_ptr(),
            samples.len(),
            &mut release.released,
            &mut release.position,
            &mut release.metric,
        )
    })?;
    Ok(release.detection())
}

/// Where the frame around t0 lies: conditions 1 to 7, 11 (a result of another length than [`LOCATED`]), 17 22.
///
/// Writes t, which is one of t0 - 3 to t0 + 3, and the result.
#[allow(clippy::too_many_arguments)]
pub fn locate(
    bandwidth: u32,
    record: u32,
    markers: &[u16],
    phasors: &[f64],
    state: &[u64],
    metric: f64,
    memory: &[f64],
    t0: u64,
    t: &mut u64,
    result: &mut [f64],
) -> Result<(), Refusal> {
    judged(unsafe {
        ffi::dimpstea_locate(
            bandwidth,
            record,
            markers.as_ptr(),
            markers.len(),
            phasors.as_ptr(),
            phasors.len(),
            state.as_ptr(),
            state.len(),
            metric,
            memory.as_ptr(),
            memory.len(),
            t0,
            t,
            result.as_mut_ptr(),
            result.len(),
        )
    })
}

/// Reads the frame around t0: conditions 1 to 7, 11 (scratch, out, or a result of another length than
/// [`READING`]), 17, 22 to 24.
///
/// Writes t as [`locate`] does, the result, the soft bits to `out`, and the divided steps to the scratch: nsym - 1
/// complex numbers for each carrier, carrier after carrier, then zeros. After 24 only the scratch is written, with the
/// undivided steps. The drift rows are empty, or [`rows::drift`](crate::rows::drift) of the t that `locate` finds from
/// the same t0.
#[allow(clippy::too_many_arguments)]
pub fn read(
    bandwidth: u32,
    record: u32,
    markers: &[u16],
    phasors: &[f64],
    state: &[u64],
    metric: f64,
    memory: &[f64],
    t0: u64,
    drift: &[f64],
    scratch: &mut [f64],
    out: &mut [f64],
    t: &mut u64,
    result: &mut [f64],
) -> Result<(), Refusal> {
    judged(unsafe {
        ffi::dimpstea_read(
            bandwidth,
            record,
            markers.as_ptr(),
            markers.len(),
            phasors.as_ptr(),
            phasors.len(),
            state.as_ptr(),
            state.len(),
            metric,
            memory.as_ptr(),
            memory.len(),
            t0,
            drift.as_ptr(),
            drift.len(),
            scratch.as_mut_ptr(),
            scratch.len(),
            out.as_mut_ptr(),
            out.len(),
            t,
            result.as_mut_ptr(),
            result.len(),
        )
    })
}

/// Offers a position, with a candidate's metric or none, to a hold by itself: condition 21.
pub fn offer(
    hold: &mut [u64],
    held_metric: &mut f64,
    position: u64,
    metric: Option<f64>,
) -> Result<Option<Detection>, Refusal> {
    let mut release = Release::default();
    judged(unsafe {
        ffi::dimpstea_offer(
            hold.as_mut_ptr(),
            hold.len(),
            held_metric,
            position,
            u64::from(metric.is_some()),
            metric.unwrap_or(0.0),
            &mut release.released,
            &mut release.position,
            &mut release.metric,
        )
    })?;
    Ok(release.detection())
}

/// The payload bits that the signs of the soft bits give: conditions 1 2 11.
pub fn payload_bits(bandwidth: u32, record: u32, soft: &[f64], out: &mut [u8]) -> Result<(), Refusal> {
    judged(unsafe {
        ffi::dimpstea_payload_bits(bandwidth, record, soft.as_ptr(), soft.len(), out.as_mut_ptr(), out.len())
    })
}

/// How many bits of two payloads differ: conditions 1 2 9.
pub fn meter(bandwidth: u32, record: u32, sent: &[u8], read: &[u8]) -> Result<u64, Refusal> {
    let mut differing = 0;
    judged(unsafe {
        ffi::dimpstea_meter(bandwidth, record, sent.as_ptr(), sent.len(), read.as_ptr(), read.len(), &mut differing)
    })?;
    Ok(differing)
}

/// Decibels to a tenth of a reading's median: condition 26.
pub fn decibels(median: f64, tenths: &mut u32) -> Result<(), Refusal> {
    judged(unsafe { ffi::dimpstea_decibels(median, tenths) })
}

/// A frame's soft bits by symbol, then carrier, leaving marks out: conditions 1 to 5, 11.
pub fn by_time(bandwidth: u32, record: u32, markers: &[u16], soft: &[f64], out: &mut [f64]) -> Result<(), Refusal> {
    judged(unsafe {
        ffi::dimpstea_by_time(
            bandwidth,
            record,
            markers.as_ptr(),
            markers.len(),
            soft.as_ptr(),
            soft.len(),
            out.as_mut_ptr(),
            out.len(),
        )
    })
}

/// The inverse of [`by_time`]: conditions 1 to 5, 11.
pub fn by_carrier(bandwidth: u32, record: u32, markers: &[u16], timed: &[f64], out: &mut [f64]) -> Result<(), Refusal> {
    judged(unsafe {
        ffi::dimpstea_by_carrier(
            bandwidth,
            record,
            markers.as_ptr(),
            markers.len(),
            timed.as_ptr(),
            timed.len(),
            out.as_mut_ptr(),
            out.len(),
        )
    })
}

/// A marker table drawn from a state, which becomes the one after the last draw: conditions 1 2 29 11 30.
///
/// After a refusal the state and the table are as they were.
pub fn draw_markers(bandwidth: u32, record: u32, state: &mut u32, limit: u32, out: &mut [u16]) -> Result<(), Refusal> {
    judged(unsafe { ffi::dimpstea_draw_markers(bandwidth, record, state, limit, out.as_mut_ptr(), out.len()) })
}

/// The three numbers that a release is handed over in.
#[derive(Default)]
struct Release {
    released: u64,
    position: u64,
    metric: f64,
}

impl Release {
    fn detection(&self) -> Option<Detection> {
        (self.released != 0).then_some(Detection { position: self.position, metric: self.metric })
    }
}

/// The index of a pilot sum's direction, and its residual in thirty-seconds of a hertz: condition 25.
pub fn residual(re: f64, im: f64) -> Result<(u32, i32), Refusal> {
    let (mut index, mut residual) = (0, 0);
    judged(unsafe { ffi::dimpstea_residual(re, im, &mut index, &mut residual) })?;
    Ok((index, residual))
}

/// The soft bits of one step in an alphabet of `size` points: conditions 31 11 32 33. `out` has a place for each bit of
/// a label; [`soft_step`](crate::soft_step) says what they mean.
pub fn soft_step(size: usize, step: Complex, nvar: f64, out: &mut [f64]) -> Result<(), Refusal> {
    judged(unsafe { ffi::dimpstea_soft_step(size, step.re, step.im, nvar, out.as_mut_ptr(), out.len()) })
}

/// The nearest point of a step in an alphabet of `size` points, and the runner-up's distance: conditions 31 32.
pub fn nearest_point(
    size: usize,
    step: Complex,
    label: &mut u64,
    distance: &mut f64,
    runner_up: &mut f64,
) -> Result<(), Refusal> {
    judged(unsafe { ffi::dimpstea_nearest_point(size, step.re, step.im, label, distance, runner_up) })
}
