use crate::{flat, flat_mut, raw, rows, Complex, Layout, Refusal, Tables};

/// The symbol rows of one to four frames.
#[derive(Clone, Debug)]
pub struct Sending {
    layout: Layout,
    frames: usize,
    rows: Vec<Complex>,
}

impl Sending {
    /// Sends payload bits (a byte of 0 or 1 each, frame after frame) with draws of the alphabet's points.
    pub fn new(layout: &Layout, tables: &Tables, frames: usize, payload: &[u8], draws: &[u8]) -> Result<Self, Refusal> {
        let count = u32::try_from(frames).unwrap_or(u32::MAX);
        let mut rows = vec![Complex::ZERO; layout.carriers * layout.row_len(frames.min(4))];
        raw::modulate(
            layout.bandwidth,
            layout.record,
            &tables.markers,
            flat(&tables.phasors),
            count,
            payload,
            draws,
            flat_mut(&mut rows),
        )?;
        Ok(Self { layout: layout.clone(), frames, rows })
    }

    /// The symbols, carrier after carrier.
    pub fn rows(&self) -> &[Complex] {
        &self.rows
    }

    /// A carrier's symbols.
    ///
    /// # Panics
    ///
    /// Where there is no such carrier.
    pub fn row(&self, carrier: usize) -> &[Complex] {
        let mut rows = self.rows.chunks_exact(self.layout.row_len(self.frames));
        rows.nth(carrier).expect("a carrier of the layout")
    }

    /// The 48 kHz signal from its first place on.
    pub fn audio(&self) -> Audio<'_> {
        Audio { sending: self, phases: vec![0.0; self.layout.carriers], place: 0 }
    }
}

/// A sending's 48 kHz signal, taken window by window.
#[derive(Clone, Debug)]
pub struct Audio<'a> {
    sending: &'a Sending,
    phases: Vec<f32>,
    place: u64,
}

impl Audio<'_> {
    /// Places that are still to come.
    pub fn left(&self) -> u64 {
        self.sending.layout.audio_len(self.sending.frames) - self.place
    }

    /// The next samples, as many as `out` holds: 13 above 4,096 or past the end.
    pub fn next_window(&mut self, out: &mut [f64]) -> Result<(), Refusal> {
        let layout = &self.sending.layout;
        let window = out.len();
        let mut phases = vec![0.0; layout.carriers * window];
        raw::nco_phase(layout.bandwidth, layout.record, window, &mut self.phases.clone(), &mut phases)?;
        let waves = rows::waves(&phases);
        raw::carrier_audio(
            layout.bandwidth,
            layout.record,
            self.sending.frames as u32,
            flat(&self.sending.rows),
            self.place,
            window,
            flat(&waves),
            &mut self.phases,
            out,
        )?;
        self.place += window as u64;
        Ok(())
    }
}
