use crate::{flat, flat_mut, raw, Complex, Layout, Located, ReadRefusal, Reading, Refusal, Steps, Tables};

/// A detection that was released: the position of a frame's first symbol, in 3 kHz samples, and its metric chi.
#[derive(Clone, Copy, Debug, PartialEq)]
pub struct Detection {
    /// The position.
    pub position: u64,
    /// The metric.
    pub metric: f64,
}

/// A receiver's state as it can be stored and handed back: include/dimpstea.h has the order of the numbers.
#[derive(Clone, Copy, Debug, PartialEq)]
pub struct State {
    /// The numbers.
    pub numbers: [u64; raw::STATE],
    /// The held candidate's metric, or 0.
    pub metric: f64,
}

impl State {
    /// The number of the next sample to be fed.
    pub fn sample_end(&self) -> u64 {
        self.numbers[3].wrapping_add(self.numbers[4])
    }
}

/// A receiver with the memory that it lends to each feed and reading.
#[derive(Clone, Debug)]
pub struct Receiver {
    layout: Layout,
    state: State,
    memory: Vec<f64>,
}

impl Receiver {
    /// A fresh receiver, whose first sample will have the number `start`.
    pub fn open(layout: &Layout, tables: &Tables, start: u64, book: &[Complex]) -> Result<Self, Refusal> {
        let mut state = State { numbers: [0; raw::STATE], metric: 0.0 };
        raw::open(
            layout.bandwidth,
            layout.record,
            &tables.markers,
            flat(&tables.phasors),
            start,
            flat(book),
            &mut state.numbers,
            &mut state.metric,
        )?;
        Ok(Self { layout: layout.clone(), state, memory: vec![0.0; 2 * layout.memory_len()] })
    }

    /// Feeds the next samples, at most 4,000, with the tables and the turn book of this feed.
    pub fn feed(
        &mut self,
        tables: &Tables,
        book: &[Complex],
        samples: &[Complex],
    ) -> Result<Option<Detection>, Refusal> {
        self.feed_at(tables, book, self.state.sample_end(), samples)
    }

    /// Feeds samples, the first of which is said to have this number: 19 where another one is due.
    pub fn feed_at(
        &mut self,
        tables: &Tables,
        book: &[Complex],
        number: u64,
        samples: &[Complex],
    ) -> Result<Option<Detection>, Refusal> {
        raw::feed(
            self.layout.bandwidth,
            self.layout.record,
            &tables.markers,
            flat(&tables.phasors),
            flat(book),
            &mut self.state.numbers,
            &mut self.state.metric,
            &mut self.memory,
            number,
            flat(samples),
        )
    }

    /// Where the frame around `t0`, which is a detection's position, lies: 22 where it isn't in hand.
    pub fn locate(&self, tables: &Tables, t0: u64) -> Result<Located, Refusal> {
        let (mut t, mut result) = (0, [0.0; raw::LOCATED]);
        raw::locate(
            self.layout.bandwidth,
            self.layout.record,
            &tables.markers,
            flat(&tables.phasors),
            &self.state.numbers,
            self.state.metric,
            &self.memory,
            t0,
            &mut t,
            &mut result,
        )?;
        let [chi, re, im] = result;
        Ok(Located { t, chi, pilot_sum: Complex::new(re, im) })
    }

    /// Reads the frame around `t0`: 22 where it isn't in hand, 24 where it is silent.
    ///
    /// The drift rows are empty, or [`Located::drift_rows`] of the frame that [`locate`](Self::locate) finds from the
    /// same `t0`: given the located t for `t0`, the frame may move by up to 3 samples once more. With rows, 22 also
    /// where the frame's samples are no longer kept. A host that feeds at most 3,965 samples at a time has them all
    /// right after the feed that released the detection.
    pub fn read(&self, tables: &Tables, t0: u64, drift: &[Complex]) -> Result<Reading, ReadRefusal> {
        let (mut t, mut result) = (0, [0.0; raw::READING]);
        let mut scratch = vec![Complex::ZERO; self.layout.scratch_len()];
        let mut soft = vec![0.0; self.layout.payload];
        let answer = raw::read(
            self.layout.bandwidth,
            self.layout.record,
            &tables.markers,
            flat(&tables.phasors),
            &self.state.numbers,
            self.state.metric,
            &self.memory,
            t0,
            flat(drift),
            flat_mut(&mut scratch),
            &mut soft,
            &mut t,
            &mut result,
        );
        let steps = Steps::new(&self.layout, scratch);
        if let Err(refusal) = answer {
            return Err(ReadRefusal::new(refusal, steps));
        }
        let [chi, re, im, g, nvar, median] = result;
        let located = Located { t, chi, pilot_sum: Complex::new(re, im) };
        Ok(Reading { located, g, nvar, median, soft, steps })
    }

    /// The state, to be stored.
    pub fn state(&self) -> &State {
        &self.state
    }

    /// The memory, to be stored with the state: twice [`Layout::memory_len`] numbers.
    pub fn memory(&self) -> &[f64] {
        &self.memory
    }

    /// A receiver of a stored state and memory. The next feed or reading refuses a wrong one with 17.
    pub fn resume(layout: &Layout, state: State, memory: Vec<f64>) -> Self {
        Self { layout: layout.clone(), state, memory }
    }
}
