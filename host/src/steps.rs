use crate::{Complex, Layout};

/// A frame's steps as a reading leaves them in its scratch. The step at a symbol, 1 to nsym - 1, leads to it from the
/// symbol before.
#[derive(Clone, Debug, PartialEq)]
pub struct Steps {
    row_len: usize,
    scratch: Vec<Complex>,
}

impl Steps {
    pub(crate) fn new(layout: &Layout, scratch: Vec<Complex>) -> Self {
        Self { row_len: layout.nsym - 1, scratch }
    }

    /// A carrier's steps: nsym - 1 of them, from symbol 1 on.
    ///
    /// # Panics
    ///
    /// Where there is no such carrier.
    pub fn row(&self, carrier: usize) -> &[Complex] {
        // What is left over after the last row is shorter than a row: a zero for each carrier.
        self.scratch.chunks_exact(self.row_len).nth(carrier).expect("a carrier of the layout")
    }

    /// The step at a carrier's symbol.
    ///
    /// # Panics
    ///
    /// Where there is no such carrier, or the symbol isn't 1 to nsym - 1.
    pub fn at(&self, carrier: usize, symbol: usize) -> Complex {
        self.row(carrier)[symbol.checked_sub(1).expect("a symbol with one before it")]
    }

    /// The whole scratch, [`Layout::scratch_len`] numbers: the rows one after the other, the rest zero.
    pub fn scratch(&self) -> &[Complex] {
        &self.scratch
    }
}
