use crate::{raw, Complex, Layout, Refusal};

/// A marker table and phasors, as every call that takes tables is lent them.
#[derive(Clone, Debug, PartialEq)]
pub struct Tables {
    /// The marker values of each carrier, then the flags of each carrier.
    pub markers: Vec<u16>,
    /// The phasors, carrier after carrier.
    pub phasors: Vec<Complex>,
}

impl Tables {
    /// The table of these marker values, carrier after carrier, with the flags that they set.
    ///
    /// Nothing is refused here: a value that sets no flag leaves the table to be refused by the call.
    pub fn new(layout: &Layout, values: &[u16], phasors: Vec<Complex>) -> Self {
        let row = layout.spf - 1;
        let mut flags = vec![0; layout.carriers * row];
        for (carrier, row_values) in values.chunks(layout.markers).enumerate().take(layout.carriers) {
            for &value in row_values {
                let flag = usize::from(value).wrapping_sub(2);
                if flag < row {
                    flags[carrier * row + flag] = 1;
                }
            }
        }
        let markers = values.iter().copied().chain(flags).collect();
        Self { markers, phasors }
    }

    /// The table of markers drawn from the 24-bit generator's state, which becomes the one after the last draw.
    ///
    /// Each carrier's row has at most `limit` draws, 1 to 4,096 of them. Every call accepts the table; where a row's
    /// draws are spent (30) the state is as it was.
    pub fn drawn(layout: &Layout, state: &mut u32, limit: u32, phasors: Vec<Complex>) -> Result<Self, Refusal> {
        let mut markers = vec![0; layout.carriers * (layout.markers + layout.nsym)];
        raw::draw_markers(layout.bandwidth, layout.record, state, limit, &mut markers)?;
        Ok(Self { markers, phasors })
    }
}
