//! A frame's soft bits by time, as a waterfall picture runs, and by carrier again.
use crate::{raw, Layout, Reading, Refusal, Tables};

/// The soft bits of a reading by symbol, then carrier, leaving marks out. Those of a cell stay together, and every bit
/// pattern stays as it is: [`by_carrier`] restores the list.
///
/// 3 to 5 for the marker table, and 11 where there are more or fewer soft bits than the layout's n.
pub fn by_time(layout: &Layout, tables: &Tables, soft: &[f64]) -> Result<Vec<f64>, Refusal> {
    let mut out = vec![0.0; layout.payload];
    raw::by_time(layout.bandwidth, layout.record, &tables.markers, soft, &mut out)?;
    Ok(out)
}

/// The inverse of [`by_time`], with the same refusals.
pub fn by_carrier(layout: &Layout, tables: &Tables, timed: &[f64]) -> Result<Vec<f64>, Refusal> {
    let mut out = vec![0.0; layout.payload];
    raw::by_carrier(layout.bandwidth, layout.record, &tables.markers, timed, &mut out)?;
    Ok(out)
}

impl Reading {
    /// The soft bits by symbol, then carrier, as [`by_time`] gives them, with the tables that the frame was read with.
    pub fn soft_by_time(&self, layout: &Layout, tables: &Tables) -> Result<Vec<f64>, Refusal> {
        by_time(layout, tables, &self.soft)
    }
}
