use crate::{raw, Layout, Refusal};

/// The payload that the soft bits' sign bits give, a byte of 0 or 1 for each.
pub fn payload_bits(layout: &Layout, soft: &[f64]) -> Result<Vec<u8>, Refusal> {
    let mut bits = vec![0; soft.len()];
    raw::payload_bits(layout.bandwidth, layout.record, soft, &mut bits)?;
    Ok(bits)
}

/// How many bits of the two payloads differ.
pub fn meter(layout: &Layout, sent: &[u8], read: &[u8]) -> Result<u64, Refusal> {
    raw::meter(layout.bandwidth, layout.record, sent, read)
}
