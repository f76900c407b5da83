//! What a trial counts. Counts of parts of a trial add up to the whole trial's.
use std::collections::BTreeMap;
use std::ops::AddAssign;

/// What was counted at one SNR.
#[derive(Clone, Debug, Default, PartialEq, Eq)]
pub struct Counts {
    /// Frames sent.
    pub sent: u64,
    /// Frames detected: a detection was released within half a symbol of the frame's first symbol.
    pub detected: u64,
    /// Frames read exactly: none of the payload bits is wrong.
    pub exact: u64,
    /// Payload bits of the frames that were read.
    pub bits: u64,
    /// Payload bits of these that are wrong, by the proved meter.
    pub bits_wrong: u64,
    /// Data cells of the frames that were read.
    pub cells: u64,
    /// Cells of these whose nearest point isn't the one sent.
    pub cells_wrong: u64,
    /// Detections elsewhere, where no frame was sent.
    pub elsewhere: u64,
    /// Refusals met, by number.
    pub refusals: BTreeMap<u32, u64>,
}

impl AddAssign<&Counts> for Counts {
    fn add_assign(&mut self, other: &Counts) {
        let pairs = [
            (&mut self.sent, other.sent),
            (&mut self.detected, other.detected),
            (&mut self.exact, other.exact),
            (&mut self.bits, other.bits),
            (&mut self.bits_wrong, other.bits_wrong),
            (&mut self.cells, other.cells),
            (&mut self.cells_wrong, other.cells_wrong),
            (&mut self.elsewhere, other.elsewhere),
        ];
        for (sum, count) in pairs {
            *sum = sum.saturating_add(count);
        }
        for (&number, &count) in &other.refusals {
            let sum = self.refusals.entry(number).or_default();
            *sum = sum.saturating_add(count);
        }
    }
}

impl Counts {
    /// The fields of a line of a CSV file, in order.
    pub const FIELDS: &'static str = "sent,detected,exact,bits,bits_wrong,cells,cells_wrong,elsewhere,refusals";

    /// The counts as such fields.
    pub fn csv(&self) -> String {
        let Self { sent, detected, exact, bits, bits_wrong, cells, cells_wrong, elsewhere, .. } = self;
        let refusals = self.refusals_text();
        format!("{sent},{detected},{exact},{bits},{bits_wrong},{cells},{cells_wrong},{elsewhere},{refusals}")
    }

    /// The counts of such fields.
    pub fn of(fields: &[&str]) -> Option<Self> {
        let (refusals, fields) = fields.split_last()?;
        let numbers: Vec<u64> = fields.iter().map(|field| field.parse().ok()).collect::<Option<_>>()?;
        let refusals = refusals_of(refusals)?;
        match numbers[..] {
            [sent, detected, exact, bits, bits_wrong, cells, cells_wrong, elsewhere] => {
                Some(Self { sent, detected, exact, bits, bits_wrong, cells, cells_wrong, elsewhere, refusals })
            }
            _ => None,
        }
    }

    /// The refusals as text, `20:3 24:1` for three of number 20 and one of 24; empty where there was none.
    pub fn refusals_text(&self) -> String {
        let each: Vec<String> = self.refusals.iter().map(|(number, count)| format!("{number}:{count}")).collect();
        each.join(" ")
    }
}

/// The refusals of such a text.
fn refusals_of(text: &str) -> Option<BTreeMap<u32, u64>> {
    let each = text.split_whitespace().map(|part| {
        let (number, count) = part.split_once(':')?;
        Some((number.parse().ok()?, count.parse().ok()?))
    });
    each.collect()
}

#[cfg(test)]
mod tests {
    use super::*;

    #[test]
    fn sums() {
        let one = |n: u64, refusals: &[(u32, u64)]| Counts {
            sent: n,
            detected: 2 * n,
            exact: 3 * n,
            bits: 4 * n,
            bits_wrong: 5 * n,
            cells: 6 * n,
            cells_wrong: 7 * n,
            elsewhere: 8 * n,
            refusals: refusals.iter().copied().collect(),
        };
        let mut sum = one(1, &[(20, 3)]);
        sum += &one(10, &[(20, 1), (24, 2)]);
        assert_eq!(sum, one(11, &[(20, 4), (24, 2)]));
        assert_eq!(sum.refusals_text(), "20:4 24:2");
        assert_eq!(refusals_of("20:4 24:2"), Some(sum.refusals));
        assert_eq!(refusals_of(""), Some(BTreeMap::new()));
        assert_eq!(refusals_of("20:4 x"), None);
    }
}
