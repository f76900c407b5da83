//! What has been compared, and how much of it was different.
use std::collections::BTreeMap;
use std::process::ExitCode;

/// The most differences that are shown.
const SHOWN: u64 = 20;

/// The same bits, or NaNs both: the prover's numbers have one NaN, without a sign.
pub fn alike(port: f64, reference: f64) -> bool {
    port.to_bits() == reference.to_bits() || (port.is_nan() && reference.is_nan())
}

/// As many numbers, each with the other's bits.
pub fn all_alike(port: &[f64], reference: &[f64]) -> bool {
    port.len() == reference.len() && port.iter().zip(reference).all(|(&p, &r)| alike(p, r))
}

#[derive(Default)]
pub struct Count {
    compared: BTreeMap<&'static str, u64>,
    noted: BTreeMap<&'static str, u64>,
    refused: BTreeMap<u32, u64>,
    different: u64,
}

impl Count {
    /// Counts a comparison, and shows the first ones that differ.
    pub fn compare(&mut self, what: &'static str, equal: bool, difference: impl FnOnce() -> String) {
        *self.compared.entry(what).or_default() += 1;
        if !equal {
            self.differs(difference);
        }
    }

    fn differs(&mut self, difference: impl FnOnce() -> String) {
        self.different += 1;
        if self.different <= SHOWN {
            println!("different: {}", difference());
        }
    }

    /// Compares two lists of numbers bit by bit.
    pub fn compare_all(&mut self, what: &'static str, port: &[f64], reference: &[f64], place: impl Fn() -> String) {
        if port.len() != reference.len() {
            return self.compare(what, false, || {
                format!("{what} of {}: {} numbers, the reference has {}", place(), port.len(), reference.len())
            });
        }
        *self.compared.entry(what).or_default() += port.len() as u64;
        for (i, (&p, &r)) in port.iter().zip(reference).enumerate() {
            if !alike(p, r) {
                self.differs(|| format!("{what} of {}, number {i}: {p:e}, the reference has {r:e}", place()));
            }
        }
    }

    /// Counts something that is told at the end beside the comparisons.
    pub fn note(&mut self, what: &'static str) {
        *self.noted.entry(what).or_default() += 1;
    }

    /// Counts a call by the number that it should be refused with.
    pub fn refused(&mut self, number: u32) {
        *self.refused.entry(number).or_default() += 1;
    }

    /// The line of counts, and success where nothing was different.
    pub fn report(&self) -> ExitCode {
        let list = |counts: &BTreeMap<&'static str, u64>| {
            counts.iter().map(|(what, n)| format!("{n} {what}")).collect::<Vec<_>>().join(", ")
        };
        let refused: Vec<String> = self.refused.iter().map(|(number, n)| format!("{number}: {n}")).collect();
        println!("answers expected of damaged calls (0: accepted): {}", refused.join(", "));
        println!("among them: {}", list(&self.noted));
        println!("compared {}: {} different", list(&self.compared), self.different);
        ExitCode::from(u8::from(self.different != 0))
    }
}
