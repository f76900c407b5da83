use std::{error::Error, fmt};

/// The first fault that a call met, by its number in document 01, "Where each fault is met".
#[derive(Clone, Copy, Debug, PartialEq, Eq, PartialOrd, Ord, Hash)]
pub struct Refusal(u32);

impl Refusal {
    /// The refusal of this number. The modem itself answers 1 to 26 and 29 to 33.
    pub const fn new(number: u32) -> Self {
        Self(number)
    }

    /// The number in document 01.
    pub const fn number(self) -> u32 {
        self.0
    }

    /// The condition, in the words of documents 01 and 02; half a sample has no words there, and meets 18.
    pub const fn meaning(self) -> &'static str {
        match self.0 {
            1 => "bandwidth not 500, 2300, 2750, or record not 1 to 17",
            2 => "record isn't PSK there",
            3 => "marker table length",
            4 => "marker value outside 5 to spf - 4, or twice on a carrier",
            5 => "a flag not 1 where a value sets it or not 0 elsewhere",
            6 => "phasor count not nc x nsym",
            7 => "phasor part not finite, or squared size outside 0.99 to 1.01",
            8 => "frames not 1 to 4",
            9 => "payload length, or a byte above 1",
            10 => "count of draws, or one not below the alphabet size",
            11 => "an out or scratch buffer of wrong length",
            12 => "symbol row length, part not finite or above 256 in size",
            13 => "window above 4,096 or past the end",
            14 => "wave row length or part outside -1 to 1; phase outside 0 to f32 TAU",
            15 => "start outside 0 to 2^40",
            16 => "turn book length, or part outside -1 to 1",
            17 => "memory length, or a state that isn't a receiver's of this layout",
            18 => "above 4,000 samples, or half a sample",
            19 => "first sample's number not the sample end, or end past 2^48",
            20 => "sample part not finite or above 2^20 in size",
            21 => "hold, dead, offered or held position outside 0 to 2^48, or a metric not finite",
            22 => "the frame isn't in hand",
            23 => "drift row length or part outside -1 to 1",
            24 => "gain not finite and above 0",
            25 => "pilot sum with a part not finite or above 64 in size, or whose truncated parts are both zero",
            26 => "median not from 0 to 2, or M is 0",
            29 => "a generator's state above 24 bits, or a draw limit outside 1 to 4,096",
            30 => "a row's draws spent with markers still missing",
            31 => "alphabet size other than 2, 4, 8, 16 or 32",
            32 => "step part not finite or above 2^20 in size",
            33 => "noise variance not finite or outside 0.001 to 2^60",
            _ => "no condition of document 01",
        }
    }
}

impl fmt::Display for Refusal {
    fn fmt(&self, f: &mut fmt::Formatter<'_>) -> fmt::Result {
        write!(f, "refused {}: {}", self.0, self.meaning())
    }
}

impl Error for Refusal {}

/// A call's answer: 0 is an acceptance.
pub(crate) fn judged(answer: u32) -> Result<(), Refusal> {
    if answer == 0 {
        Ok(())
    } else {
        Err(Refusal(answer))
    }
}
