//! The modules of the reference, 01's stand-ins and what its missing files would have to give.
//! reference.py copies this to src/lib.rs of the package that it makes.

// What nothing calls in this package is no fault of the reference.
#[allow(unused)]
mod constellation;
#[allow(unused)]
mod dat;
#[allow(unused)]
mod decode;
#[allow(unused)]
mod demap;
#[allow(unused)]
mod dsp;
#[allow(unused)]
mod eq;
#[allow(unused)]
mod fec;
#[allow(unused)]
mod ofdm;
#[allow(unused)]
mod rnd;

#[allow(unused)]
mod fm {
    pub mod level;
}

#[allow(unused)]
mod hf {
    pub mod level;
    pub mod ofdm;
    pub mod psk;
    pub mod rx;
}

pub use hf::rx::psk::adaptor;
pub use num_complex::Complex64;

/// 01, "Records and number forms".
mod stand_ins {
    use num_complex::Complex64;

    pub trait Norm {
        fn root_norm(self) -> f64;
    }

    impl Norm for Complex64 {
        fn root_norm(self) -> f64 {
            (self.re * self.re + self.im * self.im).sqrt()
        }
    }

    /// The turn of the median: conj(s) / norm(s), or 1 where the norm is 0.
    pub fn turn_back(s: Complex64) -> Complex64 {
        let norm = s.root_norm();
        if norm == 0.0 { Complex64::new(1.0, 0.0) } else { s.conj() / norm }
    }
}

/// Stands where the turbo decoder would be: it keeps what a reading hands on.
mod keeper {
    use crate::decode::FrameOut;
    use num_complex::Complex64;
    use std::cell::RefCell;

    pub struct Kept {
        pub soft: Vec<f64>,
        pub pilot_sum: Complex64,
        pub g: f64,
        pub nvar: f64,
        pub undivided: Vec<Vec<Complex64>>,
        pub steps: Vec<Vec<Complex64>>,
    }

    #[derive(Default)]
    pub struct Keeper(pub RefCell<Option<Kept>>);

    impl Keeper {
        pub fn keep(&self, kept: Kept) -> FrameOut {
            self.0.replace(Some(kept));
            FrameOut { ok: false, bytes: Vec::new(), iterations: 0 }
        }
    }
}

/// Missing; only the writing of table files calls it, and nothing here writes them.
mod crc {
    pub fn crc16_genibus(_: &[u8]) -> u16 {
        unreachable!("crc.rs is missing")
    }
}
