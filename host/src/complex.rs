/// A complex number, as the modem lends and is lent it: two `f64`, the real part first.
#[repr(C)]
#[derive(Clone, Copy, Debug, Default, PartialEq)]
pub struct Complex {
    /// The real part.
    pub re: f64,
    /// The imaginary part.
    pub im: f64,
}

impl Complex {
    /// Nought.
    pub const ZERO: Self = Self::new(0.0, 0.0);
    /// One.
    pub const ONE: Self = Self::new(1.0, 0.0);

    /// The number of these two parts.
    pub const fn new(re: f64, im: f64) -> Self {
        Self { re, im }
    }

    /// The point of the unit circle at this angle, in radians.
    pub fn at_angle(angle: f64) -> Self {
        Self::new(angle.cos(), angle.sin())
    }

    /// The angle, in radians from -pi to pi.
    pub fn angle(self) -> f64 {
        self.im.atan2(self.re)
    }
}

/// The parts of the numbers, one after the other.
pub fn flat(numbers: &[Complex]) -> &[f64] {
    // SAFETY: a Complex is two f64 without padding (repr(C)), and has the alignment of f64.
    unsafe { std::slice::from_raw_parts(numbers.as_ptr().cast(), 2 * numbers.len()) }
}

/// The parts of the numbers, one after the other, to be written.
pub fn flat_mut(numbers: &mut [Complex]) -> &mut [f64] {
    // SAFETY: as in `flat`; the borrow of `numbers` lasts as long as the parts'.
    unsafe { std::slice::from_raw_parts_mut(numbers.as_mut_ptr().cast(), 2 * numbers.len()) }
}
