//! Points of the unit circle and turns by sums and products alone, which every machine rounds alike: a machine's own
//! cosine would make other inputs of the same seed.
use crate::random::Random;
use dimpstea::Complex;

pub fn times(a: Complex, b: Complex) -> Complex {
    Complex::new(a.re * b.re - a.im * b.im, a.re * b.im + a.im * b.re)
}

pub fn conj(z: Complex) -> Complex {
    Complex::new(z.re, -z.im)
}

pub fn scaled(z: Complex, size: f64) -> Complex {
    Complex::new(size * z.re, size * z.im)
}

/// The point whose angle is twice that of 1 + u j.
fn at(u: f64) -> Complex {
    let size = 1.0 + u * u;
    Complex::new((1.0 - u * u) / size, 2.0 * u / size)
}

pub fn point(random: &Random) -> Complex {
    scaled(at(random.between(-1.0, 1.0)), random.pick(&[1.0, -1.0]))
}

/// A turn by so many Hz over one 3 kHz sample, for a few Hz: an angle and its tangent are alike then.
pub fn of_hz(hz: f64) -> Complex {
    at(hz * std::f64::consts::PI / 3000.0)
}

/// A turn book: entry k turns by k / 3000 of a circle, clockwise, and is a little below 1 in size.
pub fn book() -> Vec<Complex> {
    let turn = Complex::new(0.999_997_806_755_379_3, -0.002_094_393_571_219_374);
    std::iter::successors(Some(Complex::new(0.9999, 0.0)), |&z| Some(times(z, turn))).take(3000).collect()
}

/// The book's entry for a carrier's sample.
pub fn entry(book: &[Complex], hz: i64, n: i64) -> Complex {
    book[(hz * n).rem_euclid(3000) as usize]
}
