//! A small generator, splitmix64: the same seed gives the same bits on every machine. Normal deviates go through the
//! machine's logarithm, cosine and sine, whose last bits may differ from one mathematical library to another.
use dimpstea::Complex;
use std::f64::consts::TAU;

/// The generator.
#[derive(Clone, Debug)]
pub struct Random(u64);

impl Random {
    /// The generator of a seed.
    pub const fn new(seed: u64) -> Self {
        Self(seed)
    }

    /// The generator of a seed and the numbers of a piece of work, so that pieces may be done in any order.
    pub fn of(seed: u64, piece: &[u64]) -> Self {
        let mut random = Self(seed);
        for &number in piece {
            random = Self(random.draw() ^ number.wrapping_mul(0xd6e8_feb8_6659_fd93));
        }
        Self(random.draw())
    }

    /// The next 64 bits.
    pub fn draw(&mut self) -> u64 {
        self.0 = self.0.wrapping_add(0x9e37_79b9_7f4a_7c15);
        let z = (self.0 ^ (self.0 >> 30)).wrapping_mul(0xbf58_476d_1ce4_e5b9);
        let z = (z ^ (z >> 27)).wrapping_mul(0x94d0_49bb_1331_11eb);
        z ^ (z >> 31)
    }

    /// A number below a bound that isn't 0.
    pub fn below(&mut self, bound: usize) -> usize {
        (self.draw() % bound as u64) as usize
    }

    /// A number from 0 up to, not including, 1.
    pub fn unit(&mut self) -> f64 {
        (self.draw() >> 11) as f64 / (1u64 << 53) as f64
    }

    /// A number of the standard normal distribution.
    pub fn normal(&mut self) -> f64 {
        std::f64::consts::SQRT_2 * self.complex_normal().re
    }

    /// A complex number whose parts are independent and normal, and whose mean power is 1 (Box and Muller).
    pub fn complex_normal(&mut self) -> Complex {
        let radius = (-(1.0 - self.unit()).ln()).sqrt();
        let turn = Complex::at_angle(TAU * self.unit());
        Complex::new(radius * turn.re, radius * turn.im)
    }

    /// So many payload bits, a byte of 0 or 1 each.
    pub fn bits(&mut self, count: usize) -> Vec<u8> {
        (0..count).map(|_| self.below(2) as u8).collect()
    }
}

#[cfg(test)]
mod tests {
    use super::*;

    /// The first numbers of seed 1234567, as the generator's authors publish them.
    #[test]
    fn published_numbers() {
        let mut random = Random::new(1_234_567);
        let first = [6_457_827_717_110_365_317, 3_203_168_211_198_807_973, 9_817_491_932_198_370_423];
        assert_eq!([random.draw(), random.draw(), random.draw()], first);
    }

    #[test]
    fn pieces_differ() {
        let mut first: Vec<u64> = Vec::new();
        for seed in 0..10 {
            for piece in 0..100 {
                first.extend((0..5).map(|part| Random::of(seed, &[piece, part]).draw()));
            }
        }
        let count = first.len();
        first.sort_unstable();
        first.dedup();
        assert_eq!(first.len(), count);
        assert_eq!(Random::of(3, &[1, 4]).draw(), Random::of(3, &[1, 4]).draw());
        assert_ne!(Random::of(3, &[1, 4]).draw(), Random::of(3, &[4, 1]).draw());
    }

    /// Mean, power and tails of 400,000 normal deviates, each within five standard errors.
    #[test]
    fn normal_deviates() {
        let (mut random, count) = (Random::new(5), 400_000);
        let deviates: Vec<f64> = (0..count).map(|_| random.normal()).collect();
        let (n, root) = (f64::from(count), f64::from(count).sqrt());
        let mean = deviates.iter().sum::<f64>() / n;
        let power = deviates.iter().map(|x| x * x).sum::<f64>() / n;
        let tail = deviates.iter().filter(|x| x.abs() > 3.0).count() as f64 / n;
        assert!(mean.abs() < 5.0 / root, "{mean}");
        assert!((power - 1.0).abs() < 5.0 * 2f64.sqrt() / root, "{power}");
        assert!((tail - 0.002_699_8).abs() < 5.0 * 0.0027f64.sqrt() / root, "{tail}");
    }

    #[test]
    fn units_and_bits() {
        let mut random = Random::new(9);
        assert!((0..10_000).map(|_| random.unit()).all(|x| (0.0..1.0).contains(&x)));
        let bits = random.bits(10_000);
        let ones = bits.iter().filter(|&&bit| bit == 1).count();
        assert!(bits.iter().all(|&bit| bit < 2) && ones.abs_diff(5_000) < 250, "{ones}");
    }
}
