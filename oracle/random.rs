//! Seeded numbers: splitmix64, and floats of the kinds that tests want.
use crate::math::Real;
use crate::width::{step, Bits, TINY};

pub struct Random(pub u64);

impl Random {
    pub fn next(&mut self) -> u64 {
        self.0 = self.0.wrapping_add(0x9e37_79b9_7f4a_7c15);
        let mut z = self.0;
        z = (z ^ (z >> 30)).wrapping_mul(0xbf58_476d_1ce4_e5b9);
        z = (z ^ (z >> 27)).wrapping_mul(0x94d0_49bb_1331_11eb);
        z ^ (z >> 31)
    }

    pub fn below(&mut self, n: u64) -> u64 {
        self.next() % n
    }

    pub fn within(&mut self, of: core::ops::Range<usize>) -> usize {
        of.start + self.below(of.len() as u64) as usize
    }

    pub fn pick<T: Copy>(&mut self, of: &[T]) -> T {
        of[self.below(of.len() as u64) as usize]
    }

    pub fn bits(&mut self) -> Real {
        Real::from_bits(self.next() as Bits)
    }

    /// From -1 to 1, in steps of 2^-24, in f64 2^-53.
    pub fn unit(&mut self) -> Real {
        let one = 1u64 << Real::MANTISSA_DIGITS;
        (self.below(2 * one) as Real - one as Real) / one as Real
    }

    /// A whole number from -n to n.
    pub fn whole(&mut self, n: u64) -> Real {
        self.below(2 * n + 1) as Real - n as Real
    }

    /// One with few significant digits: a product of two has about one more than fit.
    pub fn few(&mut self) -> Real {
        (self.below(1 << HALF) as Real + 0.5) * (2.0 as Real).powi(self.below(APART) as i32 - APART as i32 / 2) * self.pick(&[1.0, -1.0])
    }

    /// Any pattern; a special value; a subnormal; one near overflow; one with few significant digits, for halfway cases; an ordinary one.
    pub fn float(&mut self) -> Real {
        let top = 3 << Real::MANTISSA_DIGITS - 1;
        let sign = (-0.0 as Real).to_bits();
        match self.below(KINDS) {
            0 | 1 => self.bits(),
            2 => self.pick(&SPECIAL),
            3 => Real::from_bits(self.next() as Bits & !Real::INFINITY.to_bits()),
            4 => Real::from_bits(self.next() as Bits % top + (Real::INFINITY.to_bits() - top) | (self.next() as Bits & sign)),
            5 => self.few(),
            6 => self.whole(20),
            7 => self.unit() * (2.0 as Real).powi(self.below(40) as i32 - 20),
            // in f64 alone: subnormals of every length, and neighbours of special values
            8 => Real::from_bits(self.next() as Bits >> 12 + self.below(52) as u32) * self.pick(&[1.0, -1.0]),
            _ => { let x = self.pick(&SPECIAL); step(x, self.below(7) as i32 - 3) }
        }
    }
}

/// How many kinds of floats there are; bits of a float with few digits; and how far apart such are in powers of 2.
const KINDS: u64 = if cfg!(feature = "f64") { 10 } else { 8 };
const HALF: u32 = Real::MANTISSA_DIGITS / 2 + 1;
const APART: u64 = if cfg!(feature = "f64") { 60 } else { 30 };

pub const SPECIAL: [Real; 16] = [
    0.0,
    -0.0,
    1.0,
    -1.0,
    Real::INFINITY,
    Real::NEG_INFINITY,
    Real::NAN,
    Real::MAX,
    Real::MIN,
    Real::MIN_POSITIVE,
    TINY,
    -TINY,
    Real::EPSILON,
    0.5,
    2.0,
    1048576.0,
];
