//! Sizes of doubles as whole numbers, so that nothing rounds. A finite double is a whole multiple of 2^-1074, the smallest one:
//! that is a unit.

use std::cmp::Ordering;

/// The largest number made here is the sum of two sizes times 2^47: below 2^2146, and this many limbs hold 2^2176.
const LIMBS: usize = 34;

/// A whole number, its lowest 64 bits first. What does not fit stops the program.
#[derive(Clone, Copy, PartialEq, Eq)]
pub struct Whole([u64; LIMBS]);

impl Whole {
    /// The size of a finite double, in units.
    pub fn units(x: f64) -> Self {
        assert!(x.is_finite(), "not a whole number of units");
        let size = x.to_bits() & !(1 << 63);
        let (exponent, rest) = ((size >> 52) as usize, size & ((1 << 52) - 1));
        match exponent {
            0 => Whole::shifted(rest, 0),
            _ => Whole::shifted(rest | (1 << 52), exponent - 1),
        }
    }

    /// How far apart two finite doubles are, in units.
    pub fn distance(x: f64, y: f64) -> Self {
        let (a, b) = (Whole::units(x), Whole::units(y));
        if x.is_sign_negative() != y.is_sign_negative() {
            a.plus(b)
        } else if a < b {
            b.minus(a)
        } else {
            a.minus(b)
        }
    }

    /// 2^exponent.
    pub fn power(exponent: usize) -> Self {
        Whole::shifted(1, exponent)
    }

    fn shifted(number: u64, by: usize) -> Self {
        let wide = u128::from(number) << (by % 64);
        let mut limbs = [0; LIMBS];
        limbs[by / 64] = wide as u64;
        limbs[by / 64 + 1] = (wide >> 64) as u64;
        Whole(limbs)
    }

    pub fn plus(mut self, other: Self) -> Self {
        let mut carry = false;
        for (limb, more) in self.0.iter_mut().zip(other.0) {
            let (sum, first) = limb.overflowing_add(more);
            let (sum, second) = sum.overflowing_add(u64::from(carry));
            (*limb, carry) = (sum, first || second);
        }
        assert!(!carry, "a sum too large");
        self
    }

    /// Less a number that is not above this one.
    pub fn minus(mut self, other: Self) -> Self {
        let mut borrow = false;
        for (limb, less) in self.0.iter_mut().zip(other.0) {
            let (rest, first) = limb.overflowing_sub(less);
            let (rest, second) = rest.overflowing_sub(u64::from(borrow));
            (*limb, borrow) = (rest, first || second);
        }
        assert!(!borrow, "a difference below zero");
        self
    }

    /// Times 2^47.
    pub fn times_2_47(mut self) -> Self {
        let mut carry = 0;
        for limb in &mut self.0 {
            let wide = (u128::from(*limb) << 47) | u128::from(carry);
            (*limb, carry) = (wide as u64, (wide >> 64) as u64);
        }
        assert!(carry == 0, "a product too large");
        self
    }

    /// This over another that is not 0, to be printed: as near as doubles come, not exact.
    pub fn over(&self, other: &Self) -> f64 {
        let ((a, a_limb), (b, b_limb)) = (self.leading(), other.leading());
        a / b * 2f64.powi(64 * (a_limb - b_limb))
    }

    /// The highest limb that is not 0, if there is one, with the one below it, and its place.
    fn leading(&self) -> (f64, i32) {
        let top = (1..LIMBS).rev().find(|&i| self.0[i] != 0).unwrap_or(1);
        let wide = (u128::from(self.0[top]) << 64) | u128::from(self.0[top - 1]);
        (wide as f64, top as i32)
    }
}

impl Ord for Whole {
    fn cmp(&self, other: &Self) -> Ordering {
        self.0.iter().rev().cmp(other.0.iter().rev())
    }
}

impl PartialOrd for Whole {
    fn partial_cmp(&self, other: &Self) -> Option<Ordering> {
        Some(self.cmp(other))
    }
}
