//! The distance of docs/RULES.md, "Distance": what `oracle/build` puts in the place of the original's one `hypot`.
//!
//! Scaling is done on integers. No double holds all the powers of two that are needed (the least subnormal is brought up by
//! 2^1074), and two multiplications in the place of one could round twice. So a double is taken apart into an integer and an
//! exponent, the exponents are added, and the double nearest to that is put together again. Nothing here is shared with the
//! proved code, nor does it make its scale in the same way.

/// A size: `digits` times 2^`exponent`, in units of 2^-1074, of which every finite double is a whole number. The digits of a double are
/// below 2^53.
#[derive(Clone, Copy)]
struct Size {
    digits: u64,
    exponent: i64,
}

/// As many places has the significand of a double, the leading 1 that is not stored among them.
const PLACES: i64 = 53;
/// The unit is 2^-1074, so this is the exponent of 1.
const ONE: i64 = 1074;
/// A significand of all its places with this exponent or more is past the largest double.
const PAST: i64 = 2046;

/// The distance of two points. Squares, sum and root are those of doubles, each rounded by itself.
pub fn distance(a: [f64; 2], b: [f64; 2]) -> f64 {
    let [dx, dy] = [a[0] - b[0], a[1] - b[1]];
    if !dx.is_finite() || !dy.is_finite() {
        // no power of two brings an infinity to [1, 2), and what comes of it is not finite either
        return (dx * dx + dy * dy).sqrt();
    }
    let sizes = [dx, dy].map(Size::of);
    let places = sizes[0].places().max(sizes[1].places());
    if places == 0 {
        return 0.0;
    }
    // the larger size lies between 2^j and 2^(j+1) units
    let j = places - 1;
    let [x, y] = sizes.map(|size| size.times_power(ONE - j).nearest());
    let root = (x * x + y * y).sqrt();
    Size::of(root).times_power(j - ONE).nearest()
}

impl Size {
    /// Of a finite double; its sign is dropped.
    fn of(x: f64) -> Self {
        let bits = x.to_bits() & !(1 << 63);
        let (field, fraction) = (bits >> 52, bits & ((1 << 52) - 1));
        match field {
            // a subnormal counts its units itself
            0 => Size {
                digits: fraction,
                exponent: 0,
            },
            _ => Size {
                digits: fraction | (1 << 52),
                exponent: field as i64 - 1,
            },
        }
    }

    /// How many binary places the whole number has; 0 where it is 0.
    fn places(self) -> i64 {
        match self.digits {
            0 => 0,
            digits => length(digits) + self.exponent,
        }
    }

    fn times_power(self, k: i64) -> Self {
        Size {
            exponent: self.exponent + k,
            ..self
        }
    }

    /// The double nearest to it, of two the even one; an infinity where it is too large. Rounds once, and only a size that is not a whole
    /// number of units: its digits fit into a double.
    fn nearest(self) -> f64 {
        let Size { digits, exponent } = self;
        if digits == 0 {
            return 0.0;
        }
        if exponent < 0 {
            // less than 2^53 units, so that the count of units is the bits, 2^52 and more included
            return f64::from_bits(halved(digits, -exponent));
        }
        // to the left until the significand is full, or the units are reached
        let left = exponent.min(PLACES - length(digits));
        let (full, exponent) = (digits << left, exponent - left);
        if exponent >= PAST {
            return f64::INFINITY;
        }
        // A normal number stores its exponent plus 1 and leaves the leading 1 out, which adds that 1; a subnormal has exponent 0 and no such 1.
        f64::from_bits(((exponent as u64) << 52) + full)
    }
}

/// The places of a number that is not 0.
fn length(digits: u64) -> i64 {
    64 - i64::from(digits.leading_zeros())
}

/// Divided by 2^times and rounded to the nearest whole number, of two the even one.
fn halved(digits: u64, times: i64) -> u64 {
    if times > PLACES {
        // below one half
        return 0;
    }
    let kept = digits >> times;
    let rest = digits - (kept << times);
    let half = 1 << (times - 1);
    let up = rest > half || (rest == half && kept % 2 == 1);
    kept + u64::from(up)
}
