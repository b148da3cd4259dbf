//! The distance of two points, against the oracle's own code of docs/RULES.md, "Distance". The rule as it was, the root of the plain sum of
//! squares, is computed beside it: where it has other bits is counted, and that it has them only where it may is a part of each case.

use crate::ours;
use crate::random::Random;
use crate::tally::{Tally, hex, same};
use replaced::distance::distance;

type Vector = [f64; 2];

/// 2^-969: where the square of the larger size is not below it, both rules have the same bits unless a square overflows.
const LEAST_SQUARE: f64 = power(-969);

/// The least size whose square is not below that: 2^-484.5, rounded up.
const LEAST_SIZE: f64 = f64::from_bits(((1023 - 485) << 52) | 0x6_A09E_667F_3BCD);

pub fn run(random: &mut Random, rounds: u64) -> Tally {
    let mut tally = Tally::default();
    for _ in 0..rounds {
        let (differences, kind) = differences(random);
        let (a, b) = points(random, differences);
        tally.kind(kind);
        judge(a, b, &mut tally);
    }
    tally
}

/// The rule as it was, of the two differences.
pub fn plain([dx, dy]: Vector) -> f64 {
    (dx * dx + dy * dy).sqrt()
}

/// The rule as it is, of the two differences.
pub fn scaled(differences: Vector) -> f64 {
    distance(differences, [0.0; 2])
}

/// A power of two, subnormal or not.
pub const fn power(exponent: i64) -> f64 {
    f64::from_bits(match exponent {
        -1022.. => ((exponent + 1023) as u64) << 52,
        _ => 1 << (exponent + 1074),
    })
}

fn judge(a: Vector, b: Vector, tally: &mut Tally) {
    let differences = [a[0] - b[0], a[1] - b[1]];
    let (found, wanted) = (ours::distance(a, b), distance(a, b));
    let beside = Beside::of(differences, wanted);
    tally.kind(beside.kind());
    if beside != Beside::NotFinite {
        place(differences, wanted, tally);
    }
    tally.case(same(found, wanted) && beside != Beside::Wrong, || {
        let told = [found, wanted, plain(differences)].map(|one| hex(&[one]));
        let [found, wanted, plain] = told;
        let (a, b) = (hex(&a), hex(&b));
        format!("distance of {a} and {b}: {found}, wanted {wanted}; {plain} by the old rule")
    });
}

/// Counts where a distance by finite differences lies.
fn place(differences: Vector, wanted: f64, tally: &mut Tally) {
    if wanted == 0.0 {
        tally.kind("a distance of 0");
    } else if wanted == f64::INFINITY {
        tally.kind("a distance too large");
    } else if wanted.is_subnormal() {
        tally.kind("a subnormal distance");
        if wanted.to_bits() != rounded_once(differences) {
            tally.kind("a subnormal distance, not its exact root rounded once");
        }
    }
}

/// The whole number of units that is nearest to the exact root, of differences whose bits count their units.
fn rounded_once(differences: Vector) -> u64 {
    let [u, v] = differences.map(|d| u128::from(d.abs().to_bits()));
    let squares = u * u + v * v;
    let below = squares.isqrt();
    // half a unit more has a square of a quarter more than this
    let up = squares > below * below + below;
    below as u64 + u64::from(up)
}

/// What the rule as it was makes of the differences.
#[derive(PartialEq)]
enum Beside {
    NotFinite,
    Same,
    /// An infinity, where the distance is a number.
    Overflowed,
    /// 0, where the distance is not.
    Vanished,
    /// Other bits, just below the least size from which on it may have none.
    AtBound,
    Below,
    Wrong,
}

impl Beside {
    fn of(differences: Vector, wanted: f64) -> Self {
        let old = plain(differences);
        let [dx, dy] = differences.map(f64::abs);
        let larger = dx.max(dy);
        if !dx.is_finite() || !dy.is_finite() {
            return match wanted.is_finite() {
                true => Beside::Wrong,
                false => Beside::NotFinite,
            };
        }
        if same(old, wanted) {
            Beside::Same
        } else if old == f64::INFINITY {
            Beside::Overflowed
        } else if larger * larger >= LEAST_SQUARE {
            Beside::Wrong
        } else if old == 0.0 {
            Beside::Vanished
        } else if larger >= power(-485) {
            Beside::AtBound
        } else {
            Beside::Below
        }
    }

    fn kind(&self) -> &'static str {
        match self {
            Beside::NotFinite => "(a difference is not finite, and so the distance)",
            Beside::Same => "(the old rule has the same bits)",
            Beside::Overflowed => "(the old rule overflowed)",
            Beside::Vanished => "(the old rule has 0)",
            Beside::AtBound => {
                "(the old rule has other bits, the larger size of 2^-485 to 2^-484.5)"
            }
            Beside::Below => "(the old rule has other bits, the larger size below 2^-485)",
            Beside::Wrong => "(the old rule has other bits WHERE IT MAY NOT)",
        }
    }
}

/// What the points are to differ by, and of which kind it is.
fn differences(random: &mut Random) -> (Vector, &'static str) {
    let two = |random: &mut Random, lo: i64, hi: i64| [(); 2].map(|_| random.of_exponents(lo, hi));
    match random.below(16) {
        0 => (two(random, -1022, 1023), "of all exponents"),
        1 => (two(random, -540, -480), "of 2^-540 to 2^-480"),
        2 => (two(random, -8, 8), "ordinary"),
        3 => {
            let exponent = random.within(-1022, 1020);
            (two(random, exponent, exponent + 3), "of one size")
        }
        4 | 5 => (
            [(); 2].map(|_| random.beside_power()),
            "next to powers of two",
        ),
        6 => {
            let smaller = random.of_exponents(-560, -483);
            (
                [random.of_exponents(-488, -482), smaller],
                "about 2^-484 and smaller",
            )
        }
        7 => (at_bound(random), "at the bound of the old rule"),
        8 => match random.once_in(2) {
            true => ([(); 2].map(|_| random.subnormal()), "subnormal"),
            // the fewer places a root has after the units, the oftener it is half way and rounded again
            false => {
                let long =
                    |random: &mut Random| f64::from_bits(random.bits() >> 13 >> random.below(8));
                (
                    [(); 2].map(|_| long(random)),
                    "subnormal of 44 places to 51",
                )
            }
        },
        9 => {
            let larger = random.of_exponents(-1022, -1019);
            ([larger, random.subnormal()], "subnormal and not")
        }
        10 | 11 => (far_apart(random), "far apart in size"),
        12 => (two(random, 1019, 1023), "near overflow"),
        13 => (two(random, 505, 515), "about 2^512"),
        14 => ([random.beside_power(), 0.0], "one is 0"),
        _ => (special(random), "special"),
    }
}

/// The larger a few doubles from the least size at which both rules agree. The square of the smaller is half a place of that of the larger,
/// as it is below that size or above it, or nearly so.
fn at_bound(random: &mut Random) -> Vector {
    let half = match random.once_in(2) {
        true => LEAST_SIZE * power(-27),
        false => power(-511),
    };
    [random.beside(LEAST_SIZE, 64), random.beside(half, 4)]
}

/// So far that the square of the smaller is near the last place of that of the larger, or that its scaled size is, or beyond.
fn far_apart(random: &mut Random) -> Vector {
    let exponent = random.within(-1022, 1023);
    let apart = match random.below(4) {
        0 | 1 => random.within(24, 29),
        2 => random.within(50, 56),
        _ => random.within(500, 2045),
    };
    let smaller = match exponent - apart {
        exponent @ -1022.. => random.of_exponents(exponent, exponent),
        _ => random.subnormal(),
    };
    [random.of_exponents(exponent, exponent), smaller]
}

fn special(random: &mut Random) -> Vector {
    let one = |random: &mut Random| match random.below(4) {
        0 => random.any(),
        1 => random.of_exponents(-8, 8),
        _ => random.special(),
    };
    [(); 2].map(|_| one(random))
}

/// Two points that differ by that, or by nearly that: a difference is rounded.
fn points(random: &mut Random, [dx, dy]: Vector) -> (Vector, Vector) {
    let turned = match random.once_in(2) {
        true => [dx, dy],
        false => [dy, dx],
    };
    let [[ax, bx], [ay, by]] = turned.map(|d| match random.below(8) {
        0..3 => [d, 0.0],
        3 => [d, -0.0],
        4 => [0.0, -d],
        5 => [d / 2.0, -d / 2.0],
        6 => {
            let from = random.of_exponents(-8, 8);
            [from + d, from]
        }
        _ => {
            let from = d * random.of_exponents(-4, 4);
            [from + d, from]
        }
    });
    match random.once_in(64) {
        // a point and itself
        true => ([ax, ay], [ax, ay]),
        false => ([ax, ay], [bx, by]),
    }
}
