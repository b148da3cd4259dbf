//! The root, against the processor's own.

use crate::ours;
use crate::random::Random;
use crate::tally::{Tally, hex, same};
use std::hint::black_box;

pub fn run(random: &mut Random, rounds: u64) -> Tally {
    let mut tally = Tally::default();
    for _ in 0..rounds {
        let (x, kind) = input(random);
        tally.kind(kind);
        let (found, wanted) = (ours::root(x), root(x));
        tally.case(same(found, wanted), || {
            let [x, found, wanted] = [x, found, wanted].map(|one| hex(&[one]));
            format!("root of {x}: {found}, wanted {wanted}")
        });
    }
    tally
}

/// The rule of docs/RULES.md, "Root". A NaN is neither at nor below 0, and its root is a NaN.
fn root(x: f64) -> f64 {
    if x <= 0.0 { 0.0 } else { black_box(x).sqrt() }
}

fn input(random: &mut Random) -> (f64, &'static str) {
    match random.below(10) {
        0 => (random.any(), "any bits"),
        1..4 => (random.of_exponents(-1022, 1023).abs(), "of all exponents"),
        4 => (random.subnormal().abs(), "subnormal"),
        5 => (near_square(random), "next to a square"),
        6 | 7 => (
            near_halfway(random),
            "next to the square of a halfway number",
        ),
        8 => (random.beside_power(), "next to a power of two"),
        _ => (small_or_special(random), "small or special"),
    }
}

fn small_or_special(random: &mut Random) -> f64 {
    match random.below(2) {
        0 => random.below(1 << 20) as f64,
        _ => random.special(),
    }
}

/// Next to the square of a whole number that is a double itself, over all exponents.
fn near_square(random: &mut Random) -> f64 {
    let k = 1 + random.below(94_906_265);
    let exponent = 2 * random.within(-537, 485);
    let square = scaled((k * k) as f64, exponent);
    random.beside(square, 2)
}

/// Next to the square of a number halfway between two doubles, where the root is hardest to round.
fn near_halfway(random: &mut Random) -> f64 {
    let twice = u128::from(((1 << 52) | (random.bits() >> 12)) * 2 + 1);
    let square = twice * twice;
    let spare = 75 - i64::from(square.leading_zeros());
    let head = (square >> spare) as f64;
    // even, so that halfway stays halfway
    let exponent = spare + 2 * random.within(-563, 457);
    random.beside(scaled(head, exponent), 1)
}

/// x times a power of two, in two steps of which only the second can round.
fn scaled(x: f64, exponent: i64) -> f64 {
    let power = |e: i64| f64::from_bits(((e + 1023) as u64) << 52);
    let half = exponent / 2;
    x * power(half) * power(exponent - half)
}
