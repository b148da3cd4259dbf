//! Finite, size, order of sizes and clamp, against the standard library's.

use crate::ours;
use crate::random::Random;
use crate::tally::{Tally, hex, same};
use std::cmp::Ordering;

pub fn run(random: &mut Random, rounds: u64) -> Tally {
    let mut tally = Tally::default();
    for _ in 0..rounds {
        finite_and_size(random, &mut tally);
        at_least(random, &mut tally);
        clamp(random, &mut tally);
    }
    tally
}

fn finite_and_size(random: &mut Random, tally: &mut Tally) {
    let x = one(random);
    let found = ours::is_finite(x);
    tally.case(found == u8::from(x.is_finite()), || {
        format!("is_finite {}: {found}", hex(&[x]))
    });
    let found = ours::size(x);
    tally.case(same(found, x.abs()), || {
        format!("size of {}: {}", hex(&[x]), hex(&[found]))
    });
}

/// All NaN count as one here, so the only one handed over is the common one, of either sign: it has no payload.
fn at_least(random: &mut Random, tally: &mut Tally) {
    let x = common(one(random), random);
    let y = common(other(random, x), random);
    let found = ours::at_least(x, y);
    let wanted = x.abs().total_cmp(&y.abs()) != Ordering::Less;
    tally.case(found == u8::from(wanted), || {
        format!("at_least {}: {found}, wanted {wanted}", hex(&[x, y]))
    });
}

fn common(x: f64, random: &mut Random) -> f64 {
    let nan = f64::NAN.copysign(if random.once_in(2) { 1.0 } else { -1.0 });
    if x.is_nan() { nan } else { x }
}

fn clamp(random: &mut Random, tally: &mut Tally) {
    let lo = one(random);
    let hi = other(random, lo);
    let x = match random.below(3) {
        0 => other(random, lo),
        1 => other(random, hi),
        _ => one(random),
    };
    let (wanted, kind) = wanted_clamp(x, lo, hi);
    let found = ours::clamp(x, lo, hi);
    tally.kind(kind);
    tally.case(same(found, wanted), || {
        let inputs = hex(&[x, lo, hi]);
        format!(
            "clamp {inputs}: {}, wanted {}",
            hex(&[found]),
            hex(&[wanted])
        )
    });
}

/// The standard library stops at ends that are not in order; the port's rule goes on.
fn wanted_clamp(x: f64, lo: f64, hi: f64) -> (f64, &'static str) {
    if lo <= hi {
        return (x.clamp(lo, hi), "clamps with ends in order");
    }
    let raised = if x < lo { lo } else { x };
    let wanted = if raised > hi { hi } else { raised };
    (wanted, "clamps with other ends")
}

fn one(random: &mut Random) -> f64 {
    match random.below(4) {
        0 => random.any(),
        1 => random.beside_power(),
        _ => {
            let flavour = random.flavour();
            random.double(flavour)
        }
    }
}

/// x itself, x with the other sign, a neighbour, or another number.
fn other(random: &mut Random, x: f64) -> f64 {
    match random.below(6) {
        0 => x,
        1 => -x,
        2 => random.beside(x, 2),
        3 => -random.beside(x, 2),
        _ => one(random),
    }
}
