//! Random sheets, which a seed and a number decide: of both forms, at the limits of the counts, with numbers of the kinds that arithmetic can go
//! wrong on, and damaged ones.

use crate::oracle::{MOST_KNOTS, MOST_PARAMETERS, MOST_POINTS, Sheet};
use crate::random::{Flavour, Random};
use crate::text::{damage, text};

pub struct Drawn {
    pub text: Vec<u8>,
    /// What was done to the text, if anything.
    pub damage: Option<&'static str>,
}

/// Sheet number `number` of this seed.
pub fn drawn(seed: u64, number: u64) -> Drawn {
    let random = &mut Random::new(seed ^ number.rotate_left(32), "sheets");
    let good = text(&sheet(random));
    if !random.once_in(3) {
        return Drawn {
            text: good,
            damage: None,
        };
    }
    let (mut text, name) = damage(&good, random);
    while random.once_in(8) {
        text = damage(&text, random).0;
    }
    Drawn {
        text,
        damage: Some(name),
    }
}

fn sheet(random: &mut Random) -> Sheet {
    let fit = random.once_in(2);
    let flavour = match random.below(16) {
        0..7 => Flavour::Ordinary,
        7..11 => Flavour::Small,
        11..15 => Flavour::Far,
        _ => Flavour::Wild,
    };
    let n = points_count(fit, random);
    let coords = coords(n, flavour, random);
    let knots = match random.below(if fit { 12 } else { 3 }) {
        0 => knots(n, random),
        _ => Vec::new(),
    };
    let at = parameters(&knots, random);
    let mut sheet = Sheet {
        fit,
        coords,
        knots,
        at,
    };
    if random.once_in(4) {
        spoil(&mut sheet, random);
    }
    sheet
}

fn points_count(fit: bool, random: &mut Random) -> usize {
    let limit = MOST_POINTS as i64;
    (match random.below(32) {
        0 => random.within(0, 3),
        1 => random.within(limit - 3, limit),
        2 => limit + 1,
        3..8 => random.within(2, limit - 2),
        _ if fit => random.within(2, 9),
        _ => random.within(4, 9),
    }) as usize
}

fn coords(n: usize, flavour: Flavour, random: &mut Random) -> Vec<f64> {
    let mut coords: Vec<f64> = match random.below(8) {
        // of one scale, so that sums and products overflow or vanish together
        0 => {
            let exponent = random.within(-1020, 1020);
            (0..2 * n)
                .map(|_| random.of_exponents(exponent, exponent + 3))
                .collect()
        }
        1 => {
            let exponent = random.within(505, 515);
            (0..2 * n)
                .map(|_| random.of_exponents(exponent, exponent))
                .collect()
        }
        2 => (0..2 * n).map(|_| random.subnormal()).collect(),
        3 => (0..2 * n).map(|k| (k / 2 * 3 + k % 2) as f64).collect(),
        _ => (0..2 * n).map(|_| random.double(flavour)).collect(),
    };
    // points that coincide with the one before
    if random.once_in(6) {
        for k in 1..n {
            if random.once_in(3) {
                coords.copy_within(2 * k - 2..2 * k, 2 * k);
            }
        }
    }
    coords
}

/// Knots for n control points that pass the rules, where there is room for a curve.
fn knots(n: usize, random: &mut Random) -> Vec<f64> {
    let inner = n.saturating_sub(4);
    let kind = random.below(8);
    let mut list: Vec<f64> = (0..inner + 2)
        .map(|_| match kind {
            0 => random.within(-4, 4) as f64 * 0.5,
            1 => random.double(Flavour::Far),
            2 => random.of_exponents(1015, 1023),
            3 => random.subnormal(),
            4 => random.within(-40, 40) as f64,
            _ => random.of_exponents(-8, 8),
        })
        .collect();
    list.sort_by(f64::total_cmp);
    // the same knot twice or three times, and zeros of either sign
    for k in 1..list.len().saturating_sub(1) {
        if random.once_in(5) {
            list[k] = list[k - 1];
        }
        if list[k] == 0.0 && random.once_in(2) {
            list[k] = -list[k];
        }
    }
    let [first, last] = [list[0], list[list.len() - 1]];
    [vec![first; 3], list, vec![last; 3]].concat()
}

fn parameters(knots: &[f64], random: &mut Random) -> Vec<f64> {
    let limit = MOST_PARAMETERS as i64;
    let count = match random.below(64) {
        0 => random.within(limit - 1, limit + 1),
        1 => random.within(17, limit),
        2..6 => 0,
        _ => random.within(1, 8),
    };
    let [lo, hi] = match knots {
        [first, .., last] => [*first, *last],
        _ => [0.0, 1.0],
    };
    let inside = |random: &mut Random| {
        let part = random.below(1 << 53) as f64 / (1u64 << 53) as f64;
        lo + (hi - lo) * part
    };
    let one = |random: &mut Random| match random.below(16) {
        0 => random.double(Flavour::Wild),
        1 => random.double(Flavour::Far),
        2 => random.beside(lo, 2),
        3 => random.beside(hi, 2),
        4 => lo - random.of_exponents(-8, 8).abs(),
        5 => hi + random.of_exponents(-8, 8).abs(),
        6 | 7 if !knots.is_empty() => {
            let knot = knots[random.below(knots.len() as u64) as usize];
            random.beside(knot, 1)
        }
        6 => random.below(9) as f64 / 8.0,
        7 => -0.0,
        _ => inside(random),
    };
    (0..count).map(|_| one(random)).collect()
}

/// One number or list changed, mostly so that a refusal applies.
fn spoil(sheet: &mut Sheet, random: &mut Random) {
    let any = |random: &mut Random| match random.below(3) {
        0 => f64::NAN,
        1 => f64::INFINITY,
        _ => random.double(Flavour::Wild),
    };
    let count = sheet.knots.len() as u64;
    match random.below(10) {
        0 | 1 if !sheet.coords.is_empty() => {
            let at = random.below(sheet.coords.len() as u64) as usize;
            sheet.coords[at] = any(random);
        }
        2 if count > 0 => sheet.knots[random.below(count) as usize] = any(random),
        3 if count > 0 => {
            let [a, b] = [(); 2].map(|_| random.below(count) as usize);
            sheet.knots.swap(a, b);
        }
        4 if count > 0 => {
            let [a, b] = [(); 2].map(|_| random.below(count) as usize);
            sheet.knots[a] = sheet.knots[b];
        }
        5 if count > 0 => {
            let at = random.below(count) as usize;
            sheet.knots[at] = random.beside(sheet.knots[at], 2);
        }
        6 if count > 4 => {
            // four times the same inside
            let at = random.below(count - 4) as usize;
            let knot = sheet.knots[at];
            sheet.knots[at..at + 4].fill(knot);
        }
        7 if count > 0 => {
            let knot = sheet.knots[0];
            sheet.knots.fill(knot);
        }
        _ => {
            let count = match random.below(4) {
                0 => random.within(0, 12),
                1 => random.within(MOST_KNOTS as i64 - 1, MOST_KNOTS as i64 + 1),
                _ => sheet.coords.len() as i64 / 2 + random.within(2, 5),
            };
            sheet.knots.resize(count as usize, 1.0);
        }
    }
}
