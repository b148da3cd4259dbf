//! Curves through fit points, against the original's `BSpline::from_fit_points`; refusal 15 by `judge`, which has to come to the
//! original's own numbers. No knots can be given with them in C, so that refusal 5 is not met here: tools/compare-sheets meets it.

use crate::asked::{Asked, Room, Wanted, points, start};
use crate::judge::{Fit, polygon_length};
use crate::layouts::{collinear, mirror, not_finite};
use crate::moves;
use crate::ours;
use crate::random::{Flavour, Random};
use crate::table::{NOT_FINITE, Table, their_check_of_fit};
use crate::tally::{Tally, hex, same};
use crate::ties::{TIED, count, tied};
use original::spline::BSpline;

pub fn run(random: &mut Random, rounds: u64) -> Tally {
    let mut tally = Tally::default();
    for _ in 0..rounds {
        // in a messy round more than one thing is wrong, so that the order of the refusals shows
        let messy = random.once_in(8);
        let n = match random.below(16) {
            0..10 => random.within(2, 9),
            10..15 => random.within(2, 32),
            _ => random.within(33, 64),
        } as usize;
        let (mut coords, kind) = match random.once_in(TIED) {
            true => tied(random, n),
            false => fit_points(random, n),
        };
        tally.kind(kind);
        let damages = match random.below(12) {
            _ if messy => 1 + random.below(3),
            0 => 1,
            _ => 0,
        };
        (0..damages).for_each(|_| damage(random, &mut coords));
        build(&coords, messy, random, &mut tally);
    }
    tally
}

fn build(coords: &[f64], messy: bool, random: &mut Random, tally: &mut Tally) {
    let m = coords.len() / 2 + 2;
    let mut work = Room::draw(random, m * (m + 2), messy);
    let mut control = Room::draw(random, 2 * m, messy);
    let mut knots = Room::draw(random, m + 4, messy);
    let refusal = unsafe {
        ours::threshdune_build_fit(
            start(coords),
            coords.len(),
            work.memory.as_mut_ptr(),
            work.len,
            control.memory.as_mut_ptr(),
            control.len,
            knots.memory.as_mut_ptr(),
            knots.len,
        )
    };
    let short = work.len < m * (m + 2) || control.len < 2 * m || knots.len < m + 4;
    let table = Table::of_fit(coords, false).row(14, short);
    let mut unlike = None;
    let wanted = Wanted::judged(table, || {
        let (answer, fault) = through(&points(coords), tally);
        unlike = fault;
        answer
    });
    wanted.kinds(tally, "fit answered");
    // the work buffer holds zeros once it was used
    let used = wanted.number == 0 || wanted.number == NOT_FINITE;
    let zeros = vec![0.0; if used { m * (m + 2) } else { 0 }];
    let theirs = their_check_of_fit(coords, None);
    let fault = unlike
        .or_else(|| wanted.refusal_fault(refusal, theirs))
        .or_else(|| control.fault("control", wanted.entries(0)))
        .or_else(|| knots.fault("knots", wanted.entries(1)))
        .or_else(|| work.fault("work", &zeros));
    tally.case(fault.is_none(), || {
        let fault = fault.unwrap_or_default();
        format!("build_fit: {fault}, of [{}]", hex(coords))
    });
    if wanted.number != 0 {
        return;
    }
    moves::of_built(m, [&control, &knots], random, tally);
    if random.once_in(4) {
        Asked::of_slices(wanted.entries(0), wanted.entries(1), messy).ask(random, tally);
    }
}

/// The original's control points, knots and length, or nothing where that or a number stored on the way is not finite; and how the judge
/// of these came to other numbers, if it did.
fn through(points: &[[f64; 2]], tally: &mut Tally) -> (Option<Vec<Vec<f64>>>, Option<String>) {
    let theirs = BSpline::from_fit_points(points).expect("two points or more");
    let fit = Fit::through(points);
    let length = polygon_length(&theirs.control_points);
    let theirs = [theirs.control_points.concat(), theirs.knots, vec![length]];
    let alike = |ours: &[f64], theirs: &[f64]| {
        ours.len() == theirs.len() && ours.iter().zip(theirs).all(|(a, b)| same(*a, *b))
    };
    let unlike = !alike(&fit.knots, &theirs[1])
        || fit
            .control
            .is_some_and(|control| !alike(&control.concat(), &theirs[0]));
    let finite = theirs.iter().flatten().all(|x| x.is_finite());
    match (fit.repeated, fit.fine, finite) {
        (true, true, _) => tally.kind("two parameters equal, answered"),
        (true, false, _) => tally.kind("two parameters equal, refused"),
        (false, false, true) => tally.kind("not finite on the way, the answer finite"),
        (false, true, false) => tally.kind("the length alone not finite"),
        _ => {}
    }
    let answered = fit.fine && length.is_finite();
    count(fit.pivots, answered, tally);
    let fault = unlike.then(|| "the judge comes to other numbers than the original".into());
    (answered.then(|| theirs.into()), fault)
}

/// One number or count changed, mostly so that a refusal applies.
fn damage(random: &mut Random, coords: &mut Vec<f64>) {
    let handles = match random.below(8) {
        0 => {
            coords.pop();
            return;
        }
        1 => {
            coords.push(random.double(Flavour::Small));
            return;
        }
        2 => random.below(2),
        3 => 65,
        4 => 65 + random.below(8),
        _ => {
            if !coords.is_empty() {
                let at = random.below(coords.len() as u64) as usize;
                coords[at] = not_finite(random);
            }
            return;
        }
    };
    coords.resize_with(2 * handles as usize, || random.double(Flavour::Small));
}

/// n points, x and y in turn, of the kinds that a fit can go wrong on.
pub fn fit_points(random: &mut Random, n: usize) -> (Vec<f64>, &'static str) {
    let kind = random.below(16);
    let mut list = |one: &mut dyn FnMut(&mut Random) -> f64| -> Vec<f64> {
        (0..2 * n).map(|_| one(random)).collect()
    };
    match kind {
        0..3 => (list(&mut |r| r.of_exponents(-8, 8)), "points ordinary"),
        3 => (list(&mut |r| r.double(Flavour::Small)), "points small"),
        4 => (
            list(&mut |r| r.within(-100, 100) as f64),
            "points whole numbers",
        ),
        5 => (collinear(random, n), "points collinear"),
        6 => (even(random, n), "points at even steps"),
        7 => {
            let mut coords = list(&mut |r| r.of_exponents(-8, 8));
            coincide(random, &mut coords);
            (coords, "points coincident")
        }
        8 => {
            // so far apart that the step between coincident points is lost
            let exponent = random.within(30, 300);
            let whole = |r: &mut Random| r.within(-4, 4) as f64;
            let mut coords: Vec<f64> = (0..2 * n).map(|_| whole(random)).collect();
            coincide(random, &mut coords);
            let coords = coords.into_iter().map(|x| scaled(x, exponent)).collect();
            (coords, "points coincident and far apart")
        }
        9 => {
            let exponent = random.within(-1000, 1000);
            let mut coords = Vec::new();
            coords.resize_with(2 * n, || random.of_exponents(exponent, exponent + 3));
            (coords, "points of one scale of 2^-1000 to 2^1000")
        }
        10 => (list(&mut |r| r.of_exponents(1000, 1023)), "points huge"),
        11 => {
            let exponent = random.within(505, 515);
            let mut coords = Vec::new();
            coords.resize_with(2 * n, || random.of_exponents(exponent, exponent));
            (coords, "points whose squares just overflow, or not")
        }
        12 => (list(&mut |r| r.subnormal()), "points subnormal"),
        13 => (list(&mut |r| r.double(Flavour::Far)), "points far apart"),
        14 => (mirrored(random, n), "points mirrored"),
        _ => (round(random, n), "points on an ellipse"),
    }
}

/// Steps of one length, in four directions.
fn even(random: &mut Random, n: usize) -> Vec<f64> {
    let step = scaled(1.0, random.within(-20, 20));
    let mut point = [0.0; 2];
    let mut coords = Vec::new();
    for _ in 0..n {
        coords.extend(point);
        point[random.below(2) as usize] += if random.once_in(2) { step } else { -step };
    }
    coords
}

/// Some points become the one before.
fn coincide(random: &mut Random, coords: &mut [f64]) {
    let every = 1 + random.below(4);
    for k in 1..coords.len() / 2 {
        if random.once_in(every) {
            coords.copy_within(2 * k - 2..2 * k, 2 * k);
        }
    }
}

/// The second half is the first in a mirror.
fn mirrored(random: &mut Random, n: usize) -> Vec<f64> {
    let flavour = match random.below(2) {
        0 => Flavour::Small,
        _ => Flavour::Ordinary,
    };
    let mut coords: Vec<f64> = (0..2 * n).map(|_| random.double(flavour)).collect();
    mirror(&mut coords);
    coords
}

/// On an ellipse, mostly to close it.
fn round(random: &mut Random, n: usize) -> Vec<f64> {
    let [a, b] = [(); 2].map(|_| random.of_exponents(-4, 8));
    let turns = match random.below(4) {
        0 => 0.5,
        _ => 1.0,
    };
    let angle = |k: usize| turns * std::f64::consts::TAU * k as f64 / (n - 1) as f64;
    let point = |k: usize| [a * angle(k).cos(), b * angle(k).sin()];
    (0..n).flat_map(point).collect()
}

fn scaled(x: f64, exponent: i64) -> f64 {
    x * f64::from_bits(((exponent + 1023) as u64) << 52)
}
