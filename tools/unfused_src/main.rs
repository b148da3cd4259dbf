//! The lines that the program crates/unfused has to write: a curve's point and its derivatives up to the third at some
//! parameters, computed by the original.
//!
//! Beside it the same is computed here twice over: with each product and sum rounded by itself, which has to agree with the
//! original, and with the two rounded once. How many lines that changes is told on standard error.

use original::spline::{Curve, P2};
use std::process::exit;

/// The control points of crates/unfused/src/main.rt: no coordinate is a small binary fraction, and neither are the knots.
const POINTS: [[f64; 2]; 6] = [
    [0.1, 0.7],
    [1.3, 2.9],
    [2.3, -1.1],
    [3.7, 0.3],
    [4.9, 3.1],
    [6.1, -0.9],
];

/// The parameters are k/37, from before the domain's start to past its end.
const FROM: i32 = -2;
const TO: i32 = 38;
const PER_UNIT: f64 = 37.0;

/// So many lines have to differ by a single place.
const ENOUGH: usize = 8;

type Orders = [[f64; 2]; 4];

/// Where a product and the sum it goes into are fused.
#[derive(Clone, Copy, PartialEq)]
enum Fused {
    Nowhere,
    Values,
    Derivatives,
    Points,
    PastTheEnds,
    Everywhere,
}

impl Fused {
    /// s + a * b, in this place.
    fn sum(self, place: Fused, s: f64, a: f64, b: f64) -> f64 {
        if self == place || self == Fused::Everywhere {
            a.mul_add(b, s)
        } else {
            s + a * b
        }
    }
}

fn main() {
    let handles = POINTS.iter().map(|&[x, y]| P2::new(x, y)).collect();
    let curve = Curve::new(handles, false, None);
    let parameters: Vec<f64> = (FROM..=TO).map(|k| f64::from(k) / PER_UNIT).collect();
    let theirs: Vec<Orders> = parameters.iter().map(|t| of_original(&curve, *t)).collect();
    for [x, y] in theirs.as_flattened() {
        println!("{:016x} {:016x}", x.to_bits(), y.to_bits());
    }
    let changed = |fused: Fused| {
        let ours = parameters.iter().map(|t| orders(&curve.knots, *t, fused));
        let ours: Vec<Orders> = ours.collect();
        let lines = ours.as_flattened().iter().zip(theirs.as_flattened());
        lines.filter(|(a, b)| bits(**a) != bits(**b)).count()
    };
    if changed(Fused::Nowhere) > 0 {
        eprintln!("unfused: the original is not computed as here");
        exit(2);
    }
    let lines = theirs.as_flattened().len();
    let mut few = false;
    for (fused, least, name) in [
        (Fused::Values, ENOUGH, "in the basis values"),
        (Fused::Derivatives, ENOUGH, "in their derivatives"),
        (Fused::Points, ENOUGH, "in the sums over the control points"),
        // there are three parameters past the ends, and only their points depend on this
        (Fused::PastTheEnds, 1, "in the straight lines past the ends"),
        (Fused::Everywhere, lines / 2, "in all of these"),
    ] {
        let count = changed(fused);
        eprintln!("{count:4} of {lines} lines differ if products are fused into sums {name}");
        few |= count < least;
    }
    exit(if few { 1 } else { 0 });
}

fn bits([x, y]: [f64; 2]) -> [u64; 2] {
    [x.to_bits(), y.to_bits()]
}

fn of_original(curve: &Curve<f64>, t: f64) -> Orders {
    let orders = curve.eval(&t, 3);
    [0, 1, 2, 3].map(|k: usize| orders[k].val())
}

/// The curve over these knots at t, by the rules of docs/RULES.md, "Evaluate".
fn orders(knots: &[f64], t: f64, fused: Fused) -> Orders {
    let (lo, hi) = (knots[0], knots[knots.len() - 1]);
    if (lo..=hi).contains(&t) {
        return inside(knots, t, fused);
    }
    let end = if t < lo { lo } else { hi };
    let [p, d, ..] = inside(knots, end, fused);
    let on = |c: usize| fused.sum(Fused::PastTheEnds, p[c], d[c], t - end);
    [[on(0), on(1)], d, [0.0; 2], [0.0; 2]]
}

fn inside(knots: &[f64], t: f64, fused: Fused) -> Orders {
    let last = POINTS.len() - 1;
    let span = (3..last).rev().find(|&i| knots[i + 1] <= t);
    let span = span.map_or(3, |i| i + 1);
    let rows = basis(knots, span, t, fused);
    rows.map(|row| {
        let mut point = [0.0; 2];
        for (j, weight) in row.iter().enumerate() {
            let control = POINTS[span - 3 + j];
            for c in 0..2 {
                point[c] = fused.sum(Fused::Points, point[c], control[c], *weight);
            }
        }
        point
    })
}

/// Algorithm A2.3 of The NURBS Book for a cubic, values and three derivatives.
fn basis(u: &[f64], i: usize, t: f64, fused: Fused) -> [[f64; 4]; 4] {
    let mut ndu = [[0.0; 4]; 4];
    let (mut left, mut right) = ([0.0; 4], [0.0; 4]);
    ndu[0][0] = 1.0;
    for j in 1..4 {
        left[j] = t - u[i + 1 - j];
        right[j] = u[i + j] - t;
        let mut saved = 0.0;
        for r in 0..j {
            ndu[j][r] = right[r + 1] + left[j - r];
            let part = ndu[r][j - 1] / ndu[j][r];
            ndu[r][j] = fused.sum(Fused::Values, saved, right[r + 1], part);
            saved = left[j - r] * part;
        }
        ndu[j][j] = saved;
    }
    let mut rows = [[0.0; 4]; 4];
    rows[0] = [0, 1, 2, 3].map(|j: usize| ndu[j][3]);
    for r in 0..4usize {
        let mut a = [1.0, 0.0, 0.0, 0.0];
        let mut factor = 1.0;
        for k in 1..4usize {
            let mut next = [0.0; 4];
            let mut d = 0.0;
            // column j stands over r-k+j, where there is one
            for j in 0..=k {
                let Some(at) = (r + j).checked_sub(k).filter(|at| *at <= 3 - k) else {
                    continue;
                };
                let above = if j == 0 { 0.0 } else { a[j - 1] };
                next[j] = match j {
                    0 => a[0],
                    _ if j == k => -above,
                    _ => a[j] - above,
                } / ndu[4 - k][at];
                d = fused.sum(Fused::Derivatives, d, next[j], ndu[at][3 - k]);
            }
            factor *= (4 - k) as f64;
            rows[k][r] = d * factor;
            a = next;
        }
    }
    rows
}
