//! A fit: control points and knots from fit points. Ours works in a lent buffer, which it leaves cleared for the next call; the Rust
//! makes its matrix anew, cleared, each time.

use crate::floor::Floor;
use crate::ours::threshdune_build_fit;
use crate::sides::Bench;
use original::spline::BSpline;
use std::cell::RefCell;

/// n points of a wave; `which` gives each its own shape.
pub fn wave(n: usize, which: usize) -> Vec<[f64; 2]> {
    let bend = 0.3 + 0.17 * which as f64;
    let point = |k: usize| {
        let x = k as f64;
        [x * 1.3 + (x * bend).cos(), (x * 0.9 * bend).sin() * 4.0]
    };
    (0..n).map(point).collect()
}

pub fn time(bench: &mut Bench) {
    for n in [8, 20, 64] {
        let inputs: Vec<Vec<[f64; 2]>> = (0..8).map(|which| wave(n, which)).collect();
        let m = n + 2;
        let work = RefCell::new(vec![0.0; m * (m + 2)]);
        bench.case_over_floor(
            &format!("fit {n}"),
            (&inputs, 1),
            |points| ours(points, &mut work.borrow_mut()),
            |points| theirs(points),
            |points| Floor::through(points).numbers(),
        );
    }
}

/// The control points, x and y in turn, and then the knots.
pub fn ours(points: &[[f64; 2]], work: &mut [f64]) -> Vec<f64> {
    let m = points.len() + 2;
    let mut answer = vec![0.0; 3 * m + 4];
    let (control, knots) = answer.split_at_mut(2 * m);
    let refusal = unsafe {
        threshdune_build_fit(
            points.as_ptr().cast(),
            2 * points.len(),
            work.as_mut_ptr(),
            work.len(),
            control.as_mut_ptr(),
            control.len(),
            knots.as_mut_ptr(),
            knots.len(),
        )
    };
    assert_eq!(refusal, 0);
    answer
}

#[inline(never)] // as ours is in a library
fn theirs(points: &[[f64; 2]]) -> Vec<f64> {
    let fit = BSpline::from_fit_points(points).expect("accepted");
    let mut answer = fit.control_points.concat();
    answer.extend(fit.knots);
    answer
}
