//! The closest parameter on a fit of 64 points, 1,009 samples of it and then Newton's rounds. Ours goes in by the public door, which checks
//! the curve anew each time; the Rust, as it was published, does not. The points searched for lie clear of ties, so that its `hypot` and our
//! distance find the same parameter.

use crate::fits::wave;
use crate::floor::Floor;
use crate::ours::{threshdune_closest, threshdune_closest_many};
use crate::sides::Bench;
use original::spline::{BSpline, Curve, P2, closest_param};

pub fn time(bench: &mut Bench) {
    let fit = BSpline::from_fit_points(&wave(64, 3)).expect("accepted");
    let coords = fit.control_points.concat();
    let handles = fit.control_points.iter().map(|&[x, y]| P2::new(x, y));
    let curve = Curve {
        degree: fit.degree,
        knots: fit.knots.clone(),
        control: handles.collect(),
    };
    // all along the curve, near it and far
    let at = |k: usize| [k as f64 * 5.1 - 3.0, (k as f64 * 1.7).sin() * 6.0 + 0.3];
    let points: Vec<[f64; 2]> = (0..18).map(at).collect();
    let floor = Floor::of(&coords, &fit.knots);
    bench.case_over_floor(
        "closest",
        (&points, 1),
        |p| [ours(&coords, &fit.knots, *p)],
        |p| [theirs(&curve, *p)],
        |p| [floor.closest(*p)],
    );
    // all of them in one call
    bench.case_over_floor(
        "marks",
        (&[points], 18),
        |marks| ours_of_all(&coords, &fit.knots, marks),
        |marks| marks.iter().map(|p| theirs(&curve, *p)).collect(),
        |marks| marks.iter().map(|p| floor.closest(*p)).collect(),
    );
}

fn ours_of_all(coords: &[f64], knots: &[f64], marks: &[[f64; 2]]) -> Vec<f64> {
    let mut out = vec![0.0; marks.len()];
    let mut refusals = vec![1; marks.len()];
    let refusal = unsafe {
        threshdune_closest_many(
            coords.as_ptr(),
            coords.len(),
            knots.as_ptr(),
            knots.len(),
            marks.as_ptr().cast(),
            2 * marks.len(),
            out.as_mut_ptr(),
            out.len(),
            refusals.as_mut_ptr(),
            refusals.len(),
        )
    };
    assert!(refusal == 0 && refusals.iter().all(|r| *r == 0));
    out
}

fn ours(coords: &[f64], knots: &[f64], [px, py]: [f64; 2]) -> f64 {
    let mut t = 0.0;
    let refusal = unsafe {
        threshdune_closest(
            coords.as_ptr(),
            coords.len(),
            knots.as_ptr(),
            knots.len(),
            px,
            py,
            &mut t,
        )
    };
    assert_eq!(refusal, 0);
    t
}

#[inline(never)] // as ours is in a library
fn theirs(curve: &Curve<f64>, p: [f64; 2]) -> f64 {
    closest_param(curve, p)
}
