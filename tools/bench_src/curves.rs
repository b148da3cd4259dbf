//! A curve of control points: its point, its derivatives up to the second, and its points at 256 parameters in one call, of which the
//! time of one is told. Ours goes in by the public door, which checks the curve anew each time; the Rust does not, nor does the floor.

use crate::floor::Floor;
use crate::ours::{threshdune_evaluate, threshdune_evaluate_many};
use crate::sides::Bench;
use original::spline::{BSpline, Curve, P2};

/// A wavy curve over uniform knots, in the forms that the two sides take.
pub struct Wave {
    pub coords: Vec<f64>,
    pub spline: BSpline,
    pub curve: Curve<f64>,
    pub floor: Floor,
}

/// Parameters of one call.
const MANY: usize = 256;

impl Wave {
    pub fn of(n: usize) -> Self {
        let point = |k: usize| [k as f64 * 1.3, (k as f64 * 0.9).sin() * 4.0];
        let points: Vec<[f64; 2]> = (0..n).map(point).collect();
        let handles = points.iter().map(|&[x, y]| P2::new(x, y)).collect();
        let spline = BSpline::from_control_points(&points, None).expect("accepted");
        Wave {
            coords: points.concat(),
            floor: Floor::of(&points.concat(), &spline.knots),
            spline,
            curve: Curve::new(handles, false, None),
        }
    }

    /// x and y of the point at each parameter.
    fn many(&self, ts: &[f64]) -> [f64; 2 * MANY] {
        let (mut out, mut refusals) = ([0.0; 2 * MANY], [0; MANY]);
        let knots = &self.spline.knots;
        let refusal = unsafe {
            threshdune_evaluate_many(
                self.coords.as_ptr(),
                self.coords.len(),
                knots.as_ptr(),
                knots.len(),
                ts.as_ptr(),
                ts.len(),
                0,
                out.as_mut_ptr(),
                out.len(),
                refusals.as_mut_ptr(),
                refusals.len(),
            )
        };
        assert_eq!(refusal, 0);
        out
    }

    fn ours<const NUMBERS: usize>(&self, t: f64) -> [f64; NUMBERS] {
        let mut out = [0.0; NUMBERS];
        let knots = &self.spline.knots;
        let refusal = unsafe {
            threshdune_evaluate(
                self.coords.as_ptr(),
                self.coords.len(),
                knots.as_ptr(),
                knots.len(),
                t,
                NUMBERS as u64 / 2 - 1,
                out.as_mut_ptr(),
                NUMBERS,
            )
        };
        assert_eq!(refusal, 0);
        out
    }
}

/// Parameters all over the domain, not in rising order; at a knot, at the ends and past them.
pub fn parameters() -> Vec<f64> {
    let mut at: Vec<f64> = (0..28).map(|k| (k * 11 % 29) as f64 / 29.0).collect();
    at.extend([0.5, 1.0, 1.25, -0.125]);
    at
}

pub fn time(bench: &mut Bench) {
    let at = parameters();
    for n in [8, 20, 66] {
        let wave = Wave::of(n);
        bench.case_over_floor(
            &format!("point {n}"),
            (&at, 1),
            |t| wave.ours::<2>(*t),
            |t| point(&wave.spline, *t),
            |t| wave.floor.point(*t),
        );
    }
    for n in [8, 20, 66] {
        let wave = Wave::of(n);
        bench.case_over_floor(
            &format!("eval2 {n}"),
            (&at, 1),
            |t| wave.ours::<6>(*t),
            |t| second(&wave.curve, *t),
            |t| wave.floor.second(*t),
        );
    }
    let lists: Vec<Vec<f64>> = (1..=4).map(scattered).collect();
    for n in [8, 20, 66] {
        let wave = Wave::of(n);
        bench.case_over_floor(
            &format!("points {n}"),
            (&lists, MANY),
            |ts| wave.many(ts),
            |ts| each(&wave.curve, ts),
            |ts| {
                let mut out = [0.0; 2 * MANY];
                wave.floor.points(ts, &mut out);
                out
            },
        );
    }
}

/// Parameters of 0 to 1, as chance has them: a counter with its bits mixed (splitmix64).
fn scattered(seed: u64) -> Vec<f64> {
    let at = |k: u64| {
        let mut z = (seed << 32 | k).wrapping_mul(0x9E37_79B9_7F4A_7C15);
        z = (z ^ (z >> 30)).wrapping_mul(0xBF58_476D_1CE4_E5B9);
        z = (z ^ (z >> 27)).wrapping_mul(0x94D0_49BB_1331_11EB);
        ((z ^ (z >> 31)) >> 11) as f64 / (1u64 << 53) as f64
    };
    (0..MANY as u64).map(at).collect()
}

#[inline(never)]
fn each(curve: &Curve<f64>, ts: &[f64]) -> [f64; 2 * MANY] {
    let mut out = [0.0; 2 * MANY];
    for (t, place) in ts.iter().zip(out.chunks_exact_mut(2)) {
        place.copy_from_slice(&curve.eval(t, 0)[0].val());
    }
    out
}

#[inline(never)] // as ours is in a library
pub fn point(spline: &BSpline, t: f64) -> [f64; 2] {
    spline.point(t)
}

#[inline(never)]
fn second(curve: &Curve<f64>, t: f64) -> [f64; 6] {
    let orders = curve.eval(&t, 2);
    let [[a, b], [c, d], [e, f]] = [0, 1, 2].map(|k: usize| orders[k].val());
    [a, b, c, d, e, f]
}
