//! The root of both builds of the original. `oracle/build` puts this file beside a `source` that
//! holds either the original's folder itself or its copy with the one distance replaced.
//!
//! The original's own `pub` items are reached through `spline` and `point_on_spline`; what it keeps
//! `pub(crate)` goes through `access`. That copy alone calls `distance`.

// Parts of the original serve kernels that are not here.
#![allow(dead_code)]

#[path = "source/spline.rs"]
pub mod spline;

#[path = "source/constraints/point_on_spline.rs"]
pub mod point_on_spline;

pub mod distance;

/// Stands in for the original's module: the fields that the two files read.
pub mod geometry {
    pub struct Spline {
        pub points: Vec<String>,
        pub interpolated: bool,
        pub knots: Option<Vec<f64>>,
    }
}

/// Stands in for the original's module: the names of variables, and the trait that is implemented.
pub mod constraints {
    use nalgebra::DMatrix;

    pub enum Var<'a> {
        X(&'a str),
        Y(&'a str),
        CurveParam(&'a str),
    }

    pub fn xy(id: &str) -> [Var<'_>; 2] {
        [Var::X(id), Var::Y(id)]
    }

    pub trait Constraint {
        fn vars(&self) -> Vec<Var<'_>>;
        fn curve_params(&self) -> Vec<&str>;
        fn init_curve_params(&self, x: &[f64]) -> Vec<f64>;
        fn num_residuals(&self) -> usize;
        fn eval(&self, x: &[f64], r: &mut [f64], j: &mut DMatrix<f64>);
    }
}

/// Ways in to what the original keeps to its own crate. Each calls it and hands the answer on.
pub mod access {
    use crate::constraints::Constraint;
    use crate::geometry::Spline;
    use crate::point_on_spline::PointOnSplineConstraint;
    use crate::spline::{self, Curve, Dv, P2};
    use nalgebra::DMatrix;

    /// A spline of `handles` unnamed points: the original takes their numbers from elsewhere.
    pub fn spline_of(handles: usize, interpolated: bool, knots: Option<&[f64]>) -> Spline {
        Spline {
            points: vec![String::new(); handles],
            interpolated,
            knots: knots.map(<[f64]>::to_vec),
        }
    }

    pub fn point_tangent(curve: &Curve<f64>, t: f64) -> ([f64; 2], [f64; 2]) {
        spline::point_tangent(curve, t)
    }

    pub fn point_d(x: &[f64], i: usize) -> P2<Dv> {
        spline::point_d(x, i)
    }

    pub fn curve_d(spline: &Spline, x: &[f64], offset: usize) -> Curve<Dv> {
        spline::curve_d(spline, x, offset)
    }

    pub fn curve_f(spline: &Spline, x: &[f64], offset: usize) -> Curve<f64> {
        spline::curve_f(spline, x, offset)
    }

    /// The constraint's residuals, and the row of partials of each, as wide as `x` is long:
    /// the handles' numbers, then px, py and t.
    pub fn residuals(spline: Spline, x: &[f64]) -> (Vec<f64>, Vec<Vec<f64>>) {
        let constraint = PointOnSplineConstraint::new(String::new(), spline, String::new());
        let rows = constraint.num_residuals();
        let mut r = vec![0.0; rows];
        let mut j = DMatrix::zeros(rows, x.len());
        constraint.eval(x, &mut r, &mut j);
        let row = |i| (0..x.len()).map(|k| j[(i, k)]).collect();
        (r, (0..rows).map(row).collect())
    }
}
