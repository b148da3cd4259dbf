//! The original's basis, told by the original itself.
//!
//! It keeps `basis` private, but it is generic over its scalar, and `eval` multiplies each control point by a basis value. So it
//! evaluates a curve over a scalar of ours, `Told`: a number is one of the original's own scalars, and whatever is done with numbers the
//! original does; a control point is a mark, and a mark times a number keeps the number. What `eval` answers is then the basis
//! values as they were computed.

use original::spline::{Curve, P2, Scalar};
use std::ops::{Add, Div, Mul, Neg, Sub};

/// The knots that a span reads.
pub const KNOTS: usize = 6;
/// The basis functions of a span.
pub const FUNCTIONS: usize = 4;

/// The original's `basis`, its rows one behind the other, on the span between the third and the fourth of six knots.
///
/// With four control points every parameter has span 3, which reads the second to the seventh of eight knots. The first and the last
/// are the ends of the domain, past which `eval` goes on straight: no t lies outside these.
pub fn basis<S: Scalar>(six: [S; KNOTS], t: S, order: usize) -> Vec<S> {
    let mut knots = vec![Told::cst(f64::NEG_INFINITY)];
    knots.extend(six.map(Told::Number));
    knots.push(Told::cst(f64::INFINITY));
    let mark = |j: usize| P2::new(Told::Mark(j), Told::Mark(j));
    let curve = Curve {
        degree: 3,
        knots,
        control: (0..FUNCTIONS).map(mark).collect(),
    };
    let orders = curve.eval(&Told::Number(t), order);
    orders.into_iter().flat_map(|point| kept(point.x)).collect()
}

fn kept<S: Scalar>(coordinate: Told<S>) -> [S; FUNCTIONS] {
    let Told::Kept(values) = coordinate else {
        panic!("the original no longer sums control points times basis values");
    };
    assert!(values.iter().map(|(j, _)| *j).eq(0..FUNCTIONS));
    let values: Vec<S> = values.into_iter().map(|(_, value)| value).collect();
    values.try_into().expect("four of them")
}

#[derive(Clone, Debug)]
enum Told<S> {
    Number(S),
    /// Control point j.
    Mark(usize),
    /// What control points were multiplied by, in order.
    Kept(Vec<(usize, S)>),
}

impl<S: Scalar> Told<S> {
    fn number(self) -> S {
        match self {
            Told::Number(number) => number,
            other => panic!("a number is wanted, not {other:?}"),
        }
    }
}

impl<S: Scalar> Mul for Told<S> {
    type Output = Self;
    fn mul(self, other: Self) -> Self {
        match self {
            Told::Mark(j) => Told::Kept(vec![(j, other.number())]),
            number => Told::Number(number.number() * other.number()),
        }
    }
}

impl<S: Scalar> Add for Told<S> {
    type Output = Self;
    fn add(self, other: Self) -> Self {
        match (self, other) {
            (Told::Kept(mut first), Told::Kept(then)) => {
                first.extend(then);
                Told::Kept(first)
            }
            // the sum begins at 0
            (Told::Number(_), kept @ Told::Kept(_)) => kept,
            (first, then) => Told::Number(first.number() + then.number()),
        }
    }
}

impl<S: Scalar> Sub for Told<S> {
    type Output = Self;
    fn sub(self, other: Self) -> Self {
        Told::Number(self.number() - other.number())
    }
}

impl<S: Scalar> Div for Told<S> {
    type Output = Self;
    fn div(self, other: Self) -> Self {
        Told::Number(self.number() / other.number())
    }
}

impl<S: Scalar> Neg for Told<S> {
    type Output = Self;
    fn neg(self) -> Self {
        Told::Number(-self.number())
    }
}

impl<S: Scalar> Scalar for Told<S> {
    fn cst(v: f64) -> Self {
        Told::Number(S::cst(v))
    }
    fn val(&self) -> f64 {
        match self {
            Told::Number(number) => number.val(),
            other => panic!("a number is wanted, not {other:?}"),
        }
    }
    fn sqrt(&self) -> Self {
        Told::Number(self.clone().number().sqrt())
    }
}
