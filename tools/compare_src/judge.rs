//! Whether a fit stores a number that is not finite, which the original does not tell. Its build is repeated here over the original's own
//! scalars, plain or with partials, in the order of its `spline.rs`, and every number that docs/RULES.md, "When 15 is given", names is
//! looked at when it is stored: knots, matrix, right sides, row multipliers, control points. The basis values are the original's own.
//! What it comes to can be held to the original's answer. The length of the polygon, which a plain build stores and one with partials does
//! not, is by itself.

use crate::told::{KNOTS, basis};
use original::spline::{Curve, Dv, P2, Scalar};

/// The length that a plain build stores beside these control points: the original's own.
pub fn polygon_length(control: &[[f64; 2]]) -> f64 {
    let curve = Curve {
        degree: 3,
        knots: Vec::new(),
        control: control.iter().map(|&[x, y]| P2::new(x, y)).collect(),
    };
    curve.polygon_length()
}

/// A number that a build stores.
pub trait Stored: Scalar {
    /// It is finite, and so is each of its partials.
    fn is_fine(&self) -> bool;
}

impl Stored for f64 {
    fn is_fine(&self) -> bool {
        self.is_finite()
    }
}

impl Stored for Dv {
    fn is_fine(&self) -> bool {
        self.v.is_finite() && self.g.iter().all(|partial| partial.is_finite())
    }
}

pub struct Fit<S> {
    /// All that was stored is finite.
    pub fine: bool,
    pub knots: Vec<S>,
    /// Nothing, where a knot is not finite.
    pub control: Option<Vec<[S; 2]>>,
    /// Two parameters are equal.
    pub repeated: bool,
    pub pivots: Pivots,
}

/// What the pivots of a solve were chosen among. Of the rows of the greatest size the last is taken, in the order that exchanges have left.
#[derive(Clone, Copy, Default)]
pub struct Pivots {
    /// In some column these rows were several, and their size not 0.
    pub tied: bool,
    /// And in some such column the last of them is not the one that lay last before any exchange. A fit that is answered has none: from
    /// the diagonal down two rows at most are not 0, one left over from the columns before and the next as it lay at first. Out of that
    /// order a row comes only where a column is 0 all over or two parameters are equal, and either ends in a division by 0.
    pub moved: bool,
}

impl<S: Stored> Fit<S> {
    /// Through two points or more.
    pub fn through(points: &[[S; 2]]) -> Self {
        let parameters = parameters(points);
        let mut knots = vec![S::cst(0.0); 4];
        knots.extend_from_slice(&parameters[1..points.len() - 1]);
        knots.extend(vec![S::cst(1.0); 4]);
        let repeated = parameters
            .windows(2)
            .any(|pair| pair[0].val() == pair[1].val());
        let mut watch = Watch {
            fine: true,
            pivots: Pivots::default(),
        };
        watch.all(&knots);
        let control = watch.fine.then(|| {
            let (matrix, sides) = system(points, &parameters, &knots);
            matrix.iter().for_each(|row| watch.all(row));
            sides.iter().for_each(|side| watch.all(side));
            solve(matrix, sides, &mut watch)
        });
        Fit {
            fine: watch.fine,
            knots,
            control,
            repeated,
            pivots: watch.pivots,
        }
    }
}

/// Sees what is stored.
struct Watch {
    fine: bool,
    pivots: Pivots,
}

impl Watch {
    fn seen<S: Stored>(&mut self, x: S) -> S {
        self.fine &= x.is_fine();
        x
    }

    fn all<S: Stored>(&mut self, list: &[S]) {
        self.fine &= list.iter().all(S::is_fine);
    }

    /// Sees a pivot among the rows from `col` on, each of which had its place at first.
    fn pivot<S: Stored>(&mut self, a: &[Vec<S>], places: &[usize], [col, pivot]: [usize; 2]) {
        let size = |row: usize| a[row][col].val().abs();
        // none of them, where the greatest is 0 or a NaN
        let equals = (col..a.len()).filter(|&row| size(row) > 0.0 && size(row) == size(pivot));
        let place = equals.clone().map(|row| places[row]).max();
        self.pivots.tied |= equals.count() > 1;
        self.pivots.moved |= place.is_some_and(|place| place != places[pivot]);
    }
}

fn parameters<S: Scalar>(points: &[[S; 2]]) -> Vec<S> {
    let step = |pair: &[[S; 2]]| {
        let [x, y] = [0, 1].map(|c: usize| pair[1][c].clone() - pair[0][c].clone());
        let square = x.clone() * x + y.clone() * y + S::cst(1e-24);
        square.sqrt().sqrt()
    };
    let mut sums = vec![S::cst(0.0)];
    for pair in points.windows(2) {
        sums.push(sums[sums.len() - 1].clone() + step(pair));
    }
    let last = points.len() - 1;
    let total = sums[last].clone();
    let mut parameters = vec![S::cst(0.0)];
    parameters.extend(sums[1..last].iter().map(|sum| sum.clone() / total.clone()));
    parameters.push(S::cst(1.0));
    parameters
}

/// The rows: C'' at 0, C at each parameter, C'' at 1; and their right sides.
#[allow(clippy::type_complexity)]
fn system<S: Scalar>(
    points: &[[S; 2]],
    parameters: &[S],
    knots: &[S],
) -> (Vec<Vec<S>>, Vec<[S; 2]>) {
    let m = points.len() + 2;
    let row = |t: &S, order: usize| {
        let i = span(knots, m, t.val());
        let six: [S; KNOTS] = std::array::from_fn(|k| knots[i - 2 + k].clone());
        let mut row = vec![S::cst(0.0); m];
        row[i - 3..=i].clone_from_slice(&basis(six, t.clone(), order)[4 * order..]);
        row
    };
    let mut matrix = vec![row(&S::cst(0.0), 2)];
    matrix.extend(parameters.iter().map(|t| row(t, 0)));
    matrix.push(row(&S::cst(1.0), 2));
    let nothing = || [S::cst(0.0), S::cst(0.0)];
    let mut sides = vec![nothing()];
    sides.extend_from_slice(points);
    sides.push(nothing());
    (matrix, sides)
}

/// docs/RULES.md, "Span": from knot m on m - 1, up to knot 3 3, else the one that t lies in.
fn span<S: Scalar>(knots: &[S], m: usize, t: f64) -> usize {
    if t >= knots[m].val() {
        return m - 1;
    }
    if t <= knots[3].val() {
        return 3;
    }
    let lies_in = |i: &usize| knots[*i].val() <= t && t < knots[*i + 1].val();
    (3..m).find(lies_in).expect("the knots do not fall")
}

fn solve<S: Stored>(mut a: Vec<Vec<S>>, mut sides: Vec<[S; 2]>, watch: &mut Watch) -> Vec<[S; 2]> {
    let m = a.len();
    let mut places: Vec<usize> = (0..m).collect();
    for col in 0..m {
        let mut pivot = col;
        for row in col + 1..m {
            let [size, best] = [row, pivot].map(|r| a[r][col].val().abs());
            // the last of equals
            if size.total_cmp(&best).is_ge() {
                pivot = row;
            }
        }
        watch.pivot(&a, &places, [col, pivot]);
        a.swap(col, pivot);
        sides.swap(col, pivot);
        places.swap(col, pivot);
        for row in col + 1..m {
            if a[row][col].val() == 0.0 {
                continue;
            }
            let f = watch.seen(a[row][col].clone() / a[col][col].clone());
            let (above, below) = a.split_at_mut(row);
            for (place, by) in below[0].iter_mut().zip(&above[col]).skip(col) {
                *place = watch.seen(place.clone() - f.clone() * by.clone());
            }
            let by = sides[col].clone();
            for (place, by) in sides[row].iter_mut().zip(by) {
                *place = watch.seen(place.clone() - by * f.clone());
            }
        }
    }
    for row in (0..m).rev() {
        let (mut side, inverse) = (sides[row].clone(), S::cst(1.0) / a[row][row].clone());
        for (k, factor) in a[row].iter().enumerate().skip(row + 1) {
            side = [0, 1].map(|c: usize| side[c].clone() - sides[k][c].clone() * factor.clone());
        }
        sides[row] = side.map(|x| watch.seen(x * inverse.clone()));
    }
    sides
}
