//! Fit points whose solve has to choose a pivot among rows of one size, as random points hardly ever make it do.
//!
//! The row of a parameter is not 0 in three columns alone. So the choice in a column is between two rows: the one left over from the
//! columns before, and the one of the next parameter, which is the greater the longer the step behind that parameter. Here one step is
//! stretched until the two are of one size by the formulas. By the doubles they then are, about once in four times.

use crate::judge::{Fit, Pivots};
use crate::random::Random;
use crate::tally::Tally;

/// Once in so many rounds such points stand in for others.
pub const TIED: u64 = 20;

/// So many are drawn at most, until one ties.
const DRAWN: u64 = 8;

/// Counts a solve that met a tie, by whether there is an answer.
pub fn count(pivots: Pivots, answered: bool, tally: &mut Tally) {
    match (pivots.tied, answered) {
        (true, true) => tally.kind("pivots tied, answered"),
        (true, false) => tally.kind("pivots tied, refused"),
        _ => {}
    }
    match (pivots.moved, answered) {
        (true, true) => tally.kind("pivots tied, the last not the last at first, answered"),
        (true, false) => tally.kind("pivots tied, the last not the last at first, refused"),
        _ => {}
    }
}

/// n points, x and y in turn; four where n is less, since before column 2 no step makes the next row the greater.
pub fn tied(random: &mut Random, n: usize) -> (Vec<f64>, &'static str) {
    let ties = |points: &Vec<[f64; 2]>| Fit::through(points).pivots.tied;
    let found = (0..DRAWN).map(|_| even(random, n.max(4))).find(ties);
    let points = found.unwrap_or_else(|| even(random, n.max(4)));
    (points.concat(), "points with a step stretched to a tie")
}

/// n points by whose steps the two rows are of one size, in one of the columns.
fn even(random: &mut Random, n: usize) -> Vec<[f64; 2]> {
    let mut steps = steps(random, n - 1);
    let col = random.within(2, n as i64 - 2) as usize;
    let factor = factor(&steps, col);
    steps[col] = steps[col].map(|x| x * factor);
    let mut points = vec![[(); 2].map(|_| random.of_exponents(-2, 2))];
    for [dx, dy] in steps {
        let [x, y] = points[points.len() - 1];
        points.push([x + dx, y + dy]);
    }
    points
}

/// So many steps of one scale, none of them 0.
fn steps(random: &mut Random, many: usize) -> Vec<[f64; 2]> {
    let exponent = random.within(-8, 8);
    let scale = 2f64.powi(exponent as i32);
    let whole = random.once_in(2);
    let step = |_| match whole {
        true => [random.within(-9, 9), random.within(1, 9)].map(|x| x as f64 * scale),
        false => [(); 2].map(|_| random.of_exponents(exponent, exponent + 3)),
    };
    (0..many).map(step).collect()
}

/// The factor of step `col` from which on the row of the next parameter is the greater in column `col`.
fn factor(steps: &[[f64; 2]], col: usize) -> f64 {
    let root = |[x, y]: &[f64; 2]| (x * x + y * y).sqrt().sqrt();
    let roots: Vec<f64> = steps.iter().map(root).collect();
    let exceeds = |factor: f64| {
        let mut roots = roots.clone();
        roots[col] *= factor.sqrt();
        excess(&roots, col) > 0.0
    };
    // bits of positive numbers are ordered as the numbers are
    let [mut low, mut high] = [2f64.powi(-60), 2f64.powi(60)].map(f64::to_bits);
    while high - low > 1 {
        let middle = (low + high) / 2;
        match exceeds(f64::from_bits(middle)) {
            true => high = middle,
            false => low = middle,
        }
    }
    f64::from_bits(high)
}

/// By how much the row of the next parameter exceeds the one left over in column `col`, where the roots of the steps' lengths are these.
/// They are the spans of the knots, but for a factor, which does not matter here.
fn excess(roots: &[f64], col: usize) -> f64 {
    let spans = [&[0.0], roots, &[0.0]].concat();
    let part = |a: f64, b: f64, c: f64| a * a / ((a + b) * (a + b + c));
    // the row of parameter k has the one in column k, the other in column k + 2, and between them what is missing to 1
    let left = |k: usize| part(spans[k + 1], spans[k], spans[k - 1]);
    let right = |k: usize| part(spans[k], spans[k + 1], spans[k + 2]);
    // the row of parameter 0, when column 0 is done, in the columns 1 and 2
    let bend = spans[1] / (spans[1] + spans[2]);
    let [mut x, mut y] = [1.0 + bend, -bend];
    for k in 1..col {
        let (l, r) = (left(k), right(k));
        let between = 1.0 - l - r;
        [x, y] = match l < x.abs() {
            true => [between - l / x * y, r],
            false => [y - x / l * between, -x / l * r],
        };
    }
    left(col) - x.abs()
}
