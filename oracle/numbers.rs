//! The numbers of docs/RULES.md, "Numbers to check by", as far as the original alone can show them,
//! and case S, which is the curve A at 0.25 and at 2. Linked with one of the two builds under the
//! name `oracle`. With the argument `closest` also the distances and the closest parameters, which
//! belong to the replaced distance. Stops at the first number that is not as written.
//!
//! With the argument `distances` nothing of that: a line of standard input has two points, four
//! doubles by their bits, and one of standard output their distance (tools/check-distance).

use oracle::access;
use oracle::distance::distance;
use oracle::spline::{BSpline, Curve, Dv, P2, Scalar, check, closest_param};

type Points = [[f64; 2]];

const A: [[f64; 2]; 4] = [[0.0, 0.0], [0.0, 8.0], [8.0, 8.0], [8.0, 0.0]];
const B: [[f64; 2]; 4] = [[0.0, 0.0], [1.0, 2.0], [2.0, 4.0], [3.0, 6.0]];
const THRICE: [f64; 11] = [0.0, 0.0, 0.0, 0.0, 0.5, 0.5, 0.5, 1.0, 1.0, 1.0, 1.0];
const FOUR_TIMES: [f64; 12] = [0.0, 0.0, 0.0, 0.0, 0.5, 0.5, 0.5, 0.5, 1.0, 1.0, 1.0, 1.0];

fn main() {
    let asked = |what: &str| std::env::args().any(|word| word == what);
    if asked("distances") {
        return answer_distances();
    }
    evaluations();
    fits();
    spans();
    checks();
    partials();
    stand_ins();
    if asked("closest") {
        distances();
        closest();
    }
}

/// By bits, so that the sign of a zero counts.
fn expect(what: &str, found: &[f64], written: &[f64]) {
    let bits = |list: &[f64]| list.iter().map(|x| x.to_bits()).collect::<Vec<_>>();
    holds(what, bits(found) == bits(written), &format!("{found:?}"));
}

fn holds(what: &str, is_so: bool, found: &str) {
    if !is_so {
        println!("  WRONG  {what}: {found}");
        std::process::exit(1);
    }
    println!("  ok  {what}");
}

fn control(points: &Points, knots: Option<&[f64]>) -> Curve<f64> {
    let handles = points.iter().map(|&[x, y]| P2::new(x, y)).collect();
    Curve::new(handles, false, knots)
}

/// The derivative of that order at t.
fn order(points: &Points, t: f64, order: usize) -> [f64; 2] {
    control(points, None).eval(&t, order)[order].val()
}

fn evaluations() {
    expect("A at 0.25", &order(&A, 0.25, 0), &[1.25, 4.5]);
    expect("A at 0.25, C'", &order(&A, 0.25, 1), &[9.0, 12.0]);
    expect("A at 0.25, C''", &order(&A, 0.25, 2), &[24.0, -48.0]);
    expect("A at 0.25, C'''", &order(&A, 0.25, 3), &[-96.0, 0.0]);
    expect("A at 0.25, order 4", &order(&A, 0.25, 4), &[0.0, 0.0]);
    expect("A at 2", &order(&A, 2.0, 0), &[8.0, -24.0]);
    expect("A at 2, C''", &order(&A, 2.0, 2), &[0.0, 0.0]);
    expect("B at 0.5", &order(&B, 0.5, 0), &[1.5, 3.0]);
    expect("B at -1", &order(&B, -1.0, 0), &[-3.0, -6.0]);
    let samples = control(&[[0.0; 2]; 5], None).samples(2);
    expect("samples, 5 points", &samples, &[0.0, 0.25, 0.5, 0.75, 1.0]);
}

fn fits() {
    let fit = BSpline::from_fit_points(&[[0.0, 0.0], [3.0, 6.0]]).expect("accepted");
    expect(
        "fit (0,0),(3,6)",
        fit.control_points.as_flattened(),
        B.as_flattened(),
    );
    let far = BSpline::from_fit_points(&[[0.0, 0.0], [1e200, 0.0], [0.0, 0.0]]).expect("accepted");
    let numbers = far.control_points.as_flattened().iter().chain(&far.knots);
    let fine = numbers.clone().all(|x| x.is_finite());
    holds(
        "fit (0,0),(1e200,0),(0,0) is not finite",
        !fine,
        "all finite",
    );
}

/// The original's span is private. But evaluation reads the four control points of the span and no
/// others, so those that turn the answer into a NaN when they are NaN themselves give it away.
fn span(n: usize, knots: Option<&[f64]>, t: f64) -> Option<usize> {
    let read = |j: &usize| {
        let mut points = vec![[1.0, 1.0]; n];
        points[*j] = [f64::NAN; 2];
        control(&points, knots).eval(&t, 0)[0].x.is_nan()
    };
    let reads: Vec<usize> = (0..n).filter(read).collect();
    let last = *reads.last()?;
    (reads.len() == 4 && reads[0] + 3 == last).then_some(last)
}

fn spans() {
    let spans = |what: &str, found: Option<usize>, written: usize| {
        holds(what, found == Some(written), &format!("{found:?}"));
    };
    spans("span of 0.5, 5 points, is 4", span(5, None, 0.5), 4);
    spans("span of 1, 5 points, is 4", span(5, None, 1.0), 4);
    spans("span of 0, 5 points, is 3", span(5, None, 0.0), 3);
    let thrice = span(7, Some(&THRICE), 0.5);
    spans("span of 0.5, there three times, is 6", thrice, 6);
}

fn checks() {
    let accepted = |what: &str, handles, fit, knots: Option<&[f64]>, written: bool| {
        let found = check(handles, fit, knots);
        holds(what, found.is_ok() == written, &format!("{found:?}"));
    };
    let (thrice, four): (&[f64], &[f64]) = (&THRICE, &FOUR_TIMES);
    accepted("0.5 three times: accepted", 7, false, Some(thrice), true);
    accepted("0.5 four times: refused", 8, false, Some(four), false);
    accepted("3 control points: refused", 3, false, None, false);
    accepted("1 control point: refused", 1, false, None, false);
    accepted("64 fit points: accepted", 64, true, None, true);
    accepted("66 control points: accepted", 66, false, None, true);
}

fn partials() {
    let root = Dv::var(&[4.0], 0).sqrt();
    expect(
        "root of 4, and its partial",
        &[root.v, root.g[0]],
        &[2.0, 0.25],
    );
    let inverse = Dv::cst(1.0) / Dv::var(&[2.0], 0);
    expect("1/x at 2, its partial", &inverse.g, &[-0.25]);
}

/// Not in docs/RULES.md: that the residuals and their rows come through the stand-ins as they are.
fn stand_ins() {
    let mut x = B.as_flattened().to_vec();
    x.extend([1.5, 3.0, 0.5]);
    let (residuals, rows) = access::residuals(access::spline_of(4, false, None), &x);
    expect("residuals of B's own point", &residuals, &[0.0; 3]);
    let last: Vec<f64> = rows.iter().flat_map(|row| row[8..].to_vec()).collect();
    let written = [1.0, 0.0, -3.0, 0.0, 1.0, -6.0, 0.0, 0.0, 0.0];
    holds(
        "the rows by px, py and t",
        last == written,
        &format!("{last:?}"),
    );
    let (_, tangent) = access::point_tangent(&control(&A, None), 0.5);
    expect("unit tangent of A at 0.5", &tangent, &[1.0, 0.0]);
}

/// Not in docs/RULES.md but for their rule: what the scale is for.
fn distances() {
    let far = |what: &str, [dx, dy, written]: [f64; 3]| {
        expect(what, &[distance([dx, 0.0], [0.0, dy])], &[written]);
    };
    let power = |k: i64| f64::from_bits(((1023 + k) as u64) << 52);
    let times = |k: i64| [3.0, 4.0, 5.0].map(|x| x * power(k));
    far("distance by 3 and 4", times(0));
    far("distance by 3 and 4 times 2^600", times(600));
    far("distance by 3 and 4 times 2^-1000", times(-1000));
    far("distance by 3 and 4 units", [3, 4, 5].map(f64::from_bits));
    far("distance by 0 and -0", [0.0, -0.0, 0.0]);
    // 28E8F19 and a half less 3e-9, which as a double is the half; that goes to the even number
    let twice = [0x28E_8CAF, 0x3_83D3, 0x28E_8F1A];
    far(
        "distance by a root rounded again",
        twice.map(f64::from_bits),
    );
    far("distance too large", [f64::MAX, f64::MAX, f64::INFINITY]);
}

fn answer_distances() {
    let bits = |word: &str| u64::from_str_radix(word, 16).expect("bits of a double");
    for line in std::io::stdin().lines() {
        let line = line.expect("text");
        let numbers: Vec<f64> = line.split(' ').map(bits).map(f64::from_bits).collect();
        let [ax, ay, bx, by] = numbers[..] else {
            panic!("not two points: {line}");
        };
        println!("{:016X}", distance([ax, ay], [bx, by]).to_bits());
    }
}

fn closest() {
    let nearest = |points: &Points, p| closest_param(&control(points, None), p);
    expect("B closest to (-6,0)", &[nearest(&B, [-6.0, 0.0])], &[0.0]);
    expect("B closest to (1.5,3)", &[nearest(&B, [1.5, 3.0])], &[0.5]);
    expect("A closest to (4,0)", &[nearest(&A, [4.0, 0.0])], &[0.0]);
}
