//! How far answered points lie outside the hull of their span's four control points, measured in whole numbers: docs/RULES.md,
//! "Demand 3", which docs/HULL.md argues.
//!
//! A round draws a curve and asks for some points of it. A case is a point for which the premises hold: the curve is accepted,
//! no knot is above 2^20 in size, and the parameter lies in the domain. It differs where the answer lies outside the widened hull, where
//! it is refused though it must not be, and where the refusal is another than 15. Kinds are counted of answered points alone,
//! unless they say otherwise.

use crate::exact::Whole;
use crate::layouts::{Layout, between, clamped, coordinates, given_knots, parameter, stepped};
use crate::ours;
use crate::random::Random;
use crate::table::{NOT_FINITE, Table};
use crate::tally::{Tally, hex};

/// 2^20, the largest size of a knot.
const LARGEST_KNOT: f64 = (1 << 20) as f64;
/// 2^-20, the length from which on a span is long.
const LONG: f64 = 1.0 / LARGEST_KNOT;
/// 2^500, the largest size of a modest coordinate.
const MODEST: f64 = f64::from_bits((1023 + 500) << 52);

/// For the tally, by order.
const ANSWERED: [&str; 5] = [
    "answered to order 0",
    "answered to order 1",
    "answered to order 2",
    "answered to order 3",
    "answered to order 4",
];

pub fn run(random: &mut Random, rounds: u64) -> Tally {
    let mut tally = Tally::default();
    known(&mut tally);
    let mut worst = Worst::default();
    for _ in 0..rounds {
        let layout = draw(random);
        let Some(curve) = Curve::of(&layout, &mut tally) else {
            continue;
        };
        for _ in 0..4 {
            curve.ask(random, &mut tally, &mut worst);
        }
    }
    worst.note(&mut tally);
    tally
}

/// The worst excess, as a part of what is allowed: over hulls where 2^-47 of the size is more than 2^-1070, and over the others.
#[derive(Default)]
struct Worst {
    of_sizes: f64,
    of_tiny_sizes: f64,
}

impl Worst {
    fn take(&mut self, hull: &Hull, part: f64) {
        let tiny = Whole::units(hull.size) <= Whole::power(51);
        let kept = if tiny {
            &mut self.of_tiny_sizes
        } else {
            &mut self.of_sizes
        };
        *kept = kept.max(part);
    }

    fn note(&self, tally: &mut Tally) {
        let worst = self.of_sizes.max(self.of_tiny_sizes);
        tally.note(format!("worst excess {worst:.4} of what is allowed"));
        let Worst {
            of_sizes,
            of_tiny_sizes,
        } = self;
        tally.note(format!("{of_sizes:.4} where the size is above 2^-1023"));
        tally.note(format!("{of_tiny_sizes:.4} where it is not"));
    }
}

/// One coordinate of four control points.
struct Hull {
    least: f64,
    greatest: f64,
    /// The largest of the four sizes.
    size: f64,
}

impl Hull {
    fn of(four: [f64; 4]) -> Self {
        let [first, rest @ ..] = four;
        Hull {
            least: rest.iter().fold(first, |a, &b| if b < a { b } else { a }),
            greatest: rest.iter().fold(first, |a, &b| if b > a { b } else { a }),
            size: four.iter().fold(0.0, |a, b| b.abs().max(a)),
        }
    }

    /// How far a finite p lies outside, if it does.
    fn excess(&self, p: f64) -> Option<Excess> {
        let nearest = if p < self.least {
            self.least
        } else if p > self.greatest {
            self.greatest
        } else {
            return None;
        };
        Some(Excess {
            excess: Whole::distance(p, nearest).times_2_47(),
            allowed: Whole::units(self.size).plus(Whole::power(51)),
        })
    }
}

/// In whole multiples of 2^-1121: a unit is 2^47 of them, 2^-47 of so many units is as many of them, and 2^-1070 is 2^51.
struct Excess {
    excess: Whole,
    allowed: Whole,
}

impl Excess {
    fn too_far(&self) -> bool {
        self.excess > self.allowed
    }

    fn part(&self) -> f64 {
        self.excess.over(&self.allowed)
    }
}

/// An accepted curve with knots of at most 2^20 in size.
struct Curve<'a> {
    coords: &'a [f64],
    knots: &'a [f64],
    kinds: Vec<&'static str>,
    /// Whether each coordinate is at most 2^500 in size.
    modest: bool,
}

impl<'a> Curve<'a> {
    fn of(layout: &'a Layout, tally: &mut Tally) -> Option<Self> {
        let (coords, knots) = (&layout.coords, &layout.knots);
        if Table::of_curve(coords, Some(knots)).first != 0 {
            tally.kind("(a curve not accepted: left out)");
            return None;
        }
        if knots.iter().any(|k| k.abs() > LARGEST_KNOT) {
            tally.kind("(a curve with a knot above 2^20: left out)");
            return None;
        }
        Some(Curve {
            coords,
            knots,
            kinds: layout.kinds(),
            modest: coords.iter().all(|x| x.abs() <= MODEST),
        })
    }

    /// At or above knot n: n-1; else at or below knot 3: 3; else the i with knot i <= t < knot i+1.
    fn span(&self, t: f64) -> usize {
        let (n, knots) = (self.coords.len() / 2, self.knots);
        if t >= knots[n] {
            return n - 1;
        }
        if t <= knots[3] {
            return 3;
        }
        let mut spans = 3..n;
        let found = spans.find(|&i| knots[i] <= t && t < knots[i + 1]);
        found.expect("t is in the domain")
    }

    fn hull(&self, span: usize, axis: usize) -> Hull {
        Hull::of(std::array::from_fn(|k| {
            self.coords[2 * (span - 3 + k) + axis]
        }))
    }

    /// A parameter in the domain.
    fn parameter(&self, random: &mut Random) -> (f64, &'static str) {
        let (first, last) = (self.knots[0], self.knots[self.knots.len() - 1]);
        loop {
            let (t, place) = parameter(random, self.knots);
            if t == first || t == last {
                return (t, "t at an end");
            }
            if first < t && t < last {
                return (t, place);
            }
        }
    }

    fn ask(&self, random: &mut Random, tally: &mut Tally, worst: &mut Worst) {
        let (t, place) = self.parameter(random);
        let order = match random.below(8) {
            0..4 => 0,
            rest => rest - 3,
        };
        let (refusal, point) = evaluate(self.coords, self.knots, t, order);
        let span = self.span(t);
        let (from, to) = (self.knots[span], self.knots[span + 1]);
        let long = from < to && Whole::distance(from, to) >= Whole::units(LONG);
        let must_answer = order == 0 && long && self.modest;
        if must_answer {
            tally.kind("(must not be refused)");
        }
        let fault = match refusal {
            0 => {
                self.count(tally, &[place, ANSWERED[order as usize], length(from, to)]);
                self.point_fault(span, point, tally, worst)
            }
            NOT_FINITE if !must_answer => {
                tally.kind("(refused 15: nothing to measure)");
                None
            }
            _ => Some(format!("refusal {refusal}")),
        };
        tally.case(fault.is_none(), || {
            let fault = fault.unwrap_or_default();
            let (t, coords, knots) = (hex(&[t]), hex(self.coords), hex(self.knots));
            format!("{fault}, at {t} to order {order}, of [{coords}] over [{knots}]")
        });
    }

    fn count(&self, tally: &mut Tally, more: &[&'static str]) {
        let kinds = self.kinds.iter().chain(more);
        kinds.for_each(|kind| tally.kind(kind));
        tally.kind("answered");
    }

    fn point_fault(
        &self,
        span: usize,
        point: [f64; 2],
        tally: &mut Tally,
        worst: &mut Worst,
    ) -> Option<String> {
        let mut fault = None;
        let mut outside = false;
        for (axis, p) in point.into_iter().enumerate() {
            if !p.is_finite() {
                return Some(format!("coordinate {axis} is {}", hex(&[p])));
            }
            let hull = self.hull(span, axis);
            let Some(excess) = hull.excess(p) else {
                continue;
            };
            outside = true;
            let part = excess.part();
            worst.take(&hull, part);
            if excess.too_far() {
                let p = hex(&[p]);
                fault = Some(format!(
                    "coordinate {axis} is {p}, by {part} of the allowed"
                ));
            }
        }
        if outside {
            tally.kind("outside the hull before it is widened");
        }
        fault
    }
}

fn length(from: f64, to: f64) -> &'static str {
    let length = Whole::distance(from, to);
    if length < Whole::units(f64::MIN_POSITIVE) {
        "span subnormal"
    } else if length < Whole::units(LONG) {
        "span shorter than 2^-20"
    } else if length == Whole::units(LONG) {
        "span 2^-20"
    } else {
        "span longer than 2^-20"
    }
}

/// The refusal, and the point: a NaN where nothing was written.
fn evaluate(coords: &[f64], knots: &[f64], t: f64, order: u64) -> (u64, [f64; 2]) {
    let mut out = [f64::NAN; 10];
    let refusal = unsafe {
        ours::threshdune_evaluate(
            coords.as_ptr(),
            coords.len(),
            knots.as_ptr(),
            knots.len(),
            t,
            order,
            out.as_mut_ptr(),
            2 * (order as usize + 1),
        )
    };
    (refusal, [out[0], out[1]])
}

/// Whether the measure itself says what it must, of points inside, on the edge, and outside: were it blind, no case above would differ.
fn known(tally: &mut Tally) {
    let unit = f64::from_bits(1);
    let one_and = |steps| stepped(1.0, steps);
    let cases = [
        // four equal points 1: 32 steps of 2^-52 are 2^-47, below it steps are half as long
        ([1.0; 4], 1.0, false),
        ([1.0; 4], one_and(32), false),
        ([1.0; 4], one_and(33), true),
        ([1.0; 4], one_and(-64), false),
        ([1.0; 4], one_and(-65), true),
        ([-1.0; 4], -one_and(33), true),
        // four zeros: 2^-1070 is 16 units, and the edge belongs to the hull
        ([0.0, -0.0, 0.0, -0.0], -0.0, false),
        ([0.0; 4], 16.0 * unit, false),
        ([0.0; 4], 17.0 * unit, true),
        ([0.0; 4], -16.0 * unit, false),
        ([0.0; 4], -17.0 * unit, true),
        // the size counts, not the width; either sign, and each place
        ([-1.0, 1.0, 0.5, 0.0], one_and(33), true),
        ([0.0, 0.0, 0.0, -2.0], 2f64.powi(-46), false),
        ([0.0, 0.0, 0.0, -2.0], stepped(2f64.powi(-46), 1), true),
        // as far apart as doubles are
        ([f64::MAX; 4], f64::MIN, true),
        ([f64::MIN; 4], f64::MAX, true),
    ];
    for (four, p, wanted) in cases {
        let found = Hull::of(four).excess(p).is_some_and(|e| e.too_far());
        tally.kind("(the measure itself, at known points)");
        tally.case(found == wanted, || {
            format!("{} outside [{}]: {found}", hex(&[p]), hex(&four))
        });
    }
    // docs/HULL.md's curve with knots of 2^1023: answered, and far outside
    let huge = 2f64.powi(1023);
    let knots = [[-huge; 4], [huge; 4]].concat();
    let (refusal, [p, _]) = evaluate(&[1.0; 8], &knots, 0.0, 0);
    let outside = || Hull::of([1.0; 4]).excess(p).is_some_and(|e| e.too_far());
    tally.kind("(the measure itself, at known points)");
    tally.case(refusal == 0 && outside(), || {
        format!("knots of 2^1023: refusal {refusal}, {}", hex(&[p]))
    });
}

// ---- curves

fn draw(random: &mut Random) -> Layout {
    if random.once_in(4) {
        return Layout::draw(random);
    }
    let n = match random.below(8) {
        0..6 => random.within(4, 11),
        _ => random.within(4, 66),
    } as usize;
    let coords = points(random, n);
    let knots = match random.below(4) {
        0 => given_knots(random, n),
        _ => {
            let (values, kind) = small_values(random, n - 2);
            (clamped(random, values), kind)
        }
    };
    Layout::of(coords, knots)
}

fn points(random: &mut Random, n: usize) -> (Vec<f64>, &'static str) {
    let exponent = random.within(-1022, 1023);
    let base = [(); 2].map(|_| random.of_exponents(exponent, exponent));
    let few = [(); 2].map(|_| stepped(0.0, random.within(-16, 16)));
    let kind = random.below(12);
    let mut list = |one: &mut dyn FnMut(&mut Random, usize) -> f64| -> Vec<f64> {
        (0..2 * n).map(|k| one(random, k % 2)).collect()
    };
    match kind {
        0 => (list(&mut |_, axis| base[axis]), "points equal, of any size"),
        1 => (list(&mut |_, axis| few[axis]), "points equal, of few units"),
        2 => {
            let near = |r: &mut Random, axis: usize| stepped(base[axis], r.within(-4, 4));
            (list(&mut { near }), "points few steps apart")
        }
        3 => {
            let beside = |r: &mut Random, _| r.of_exponents(exponent, exponent);
            (list(&mut { beside }), "points of one exponent")
        }
        4 => {
            let few = |r: &mut Random, _| stepped(0.0, r.within(-16, 16));
            (list(&mut { few }), "points of few units")
        }
        5 => {
            let few = |r: &mut Random, axis: usize| stepped(0.0, 8 * axis as i64 + r.within(1, 3));
            (list(&mut { few }), "points of few units, above 0")
        }
        6 => (list(&mut |r, _| modest(r)), "points up to 2^500"),
        7 => {
            let mixed = |r: &mut Random, _| match r.below(3) {
                0 => r.of_exponents(1000, 1023),
                1 => r.subnormal(),
                _ => r.of_exponents(-8, 8),
            };
            (list(&mut { mixed }), "points huge and tiny")
        }
        _ => coordinates(random, n),
    }
}

fn modest(random: &mut Random) -> f64 {
    match random.below(4) {
        0 => MODEST,
        1 => -MODEST,
        _ => random.of_exponents(490, 499),
    }
}

/// So many rising doubles of at most 2^20 in size, unless chance has two of them equal.
fn small_values(random: &mut Random, many: usize) -> (Vec<f64>, &'static str) {
    match random.below(8) {
        0 => (below_the_bound(random, many), "knots just below 2^20"),
        1 => {
            let mirrored = below_the_bound(random, many).into_iter().rev().map(|k| -k);
            (mirrored.collect(), "knots just above -2^20")
        }
        2 => {
            let values = between(random, many, -LARGEST_KNOT, LARGEST_KNOT);
            (values, "knots from -2^20 to 2^20")
        }
        // 1 over the span's length is near the largest double
        3 => {
            let lo = [0.0, -0.0, f64::MIN_POSITIVE, random.subnormal()];
            let lo = lo[random.below(4) as usize];
            let values = spaced(random, many, lo, &|r| r.of_exponents(-1022, -1018) / 4.0);
            (values, "knots with spans near 2^-1022")
        }
        4 => {
            let lo = random.within(-64, 64) as f64;
            let values = spaced(random, many, lo, &|r| stepped(LONG, r.within(-1, 1) << 20));
            (values, "knots with spans about 2^-20")
        }
        5 => {
            let lo = random.of_exponents(-8, 8);
            let values = spaced(random, many, lo, &|r| r.of_exponents(-60, 12));
            (values, "knots with spans of 2^-60 to 2^13")
        }
        _ => {
            let lo = random.within(-1022, 0);
            let mut values: Vec<f64> = (0..many).map(|_| random.of_exponents(lo, 19)).collect();
            values.sort_by(f64::total_cmp);
            (values, "knots uneven, up to 2^20")
        }
    }
}

/// The last is 2^20 itself.
fn below_the_bound(random: &mut Random, many: usize) -> Vec<f64> {
    let most = [1, 3, 1 << 20, 1 << 40][random.below(4) as usize];
    let mut values = vec![LARGEST_KNOT];
    while values.len() < many {
        values.push(stepped(values[values.len() - 1], -random.within(1, most)));
    }
    values.reverse();
    values
}

fn spaced(
    random: &mut Random,
    many: usize,
    lo: f64,
    length: &dyn Fn(&mut Random) -> f64,
) -> Vec<f64> {
    let mut values = vec![lo];
    while values.len() < many {
        values.push(values[values.len() - 1] + length(random).abs());
    }
    values
}
