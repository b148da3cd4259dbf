//! What the distance does for drawings of any size, and what it does not. Drawings, and points beside them, are multiplied by each power of
//! two for which that is exact. The searches are compared as in `closest`, and it is told how far the parameters stay those of the drawing as
//! it is, bit for bit. No scale moves the nearest sample, but Newton's own products overflow or vanish: past that a parameter may be found that
//! is no better than the sample, or that is worse.

use crate::asked::points;
use crate::closest::Search;
use crate::distances::power;
use crate::random::Random;
use crate::tally::{Tally, same};
use original::spline::BSpline;
use std::ops::RangeInclusive;

/// The exponents of all doubles.
const EXPONENTS: RangeInclusive<i64> = -1074..=1023;
/// At each exponent one point in so many is searched for, the others in their turn at the next; all are where one moves.
const TURNS: usize = 128;
/// So many exponents downwards from the first at which a parameter moves: the products shrink to a few units and then to 0.
const SHRINKING: i64 = 36;
/// So many points at least, or the ends might not show.
const FEWEST: usize = 16;
/// A scale of which it is told how many are refused.
const LARGE: i64 = 533;
/// About 1e160 and 1e300.
const FAR: [i64; 2] = [533, 997];

/// Compares a search on control points over knots: the parameter, where it is answered.
type Compare<'a> = dyn FnMut(&[f64], &[f64], [f64; 2]) -> Option<f64> + 'a;

pub fn run(random: &mut Random, rounds: u64) -> Tally {
    let mut tally = Tally::default();
    let mut compare = |coords: &[f64], knots: &[f64], mark: [f64; 2]| {
        let wanted = Search::of_slices(coords, knots, mark).judge(random, &mut tally);
        wanted.entries(0).first().copied()
    };
    let mut notes = Vec::new();
    for (name, curve) in curves() {
        let drawing = Drawing::of(curve, FEWEST.max(rounds as usize), &mut compare);
        let told = drawing.measure(&mut compare);
        notes.extend(told.iter().map(|words| format!("{name}: {words}")));
    }
    notes.into_iter().for_each(|words| tally.note(words));
    tally
}

fn curves() -> [(&'static str, BSpline); 4] {
    let wave = BSpline::from_fit_points(&wave(64)).expect("accepted");
    [
        ("a fit of 64 points", wave),
        (
            "the moulding",
            of_sheet(include_str!("../../examples/moulding.sheet")),
        ),
        (
            "the extrusion",
            of_sheet(include_str!("../../examples/extrusion.sheet")),
        ),
        (
            "the nosing",
            of_sheet(include_str!("../../examples/nosing.sheet")),
        ),
    ]
}

/// The curve of a good sheet.
fn of_sheet(sheet: &str) -> BSpline {
    let mut words = sheet.split_whitespace();
    let fit = words.next() == Some("fit");
    let double = |word: &str| f64::from_bits(u64::from_str_radix(word, 16).expect("bits"));
    let mut list = |each: usize| -> Vec<f64> {
        let count: usize = words.nth(1).expect("a count").parse().expect("a count");
        words.by_ref().take(each * count).map(double).collect()
    };
    let (coords, knots) = (list(2), list(1));
    let given = (!knots.is_empty()).then_some(&knots[..]);
    BSpline::new(&points(&coords), fit, given).expect("accepted")
}

/// n points of a wave. Its arches are parabolas: a sine may have other bits on another host.
fn wave(n: usize) -> Vec<[f64; 2]> {
    let arch = |x: f64| 16.0 * x * (1.0 - x);
    let point = |k: usize| {
        let turn = (k % 16) as f64 / 8.0;
        let y = match turn < 1.0 {
            true => arch(turn),
            false => -arch(turn - 1.0),
        };
        [k as f64 * 1.3, y]
    };
    (0..n).map(point).collect()
}

/// Two numbers of 0 to 1 for each k below n: all of them fill a square evenly.
fn even(k: usize, n: usize) -> [f64; 2] {
    const GOLDEN: f64 = 0.618_033_988_749_894_9;
    [(k as f64 + 0.5) / n as f64, (k as f64 * GOLDEN).fract()]
}

/// Points all over the box of a curve, and about it to half of its size.
fn beside(coords: &[f64], n: usize) -> Vec<[f64; 2]> {
    let ends = [0, 1].map(|from: usize| {
        let each = || coords.iter().skip(from).step_by(2).copied();
        let least = each().fold(f64::INFINITY, f64::min);
        (least, each().fold(f64::NEG_INFINITY, f64::max))
    });
    let at = |(least, most): (f64, f64), part: f64| least + (most - least) * (part * 2.0 - 0.5);
    let point = |k: usize| {
        let [x, y] = even(k, n);
        [at(ends[0], x), at(ends[1], y)]
    };
    (0..n).map(point).collect()
}

/// Points of all four quarters, from about 1e160 away to 1e300.
fn far_away(n: usize) -> Vec<[f64; 2]> {
    let point = |k: usize| {
        let size = power(FAR[0] + (FAR[1] - FAR[0]) * k as i64 / n as i64);
        let [_, part] = even(k, n);
        let [x, y] = [part * size, (1.0 - part) * size];
        match k % 4 {
            0 => [x, y],
            1 => [-y, x],
            2 => [-x, -y],
            _ => [y, -x],
        }
    };
    (0..n).map(point).collect()
}

/// What was found at one scale.
#[derive(Default)]
struct Seen {
    same: usize,
    other: usize,
    refused: usize,
    /// The largest move of a parameter.
    moved: f64,
}

impl Seen {
    fn all_same(&self) -> bool {
        self.other + self.refused == 0
    }

    fn all_refused(&self) -> bool {
        self.same + self.other == 0
    }
}

/// A drawing with points beside it, and their parameters as it is.
struct Drawing {
    coords: Vec<f64>,
    knots: Vec<f64>,
    marks: Vec<[f64; 2]>,
    found: Vec<f64>,
}

impl Drawing {
    fn of(curve: BSpline, many: usize, compare: &mut Compare) -> Self {
        let coords = curve.control_points.concat();
        let marks = beside(&coords, many);
        let search = |mark: &[f64; 2]| compare(&coords, &curve.knots, *mark).expect("answered");
        Drawing {
            found: marks.iter().map(search).collect(),
            coords,
            knots: curve.knots,
            marks,
        }
    }

    /// Whether every number times 2^exponent is a double, and no subnormal.
    fn is_exact(&self, exponent: i64) -> bool {
        let mut numbers = self.coords.iter().chain(self.marks.as_flattened());
        numbers.all(|x| *x == 0.0 || (x * power(exponent)).is_normal())
    }

    /// At this scale, one mark in so many.
    fn seen(&self, exponent: i64, turns: usize, compare: &mut Compare) -> Seen {
        let coords: Vec<f64> = self.coords.iter().map(|x| x * power(exponent)).collect();
        let first = exponent.rem_euclid(turns as i64) as usize;
        let mut seen = Seen::default();
        for k in (first..self.marks.len()).step_by(turns) {
            let mark = self.marks[k].map(|x| x * power(exponent));
            match compare(&coords, &self.knots, mark) {
                None => seen.refused += 1,
                Some(t) if same(t, self.found[k]) => seen.same += 1,
                Some(t) => {
                    seen.other += 1;
                    seen.moved = seen.moved.max((t - self.found[k]).abs());
                }
            }
        }
        seen
    }

    /// From a scale at which a mark moved, back towards the drawing as it is: the last at which one of all does.
    fn edge(&self, from: i64, compare: &mut Compare) -> i64 {
        let mut edge = from;
        while !self.seen(edge - from.signum(), 1, compare).all_same() {
            edge -= from.signum();
        }
        edge
    }

    /// What is told of it.
    fn measure(&self, compare: &mut Compare) -> Vec<String> {
        let turns = TURNS.min(self.marks.len());
        let exact = EXPONENTS.filter(|k| self.is_exact(*k));
        let seen: Vec<(i64, Seen)> = exact.map(|k| (k, self.seen(k, turns, compare))).collect();
        let mut moved = seen.iter().filter(|(_, seen)| !seen.all_same());
        let up = moved.clone().find(|(k, _)| *k > 0);
        let down = moved.rfind(|(k, _)| *k < 0);
        let [down, up] = [down, up].map(|end| {
            let (from, _) = end.expect("products that vanish, and that overflow");
            self.edge(*from, compare)
        });
        let mut all = |k: i64| (k, self.seen(k, 1, compare));
        let below: Vec<(i64, Seen)> = (0..SHRINKING).map(|k| all(down - k)).collect();
        let answered = seen.iter().rfind(|(_, seen)| !seen.all_refused());
        let (last, _) = answered.expect("2^0 at least");
        let mut above: Vec<(i64, Seen)> = (up..=last + 1).map(&mut all).collect();
        while !above[above.len() - 1].1.all_refused() {
            above.push(all(above[above.len() - 1].0 + 1));
        }
        let large = all(LARGE);
        let (n, ends) = (self.marks.len(), [seen[0].0, seen[seen.len() - 1].0]);
        let (from, to) = (down + 1, up - 1);
        vec![
            format!(
                "{n} parameters as at 2^0 from 2^{from} to 2^{to}, of 2^{} to 2^{}",
                ends[0], ends[1]
            ),
            told(&below[0]),
            self.most_moved(seen.iter().filter(|(k, _)| *k < 0).chain(&below)),
            told(&above[0]),
            self.most_moved(seen.iter().filter(|(k, _)| *k > 0).chain(&above)),
            format!("all refused 15 from 2^{} on", above[above.len() - 1].0),
            told(&large),
            self.far(compare),
        ]
    }

    /// The largest move of a parameter, as a part of the domain, and where it was.
    fn most_moved<'a>(&self, seen: impl Iterator<Item = &'a (i64, Seen)>) -> String {
        let (at, most) = seen
            .max_by(|a, b| a.1.moved.total_cmp(&b.1.moved))
            .expect("some scales");
        let part = most.moved / (self.knots[self.knots.len() - 1] - self.knots[0]);
        format!("the largest move {part:.6} of the domain, at 2^{at}")
    }

    fn far(&self, compare: &mut Compare) -> String {
        let marks = far_away(self.marks.len());
        let search = |mark: &&[f64; 2]| compare(&self.coords, &self.knots, **mark).is_some();
        let answered = marks.iter().filter(search).count();
        let all = marks.len();
        format!("of {all} points 1e160 to 1e300 away {answered} are answered")
    }
}

fn told((exponent, seen): &(i64, Seen)) -> String {
    let Seen { other, refused, .. } = seen;
    format!("at 2^{exponent} {other} other parameters and {refused} refused 15")
}
