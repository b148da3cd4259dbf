//! The closest parameter, against the original with its one `hypot` replaced (docs/RULES.md, "Distance"). The same searches are made with the
//! unaltered file: where it finds another parameter is counted by cause, and the shortest of these searches are told. Counted is also what the
//! plain root of the sum of squares, the rule as it was, would have found otherwise.

use crate::asked::{Form, Room, Wanted, door, points};
use crate::distances::{plain, power, scaled};
use crate::fits::fit_points;
use crate::layouts::{Layout, inside, mirror, not_finite, stepped, uniform};
use crate::ours;
use crate::random::{Flavour, Random};
use crate::records::Record;
use crate::table::{NOT_FINITE, Table, their_check_of};
use crate::tally::{Tally, hex, same};
use replaced::distance::distance;
use replaced::spline::{BSpline, Curve, P2, closest_param};

/// How many disagreements of the unaltered file are told.
const TOLD: usize = 6;
/// The squares of smaller distances are subnormal, so that they lose digits, or 0.
const TINY: f64 = power(-484);
/// How many doubles apart two distances of a near tie are at most.
const TIE: u64 = 2;
/// The exponents of the scales that drawings are brought to.
const SCALES: [i64; 2] = [-1060, 1020];

pub fn run(random: &mut Random, rounds: u64) -> Tally {
    let mut tally = Tally::default();
    let mut unlike = Unlike::default();
    for _ in 0..rounds {
        let messy = random.once_in(16);
        let drawn = Drawn::draw_damaged(random, messy);
        let (mut point, place) = drawn.point(random);
        if random.once_in(if messy { 4 } else { 64 }) {
            point[random.below(2) as usize] = not_finite(random);
        }
        let Layout { coords, knots, .. } = &drawn.layout;
        let record = Record::holding(random, coords, knots);
        let search = match random.once_in(4) {
            true => Search::of_record(&record, point),
            false => Search::of_slices(coords, knots, point),
        };
        let wanted = search.judge(random, &mut tally);
        if let [t] = wanted.entries(0) {
            tally.kind(drawn.kind);
            tally.kind(place);
            let ends = [search.knots[0], search.knots[search.knots.len() - 1]];
            if ends.contains(t) {
                tally.kind("answers at an end of the domain");
            }
            tally.kind(drawn.scale_kinds()[0]);
            unlike.take(&search, drawn.kind, *t, &mut tally);
        }
        if wanted.number == NOT_FINITE {
            tally.kind(drawn.scale_kinds()[1]);
            refused(&search, &mut tally);
        }
    }
    unlike.note(&mut tally);
    tally
}

pub struct Search<'a> {
    pub form: Form<'a>,
    /// As many as are counted.
    points: Vec<[f64; 2]>,
    knots: &'a [f64],
    pub point: [f64; 2],
    /// The rows up to 11, and 17 of a record.
    pub table: Table,
    pub check: Option<u64>,
}

impl<'a> Search<'a> {
    pub fn of_slices(coords: &'a [f64], knots: &'a [f64], point: [f64; 2]) -> Self {
        Search {
            form: Form::Slices { coords, knots },
            points: points(coords),
            knots,
            point,
            table: Table::of_search(coords, knots, point),
            check: their_check_of(coords, Some(knots)),
        }
    }

    pub fn of_record(record: &'a Record, point: [f64; 2]) -> Self {
        Search {
            form: Form::Record(record),
            points: record.counted_points(),
            knots: record.counted_knots(),
            point,
            table: record.table(&point, false),
            check: record.check(),
        }
    }

    pub fn judge(&self, random: &mut Random, tally: &mut Tally) -> Wanted {
        let mut room = Room::behind(random, 1);
        let [px, py] = self.point;
        let refusal = door!(
            &self.form,
            threshdune_closest,
            threshdune_record_closest,
            px,
            py,
            room.pointer(0)
        );
        let wanted = Wanted::judged(self.table, || self.theirs());
        wanted.kinds_behind(tally, "closest answered");
        if wanted.number == 0 && matches!(self.form, Form::Record(_)) {
            tally.kind("closest answered of a record");
        }
        let fault = wanted
            .refusal_fault(refusal, self.check)
            .or_else(|| room.fault("out", wanted.entries(0)));
        tally.case(fault.is_none(), || {
            format!("closest {}: {}", self.tell(), fault.unwrap_or_default())
        });
        wanted
    }

    /// Nothing where a sample's distance is not finite or the parameter is a NaN.
    pub fn theirs(&self) -> Option<Vec<Vec<f64>>> {
        let (curve, p) = (curve(&self.points, self.knots), self.point);
        let fine = |t: f64| distance(curve.eval(&t, 0)[0].val(), p).is_finite();
        let all = curve.samples(16).into_iter().all(fine);
        let t = all.then(|| closest_param(&curve, p))?;
        (!t.is_nan()).then(|| vec![vec![t]])
    }

    /// What the unaltered file finds.
    fn unaltered(&self) -> f64 {
        use original::spline::{Curve, P2, closest_param};
        let handles = self.points.iter().map(|&[x, y]| P2::new(x, y));
        let curve = Curve::new(handles.collect(), false, Some(self.knots));
        closest_param(&curve, self.point)
    }

    /// Whether Newton's rounds from there meet an infinity or a NaN. Where the step is infinite then, the next parameter is an end of
    /// the domain; where it is 0, the last.
    fn overflows_from(&self, mut t: f64) -> bool {
        let (curve, p) = (curve(&self.points, self.knots), self.point);
        let (lo, hi) = curve.domain();
        for _ in 0..30 {
            let orders = curve.eval(&t, 2);
            let [c, c1, c2] = [0, 1, 2].map(|k: usize| orders[k].val());
            let w = [c[0] - p[0], c[1] - p[1]];
            let f = w[0] * c1[0] + w[1] * c1[1];
            let df = c1[0] * c1[0] + c1[1] * c1[1] + w[0] * c2[0] + w[1] * c2[1];
            if !f.is_finite() || !df.is_finite() {
                return true;
            }
            let next = (t - f / df).clamp(lo, hi);
            if df <= 0.0 || (next - t).abs() < 1e-15 {
                return false;
            }
            t = next;
        }
        false
    }

    fn tell(&self) -> String {
        format!("to [{}] on {}", hex(&self.point), self.form.tell())
    }
}

/// The original's curve, which has to be accepted.
fn curve(points: &[[f64; 2]], knots: &[f64]) -> Curve<f64> {
    let handles = points.iter().map(|&[x, y]| P2::new(x, y));
    Curve::new(handles.collect(), false, Some(knots))
}

/// The samples of a search, by what they differ from its point.
struct Samples {
    at: Vec<f64>,
    /// Whether the points of the curve are finite.
    finite: bool,
    differences: Vec<[f64; 2]>,
}

type Rule = fn([f64; 2]) -> f64;

fn hypot([dx, dy]: [f64; 2]) -> f64 {
    dx.hypot(dy)
}

impl Samples {
    fn of(search: &Search) -> Self {
        let curve = curve(&search.points, search.knots);
        let [px, py] = search.point;
        let at = curve.samples(16);
        let points: Vec<[f64; 2]> = at.iter().map(|t| curve.eval(t, 0)[0].val()).collect();
        Samples {
            at,
            finite: points.as_flattened().iter().all(|x| x.is_finite()),
            differences: points.iter().map(|[x, y]| [x - px, y - py]).collect(),
        }
    }

    /// The place of the nearest, the first of equals.
    fn nearest(&self, rule: Rule) -> usize {
        let distance = |k: usize| rule(self.differences[k]);
        (0..self.differences.len())
            .min_by(|&a, &b| distance(a).total_cmp(&distance(b)))
            .expect("the domain's end at least")
    }

    fn all_finite(&self, rule: Rule) -> bool {
        self.differences.iter().all(|d| rule(*d).is_finite())
    }

    /// How many doubles apart the least distances are, by `hypot`: that of the sample which we choose, and that of its own.
    fn apart(&self) -> u64 {
        let by_hypot = |rule: Rule| hypot(self.differences[self.nearest(rule)]).to_bits();
        by_hypot(scaled) - by_hypot(hypot)
    }

    fn is_tiny(&self) -> bool {
        hypot(self.differences[self.nearest(hypot)]) < TINY
    }

    /// What the rule as it was would have made of a search that is answered. No distance mends what overflows after it: such an answer may be
    /// far off, and where 15 was given before, that is no cure.
    fn cured(&self, search: &Search, tally: &mut Tally) {
        let refused = !self.all_finite(plain);
        let overflows = search.overflows_from(self.at[self.nearest(scaled)]);
        match (refused, overflows) {
            (true, false) => tally.kind("(cured: 15 by the old rule)"),
            (true, true) => {
                tally.kind("(not cured: Newton's products overflow, 15 by the old rule)")
            }
            (false, true) => tally.kind("(not cured: Newton's products overflow)"),
            (false, false) => {}
        }
        if !refused && self.nearest(plain) != self.nearest(scaled) {
            tally.kind("(cured: another sample by the old rule)");
        }
    }

    /// Why 15 is given, and the same where the unaltered file finds a parameter.
    fn cause_of_15(&self) -> [&'static str; 2] {
        let differences = self.differences.as_flattened();
        if !self.finite {
            [
                "(15: a sample is not finite)",
                "(15: a sample is not finite; unaltered: a parameter)",
            ]
        } else if !differences.iter().all(|d| d.is_finite()) {
            [
                "(15: a difference overflowed)",
                "(15: a difference overflowed; unaltered: a parameter)",
            ]
        } else if !self.all_finite(scaled) {
            [
                "(15: a distance overflowed)",
                "(15: a distance overflowed; unaltered: a parameter)",
            ]
        } else if self.apart() <= TIE {
            [
                "(15: the rounds ended at a NaN)",
                "(15: the rounds ended at a NaN; unaltered: a parameter, by a near tie)",
            ]
        } else {
            [
                "(15: the rounds ended at a NaN)",
                "(15: the rounds ended at a NaN; unaltered: a parameter, NOT EXPLAINED)",
            ]
        }
    }
}

/// Where the unaltered file finds another parameter.
#[derive(Default)]
struct Unlike {
    /// The shortest, by the length of their inputs.
    told: Vec<(usize, String)>,
    /// How many doubles apart two distances were at most.
    apart: u64,
}

impl Unlike {
    fn take(&mut self, search: &Search, kind: &'static str, t: f64, tally: &mut Tally) {
        let (theirs, samples) = (search.unaltered(), Samples::of(search));
        samples.cured(search, tally);
        if same(t, theirs) {
            if samples.is_tiny() {
                tally.kind("(unaltered: the same parameter, the least distance below 2^-484)");
            }
            return;
        }
        let apart = samples.apart();
        tally.kind("(unaltered: another parameter)");
        tally.kind(
            match (apart, samples.is_tiny(), kind.contains("mirrored")) {
                (..=TIE, true, _) => "(unaltered: another parameter, by a near tie below 2^-484)",
                (..=TIE, _, true) => "(unaltered: another parameter, by a near tie, mirrored)",
                (..=TIE, _, false) => "(unaltered: another parameter, by a near tie, not mirrored)",
                _ => "(unaltered: another parameter, NOT EXPLAINED)",
            },
        );
        self.apart = self.apart.max(apart);
        if matches!(search.form, Form::Slices { .. }) {
            self.tell(search, [t, theirs]);
        }
    }

    fn tell(&mut self, search: &Search, found: [f64; 2]) {
        let long = search.points.len();
        if self.told.len() == TOLD && long >= self.told[TOLD - 1].0 {
            return;
        }
        let [ours, theirs] = found.map(|t| hex(&[t]));
        let words = format!("{}: {ours}, {theirs} with hypot", search.tell());
        self.told.push((long, words));
        self.told.sort_by_key(|(long, _)| *long);
        self.told.truncate(TOLD);
    }

    fn note(self, tally: &mut Tally) {
        let apart = self.apart;
        tally.note(format!(
            "distances of near ties {apart} doubles apart at most"
        ));
        for (_, words) in self.told {
            tally.note(format!("another parameter {words}"));
        }
    }
}

fn refused(search: &Search, tally: &mut Tally) {
    let [kind, found] = Samples::of(search).cause_of_15();
    tally.kind(kind);
    if !search.unaltered().is_nan() {
        tally.kind(found);
    }
}

/// A curve that is searched, and where a near tie is to be had on it.
pub struct Drawn {
    pub layout: Layout,
    pub kind: &'static str,
    /// A point that lies equally far from two or more points of the curve.
    middle: [f64; 2],
    /// What the drawing was multiplied by: 2 to this.
    exponent: i64,
}

impl Drawn {
    /// A messy one has one damage or two, another seldom one.
    pub fn draw_damaged(random: &mut Random, messy: bool) -> Self {
        let mut drawn = Drawn::draw(random);
        if random.once_in(4) {
            drawn.scale(random.within(SCALES[0], SCALES[1]));
        }
        let damages = match random.below(24) {
            _ if messy => 1 + random.below(2),
            0 => 1,
            _ => 0,
        };
        (0..damages).for_each(|_| drawn.layout.damage(random));
        drawn
    }

    fn of(layout: Layout, kind: &'static str, middle: [f64; 2]) -> Self {
        Drawn {
            layout,
            kind,
            middle,
            exponent: 0,
        }
    }

    fn draw(random: &mut Random) -> Self {
        let n = match random.below(32) {
            0..24 => random.within(4, 8),
            24..31 => random.within(4, 20),
            _ => random.within(60, 66),
        } as usize;
        match random.below(8) {
            0..3 => {
                let layout = Layout::draw_of(random, n);
                let middle = middle(&layout.coords);
                Drawn::of(layout, "control points", middle)
            }
            3 => closed(random, n),
            4 | 5 => mirrored(random, n),
            _ => fit(random, n - 2),
        }
    }

    /// Multiplies the drawing by 2^exponent, each number rounded by itself, but leaves it where one would not be finite.
    fn scale(&mut self, exponent: i64) {
        let times = |x: &mut f64| *x *= power(exponent);
        let (mut coords, mut middle) = (self.layout.coords.clone(), self.middle);
        coords.iter_mut().chain(&mut middle).for_each(times);
        if coords.iter().chain(&middle).all(|x| x.is_finite()) {
            self.layout.coords = coords;
            self.middle = middle;
            self.exponent = exponent;
        }
    }

    /// A coordinate meant for the drawing as it was before, stopped at the largest double.
    fn to_scale(&self, x: f64) -> f64 {
        (x * power(self.exponent)).clamp(f64::MIN, f64::MAX)
    }

    /// What is counted of an answer and of a 15.
    fn scale_kinds(&self) -> [&'static str; 2] {
        match self.exponent {
            0 => ["not scaled, answered", "not scaled, refused 15"],
            ..-484 => [
                "scaled by 2^-1060 to 2^-485, answered",
                "scaled by 2^-1060 to 2^-485, refused 15",
            ],
            -484..500 => [
                "scaled by 2^-484 to 2^499, answered",
                "scaled by 2^-484 to 2^499, refused 15",
            ],
            _ => [
                "scaled by 2^500 to 2^1020, answered",
                "scaled by 2^500 to 2^1020, refused 15",
            ],
        }
    }

    /// The point searched for, and where it lies.
    pub fn point(&self, random: &mut Random) -> ([f64; 2], &'static str) {
        let Layout { coords, knots, .. } = &self.layout;
        let accepted = Table::of_curve(coords, Some(knots)).first == 0;
        let on = |t: f64| match accepted {
            true => curve(&points(coords), knots).eval(&t, 0)[0].val(),
            false => self.middle,
        };
        let beside = |random: &mut Random, [x, y]: [f64; 2]| {
            let steps = [1, 1 << 20, 1 << 50][random.below(3) as usize];
            [x, y].map(|x| stepped(x, random.within(-steps, steps)))
        };
        match random.below(16) {
            0..2 => (on(inside(random, knots)), "a point of the curve"),
            2..5 => {
                let t = inside(random, knots);
                (beside(random, on(t)), "beside the curve")
            }
            5 => {
                let at = random.below(knots.len().max(1) as u64) as usize;
                let t = knots.get(at).copied().unwrap_or(0.5);
                (on(t), "the point at a knot")
            }
            6 => {
                let pairs = points(coords);
                let at = random.below(pairs.len().max(1) as u64) as usize;
                (
                    pairs.get(at).copied().unwrap_or_default(),
                    "a control point",
                )
            }
            7 => {
                let [x, y] = [(); 2].map(|_| random.of_exponents(8, 40));
                ([x, y].map(|x| self.to_scale(x)), "far away")
            }
            8 => {
                let [x, y] = [(); 2].map(|_| random.of_exponents(400, 1023));
                ([x, y], "very far away")
            }
            9 => {
                let flavour = random.flavour();
                let [x, y] = [(); 2].map(|_| random.double(flavour));
                ([x, y], "anywhere")
            }
            10..13 => (self.middle, "in the middle"),
            _ => {
                let [x, _] = self.middle;
                let y = match random.once_in(2) {
                    true => random.double(Flavour::Small),
                    false => random.of_exponents(-8, 8),
                };
                ([x, self.to_scale(y)], "on the axis")
            }
        }
    }
}

/// Half way between the ends of each coordinate.
fn middle(coords: &[f64]) -> [f64; 2] {
    [0, 1].map(|from: usize| {
        let each = || coords.iter().skip(from).step_by(2).copied();
        let least = each().fold(f64::INFINITY, f64::min);
        let most = each().fold(f64::NEG_INFINITY, f64::max);
        least / 2.0 + most / 2.0
    })
}

/// The second half of the control points is the first in a mirror, and so are the knots.
fn mirrored(random: &mut Random, n: usize) -> Drawn {
    let flavour = match random.below(4) {
        0 => Flavour::Small,
        _ => Flavour::Ordinary,
    };
    let scale = match random.below(8) {
        0 => random.of_exponents(-1000, 400).abs(),
        _ => 1.0,
    };
    let mut coords: Vec<f64> = (0..2 * n).map(|_| random.double(flavour) * scale).collect();
    mirror(&mut coords);
    let knots = match random.once_in(2) {
        true => uniform(n),
        false => symmetric_knots(random, n),
    };
    Drawn::of(
        Layout::of((coords, "mirrored"), (knots, "mirrored")),
        "control points mirrored",
        [0.0, random.double(flavour) * scale],
    )
}

/// About 0.
fn symmetric_knots(random: &mut Random, n: usize) -> Vec<f64> {
    let mut half: Vec<f64> = (0..(n - 4) / 2)
        .map(|_| random.below(1 << 20) as f64 / (1 << 20) as f64)
        .collect();
    half.sort_by(f64::total_cmp);
    let mut knots = vec![-1.0; 4];
    knots.extend(half.iter().rev().map(|k| -k));
    if n % 2 == 1 {
        knots.push(0.0);
    }
    knots.extend(&half);
    knots.extend([1.0; 4]);
    knots
}

/// Control points of a ring that ends where it begins.
fn closed(random: &mut Random, n: usize) -> Drawn {
    let size = random.of_exponents(-4, 8).abs();
    let angle = |k: usize| std::f64::consts::TAU * k as f64 / (n - 1) as f64;
    let mut coords: Vec<f64> = (0..n)
        .flat_map(|k| [size * angle(k).cos(), size * angle(k).sin()])
        .collect();
    let end = coords.len() - 2;
    coords.copy_within(0..2, end);
    Drawn::of(
        Layout::of((coords, "closed"), (uniform(n), "closed")),
        "control points of a ring",
        [0.0; 2],
    )
}

/// A fit; its control points where they are finite, else those of its points.
fn fit(random: &mut Random, n: usize) -> Drawn {
    let (coords, kind) = fit_points(random, n.max(2));
    let fit = BSpline::from_fit_points(&points(&coords)).expect("two points or more");
    let control = fit.control_points.concat();
    let middle = match kind {
        "points mirrored" => [0.0, random.double(Flavour::Small)],
        _ => middle(&coords),
    };
    let of = match kind {
        "points mirrored" => "a fit of mirrored points",
        _ => "a fit",
    };
    Drawn::of(Layout::of((control, kind), (fit.knots, kind)), of, middle)
}
