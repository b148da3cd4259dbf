//! Control points and knots of the kinds that a curve can go wrong on, whole or damaged, and parameters
//! for them.

use crate::random::{Flavour, Random};

/// What is handed over as a curve: control points, x and y in turn, and knots. `given` is false where the knots are the
/// uniform ones, so that a build may also be asked for without them.
pub struct Layout {
    pub coords: Vec<f64>,
    pub knots: Vec<f64>,
    pub given: bool,
    /// Of what kind the coordinates and the knots are.
    drawn: [&'static str; 2],
}

impl Layout {
    /// A curve that is accepted, unless chance has put an interior knot in its list too often.
    pub fn draw(random: &mut Random) -> Self {
        let n = match random.below(8) {
            0..4 => random.within(4, 11),
            4..7 => random.within(4, 66),
            _ => random.within(64, 66),
        } as usize;
        Self::draw_of(random, n)
    }

    /// The same of n control points.
    pub fn draw_of(random: &mut Random, n: usize) -> Self {
        let given = !random.once_in(4);
        let (coords, of_coords) = coordinates(random, n);
        let (knots, of_knots) = if given {
            given_knots(random, n)
        } else {
            (uniform(n), "knots uniform")
        };
        Layout {
            coords,
            knots,
            given,
            drawn: [of_coords, of_knots],
        }
    }

    /// Of control points and knots made elsewhere, and of what kind they are.
    pub fn of(coords: (Vec<f64>, &'static str), knots: (Vec<f64>, &'static str)) -> Self {
        Layout {
            coords: coords.0,
            knots: knots.0,
            given: true,
            drawn: [coords.1, knots.1],
        }
    }

    /// What is to be counted of it, as drawn.
    pub fn kinds(&self) -> Vec<&'static str> {
        const TIMES: [&str; 3] = [
            "an interior knot twice",
            "an interior knot three times",
            "an interior knot four times",
        ];
        let mut kinds = self.drawn.to_vec();
        let interior = &self.knots[4..self.knots.len() - 4];
        let runs = interior.chunk_by(|a, b| a == b);
        let longest = runs.map(<[f64]>::len).max().unwrap_or(0);
        if longest > 1 {
            kinds.push(TIMES[longest.min(4) - 2]);
        }
        if self.knots.iter().any(|k| k.to_bits() == 1 << 63) {
            kinds.push("a knot -0.0");
        }
        kinds
    }

    /// One number or count changed, mostly so that a refusal applies.
    pub fn damage(&mut self, random: &mut Random) {
        match random.below(4) {
            0 => self.damage_counts(random),
            1 => self.damage_coordinate(random),
            _ => self.damage_knots(random),
        }
    }

    fn damage_counts(&mut self, random: &mut Random) {
        let handles = match random.below(8) {
            0 => {
                self.coords.pop();
                return;
            }
            1 => {
                self.coords.push(random.double(Flavour::Small));
                return;
            }
            2 => random.below(2),
            3 => 2 + random.below(2),
            4 => 67,
            5 => 67 + random.below(8),
            6 => (self.coords.len() as u64 / 2).saturating_sub(1),
            _ => self.coords.len() as u64 / 2 + 1,
        } as usize;
        self.coords
            .resize_with(2 * handles, || random.double(Flavour::Small));
        if random.once_in(2) {
            // as many knots as that asks for
            self.knots = uniform(handles);
            self.given = true;
        }
    }

    fn damage_coordinate(&mut self, random: &mut Random) {
        if let Some(at) = place(random, self.coords.len()) {
            self.coords[at] = match random.below(4) {
                0 => random.special(),
                1 => random.any(),
                _ => not_finite(random),
            };
        }
    }

    fn damage_knots(&mut self, random: &mut Random) {
        self.given = true;
        let Some(at) = place(random, self.knots.len()) else {
            self.knots.push(random.special());
            return;
        };
        let end = self.knots.len() - 1;
        match random.below(16) {
            0 => self.knots.clear(),
            1 => {
                self.knots.remove(at);
            }
            2 => self.knots.insert(at, self.knots[at]),
            3 => self.knots[at] = not_finite(random),
            4 => self.knots[at] = random.any(),
            5 => self.knots[at] = stepped(self.knots[at], random.within(-1, 1)),
            6 => self.knots.swap(at, end - at),
            7 => {
                let knot = self.knots[at];
                self.knots.fill(knot);
            }
            8 => self.knots.reverse(),
            // an end that is not four times there, by the least or by much
            9 => self.move_end(random, 1),
            10 => self.move_end(random, 1 << 50),
            // one knot in the place of some others, interior or not
            11..14 => {
                let to = (at + 1 + random.below(4) as usize).min(end);
                let knot = self.knots[at];
                self.knots[at..=to].fill(knot);
            }
            14 => self.knots[at] = self.knots[random.below(end as u64 + 1) as usize],
            _ => self.knots[at] = -self.knots[at],
        }
    }

    fn move_end(&mut self, random: &mut Random, steps: i64) {
        let four = random.below(4) as usize;
        let end = self.knots.len() - 1;
        let (at, steps) = match random.once_in(2) {
            true => (four.min(end), steps),
            false => (end - four.min(end), -steps),
        };
        self.knots[at] = stepped(self.knots[at], steps);
    }
}

/// Uniform knots (docs/RULES.md); none for fewer than 4 points.
pub fn uniform(n: usize) -> Vec<f64> {
    if n < 4 {
        return Vec::new();
    }
    let spans = n - 3;
    let mut knots = vec![0.0; 4];
    knots.extend((1..spans).map(|i| i as f64 / spans as f64));
    knots.extend([1.0; 4]);
    knots
}

pub fn coordinates(random: &mut Random, n: usize) -> (Vec<f64>, &'static str) {
    let kind = random.below(14);
    let mut list = |one: &mut dyn FnMut(&mut Random) -> f64| -> Vec<f64> {
        (0..2 * n).map(|_| one(random)).collect()
    };
    match kind {
        0..4 => (list(&mut |r| r.of_exponents(-8, 8)), "points ordinary"),
        4 | 5 => (list(&mut |r| r.double(Flavour::Small)), "points small"),
        6 => (list(&mut |r| r.double(Flavour::Far)), "points far apart"),
        7 => (list(&mut |r| r.of_exponents(1015, 1023)), "points huge"),
        8 => (list(&mut |r| r.subnormal()), "points subnormal"),
        9 => (list(&mut |r| zero(r)), "points mostly zeros"),
        // where the tangent's length is near the least that has a direction
        10 => (list(&mut |r| r.of_exponents(-46, -38)), "points 1e-12"),
        // where the tangent's squared length overflows
        11 => (list(&mut |r| r.of_exponents(505, 515)), "points 1e154"),
        12 => (collinear(random, n), "points collinear"),
        _ => (all_equal(random, n), "points all equal"),
    }
}

fn zero(random: &mut Random) -> f64 {
    match random.below(16) {
        0 => random.double(Flavour::Small),
        1..8 => 0.0,
        _ => -0.0,
    }
}

pub fn collinear(random: &mut Random, n: usize) -> Vec<f64> {
    let flavour = match random.below(2) {
        0 => Flavour::Small,
        _ => Flavour::Ordinary,
    };
    let [x, y, dx, dy] = [(); 4].map(|_| random.double(flavour));
    let point = |k: usize| [x + k as f64 * dx, y + k as f64 * dy];
    (0..n).flat_map(point).collect()
}

/// Makes the second half of the points the first in a mirror.
pub fn mirror(coords: &mut [f64]) {
    let n = coords.len() / 2;
    for k in 0..n / 2 {
        let other = n - 1 - k;
        coords[2 * other] = -coords[2 * k];
        coords[2 * other + 1] = coords[2 * k + 1];
    }
    if n % 2 == 1 {
        coords[n - 1] = 0.0;
    }
}

fn all_equal(random: &mut Random, n: usize) -> Vec<f64> {
    let flavour = random.flavour();
    let point = [(); 2].map(|_| {
        let x = random.double(flavour);
        if x.is_finite() { x } else { 1.0 }
    });
    [point].repeat(n).concat()
}

pub fn given_knots(random: &mut Random, n: usize) -> (Vec<f64>, &'static str) {
    let (values, kind) = rising_values(random, n - 2);
    (clamped(random, values), kind)
}

/// Knots of rising values: the ends four times, and interior ones repeated by chance.
pub fn clamped(random: &mut Random, mut values: Vec<f64>) -> Vec<f64> {
    // sometimes none is repeated, sometimes few, sometimes most; rarely more often than is allowed
    let every = [0, 6, 2][random.below(3) as usize];
    let most = if random.once_in(32) { 4 } else { 3 };
    let mut times = 1;
    for i in 2..values.len() - 1 {
        let again = every != 0 && times < most && random.once_in(every);
        times = if again { times + 1 } else { 1 };
        if again {
            values[i] = values[i - 1];
        }
    }
    let (first, last) = (values[0], values[values.len() - 1]);
    let mut knots = vec![first; 3];
    knots.extend(values);
    knots.extend([last; 3]);
    if random.once_in(4) {
        let zeros = knots.iter_mut().filter(|k| **k == 0.0);
        zeros.for_each(|k| *k = if random.once_in(2) { -0.0 } else { 0.0 });
    }
    knots
}

/// So many doubles, each above the one before unless chance has two of them equal.
fn rising_values(random: &mut Random, many: usize) -> (Vec<f64>, &'static str) {
    let positive = |x: f64| x.abs();
    match random.below(12) {
        0..3 => (between(random, many, 0.0, 1.0), "knots of 0 to 1"),
        3 => {
            let lo = random.of_exponents(-8, 8);
            let hi = lo + positive(random.of_exponents(-4, 8));
            (between(random, many, lo, hi), "knots ordinary")
        }
        4 => {
            let hi = -positive(random.of_exponents(-8, 8));
            let lo = hi - positive(random.of_exponents(-4, 8));
            (between(random, many, lo, hi), "knots negative")
        }
        5 => (whole(random, many), "knots whole numbers"),
        6 => {
            // from 0 on, or across it with a knot there if there is room for one
            let across = random.once_in(2);
            let lo = if across {
                -positive(random.of_exponents(-2, 2))
            } else {
                0.0
            };
            let hi = (1 + random.below(3)) as f64;
            let mut values = between(random, many, lo, hi);
            if across && many > 2 {
                values[1] = 0.0;
                values.sort_by(f64::total_cmp);
            }
            (values, "knots about 0")
        }
        7 => {
            let lo = [0.0, -0.0, f64::MIN_POSITIVE, random.subnormal()];
            let lo = lo[random.below(4) as usize];
            (steps(random, many, lo), "knots with subnormal spans")
        }
        8 => {
            let lo = random.of_exponents(-8, 8);
            (steps(random, many, lo), "knots few steps apart")
        }
        9 => {
            let ends = [f64::MIN, -1e308, -1.0, 0.0, 1.0, 1e307];
            let lo = ends[random.below(6) as usize];
            let hi = [f64::MAX, 1e308, 1.5e308][random.below(3) as usize];
            (between(random, many, lo, hi), "knots huge")
        }
        10 => {
            let exponent = random.within(-1022, 1000);
            let hi = positive(random.of_exponents(exponent, exponent + 4));
            (between(random, many, 0.0, hi), "knots of any size")
        }
        _ => {
            let mut values: Vec<f64> = (0..many).map(|_| random.double(Flavour::Far)).collect();
            values.sort_by(f64::total_cmp);
            (values, "knots uneven")
        }
    }
}

pub fn between(random: &mut Random, many: usize, lo: f64, hi: f64) -> Vec<f64> {
    let mut values: Vec<f64> = (0..many).map(|_| mixed(random, lo, hi)).collect();
    values[0] = lo;
    values[1] = hi;
    values.sort_by(f64::total_cmp);
    values
}

fn whole(random: &mut Random, many: usize) -> Vec<f64> {
    let mut knot = random.within(-8, 8);
    let mut values = Vec::new();
    for _ in 0..many {
        values.push(knot as f64);
        knot += random.within(1, 3);
    }
    values
}

fn steps(random: &mut Random, many: usize, lo: f64) -> Vec<f64> {
    let most = [1, 3, 1 << 20, 1 << 44][random.below(4) as usize];
    let mut values = vec![lo];
    while values.len() < many {
        values.push(stepped(values[values.len() - 1], random.within(1, most)));
    }
    values
}

/// A double of lo to hi, rarely an end. Halves are mixed, so that nothing overflows, and what rounding moves past an end comes back.
fn mixed(random: &mut Random, lo: f64, hi: f64) -> f64 {
    let part = (1 + random.below((1 << 30) - 1)) as f64 / (1 << 30) as f64;
    let mix = 2.0 * ((lo / 2.0) * (1.0 - part) + (hi / 2.0) * part);
    mix.clamp(lo, hi)
}

/// x moved by so many doubles. Both zeros are one place; what would lie past the largest double stops there.
pub fn stepped(x: f64, steps: i64) -> f64 {
    let size = (x.to_bits() & !(1 << 63)) as i64;
    let place = if x.is_sign_negative() { -size } else { size };
    let largest = f64::MAX.to_bits() as i64;
    let to = (place.saturating_add(steps)).clamp(-largest, largest);
    let moved = f64::from_bits(to.unsigned_abs());
    if to < 0 { -moved } else { moved }
}

pub fn not_finite(random: &mut Random) -> f64 {
    const THREE: [f64; 3] = [f64::NAN, f64::INFINITY, f64::NEG_INFINITY];
    THREE[random.below(3) as usize]
}

fn place(random: &mut Random, len: usize) -> Option<usize> {
    (len > 0).then(|| random.below(len as u64) as usize)
}

/// A parameter for these knots, and where it lies. The knots need not be in order.
pub fn parameter(random: &mut Random, knots: &[f64]) -> (f64, &'static str) {
    let Some(at) = place(random, knots.len()) else {
        return (0.5, "t over no knots");
    };
    let (first, last) = (knots[0], knots[knots.len() - 1]);
    let below = random.once_in(2);
    let past = |far: f64| if below { first - far } else { last + far };
    match random.below(16) {
        0..3 => (knots[at], "t at a knot"),
        3 => (if below { first } else { last }, "t at an end"),
        4 | 5 => {
            let step = if below { -1 } else { 1 };
            (stepped(knots[at], step), "t one step beside a knot")
        }
        6..11 => (inside(random, knots), "t inside"),
        11 => {
            let steps = random.within(1, 4);
            let (end, steps) = if below {
                (first, -steps)
            } else {
                (last, steps)
            };
            (stepped(end, steps), "t a few steps outside")
        }
        12 | 13 => {
            let far = random.of_exponents(-10, 10).abs() * (last - first);
            (past(far), "t outside")
        }
        14 => (past(random.of_exponents(40, 1022).abs()), "t far outside"),
        _ => (random.double(Flavour::Small), "t a whole number"),
    }
}

/// Within one of the pairs that rise; if none does, 0.5.
pub fn inside(random: &mut Random, knots: &[f64]) -> f64 {
    let rising: Vec<&[f64]> = knots.windows(2).filter(|pair| pair[0] < pair[1]).collect();
    let finite = |pair: &[f64]| pair[0].is_finite() && pair[1].is_finite();
    match place(random, rising.len()).map(|at| rising[at]) {
        Some(pair) if finite(pair) => mixed(random, pair[0], pair[1]),
        _ => 0.5,
    }
}
