//! Curves that cross as records: two counts, which may be any numbers, the length of the control polygon, and three slices, of which as
//! much is read as a record has room for. A sound record is drawn, mostly with rubbish past its counts; then some are damaged. What they
//! are asked is in `asked`.

use crate::asked::{Asked, points};
use crate::judge::polygon_length;
use crate::layouts::Layout;
use crate::random::Random;
use crate::table::{Table, their_check};
use crate::tally::{Tally, hex};

/// The room for coordinates and for knots.
const POINTS: usize = 66;
const KNOTS: usize = 70;

/// Stands for a list of knots that no record has room for: the original's `check` asks for its length alone.
const TOO_MANY: [f64; KNOTS + 1] = [0.0; KNOTS + 1];

pub fn run(random: &mut Random, rounds: u64) -> Tally {
    let mut tally = Tally::default();
    for _ in 0..rounds {
        // in a messy round more than one thing is wrong, so that the order of the refusals shows
        let messy = random.once_in(8);
        let record = Record::draw(random, messy);
        record.kinds(&mut tally);
        Asked::of_record(&record, messy).ask(random, &mut tally);
    }
    tally
}

#[derive(Clone)]
pub struct Record {
    pub points: u64,
    pub knot_count: u64,
    pub length: f64,
    pub xs: Vec<f64>,
    pub ys: Vec<f64>,
    pub knots: Vec<f64>,
    /// The knots as they are read.
    read_knots: Vec<f64>,
    /// Why 17 is given of its length, where it is.
    unlike: &'static str,
}

impl Record {
    pub fn draw(random: &mut Random, messy: bool) -> Self {
        let mut layout = Layout::draw(random);
        let damages = match random.below(4) {
            _ if messy => 1 + random.below(3),
            0 => 1,
            _ => 0,
        };
        let [mut counts_too, mut length_too] = [false; 2];
        for _ in 0..damages {
            match random.below(4) {
                0 => counts_too = true,
                1 => length_too = true,
                _ => layout.damage(random),
            }
        }
        let mut record = Record::holding(random, &layout.coords, &layout.knots);
        if counts_too {
            damage_counts(random, &mut record);
            record.measure();
        }
        if length_too {
            damage_length(random, &mut record);
        }
        record
    }

    /// A curve that stands in slices, and nothing after its numbers.
    pub fn of(coords: &[f64], knots: &[f64]) -> Self {
        let every_other = |from: usize| coords.iter().skip(from).step_by(2).copied();
        let (xs, ys): (Vec<f64>, Vec<f64>) = (every_other(0).collect(), every_other(1).collect());
        let mut record = Record {
            points: xs.len() as u64,
            knot_count: knots.len() as u64,
            length: 0.0,
            xs,
            ys,
            knots: knots.to_vec(),
            read_knots: room(knots, KNOTS),
            unlike: "",
        };
        record.measure();
        record
    }

    /// The same with what follows its numbers by chance, and seldom another length.
    pub fn holding(random: &mut Random, coords: &[f64], knots: &[f64]) -> Self {
        let mut record = Record::of(coords, knots);
        extend(random, &mut record.xs, POINTS);
        extend(random, &mut record.ys, POINTS);
        extend(random, &mut record.knots, KNOTS);
        record.read_knots = room(&record.knots, KNOTS);
        record.measure();
        if random.once_in(32) {
            damage_length(random, &mut record);
        }
        record
    }

    /// With these coordinates and this length, over the same knots.
    pub fn moved(&self, xs: &[f64], ys: &[f64], length: f64) -> Self {
        Record {
            length,
            xs: xs.to_vec(),
            ys: ys.to_vec(),
            ..self.clone()
        }
    }

    /// The first so many control points, of those that there is room for.
    fn first_points(&self, count: u64) -> Vec<[f64; 2]> {
        let (xs, ys) = (room(&self.xs, POINTS), room(&self.ys, POINTS));
        let pairs = xs.into_iter().zip(ys).map(|(x, y)| [x, y]);
        pairs.take(count as usize).collect()
    }

    /// As many as are counted.
    pub fn counted_points(&self) -> Vec<[f64; 2]> {
        self.first_points(self.points)
    }

    /// The length that it has to store.
    fn sum(&self) -> f64 {
        polygon_length(&self.counted_points())
    }

    fn measure(&mut self) {
        self.length = self.sum();
        self.unlike = "17 as the sum is not finite";
    }

    /// The rows 2 to 11 and 17: row 11 judges these numbers too, and row 17 applies also where `further` says so.
    pub fn table(&self, numbers: &[f64], further: bool) -> Table {
        let coords = self.counted_points().concat();
        let unlike = !self.length.is_finite() || self.length.to_bits() != self.sum().to_bits();
        Table::of_record(
            [self.points, self.knot_count],
            self.counted_knots(),
            &[&coords, numbers].concat(),
            unlike || further,
        )
    }

    /// What the original's `check` says of it.
    pub fn check(&self) -> Option<u64> {
        their_check(self.points, Some(self.listed_knots()))
    }

    pub fn counted_knots(&self) -> &[f64] {
        &self.read_knots[..self.knot_count.min(KNOTS as u64) as usize]
    }

    /// The same where there is room for them all, and else a list that is longer than the room.
    fn listed_knots(&self) -> &[f64] {
        match self.knot_count <= KNOTS as u64 {
            true => self.counted_knots(),
            false => &TOO_MANY,
        }
    }

    pub fn kinds(&self, tally: &mut Tally) {
        if self.table(&[], false).first == 17 {
            let zeros = [self.sum(), self.length].map(f64::to_bits) == [0, 1 << 63];
            tally.kind(match zeros {
                true => "17 for -0.0 where the sum is +0.0",
                false => self.unlike,
            });
        }
        let slices = [
            (&self.xs, self.points, POINTS),
            (&self.ys, self.points, POINTS),
            (&self.knots, self.knot_count, KNOTS),
        ];
        let any = |test: fn(usize, u64, usize) -> bool| {
            let mut each = slices.iter();
            each.any(|(slice, count, room)| test(slice.len(), *count, *room))
        };
        if any(|len, count, _| count > len as u64) {
            tally.kind("numbers missing that are counted");
        }
        if any(|len, count, room| count < len.min(room) as u64) {
            tally.kind("rubbish past a count");
        }
        if any(|len, _, room| len > room) {
            tally.kind("a slice longer than the room");
        }
        if any(|_, count, room| count > room as u64) {
            tally.kind("a count above the room");
        }
        if self.points.checked_add(4) != Some(self.knot_count) {
            tally.kind("counts that do not match");
        }
    }

    pub fn tell(&self) -> String {
        let [xs, ys, knots] = [&self.xs, &self.ys, &self.knots].map(|list| hex(list));
        let (points, knot_count, length) = (self.points, self.knot_count, hex(&[self.length]));
        format!("the record {points} {knot_count} {length} [{xs}] [{ys}] [{knots}]")
    }
}

/// What the header says is read of a slice: its first numbers, and +0.0 past its end.
fn room(slice: &[f64], long: usize) -> Vec<f64> {
    let at = |k: usize| slice.get(k).copied().unwrap_or(0.0);
    (0..long).map(at).collect()
}

/// Puts as many numbers after these as chance has: none, some, as many as the room takes, or more. Rarely some are missing.
fn extend(random: &mut Random, numbers: &mut Vec<f64>, room: usize) {
    let len = numbers.len();
    let to = match random.below(32) {
        0 => random.below(len as u64 + 1) as usize,
        1..10 => len,
        10..18 => len + random.below(room as u64) as usize,
        18..26 => len.max(room),
        _ => len.max(room) + 1 + random.below(8) as usize,
    };
    numbers.resize_with(to, || match random.once_in(2) {
        true => random.any(),
        false => random.special(),
    });
}

/// Another length than the sum, unless chance has the two equal.
fn damage_length(random: &mut Random, record: &mut Record) {
    let sum = record.sum();
    let of_points = |count: u64| polygon_length(&record.first_points(count));
    let from_the_far_end = || {
        let mut points = record.counted_points();
        points.reverse();
        polygon_length(&points)
    };
    (record.length, record.unlike) = match random.below(16) {
        0..3 => (f64::from_bits(sum.to_bits() ^ 1), "17 for a last bit"),
        3 => (random.beside(sum, 4), "17 for a few steps"),
        4 => (0.0, "17 for +0.0"),
        5 | 6 => (-0.0, "17 for -0.0"),
        7 => (-sum, "17 for the negative"),
        8 => (f64::NAN.copysign(random.any()), "17 for a NaN"),
        9 => (f64::INFINITY.copysign(random.any()), "17 for an infinity"),
        10 => {
            let other = points(&Layout::draw(random).coords);
            (polygon_length(&other), "17 for another curve's length")
        }
        11 => (
            of_points(record.points.saturating_sub(1)),
            "17 for an edge too few",
        ),
        12 => (
            of_points(record.points.saturating_add(1)),
            "17 for an edge too many",
        ),
        13 | 14 => (from_the_far_end(), "17 for the sum from the far end"),
        _ => (random.any(), "17 for any number"),
    };
}

/// One of the counts, or both alike.
fn damage_counts(random: &mut Random, record: &mut Record) {
    let count = |random: &mut Random, near: u64| match random.below(16) {
        n @ 0..5 => n,
        5 | 6 => near.saturating_sub(1),
        7 | 8 => near + 1,
        9 => random.below(72),
        10 => 66 + random.below(6),
        11 => u64::MAX - random.below(6),
        12 => (1 << 63) + near,
        13 => (1 << 32) + near,
        14 => 256 + near,
        _ => random.bits(),
    };
    match random.below(3) {
        0 => record.points = count(random, record.points),
        1 => record.knot_count = count(random, record.knot_count),
        _ => {
            record.points = count(random, record.points);
            record.knot_count = record.points.wrapping_add(4);
        }
    }
}
