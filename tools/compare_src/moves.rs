//! One control point of a record moved, against the points with that one exchanged and the original's `polygon_length` of them. What a
//! move answers is a record again: it is asked after, and sometimes a point of it is moved too.

use crate::asked::{Asked, Form, Room, Wanted, door, record_door};
use crate::closest::Drawn;
use crate::judge::polygon_length;
use crate::layouts::{not_finite, stepped};
use crate::ours;
use crate::random::{Flavour, Random};
use crate::records::Record;
use crate::tally::{Tally, hex, same};

pub fn run(random: &mut Random, rounds: u64) -> Tally {
    let mut tally = Tally::default();
    for _ in 0..rounds {
        // in a messy round more than one thing is wrong, so that the order of the refusals shows
        let messy = random.once_in(8);
        let record = match random.once_in(2) {
            true => Record::draw(random, messy),
            false => {
                let drawn = Drawn::draw_damaged(random, messy);
                tally.kind(drawn.kind);
                Record::holding(random, &drawn.layout.coords, &drawn.layout.knots)
            }
        };
        record.kinds(&mut tally);
        chain(&record, messy, random, &mut tally);
    }
    tally
}

/// What a build wrote, of so many control points, kept as a record: the length that `threshdune_length` has of it is the one to store,
/// and the one that `threshdune_record_length` answers. Seldom points of it are moved.
pub fn of_built(
    points: usize,
    [control, knots]: [&Room; 2],
    random: &mut Random,
    tally: &mut Tally,
) {
    let (coords, knots) = (&control.memory[..2 * points], &knots.memory[..points + 4]);
    let mut record = Record::of(coords, knots);
    let sum = record.length;
    let [mut length, mut answer] = [f64::NAN; 2];
    let built = Form::Slices { coords, knots };
    let told = door!(
        &built,
        threshdune_length,
        threshdune_record_length,
        &mut length
    );
    record.length = length;
    let kept = record_door!(record, threshdune_record_length, &mut answer);
    tally.kind("a built curve kept as a record");
    let right = [length, answer].map(f64::to_bits) == [sum.to_bits(); 2];
    tally.case(right && [told, kept] == [0; 2], || {
        let lengths = hex(&[length, answer]);
        format!(
            "lengths {lengths}, refusals {told} and {kept}, of {}",
            record.tell()
        )
    });
    if random.once_in(16) {
        chain(&record, false, random, tally);
    }
}

/// Moves a point, and while that is answered perhaps another.
fn chain(record: &Record, messy: bool, random: &mut Random, tally: &mut Tally) {
    let mut next = ask(record, messy, random, tally);
    while let Some(moved) = next.filter(|_| random.once_in(2)) {
        tally.kind("moved again");
        next = ask(&moved, messy, random, tally);
    }
}

/// One move, and two questions about the record that it answers.
fn ask(record: &Record, messy: bool, random: &mut Random, tally: &mut Tally) -> Option<Record> {
    let (index, which) = index(random, record.points, messy);
    let (point, place) = point(random, &record.counted_points(), index, messy);
    let needed = record.points.min(70) as usize;
    let [mut xs, mut ys] = [(); 2].map(|_| Room::draw(random, needed, messy));
    let mut length = Room::behind(random, 1);
    let refusal = record_door!(
        record,
        threshdune_record_move,
        index,
        point[0],
        point[1],
        xs.memory.as_mut_ptr(),
        xs.len,
        ys.memory.as_mut_ptr(),
        ys.len,
        length.pointer(0)
    );
    let short = (xs.len.min(ys.len) as u64) < record.points;
    let counted = index < record.points;
    let wanted = Wanted::of(record.table(&point, !counted).row(14, short), || {
        let mut points = record.counted_points();
        points[index as usize] = point;
        let [xs, ys] = [0, 1].map(|c: usize| points.iter().map(|p| p[c]).collect());
        vec![xs, ys, vec![polygon_length(&points)]]
    });
    wanted.kinds_behind(tally, "moves answered");
    if wanted.number == 0 || wanted.number == 17 && !counted {
        tally.kind(which);
    }
    if wanted.number == 0 {
        tally.kind(place);
        if same(record.length, wanted.entries(2)[0]) {
            tally.kind("the length as it was");
        }
    }
    let fault = wanted
        .refusal_fault(refusal, record.check())
        .or_else(|| xs.fault("xs", wanted.entries(0)))
        .or_else(|| ys.fault("ys", wanted.entries(1)))
        .or_else(|| length.fault("the length", wanted.entries(2)));
    tally.case(fault.is_none(), || {
        let (to, fault) = (hex(&point), fault.unwrap_or_default());
        format!(
            "point {index} moved to [{to}]: {fault}, of {}",
            record.tell()
        )
    });
    let answered = wanted.number == 0 && refusal == 0;
    answered.then(|| {
        let moved = record.moved(&xs.memory[..xs.len], &ys.memory[..ys.len], length.memory[0]);
        let asked = Asked::of_record(&moved, false);
        asked.length(random, tally);
        asked.evaluate(random, tally);
        moved
    })
}

/// Which point, and what is to be counted of that: mostly one that is there.
fn index(random: &mut Random, points: u64, messy: bool) -> (u64, &'static str) {
    let counted = random.below(points);
    match random.below(if messy { 20 } else { 64 }) {
        0 => (points, "index equal to the count"),
        1 => (
            points.saturating_add(1 + random.below(8)),
            "index above the count",
        ),
        2 => (
            counted.saturating_add(1 << (8 + random.below(56))),
            "index above by a power of 2",
        ),
        3 => (u64::MAX - random.below(4), "index huge"),
        4..8 => (0, "index of the first point"),
        8..12 => (points.saturating_sub(1), "index of the last point"),
        _ => (counted, "index of any point"),
    }
}

/// Where to, and what is to be counted of that.
fn point(
    random: &mut Random,
    points: &[[f64; 2]],
    index: u64,
    messy: bool,
) -> ([f64; 2], &'static str) {
    let at = |k: u64| points.get(k as usize).copied().unwrap_or([1.0, -2.0]);
    let old = at(index);
    if random.once_in(if messy { 4 } else { 32 }) {
        let mut point = old;
        point[random.below(2) as usize] = not_finite(random);
        return (point, "moved to what is not finite");
    }
    let kind = random.below(16);
    let mut both = |one: &mut dyn FnMut(&mut Random) -> f64| [one(random), one(random)];
    match kind {
        0 => (old, "moved to where it is"),
        1 => (old.map(|x| -x), "moved to the other side of 0"),
        2 => {
            let beside = |x: f64| stepped(x, random.within(-4, 4));
            (old.map(beside), "moved by a few steps")
        }
        3 => (at(index.wrapping_add(1)), "moved to the next point"),
        4 => (
            at(random.below(points.len() as u64)),
            "moved to a point of the curve",
        ),
        5 => (
            both(&mut |r| r.of_exponents(1000, 1023)),
            "moved to huge numbers",
        ),
        6 | 7 => (
            both(&mut |r| r.of_exponents(508, 512)),
            "moved to about 1e154",
        ),
        8 => (both(&mut |r| r.subnormal()), "moved to subnormal numbers"),
        9 => (
            both(&mut |r| r.double(Flavour::Far)),
            "moved to numbers far apart",
        ),
        10 | 11 => (
            both(&mut |r| r.double(Flavour::Small)),
            "moved to small numbers",
        ),
        _ => (
            both(&mut |r| r.of_exponents(-8, 8)),
            "moved to ordinary numbers",
        ),
    }
}
