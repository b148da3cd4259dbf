//! Many points searched for on one curve in one call, in slices or as a record. Each point is a case: its refusal and its place, against
//! the original with its one `hypot` replaced, as in `closest`. So is each call: its own refusal, and that nothing else has been written.

use crate::asked::{Form, REFUSED, Room, door, start};
use crate::closest::{Drawn, Search};
use crate::layouts::{Layout, not_finite};
use crate::ours;
use crate::random::Random;
use crate::records::Record;
use crate::table::{NOT_FINITE, agrees_with_check};
use crate::tally::{Tally, hex, same};

/// The most points of a call.
const MOST: u64 = 12;

pub fn run(random: &mut Random, rounds: u64) -> Tally {
    let mut tally = Tally::default();
    for _ in 0..rounds {
        let messy = random.once_in(8);
        let drawn = Drawn::draw_damaged(random, messy);
        let many = match random.below(16) {
            0 => 0,
            1 => 1,
            _ => random.below(MOST + 1),
        };
        let mark = |random: &mut Random| {
            let (mut point, _) = drawn.point(random);
            if random.once_in(if messy { 4 } else { 24 }) {
                point[random.below(2) as usize] = not_finite(random);
            }
            point
        };
        let mut marks: Vec<f64> = (0..many).flat_map(|_| mark(random)).collect();
        if random.once_in(if messy { 6 } else { 48 }) {
            marks.push(random.of_exponents(-8, 8));
        }
        let Layout { coords, knots, .. } = &drawn.layout;
        let record = Record::holding(random, coords, knots);
        let of = |point: [f64; 2]| match &record {
            _ if messy => Search::of_slices(coords, knots, point),
            record if many % 4 == 0 => Search::of_record(record, point),
            _ => Search::of_slices(coords, knots, point),
        };
        ask(of, &marks, messy, random, &mut tally);
    }
    tally
}

/// One call, and each of its points by itself.
fn ask<'a>(
    of: impl Fn([f64; 2]) -> Search<'a>,
    marks: &[f64],
    messy: bool,
    random: &mut Random,
    tally: &mut Tally,
) {
    let count = marks.len() / 2;
    let curve = of([0.0; 2]);
    let mut room = Room::draw(random, count, messy);
    let before = room.memory.clone();
    let refusals_len = match random.below(if messy { 6 } else { 32 }) {
        0 => count.saturating_sub(1),
        1 => count + 1 + random.below(6) as usize,
        _ => count,
    };
    let refusals_before: Vec<u64> = (0..refusals_len + 4).map(|_| random.bits()).collect();
    let mut refusals = refusals_before.clone();
    let refusal = door!(
        &curve.form,
        threshdune_closest_many,
        threshdune_record_closest_many,
        start(marks),
        marks.len(),
        room.memory.as_mut_ptr(),
        room.len,
        refusals.as_mut_ptr(),
        refusals_len
    );
    let short = room.len < count || refusals_len < count;
    let wanted = match marks.len() % 2 {
        1 => 1,
        _ => curve.table.row(14, short).first,
    };
    let written = |entries: usize, numbers: usize| {
        let entry = |k: &usize| room.memory[*k].to_bits() != before[*k].to_bits();
        let number = |k: &usize| refusals[*k] != refusals_before[*k];
        let first = (entries..before.len()).find(entry);
        let told = first.map(|k| format!("entry {k} has been written"));
        told.or_else(|| {
            let k = (numbers..refusals.len()).find(number)?;
            Some(format!("refusal {k} has been written"))
        })
    };
    let checked = marks.len() % 2 == 1 || agrees_with_check(refusal, curve.check);
    let fault = if refusal != wanted {
        Some(format!("refusal {refusal}, wanted {wanted}"))
    } else if !checked {
        Some(format!("refusal {refusal}, but not the original's check"))
    } else if wanted != 0 {
        tally.kind(REFUSED[wanted as usize - 1]);
        written(0, 0)
    } else {
        tally.kind(match (count, &curve.form) {
            (0, _) => "calls without points",
            (_, Form::Record(_)) => "calls answered of a record",
            _ => "calls answered",
        });
        for (k, pair) in marks.chunks_exact(2).enumerate() {
            let search = of([pair[0], pair[1]]);
            let fault = at(&search, refusals[k], room.memory[k], before[k], tally);
            tally.case(fault.is_none(), || {
                let fault = fault.unwrap_or_default();
                format!(
                    "point {k}, [{}]: {fault}, on {}",
                    hex(pair),
                    search.form.tell()
                )
            });
        }
        written(count, count)
    };
    tally.case(fault.is_none(), || {
        let fault = fault.unwrap_or_default();
        format!("closest_many of {count}: {fault}, on {}", curve.form.tell())
    });
}

/// What is wrong at one point of a call that was answered.
fn at(search: &Search, number: u64, found: f64, before: f64, tally: &mut Tally) -> Option<String> {
    let theirs = match search.table.first {
        0 => search.theirs().ok_or(NOT_FINITE),
        row => Err(row),
    };
    tally.kind(match &theirs {
        Ok(_) => "points answered",
        Err(NOT_FINITE) => "points refused 15",
        Err(_) => "points refused 11",
    });
    let wanted = theirs.as_ref().err().copied().unwrap_or(0);
    let right = match &theirs {
        Ok(entries) => same(found, entries[0][0]),
        Err(_) => found.to_bits() == before.to_bits(),
    };
    if number != wanted {
        Some(format!("refusal {number}, wanted {wanted}"))
    } else if !right {
        Some(format!("{} in its place", hex(&[found])))
    } else {
        None
    }
}
