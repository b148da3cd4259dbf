//! A curve asked for its points at many parameters in one call, in slices or as a record. Each parameter is a case: its refusal and
//! its place, against the original's `eval`. So is each call: its own refusal, and that nothing else has been written, to the bit.

use crate::asked::{Asked, Form, REFUSED, Room, door, start};
use crate::layouts::Layout;
use crate::ours;
use crate::random::Random;
use crate::records::Record;
use crate::table::{NOT_FINITE, agrees_with_check};
use crate::tally::{Tally, hex, same};
use original::spline::P2;

/// The most parameters of a call.
const MOST: u64 = 24;

pub fn run(random: &mut Random, rounds: u64) -> Tally {
    let mut tally = Tally::default();
    for _ in 0..rounds {
        let messy = random.once_in(8);
        if random.once_in(2) {
            let record = Record::draw(random, messy);
            ask(&Asked::of_record(&record, messy), random, &mut tally);
        } else {
            let mut layout = Layout::draw(random);
            let damages = match random.below(16) {
                _ if messy => 1 + random.below(3),
                0 => 1,
                _ => 0,
            };
            (0..damages).for_each(|_| layout.damage(random));
            let asked = Asked::of_slices(&layout.coords, &layout.knots, messy);
            ask(&asked, random, &mut tally);
        }
    }
    tally
}

/// What the call was given, and what it left.
struct Call {
    ts: Vec<f64>,
    order: u64,
    room: Room,
    before: Vec<f64>,
    refusals: Vec<u64>,
    refusals_before: Vec<u64>,
    refusals_len: usize,
    refusal: u64,
}

impl Call {
    fn made(asked: &Asked, random: &mut Random) -> Self {
        let many = match random.below(16) {
            0 => 0,
            1 => 1,
            _ => random.below(MOST + 1),
        };
        let ts: Vec<f64> = (0..many).map(|_| asked.parameter(random).0).collect();
        let order = asked.order(random);
        let width = 2 * (order.min(9) as usize + 1);
        let mut room = Room::draw(random, ts.len() * width, asked.messy);
        let before = room.memory.clone();
        let refusals_len = match random.below(if asked.messy { 6 } else { 32 }) {
            0 => ts.len().saturating_sub(1),
            1 => ts.len() + 1 + random.below(6) as usize,
            _ => ts.len(),
        };
        let refusals_before: Vec<u64> = (0..refusals_len + 4).map(|_| random.bits()).collect();
        let mut refusals = refusals_before.clone();
        let refusal = door!(
            &asked.form,
            threshdune_evaluate_many,
            threshdune_record_evaluate_many,
            start(&ts),
            ts.len(),
            order,
            room.memory.as_mut_ptr(),
            room.len,
            refusals.as_mut_ptr(),
            refusals_len
        );
        Call {
            ts,
            order,
            room,
            before,
            refusals,
            refusals_before,
            refusals_len,
            refusal,
        }
    }

    fn width(&self) -> usize {
        2 * (self.order as usize + 1)
    }

    /// Where 14 is to be given.
    fn short(&self) -> bool {
        let needed = self.ts.len() as u128 * 2 * (u128::from(self.order) + 1);
        (self.room.len as u128) < needed || self.refusals_len < self.ts.len()
    }

    /// Something written past the first so many entries of each slice.
    fn touched_from(&self, entry: usize, refusal: usize) -> Option<String> {
        let touched = |k: &usize| self.room.memory[*k].to_bits() != self.before[*k].to_bits();
        if let Some(k) = (entry..self.before.len()).find(touched) {
            return Some(format!("entry {k} of {} has been written", self.room.len));
        }
        let touched = |k: &usize| self.refusals[*k] != self.refusals_before[*k];
        let k = (refusal..self.refusals.len()).find(touched)?;
        Some(format!(
            "refusal {k} of {} has been written",
            self.refusals_len
        ))
    }

    /// What is wrong at parameter k, of which this is wanted: numbers, or a refusal.
    fn fault_at(&self, k: usize, wanted: Result<&[f64], u64>) -> Option<String> {
        let (number, found) = (wanted.err().unwrap_or(0), self.refusals[k]);
        if found != number {
            return Some(format!("refusal {found}, wanted {number}"));
        }
        let from = k * self.width();
        let entry = |j: &usize| match wanted {
            Ok(numbers) => !same(self.room.memory[from + *j], numbers[*j]),
            Err(_) => self.room.memory[from + *j].to_bits() != self.before[from + *j].to_bits(),
        };
        let j = (0..self.width()).find(entry)?;
        Some(format!(
            "entry {j} is {}",
            hex(&[self.room.memory[from + j]])
        ))
    }
}

fn ask(asked: &Asked, random: &mut Random, tally: &mut Tally) {
    let call = Call::made(asked, random);
    let table = asked.table.row(13, call.order > 4).row(14, call.short());
    if table.several {
        tally.kind("several refusals apply");
    }
    let fault = if call.refusal != table.first {
        Some(format!("refusal {}, wanted {}", call.refusal, table.first))
    } else if !agrees_with_check(call.refusal, asked.check) {
        Some(format!(
            "refusal {}, but not the original's check",
            call.refusal
        ))
    } else if table.first != 0 {
        tally.kind(REFUSED[table.first as usize - 1]);
        call.touched_from(0, 0)
    } else {
        tally.kind(if call.ts.is_empty() {
            "calls without parameters"
        } else {
            "calls answered"
        });
        each(asked, &call, tally);
        call.touched_from(call.ts.len() * call.width(), call.ts.len())
    };
    tally.case(fault.is_none(), || {
        let (fault, order) = (fault.unwrap_or_default(), call.order);
        format!(
            "evaluate_many to order {order}: {fault}, of {}",
            asked.form.tell()
        )
    });
}

/// Every parameter of a call that was answered.
fn each(asked: &Asked, call: &Call, tally: &mut Tally) {
    for (k, &t) in call.ts.iter().enumerate() {
        let numbers: Vec<f64> = match t.is_finite() {
            true => asked
                .theirs()
                .eval(&t, call.order as usize)
                .iter()
                .flat_map(P2::val)
                .collect(),
            false => Vec::new(),
        };
        let wanted = if !t.is_finite() {
            Err(12)
        } else if numbers.iter().any(|x| !x.is_finite()) {
            Err(NOT_FINITE)
        } else {
            Ok(&numbers[..])
        };
        tally.kind(match wanted {
            Ok(_) => "parameters answered",
            Err(12) => "parameters refused 12",
            Err(_) => "parameters refused 15",
        });
        let fault = call.fault_at(k, wanted);
        tally.case(fault.is_none(), || {
            let (fault, order) = (fault.unwrap_or_default(), call.order);
            format!(
                "parameter {k}, {}, to order {order}: {fault}, of {}",
                hex(&[t]),
                asked.form.tell()
            )
        });
    }
}
