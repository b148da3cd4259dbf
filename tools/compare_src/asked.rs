//! What a curve is asked for, whichever way it crosses: its points, tangents, length, domain and samples, against the
//! original's `Curve<f64>`, with the refusals of docs/RULES.md's table and the original's `check`.
//!
//! The original is asked only where no row of the table up to 14 applies: it trusts a finished curve, and would stop.

use crate::layouts::{not_finite, parameter};
use crate::ours;
use crate::random::Random;
use crate::records::Record;
use crate::table::{NOT_FINITE, Table, agrees_with_check, their_check_of};
use crate::tally::{Tally, hex, same};
use original::access;
use original::spline::{Curve, P2};

/// For the tally, by number.
pub const REFUSED: [&str; 17] = [
    "refused  1",
    "refused  2",
    "refused  3",
    "refused  4",
    "refused  5",
    "refused  6",
    "refused  7",
    "refused  8",
    "refused  9",
    "refused 10",
    "refused 11",
    "refused 12",
    "refused 13",
    "refused 14",
    "refused 15",
    "refused 16",
    "refused 17",
];

/// How a curve crosses.
pub enum Form<'a> {
    /// Control points, x and y in turn, and knots.
    Slices { coords: &'a [f64], knots: &'a [f64] },
    /// Two counts, a length and three slices.
    Record(&'a Record),
}

/// Calls a door that takes a record: the record first, then what else it takes.
macro_rules! record_door {
    ($record:expr, $name:ident, $($argument:expr),*) => {
        unsafe {
            ours::$name(
                $record.points,
                $record.knot_count,
                $record.length,
                $crate::asked::start(&$record.xs),
                $record.xs.len(),
                $crate::asked::start(&$record.ys),
                $record.ys.len(),
                $crate::asked::start(&$record.knots),
                $record.knots.len(),
                $($argument),*
            )
        }
    };
}

/// Calls the door of this form: the curve first, then what both doors take.
macro_rules! door {
    ($form:expr, $slices:ident, $record:ident, $($argument:expr),*) => {
        match $form {
            Form::Slices { coords, knots } => unsafe {
                ours::$slices(
                    $crate::asked::start(coords),
                    coords.len(),
                    $crate::asked::start(knots),
                    knots.len(),
                    $($argument),*
                )
            },
            Form::Record(record) => $crate::asked::record_door!(record, $record, $($argument),*),
        }
    };
}

pub(crate) use {door, record_door};

impl Form<'_> {
    pub fn tell(&self) -> String {
        match self {
            Form::Slices { coords, knots } => format!("[{}] over [{}]", hex(coords), hex(knots)),
            Form::Record(record) => record.tell(),
        }
    }
}

/// The pointer to a slice that is read: null where it is empty, as the header allows.
pub fn start(slice: &[f64]) -> *const f64 {
    match slice {
        [] => std::ptr::null(),
        _ => slice.as_ptr(),
    }
}

pub fn points(coords: &[f64]) -> Vec<[f64; 2]> {
    coords
        .chunks_exact(2)
        .map(|pair| [pair[0], pair[1]])
        .collect()
}

/// A curve that is asked after, with what is known of it beforehand.
pub struct Asked<'a> {
    pub form: Form<'a>,
    /// As many as are counted.
    knots: &'a [f64],
    pub messy: bool,
    /// The rows up to 11, and 17 of a record.
    pub table: Table,
    pub check: Option<u64>,
    /// Where none of them applies.
    curve: Option<Curve<f64>>,
}

impl<'a> Asked<'a> {
    pub fn of_slices(coords: &'a [f64], knots: &'a [f64], messy: bool) -> Self {
        let table = Table::of_curve(coords, Some(knots));
        Asked {
            form: Form::Slices { coords, knots },
            knots,
            messy,
            table,
            check: their_check_of(coords, Some(knots)),
            curve: (table.first == 0).then(|| theirs(points(coords), knots)),
        }
    }

    pub fn of_record(record: &'a Record, messy: bool) -> Self {
        let (table, knots) = (record.table(&[], false), record.counted_knots());
        Asked {
            form: Form::Record(record),
            knots,
            messy,
            table,
            check: record.check(),
            curve: (table.first == 0).then(|| theirs(record.counted_points(), knots)),
        }
    }

    /// One to three questions.
    pub fn ask(&self, random: &mut Random, tally: &mut Tally) {
        for _ in 0..1 + random.below(3) {
            match random.below(9) {
                0..4 => self.evaluate(random, tally),
                4 | 5 => self.point_tangent(random, tally),
                6 => self.length(random, tally),
                7 => self.domain(random, tally),
                _ => self.samples(random, tally),
            }
        }
    }

    /// Only to be called where no row applies.
    pub fn theirs(&self) -> &Curve<f64> {
        self.curve.as_ref().expect("accepted")
    }

    pub fn parameter(&self, random: &mut Random) -> (f64, &'static str) {
        match random.once_in(if self.messy { 4 } else { 48 }) {
            true => (not_finite(random), "t not finite"),
            false => parameter(random, self.knots),
        }
    }

    /// 0 to 4, or above.
    pub fn order(&self, random: &mut Random) -> u64 {
        match random.below(if self.messy { 4 } else { 64 }) {
            0 => above(random, 5),
            _ => random.below(5),
        }
    }

    pub fn evaluate(&self, random: &mut Random, tally: &mut Tally) {
        let (t, place) = self.parameter(random);
        let order = self.order(random);
        let mut room = Room::draw(random, 2 * (order.min(9) as usize + 1), self.messy);
        let refusal = door!(
            &self.form,
            threshdune_evaluate,
            threshdune_record_evaluate,
            t,
            order,
            room.memory.as_mut_ptr(),
            room.len
        );
        let short = (room.len as u128) < 2 * (u128::from(order) + 1);
        let table = self.table.row(12, !t.is_finite());
        let wanted = Wanted::of(table.row(13, order > 4).row(14, short), || {
            let orders = self.theirs().eval(&t, order as usize);
            vec![orders.iter().flat_map(P2::val).collect()]
        });
        if wanted.number == 0 {
            tally.kind(place);
        }
        wanted.kinds(tally, "evaluate answered");
        self.judge(tally, refusal, &wanted, &room, || {
            format!("evaluate at {} to order {order}", hex(&[t]))
        });
    }

    fn point_tangent(&self, random: &mut Random, tally: &mut Tally) {
        let (t, place) = self.parameter(random);
        let mut room = Room::draw(random, 4, self.messy);
        let refusal = door!(
            &self.form,
            threshdune_point_tangent,
            threshdune_record_point_tangent,
            t,
            room.memory.as_mut_ptr(),
            room.len
        );
        let table = self.table.row(12, !t.is_finite()).row(14, room.len < 4);
        let wanted = Wanted::of(table, || {
            let (point, tangent) = access::point_tangent(self.theirs(), t);
            vec![[point, tangent].concat()]
        });
        if wanted.number == 0 {
            tally.kind(place);
            match wanted.entries(0)[2..] {
                [1.0, 0.0] => tally.kind("unit tangent (1, 0)"),
                [0.0, 0.0] => tally.kind("unit tangent (0, 0), its length infinite"),
                _ => {}
            }
        }
        wanted.kinds(tally, "point_tangent answered");
        self.judge(tally, refusal, &wanted, &room, || {
            format!("point_tangent at {}", hex(&[t]))
        });
    }

    pub fn length(&self, random: &mut Random, tally: &mut Tally) {
        let mut room = Room::behind(random, 1);
        let refusal = door!(
            &self.form,
            threshdune_length,
            threshdune_record_length,
            room.pointer(0)
        );
        let wanted = Wanted::of(self.table, || vec![vec![self.theirs().polygon_length()]]);
        wanted.kinds_behind(tally, "length answered");
        self.judge(tally, refusal, &wanted, &room, || "length".into());
    }

    fn domain(&self, random: &mut Random, tally: &mut Tally) {
        let mut room = Room::behind(random, 2);
        let refusal = door!(
            &self.form,
            threshdune_domain,
            threshdune_record_domain,
            room.pointer(0),
            room.pointer(1)
        );
        let wanted = Wanted::of(self.table, || {
            let (first, last) = self.theirs().domain();
            vec![vec![first, last]]
        });
        wanted.kinds_behind(tally, "domain answered");
        self.judge(tally, refusal, &wanted, &room, || "domain".into());
    }

    fn samples(&self, random: &mut Random, tally: &mut Tally) {
        let per_span = match random.below(if self.messy { 4 } else { 32 }) {
            0 => above(random, 17),
            _ => random.below(17),
        };
        let rising = self.knots.windows(2).filter(|w| w[1] > w[0]).count();
        let needed = rising as u64 * per_span.min(18) + 1;
        let mut room = Room::draw(random, needed as usize, self.messy);
        let before = random.bits();
        let mut count = before;
        let refusal = door!(
            &self.form,
            threshdune_samples,
            threshdune_record_samples,
            per_span,
            room.memory.as_mut_ptr(),
            room.len,
            &mut count
        );
        let short = (room.len as u128) < rising as u128 * u128::from(per_span) + 1;
        let table = self.table.row(13, per_span > 16).row(14, short);
        let wanted = Wanted::of(table, || vec![self.theirs().samples(per_span as usize)]);
        wanted.kinds(tally, "samples answered");
        let counted = match wanted.number {
            0 => wanted.entries(0).len() as u64,
            _ => before,
        };
        let fault = (count != counted).then(|| format!("count {count}, wanted {counted}"));
        self.judge_with(tally, refusal, &wanted, &room, fault, || {
            format!("samples, {per_span} per span")
        });
    }

    fn judge(
        &self,
        tally: &mut Tally,
        refusal: u64,
        wanted: &Wanted,
        room: &Room,
        asked: impl FnOnce() -> String,
    ) {
        self.judge_with(tally, refusal, wanted, room, None, asked);
    }

    /// Counts the case; `further` is a fault in what is not in the room.
    fn judge_with(
        &self,
        tally: &mut Tally,
        refusal: u64,
        wanted: &Wanted,
        room: &Room,
        further: Option<String>,
        asked: impl FnOnce() -> String,
    ) {
        let fault = wanted
            .refusal_fault(refusal, self.check)
            .or_else(|| room.fault("out", wanted.entries(0)))
            .or(further);
        tally.case(fault.is_none(), || {
            let (asked, fault) = (asked(), fault.unwrap_or_default());
            format!("{asked}: {fault}, of {}", self.form.tell())
        });
    }
}

/// The original's curve, which has to be accepted.
fn theirs(points: Vec<[f64; 2]>, knots: &[f64]) -> Curve<f64> {
    let handles = points.into_iter().map(|[x, y]| P2::new(x, y));
    Curve::new(handles.collect(), false, Some(knots))
}

/// A number that is refused 13: the first such, one of the next, or one so large that what is counted from it wraps.
fn above(random: &mut Random, first: u64) -> u64 {
    match random.below(4) {
        0 => first + random.below(4),
        1 => u64::MAX - random.below(2),
        2 => (1 << 63) - random.below(2),
        _ => first,
    }
}

/// What has to be answered: a refusal, or the entries that are written into each buffer.
pub struct Wanted {
    pub number: u64,
    several: bool,
    buffers: Vec<Vec<f64>>,
}

impl Wanted {
    /// By the table's rows up to 14; then the original is asked, and an answer that is not finite is refused too.
    pub fn of(table: Table, original: impl FnOnce() -> Vec<Vec<f64>>) -> Self {
        let finite = |buffers: &Vec<Vec<f64>>| buffers.iter().flatten().all(|x| x.is_finite());
        Wanted::judged(table, || Some(original()).filter(finite))
    }

    /// The same with a verdict beside the answer: nothing where 15 is to be given.
    pub fn judged(table: Table, original: impl FnOnce() -> Option<Vec<Vec<f64>>>) -> Self {
        let several = table.several;
        if table.first != 0 {
            return Wanted {
                number: table.first,
                several,
                buffers: Vec::new(),
            };
        }
        let answer = original();
        Wanted {
            number: if answer.is_some() { 0 } else { NOT_FINITE },
            several,
            buffers: answer.unwrap_or_default(),
        }
    }

    /// None, if there is a refusal.
    pub fn entries(&self, buffer: usize) -> &[f64] {
        self.buffers.get(buffer).map_or(&[], |entries| entries)
    }

    pub fn kinds(&self, tally: &mut Tally, answered: &'static str) {
        if self.several {
            tally.kind("several refusals apply");
        }
        if self.number != 0 {
            tally.kind(REFUSED[self.number as usize - 1]);
            return;
        }
        tally.kind(answered);
        let entries = || self.buffers.iter().flatten();
        if entries().any(|x| x.to_bits() == 1 << 63) {
            tally.kind("answers with a -0.0");
        }
        if entries().any(|x| x.is_subnormal()) {
            tally.kind("answers with a subnormal");
        }
    }

    /// The same where the answer goes through pointers.
    pub fn kinds_behind(&self, tally: &mut Tally, answered: &'static str) {
        self.kinds(tally, answered);
        if self.number != 0 {
            tally.kind("refused, with pointers for the answer");
        }
    }

    pub fn refusal_fault(&self, refusal: u64, check: Option<u64>) -> Option<String> {
        if refusal != self.number {
            return Some(format!("refusal {refusal}, wanted {}", self.number));
        }
        let theirs = check.unwrap_or_default();
        let fault = format!("refusal {refusal}, but the original's check has {theirs}");
        (!agrees_with_check(refusal, check)).then_some(fault)
    }
}

/// Lent for an answer, with rubbish in it and behind its end.
pub struct Room {
    seed: u64,
    /// Those of its bits that are 1 in all the rubbish.
    ones: u64,
    pub memory: Vec<f64>,
    pub len: usize,
}

/// With these bits a double is a NaN, whatever the others are.
const NAN: u64 = 0x7FF0_0000_0000_0001;

impl Room {
    pub fn draw(random: &mut Random, needed: usize, messy: bool) -> Self {
        let len = match random.below(if messy { 10 } else { 32 }) {
            0 => needed.saturating_sub(1),
            1 => 0,
            2 => random.below(needed as u64 + 1) as usize,
            3..5 => needed + 1 + random.below(6) as usize,
            _ => needed,
        };
        Room::of(random.bits(), 0, len)
    }

    /// What lies behind so many pointers: a NaN each, with bits of its own. An answer that was not written shows, and so does a
    /// write where there is none.
    pub fn behind(random: &mut Random, pointers: usize) -> Self {
        Room::of(random.bits(), NAN, pointers)
    }

    fn of(seed: u64, ones: u64, len: usize) -> Self {
        let memory = (0..len + 4).map(|k| rubbish(seed, ones, k)).collect();
        Room {
            seed,
            ones,
            memory,
            len,
        }
    }

    /// To entry k; those of two calls may both be kept.
    pub fn pointer(&mut self, k: usize) -> *mut f64 {
        self.memory.as_mut_ptr().wrapping_add(k)
    }

    /// The entries come first, and all that lies after them is as it was, to the bit.
    pub fn fault(&self, name: &str, entries: &[f64]) -> Option<String> {
        let found = &self.memory;
        let differs = |k: &usize| !same(found[*k], entries[*k]);
        if let Some(k) = (0..entries.len()).find(differs) {
            let (found, wanted) = (hex(&[found[k]]), hex(&[entries[k]]));
            return Some(format!("entry {k} of {name} is {found}, wanted {wanted}"));
        }
        let touched =
            |k: &usize| found[*k].to_bits() != rubbish(self.seed, self.ones, *k).to_bits();
        let k = (entries.len()..found.len()).find(touched)?;
        let len = self.len;
        Some(format!("entry {k} of {name}, {len} long, has been written"))
    }
}

/// What lies at k before the call.
fn rubbish(seed: u64, ones: u64, k: usize) -> f64 {
    f64::from_bits((seed ^ k as u64).wrapping_mul(0x9E37_79B9_7F4A_7C15) | ones)
}
