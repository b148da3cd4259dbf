//! What is lent to a function that takes or answers values with partials: slices cut from larger
//! memory, with rubbish wherever the header says that nothing is read.

use crate::random::{Flavour, Random};
use crate::tally::{Tally, hex, same};
use original::spline::Dv;

/// A value and its 27 partials.
pub const WIDTH: usize = 28;
/// The refusal for want of room.
pub const NO_ROOM: u64 = 14;

const MOST: u64 = 27;

/// How many numbers and counts lie about for so many values: some more than they need.
fn memory(values: usize) -> usize {
    (values * WIDTH + 16).max(72)
}

fn counts(values: usize) -> usize {
    values.max(2) + 2
}

/// One value with partials, or several side by side (two are a vector), lent for reading.
#[derive(Clone)]
pub struct Lent {
    values: usize,
    memory: Vec<f64>,
    len: usize,
    counts: Vec<u64>,
    counts_len: usize,
}

impl Lent {
    pub fn draw(random: &mut Random, flavour: Flavour, values: usize) -> Self {
        let mut lent = Lent {
            values,
            memory: (0..memory(values)).map(|_| random.any()).collect(),
            len: length(random, values * WIDTH, memory(values)),
            counts: (0..counts(values)).map(|_| count(random)).collect(),
            counts_len: values,
        };
        if values > 1 && random.once_in(16) {
            lent.counts_len = random.below(counts(values) as u64 + 1) as usize;
        }
        for value in 0..values {
            let counted = lent.counts[value].min(MOST) as usize;
            let start = value * WIDTH;
            for entry in &mut lent.memory[start..=start + counted] {
                *entry = random.double(flavour);
            }
        }
        if values == 1 && random.once_in(4) {
            // no more than what is counted
            lent.len = 1 + lent.counts[0].min(MOST) as usize;
        }
        lent
    }

    /// The same bits, and sometimes another count: some of the rubbish is then counted, or less of the rest.
    pub fn again(&self, random: &mut Random) -> Self {
        let mut again = self.clone();
        if random.once_in(2) {
            again.counts[0] = count(random);
        }
        again
    }

    /// None of them has partials.
    pub fn without_partials(mut self) -> Self {
        self.counts.fill(0);
        self
    }

    pub fn set_entry(&mut self, k: usize, to: f64) {
        self.memory[k] = to;
    }

    pub fn slice(&self) -> &[f64] {
        &self.memory[..self.len]
    }

    pub fn counts(&self) -> &[u64] {
        &self.counts[..self.counts_len]
    }

    /// As a lone value goes: its one count beside it.
    pub fn count(&self) -> u64 {
        self.counts[0]
    }

    /// What the header says this is: past the slice +0.0, a missing count 0, a count above 27 as 27.
    pub fn read(&self, value: usize) -> Dv {
        let at = |k: usize| self.slice().get(value * WIDTH + k).copied().unwrap_or(0.0);
        Dv {
            v: at(0),
            g: (1..=self.counted(value)).map(at).collect(),
        }
    }

    fn counted(&self, value: usize) -> usize {
        self.counts().get(value).map_or(0, |&count| count.min(MOST)) as usize
    }

    /// Counts what is out of the ordinary about it.
    pub fn kinds(&self, tally: &mut Tally) {
        if self
            .counts()
            .iter()
            .take(self.values)
            .any(|&count| count > MOST)
        {
            tally.kind("a count above 27");
        }
        if self.counts_len < self.values {
            tally.kind("a missing count");
        }
        if (0..self.values).any(|i| self.len <= i * WIDTH + self.counted(i)) {
            tally.kind("a slice that ends before what is counted");
        }
    }

    pub fn tell(&self) -> String {
        let value = |i: usize| {
            let Dv { v, g } = self.read(i);
            format!("[{}; {}]", hex(&[v]), hex(&g))
        };
        let values: Vec<String> = (0..self.values).map(value).collect();
        format!(
            "{} (length {}, counts {:?})",
            values.join(" "),
            self.len,
            self.counts()
        )
    }
}

/// Mostly of 0 to 27; else above, up to the largest.
fn count(random: &mut Random) -> u64 {
    match random.below(16) {
        0 => MOST + random.below(4),
        1 => {
            let shift = random.below(64);
            random.bits() >> shift
        }
        2 => u64::MAX,
        3 => 0,
        _ => random.below(MOST + 1),
    }
}

/// Mostly as long as needed; else anything that the memory holds.
fn length(random: &mut Random, needed: usize, memory: usize) -> usize {
    match random.below(8) {
        0 => random.below(memory as u64 + 1) as usize,
        1 => needed + random.below(3) as usize - 1,
        _ => needed,
    }
}

/// Lent for the answer: one value with partials and its count, or several.
pub struct Room {
    values: usize,
    before: Vec<f64>,
    counts_before: Vec<u64>,
    pub out: Vec<f64>,
    pub out_len: usize,
    pub counts: Vec<u64>,
    pub counts_len: usize,
}

impl Room {
    pub fn draw(random: &mut Random, values: usize) -> Self {
        let before: Vec<f64> = (0..memory(values)).map(|_| random.any()).collect();
        let counts_before: Vec<u64> = (0..counts(values)).map(|_| random.bits()).collect();
        let mut room = Room {
            values,
            out: before.clone(),
            out_len: length(random, values * WIDTH, memory(values)),
            counts: counts_before.clone(),
            counts_len: values,
            before,
            counts_before,
        };
        if values > 1 && random.once_in(16) {
            room.counts_len = random.below(counts(values) as u64 + 1) as usize;
        }
        room
    }

    /// Counts the case: the refusal and all the memory must be as `wanted` and the header say.
    pub fn judge(
        &self,
        tally: &mut Tally,
        refusal: u64,
        wanted: &[Dv],
        inputs: impl FnOnce() -> String,
    ) {
        let short = self.out_len < self.values * WIDTH || self.counts_len < self.values;
        let fault = if short {
            tally.kind("refused for want of room");
            self.refusal_fault(refusal)
        } else {
            answer_kinds(tally, wanted);
            self.answer_fault(refusal, wanted)
        };
        tally.case(fault.is_none(), || {
            format!("{}, in {}", fault.unwrap_or_default(), inputs())
        });
    }

    fn refusal_fault(&self, refusal: u64) -> Option<String> {
        if refusal != NO_ROOM {
            return Some(format!("refusal {refusal}, wanted {NO_ROOM}"));
        }
        self.touched_from(0, 0)
    }

    fn answer_fault(&self, refusal: u64, wanted: &[Dv]) -> Option<String> {
        if refusal != 0 {
            return Some(format!("refusal {refusal}, wanted none"));
        }
        let values = wanted.iter().enumerate();
        let mut faults = values.filter_map(|(i, value)| self.value_fault(i, value));
        faults
            .next()
            .or_else(|| self.touched_from(self.values * WIDTH, self.values))
    }

    fn value_fault(&self, i: usize, wanted: &Dv) -> Option<String> {
        let (count, long) = (self.counts[i], wanted.g.len());
        if count != long as u64 {
            return Some(format!("count {count} of value {i}, wanted {long}"));
        }
        let entry = |k: usize| match k {
            0 => wanted.v,
            _ => wanted.g[k - 1],
        };
        let found = &self.out[i * WIDTH..(i + 1) * WIDTH];
        if let Some(k) = (0..=long).find(|&k| !same(found[k], entry(k))) {
            let (found, wanted) = (hex(&[found[k]]), hex(&[entry(k)]));
            return Some(format!(
                "entry {k} of value {i} is {found}, wanted {wanted}"
            ));
        }
        let k = (long + 1..WIDTH).find(|&k| found[k].to_bits() != 0)?;
        Some(format!(
            "entry {k} of value {i}, past the count, is {}",
            hex(&[found[k]])
        ))
    }

    /// By bits, also behind the slices' ends.
    fn touched_from(&self, entry: usize, count: usize) -> Option<String> {
        let touched = |&k: &usize| self.out[k].to_bits() != self.before[k].to_bits();
        if let Some(k) = (entry..self.out.len()).find(touched) {
            return Some(format!("entry {k} of {} has been written", self.out_len));
        }
        let k = (count..self.counts.len()).find(|&k| self.counts[k] != self.counts_before[k])?;
        Some(format!("count {k} of {} has been written", self.counts_len))
    }
}

/// Says of an answer what makes it worth having.
fn answer_kinds(tally: &mut Tally, wanted: &[Dv]) {
    let entries = || {
        wanted
            .iter()
            .flat_map(|value| value.g.iter().chain([&value.v]))
    };
    if entries().all(|x| x.is_finite()) {
        tally.kind("answers all finite");
    }
    if entries().any(|x| x.to_bits() == 1 << 63) {
        tally.kind("answers with a -0.0");
    }
    if entries().any(|x| x.is_subnormal()) {
        tally.kind("answers with a subnormal");
    }
}
