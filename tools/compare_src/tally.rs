//! What a section has found.

/// How many differences are told with their inputs.
const TOLD: usize = 5;

#[derive(Default)]
pub struct Tally {
    cases: u64,
    differences: u64,
    told: Vec<String>,
    kinds: Vec<(&'static str, u64)>,
    notes: Vec<String>,
}

impl Tally {
    /// Counts a case. `say` is asked for its words only if it differs and will be told.
    pub fn case(&mut self, same: bool, say: impl FnOnce() -> String) {
        self.cases += 1;
        if same {
            return;
        }
        self.differences += 1;
        if self.told.len() < TOLD {
            self.told.push(say());
        }
    }

    /// Counts a case of a kind that matters, so that the reader sees that the kind did occur.
    pub fn kind(&mut self, name: &'static str) {
        match self.kinds.iter_mut().find(|(known, _)| *known == name) {
            Some((_, count)) => *count += 1,
            None => self.kinds.push((name, 1)),
        }
    }

    /// Something measured, printed after the kinds.
    pub fn note(&mut self, words: String) {
        self.notes.push(words);
    }

    pub fn differences(&self) -> u64 {
        self.differences
    }

    pub fn print(&self, name: &str, seconds: f64) {
        println!(
            "{name:20} {:>9} cases {:>9} differences {seconds:>6.1} s",
            self.cases, self.differences
        );
        let mut kinds = self.kinds.clone();
        kinds.sort();
        for (kind, count) in kinds {
            println!("{:>30}  {kind}", count);
        }
        for words in &self.notes {
            println!("{:>30}  {words}", "measured:");
        }
        for words in &self.told {
            println!("  differs: {words}");
        }
    }
}

/// Equal bits, or both a NaN: which NaN an operation makes is the processor's choice.
pub fn same(a: f64, b: f64) -> bool {
    a.to_bits() == b.to_bits() || (a.is_nan() && b.is_nan())
}

/// Doubles by their bits, for what is told.
pub fn hex(list: &[f64]) -> String {
    let words: Vec<String> = list
        .iter()
        .map(|x| format!("{:016X}", x.to_bits()))
        .collect();
    words.join(" ")
}
