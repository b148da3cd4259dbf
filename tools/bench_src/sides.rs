//! One piece of work done in two ways, ours and the Rust's, or in three, with the floor beside them, timed in turns.
//!
//! The machine's speed drifts, so no time stands for itself: a turn times all sides one right after the other, the one that goes
//! first last in the next turn, and what is told is the median of the turns' quotients. Each side goes through the same list of
//! inputs, since on a single one the processor would learn the branches by heart.

use std::time::Instant;

/// An odd number, so that there is a middle one.
const TURNS: usize = 61;
/// How long a side works in a turn, in nanoseconds: long beside the clock's own steps.
const TURN: f64 = 2e6;

/// The nanoseconds of a side that goes through the inputs so many times, and its answer to one, in bits.
type Pass<'a> = dyn Fn(u64) -> f64 + 'a;
type Answer<'a, I> = dyn Fn(&I) -> Vec<u64> + 'a;

pub struct Bench {
    only: Option<String>,
    told: usize,
}

impl Bench {
    pub fn of(only: Option<String>) -> Self {
        Bench { only, told: 0 }
    }

    /// Whether this case is asked for, by its whole name or its first word.
    fn wanted(&self, case: &str) -> bool {
        let first = case.split(' ').next();
        match &self.only {
            None => true,
            Some(only) => only == case || first == Some(only),
        }
    }

    /// Times a case. Each side does the work on one input and answers with numbers, in the same bits: that is looked at first.
    pub fn case<I, A: AsRef<[f64]>>(
        &mut self,
        case: &str,
        inputs: &[I],
        ours: impl Fn(&I) -> A,
        theirs: impl Fn(&I) -> A,
    ) {
        let passes: [&Pass; 2] = [&|k| pass(inputs, k, &ours), &|k| pass(inputs, k, &theirs)];
        let answers: [&Answer<I>; 2] = [&|i| bits(ours(i)), &|i| bits(theirs(i))];
        self.sides(case, inputs, 1, &passes, &answers);
    }

    /// The same beside a third side, the floor; an input has so many parts, and the time of one is told.
    pub fn case_over_floor<I, A: AsRef<[f64]>>(
        &mut self,
        case: &str,
        (inputs, parts): (&[I], usize),
        ours: impl Fn(&I) -> A,
        theirs: impl Fn(&I) -> A,
        floor: impl Fn(&I) -> A,
    ) {
        let passes: [&Pass; 3] = [
            &|k| pass(inputs, k, &ours),
            &|k| pass(inputs, k, &theirs),
            &|k| pass(inputs, k, &floor),
        ];
        let answers: [&Answer<I>; 3] = [&|i| bits(ours(i)), &|i| bits(theirs(i)), &|i| {
            bits(floor(i))
        }];
        self.sides(case, inputs, parts, &passes, &answers);
    }

    /// Ours first, then the Rust's, then perhaps the floor.
    fn sides<I>(
        &mut self,
        case: &str,
        inputs: &[I],
        parts: usize,
        passes: &[&Pass],
        answers: &[&Answer<I>],
    ) {
        if !self.wanted(case) {
            return;
        }
        for (i, input) in inputs.iter().enumerate() {
            let wanted = answers[0](input);
            let same = answers.iter().all(|answer| answer(input) == wanted);
            assert!(same, "{case}: the sides differ on input {i}");
        }
        let mut times = 1;
        let longest = |times: u64| {
            passes
                .iter()
                .map(|pass| pass(times))
                .fold(f64::MAX, f64::min)
        };
        while longest(times) < TURN {
            times *= 2;
        }
        // the one that goes first in a turn goes last in the next
        let turn = |k: usize| {
            let mut taken = vec![0.0; passes.len()];
            for at in 0..passes.len() {
                let side = if k % 2 == 0 {
                    at
                } else {
                    passes.len() - 1 - at
                };
                taken[side] = passes[side](times);
            }
            taken
        };
        let turns: Vec<Vec<f64>> = (0..TURNS).map(turn).collect();
        let per = times as f64 * (inputs.len() * parts) as f64;
        let ratio = |side: usize| middle(turns.iter().map(|t| t[0] / t[side]));
        let time = |side: usize| middle(turns.iter().map(|t| t[side])) / per;
        let (quotient, a, b) = (ratio(1), time(0), time(1));
        print!("{case:10}  ratio {quotient:6.3}   ours {a:8.1} ns   rust {b:8.1} ns");
        if passes.len() > 2 {
            let (over, floor) = (ratio(2), time(2));
            print!("   over the floor {over:6.3}   floor {floor:8.1} ns");
        }
        println!();
        self.told += 1;
    }

    /// A name that no case has is a mistake.
    pub fn finish(self) {
        if self.told == 0 {
            eprintln!("bench: no case {}", self.only.unwrap_or_default());
            std::process::exit(2);
        }
    }
}

fn bits(answer: impl AsRef<[f64]>) -> Vec<u64> {
    answer.as_ref().iter().map(|x| x.to_bits()).collect()
}

/// The nanoseconds of going through the inputs so many times. Neither an input nor an answer is known to the compiler.
fn pass<I, A>(inputs: &[I], times: u64, side: &impl Fn(&I) -> A) -> f64 {
    let begin = Instant::now();
    for _ in 0..times {
        for input in inputs {
            std::hint::black_box(side(std::hint::black_box(input)));
        }
    }
    begin.elapsed().as_nanos() as f64
}

fn middle(times: impl Iterator<Item = f64>) -> f64 {
    let mut sorted: Vec<f64> = times.collect();
    sorted.sort_by(f64::total_cmp);
    sorted[sorted.len() / 2]
}
