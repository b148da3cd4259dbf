//! Compares the proved code with the original on random inputs, section by section.
//!
//!     compare SEED SHARE
//!
//! The seed decides every input, so a run can be had again; the counts are divided by SHARE.
//! A later layer adds a file with its `run` and a line to `SECTIONS`.

mod asked;
mod basis;
mod closest;
mod curves;
mod distances;
mod exact;
mod fits;
mod hull;
mod judge;
mod layouts;
mod lent;
mod marks;
mod moves;
mod numbers;
mod ours;
mod partials;
mod plane;
mod plane_partials;
mod points;
mod random;
mod records;
mod residuals;
mod roots;
mod scales;
mod table;
mod tally;
mod ties;
mod told;

use random::Random;
use std::time::Instant;
use tally::Tally;

struct Section {
    name: &'static str,
    /// How many rounds at SHARE 1. A round makes one case or a few.
    rounds: u64,
    run: fn(&mut Random, u64) -> Tally,
}

const SECTIONS: &[Section] = &[
    Section {
        name: "roots",
        rounds: 10_000_000,
        run: roots::run,
    },
    Section {
        name: "numbers",
        rounds: 1_000_000,
        run: numbers::run,
    },
    Section {
        name: "partials",
        rounds: 2_000_000,
        run: partials::run,
    },
    Section {
        name: "plane",
        rounds: 1_000_000,
        run: plane::run,
    },
    Section {
        name: "plane with partials",
        rounds: 1_000_000,
        run: plane_partials::run,
    },
    Section {
        name: "basis with partials",
        rounds: 400_000,
        run: basis::run,
    },
    Section {
        name: "curves",
        rounds: 1_000_000,
        run: curves::run,
    },
    Section {
        name: "records",
        rounds: 505_000,
        run: records::run,
    },
    Section {
        name: "moves",
        rounds: 505_000,
        run: moves::run,
    },
    Section {
        name: "many points",
        rounds: 100_000,
        run: points::run,
    },
    Section {
        name: "fits",
        rounds: 632_000,
        run: fits::run,
    },
    Section {
        name: "residuals",
        rounds: 632_000,
        run: residuals::run,
    },
    Section {
        name: "distances",
        rounds: 4_000_000,
        run: distances::run,
    },
    Section {
        name: "closest",
        rounds: 400_000,
        run: closest::run,
    },
    Section {
        name: "many closest",
        rounds: 40_000,
        run: marks::run,
    },
    Section {
        name: "scales",
        rounds: 256,
        run: scales::run,
    },
    Section {
        name: "hull",
        rounds: 500_000,
        run: hull::run,
    },
];

fn main() {
    let words: Vec<String> = std::env::args().skip(1).collect();
    let number = |at: usize| match words.get(at) {
        None => 1,
        Some(word) => word.parse().unwrap_or_else(|_| usage()),
    };
    let (seed, share) = (number(0), number(1));
    if share == 0 || words.len() > 2 {
        usage();
    }
    println!("seed {seed}, counts divided by {share}");
    let begin = Instant::now();
    let differences: u64 = SECTIONS.iter().map(|s| run(s, seed, share)).sum();
    println!(
        "{differences} differences in all, {:.1} s",
        begin.elapsed().as_secs_f64()
    );
    std::process::exit(if differences == 0 { 0 } else { 1 });
}

fn usage() -> ! {
    eprintln!("usage: compare [SEED [SHARE]]: whole numbers, SHARE at least 1");
    std::process::exit(2);
}

fn run(section: &Section, seed: u64, share: u64) -> u64 {
    let begin = Instant::now();
    // Each section draws from a generator of its own, so that a new section leaves the others' inputs as they were.
    let mut random = Random::new(seed, section.name);
    let tally = (section.run)(&mut random, (section.rounds / share).max(1));
    tally.print(section.name, begin.elapsed().as_secs_f64());
    tally.differences()
}
