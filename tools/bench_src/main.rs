//! Times the proved code against the original, case by case.
//!
//!     bench [CASE]
//!
//! A later layer adds a file and a line to `main`.

mod closest;
mod curves;
mod fits;
mod floor;
// the comparison's own declarations, of which a few are timed
#[allow(dead_code)]
#[path = "../compare_src/ours.rs"]
mod ours;
mod records;
mod residuals;
mod root;
mod sides;

use sides::Bench;

fn main() {
    let words: Vec<String> = std::env::args().skip(1).collect();
    if words.len() > 1 {
        eprintln!("usage: bench [CASE]");
        std::process::exit(2);
    }
    let mut bench = Bench::of(words.into_iter().next());
    root::time(&mut bench);
    curves::time(&mut bench);
    records::time(&mut bench);
    fits::time(&mut bench);
    residuals::time(&mut bench);
    closest::time(&mut bench);
    bench.finish();
}
