//! The root against the processor's own, for the record: one instruction there.

use crate::ours;
use crate::sides::Bench;

pub fn time(bench: &mut Bench) {
    // of many sizes, squares and others
    let mut inputs: Vec<f64> = (1..15).map(|k| 0.7f64.powi(9 * k) * k as f64).collect();
    inputs.extend([4.0, 2.0, 1e6, 1e-24]);
    bench.case("root", &inputs, |x| [ours::root(*x)], |x| [processor(*x)]);
}

#[inline(never)] // as ours is in a library
fn processor(x: f64) -> f64 {
    if x <= 0.0 { 0.0 } else { x.sqrt() }
}
