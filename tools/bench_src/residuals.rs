//! Residual rows: a point held on a curve, its residuals and all their partials. Ours works in two lent buffers, which it leaves cleared.

use crate::fits::wave;
use crate::ours::threshdune_residual;
use crate::sides::Bench;
use original::access;
use std::cell::RefCell;

/// The most handles.
const HANDLES: usize = 12;

pub fn time(bench: &mut Bench) {
    for (form, fit) in [("control", false), ("fit", true)] {
        let input = |which: usize| {
            let mut x = wave(HANDLES, which).concat();
            x.extend([3.0, 1.0, 0.05 + 0.12 * which as f64]);
            x
        };
        let inputs: Vec<Vec<f64>> = (0..8).map(input).collect();
        let cells = (HANDLES + 2) * (HANDLES + 4);
        let work = RefCell::new((vec![0.0; cells * (2 * HANDLES + 4)], vec![0; cells]));
        bench.case(
            &format!("residual {form} {HANDLES}"),
            &inputs,
            |x| ours(x, fit, &mut work.borrow_mut()),
            |x| theirs(x, fit),
        );
    }
}

/// The residuals, and then their rows.
fn ours(x: &[f64], fit: bool, (work, counts): &mut (Vec<f64>, Vec<u8>)) -> Vec<f64> {
    let mut answer = vec![0.0; 3 + 3 * x.len()];
    let (residuals, rows) = answer.split_at_mut(3);
    let (handles, held) = x.split_at(x.len() - 3);
    let refusal = unsafe {
        threshdune_residual(
            handles.as_ptr(),
            handles.len(),
            fit.into(),
            0,
            std::ptr::null(),
            0,
            held[0],
            held[1],
            held[2],
            work.as_mut_ptr(),
            work.len(),
            counts.as_mut_ptr(),
            counts.len(),
            residuals.as_mut_ptr(),
            residuals.len(),
            rows.as_mut_ptr(),
            rows.len(),
        )
    };
    assert_eq!(refusal, 0);
    answer
}

#[inline(never)] // as ours is in a library
fn theirs(x: &[f64], fit: bool) -> Vec<f64> {
    let (mut answer, rows) = access::residuals(access::spline_of(x.len() / 2 - 1, fit, None), x);
    answer.extend(rows.concat());
    answer
}
