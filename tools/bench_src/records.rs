//! A curve of control points as a record: its point, and the record with one point moved. Ours checks the record anew each time, its
//! stored length by summing it; the Rust does not, nor does the floor. The Rust's move is a copy with the point exchanged, and its length.

use crate::curves::{Wave, parameters, point};
use crate::ours::{threshdune_record_evaluate, threshdune_record_move};
use crate::sides::Bench;
use original::spline::{Curve, P2};

/// The room for coordinates.
const POINTS: usize = 66;
/// The moved coordinates, x and y apart and +0.0 past the count, and the length.
type Moved = [f64; 2 * POINTS + 1];

/// What crosses.
struct Record {
    xs: Vec<f64>,
    ys: Vec<f64>,
    knots: Vec<f64>,
    length: f64,
}

/// Calls a function that takes a record: the record first, then what else it takes.
macro_rules! door {
    ($record:expr, $name:ident, $($argument:expr),*) => {
        unsafe {
            $name(
                $record.xs.len() as u64,
                $record.knots.len() as u64,
                $record.length,
                $record.xs.as_ptr(),
                $record.xs.len(),
                $record.ys.as_ptr(),
                $record.ys.len(),
                $record.knots.as_ptr(),
                $record.knots.len(),
                $($argument),*
            )
        }
    };
}

impl Record {
    fn of(wave: &Wave) -> Self {
        let every_other = |from: usize| wave.coords.iter().skip(from).step_by(2).copied().collect();
        Record {
            xs: every_other(0),
            ys: every_other(1),
            knots: wave.spline.knots.clone(),
            length: wave.curve.polygon_length(),
        }
    }

    fn point(&self, t: f64) -> [f64; 2] {
        let mut out = [0.0; 2];
        let refusal = door!(self, threshdune_record_evaluate, t, 0, out.as_mut_ptr(), 2);
        assert_eq!(refusal, 0);
        out
    }

    fn moved(&self, (index, [x, y]): (usize, [f64; 2])) -> Moved {
        let mut answer = [0.0; 2 * POINTS + 1];
        let (xs, rest) = answer.split_at_mut(POINTS);
        let (ys, length) = rest.split_at_mut(POINTS);
        let refusal = door!(
            self,
            threshdune_record_move,
            index as u64,
            x,
            y,
            xs.as_mut_ptr(),
            xs.len(),
            ys.as_mut_ptr(),
            ys.len(),
            length.as_mut_ptr()
        );
        assert_eq!(refusal, 0);
        answer
    }
}

pub fn time(bench: &mut Bench) {
    let at = parameters();
    for n in [8, 20, 66] {
        let wave = Wave::of(n);
        let record = Record::of(&wave);
        bench.case_over_floor(
            &format!("record point {n}"),
            (&at, 1),
            |t| record.point(*t),
            |t| point(&wave.spline, *t),
            |t| wave.floor.point(*t),
        );
    }
    for n in [8, 20, 66] {
        let wave = Wave::of(n);
        let record = Record::of(&wave);
        // the first point, the last, and others between
        let to = |k: usize| (k * (n - 1) / 16, [k as f64 * 0.7, k as f64 - 4.0]);
        let moves: Vec<(usize, [f64; 2])> = (0..=16).map(to).collect();
        bench.case(
            &format!("record move {n}"),
            &moves,
            |to| record.moved(*to),
            |to| moved(&wave.curve, *to),
        );
    }
}

#[inline(never)] // as ours is in a library
fn moved(curve: &Curve<f64>, (index, [x, y]): (usize, [f64; 2])) -> Moved {
    let mut moved = curve.clone();
    moved.control[index] = P2::new(x, y);
    let mut answer = [0.0; 2 * POINTS + 1];
    for (k, p) in moved.control.iter().enumerate() {
        (answer[k], answer[POINTS + k]) = (p.x, p.y);
    }
    answer[2 * POINTS] = moved.polygon_length();
    answer
}
