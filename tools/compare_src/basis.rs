//! The basis with partials, against the original's own, counts included.

use crate::layouts::{Layout, not_finite, parameter};
use crate::lent::{Lent, Room, WIDTH};
use crate::ours;
use crate::random::Random;
use crate::tally::Tally;
use crate::told::{FUNCTIONS, KNOTS, basis};
use original::spline::{Dv, Scalar};

/// The orders that are answered: 0 to 4.
const ORDERS: usize = 5;
/// For the tally, by what is asked for.
const TO_ORDER: [&str; ORDERS] = [
    "to order 0",
    "to order 1",
    "to order 2",
    "to order 3",
    "to order 4 or above",
];

pub fn run(random: &mut Random, rounds: u64) -> Tally {
    let mut tally = Tally::default();
    for _ in 0..rounds {
        let case = Case::draw(random, &mut tally);
        case.judge(random, &mut tally);
    }
    tally
}

struct Case {
    knots: Lent,
    t: Lent,
    order: u64,
}

impl Case {
    fn draw(random: &mut Random, tally: &mut Tally) -> Self {
        let flavour = random.flavour();
        let mut knots = Lent::draw(random, flavour, KNOTS);
        if random.once_in(3) {
            tally.kind("knots without partials");
            knots = knots.without_partials();
        }
        let mut t = Lent::draw(random, flavour, 1);
        if random.once_in(4) {
            tally.kind("t without partials");
            t = t.without_partials();
        }
        // mostly the six of a span of a curve, else as the flavour has drawn them
        if random.once_in(8) {
            tally.kind("knots in no order");
        } else {
            let values = window(random, tally);
            for (k, value) in values.iter().enumerate() {
                knots.set_entry(k * WIDTH, *value);
            }
            let (at, place) = parameter(random, &values);
            tally.kind(place);
            t.set_entry(0, at);
        }
        if random.once_in(64) {
            t.set_entry(0, not_finite(random));
        }
        let order = match random.below(16) {
            0 => random.bits(),
            1 => 4 + random.below(3),
            _ => random.below(4),
        };
        tally.kind(TO_ORDER[order.min(4) as usize]);
        Case { knots, t, order }
    }

    fn judge(&self, random: &mut Random, tally: &mut Tally) {
        let mut room = Room::draw(random, ORDERS * FUNCTIONS);
        let (knots, t) = (&self.knots, &self.t);
        let refusal = unsafe {
            ours::threshdune_partials_basis(
                knots.slice().as_ptr(),
                knots.slice().len(),
                knots.counts().as_ptr(),
                knots.counts().len(),
                t.slice().as_ptr(),
                t.slice().len(),
                t.count(),
                self.order,
                room.out.as_mut_ptr(),
                room.out_len,
                room.counts.as_mut_ptr(),
                room.counts_len,
            )
        };
        knots.kinds(tally);
        t.kinds(tally);
        let wanted = self.theirs();
        if wanted.iter().any(|value| value.v.is_nan()) {
            tally.kind("answers with a NaN");
        }
        room.judge(tally, refusal, &wanted, || {
            let order = self.order;
            format!("basis to order {order} of {} at {}", knots.tell(), t.tell())
        });
    }

    /// Row by row. The original has no rows above its order; here they are 0 without partials.
    fn theirs(&self) -> Vec<Dv> {
        let knots: [Dv; KNOTS] = std::array::from_fn(|k| self.knots.read(k));
        let mut values = basis(knots, self.t.read(0), self.order.min(6) as usize);
        values.resize(ORDERS * FUNCTIONS, Dv::cst(0.0));
        values
    }
}

/// Six knots of a curve in a row, as a span reads them.
fn window(random: &mut Random, tally: &mut Tally) -> [f64; KNOTS] {
    let knots = Layout::draw(random).knots;
    // knot i - 2 of span i; the spans are 3 to n - 1
    let from = 1 + random.below(knots.len() as u64 - 7) as usize;
    let six: [f64; KNOTS] = std::array::from_fn(|k| knots[from + k]);
    if six.windows(2).any(|pair| pair[0] == pair[1]) {
        tally.kind("a knot repeated");
    }
    if six[2] == six[3] {
        tally.kind("a span of no length");
    }
    six
}
