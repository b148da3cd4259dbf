//! Values with partials, against the original's `Dv` and `overshoot`.

use crate::lent::{Lent, Room, WIDTH};
use crate::ours;
use crate::random::{Flavour, Random};
use crate::tally::{Tally, hex};
use original::spline::{Dv, Scalar, overshoot};

type Unary = (&'static str, ours::One, fn(Dv) -> Dv);
type Binary = (&'static str, ours::Two, fn(Dv, Dv) -> Dv);

const UNARY: [Unary; 2] = [
    ("neg", ours::threshdune_partials_neg, |a| -a),
    ("root", ours::threshdune_partials_root, |a| a.sqrt()),
];

const BINARY: [Binary; 4] = [
    ("add", ours::threshdune_partials_add, |a, b| a + b),
    ("sub", ours::threshdune_partials_sub, |a, b| a - b),
    ("mul", ours::threshdune_partials_mul, |a, b| a * b),
    ("div", ours::threshdune_partials_div, |a, b| a / b),
];

pub fn run(random: &mut Random, rounds: u64) -> Tally {
    let mut tally = Tally::default();
    for _ in 0..rounds {
        let flavour = random.flavour();
        match random.below(9) {
            op @ 0..4 => binary(&BINARY[op as usize], random, flavour, &mut tally),
            op @ 4..6 => unary(&UNARY[op as usize - 4], random, flavour, &mut tally),
            6 => var(random, flavour, &mut tally),
            7 => past_the_ends(random, flavour, &mut tally),
            _ => is_fine(random, flavour, &mut tally),
        }
    }
    tally
}

fn binary((name, ours, theirs): &Binary, random: &mut Random, flavour: Flavour, tally: &mut Tally) {
    let first = Lent::draw(random, flavour, 1);
    let other = match random.below(4) {
        0 => first.again(random),
        _ => Lent::draw(random, flavour, 1),
    };
    let mut room = Room::draw(random, 1);
    // an operand may also be the very same slice
    let (a, b) = match random.below(8) {
        0 => (&first, &first),
        _ => (&first, &other),
    };
    let refusal = unsafe {
        ours(
            a.slice().as_ptr(),
            a.slice().len(),
            a.count(),
            b.slice().as_ptr(),
            b.slice().len(),
            b.count(),
            room.out.as_mut_ptr(),
            room.out_len,
            room.counts.as_mut_ptr(),
        )
    };
    let (x, y) = (a.read(0), b.read(0));
    a.kinds(tally);
    if x.g.len() != y.g.len() {
        tally.kind("operands of unequal counts");
    }
    room.judge(tally, refusal, &[theirs(x, y)], || {
        format!("{name} {} and {}", a.tell(), b.tell())
    });
}

fn unary((name, ours, theirs): &Unary, random: &mut Random, flavour: Flavour, tally: &mut Tally) {
    let a = Lent::draw(random, flavour, 1);
    let mut room = Room::draw(random, 1);
    let refusal = unsafe {
        ours(
            a.slice().as_ptr(),
            a.slice().len(),
            a.count(),
            room.out.as_mut_ptr(),
            room.out_len,
            room.counts.as_mut_ptr(),
        )
    };
    a.kinds(tally);
    let wanted = theirs(a.read(0));
    room.judge(tally, refusal, &[wanted], || format!("{name} {}", a.tell()));
}

/// The original has no answer past its slice; above 26 and there it is +0.0 with no partials (docs/RULES.md, "Partials").
fn var(random: &mut Random, flavour: Flavour, tally: &mut Tally) {
    let xs = Lent::draw(random, flavour, 1);
    let mut room = Room::draw(random, 1);
    let i = match random.below(8) {
        0 => random.bits(),
        1 => xs.slice().len() as u64,
        2 => 26 + random.below(3),
        _ => random.below(40),
    };
    let refusal = unsafe {
        ours::threshdune_partials_var(
            xs.slice().as_ptr(),
            xs.slice().len(),
            i,
            room.out.as_mut_ptr(),
            room.out_len,
            room.counts.as_mut_ptr(),
        )
    };
    let wanted = if i <= 26 && i < xs.slice().len() as u64 {
        Dv::var(xs.slice(), i as usize)
    } else {
        tally.kind("variables that are not there");
        Dv::cst(0.0)
    };
    room.judge(tally, refusal, &[wanted], || {
        format!("var {i} of [{}]", hex(xs.slice()))
    });
}

fn past_the_ends(random: &mut Random, flavour: Flavour, tally: &mut Tally) {
    let t = Lent::draw(random, flavour, 1);
    let mut room = Room::draw(random, 1);
    let [lo, hi] = [(); 2].map(|_| match random.below(4) {
        0 => random.beside(t.read(0).v, 1),
        _ => random.double(flavour),
    });
    let refusal = unsafe {
        ours::threshdune_partials_overshoot(
            t.slice().as_ptr(),
            t.slice().len(),
            t.count(),
            lo,
            hi,
            room.out.as_mut_ptr(),
            room.out_len,
            room.counts.as_mut_ptr(),
        )
    };
    t.kinds(tally);
    let wanted = overshoot(&t.read(0), lo, hi);
    room.judge(tally, refusal, &[wanted], || {
        format!("overshoot {} of {}", t.tell(), hex(&[lo, hi]))
    });
}

/// The original never asks this; it is what refusal 15 asks of a number with partials.
fn is_fine(random: &mut Random, flavour: Flavour, tally: &mut Tally) {
    let mut a = Lent::draw(random, flavour, 1);
    if random.once_in(2) {
        // a single one, counted or past the count
        a.set_entry(random.below(WIDTH as u64) as usize, random.special());
    }
    let found = unsafe {
        ours::threshdune_partials_is_fine(a.slice().as_ptr(), a.slice().len(), a.count())
    };
    let Dv { v, g } = a.read(0);
    let wanted = v.is_finite() && g.iter().all(|x| x.is_finite());
    tally.kind(if wanted { "fine" } else { "not fine" });
    tally.case(found == u8::from(wanted), || {
        format!("is_fine {}: {found}, wanted {wanted}", a.tell())
    });
}
