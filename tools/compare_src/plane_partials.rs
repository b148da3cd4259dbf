//! Vectors with partials, against the original's `P2<Dv>`.

use crate::lent::{Lent, Room, WIDTH};
use crate::ours;
use crate::plane::{for_length, square_kind};
use crate::random::{Flavour, Random};
use crate::tally::Tally;
use original::spline::{Dv, P2};

type Plane = P2<Dv>;
type Binary = (
    &'static str,
    ours::PlanePartials,
    fn(&Plane, &Plane) -> Plane,
);

type Product = (&'static str, ours::PlaneProduct, fn(&Plane, &Plane) -> Dv);
type One = (&'static str, ours::PlanePartialsOne, fn(&Plane) -> Plane);

const BINARY: [Binary; 2] = [
    ("add", ours::threshdune_plane_partials_add, P2::add),
    ("sub", ours::threshdune_plane_partials_sub, P2::sub),
];

const PRODUCTS: [Product; 2] = [
    ("dot", ours::threshdune_plane_partials_dot, P2::dot),
    ("cross", ours::threshdune_plane_partials_cross, P2::cross),
];

const UNIT: One = ("unit", ours::threshdune_plane_partials_unit, P2::unit);
const ROT90: One = ("rot90", ours::threshdune_plane_partials_rot90, P2::rot90);

pub fn run(random: &mut Random, rounds: u64) -> Tally {
    let mut tally = Tally::default();
    for _ in 0..rounds {
        let flavour = random.flavour();
        let a = Lent::draw(random, flavour, 2);
        a.kinds(&mut tally);
        match random.below(8) {
            op @ 0..4 => {
                let other = second(random, flavour, &a);
                // an operand may also be the very same slice
                let b = if random.once_in(8) { &a } else { &other };
                match BINARY.get(op as usize) {
                    Some(sum) => binary(sum, &a, b, random, &mut tally),
                    None => product(&PRODUCTS[op as usize - 2], &a, b, random, &mut tally),
                }
            }
            4 => scale(&a, &Lent::draw(random, flavour, 1), random, &mut tally),
            5 => norm(&with_length(random, a), random, &mut tally),
            6 => one(&ROT90, &a, random, &mut tally),
            _ => {
                let a = with_length(random, a);
                square_kind(of(&a).dot(&of(&a)).v, &mut tally);
                one(&UNIT, &a, random, &mut tally);
            }
        }
    }
    tally
}

fn second(random: &mut Random, flavour: Flavour, a: &Lent) -> Lent {
    match random.below(4) {
        0 => a.again(random),
        _ => Lent::draw(random, flavour, 2),
    }
}

fn with_length(random: &mut Random, mut a: Lent) -> Lent {
    let [x, y] = for_length(random, of(&a).val());
    a.set_entry(0, x);
    a.set_entry(WIDTH, y);
    a
}

fn of(a: &Lent) -> Plane {
    P2::new(a.read(0), a.read(1))
}

fn binary(
    (name, ours, theirs): &Binary,
    a: &Lent,
    b: &Lent,
    random: &mut Random,
    tally: &mut Tally,
) {
    let mut room = Room::draw(random, 2);
    let refusal = unsafe {
        ours(
            a.slice().as_ptr(),
            a.slice().len(),
            a.counts().as_ptr(),
            a.counts().len(),
            b.slice().as_ptr(),
            b.slice().len(),
            b.counts().as_ptr(),
            b.counts().len(),
            room.out.as_mut_ptr(),
            room.out_len,
            room.counts.as_mut_ptr(),
            room.counts_len,
        )
    };
    let P2 { x, y } = theirs(&of(a), &of(b));
    room.judge(tally, refusal, &[x, y], || {
        format!("{name} {} and {}", a.tell(), b.tell())
    });
}

fn scale(a: &Lent, k: &Lent, random: &mut Random, tally: &mut Tally) {
    let mut room = Room::draw(random, 2);
    let refusal = unsafe {
        ours::threshdune_plane_partials_scale(
            a.slice().as_ptr(),
            a.slice().len(),
            a.counts().as_ptr(),
            a.counts().len(),
            k.slice().as_ptr(),
            k.slice().len(),
            k.count(),
            room.out.as_mut_ptr(),
            room.out_len,
            room.counts.as_mut_ptr(),
            room.counts_len,
        )
    };
    let P2 { x, y } = of(a).scale(&k.read(0));
    room.judge(tally, refusal, &[x, y], || {
        format!("scale {} by {}", a.tell(), k.tell())
    });
}

fn one((name, ours, theirs): &One, a: &Lent, random: &mut Random, tally: &mut Tally) {
    let mut room = Room::draw(random, 2);
    let refusal = unsafe {
        ours(
            a.slice().as_ptr(),
            a.slice().len(),
            a.counts().as_ptr(),
            a.counts().len(),
            room.out.as_mut_ptr(),
            room.out_len,
            room.counts.as_mut_ptr(),
            room.counts_len,
        )
    };
    let P2 { x, y } = theirs(&of(a));
    room.judge(tally, refusal, &[x, y], || format!("{name} {}", a.tell()));
}

fn product(
    (name, ours, theirs): &Product,
    a: &Lent,
    b: &Lent,
    random: &mut Random,
    tally: &mut Tally,
) {
    let mut room = Room::draw(random, 1);
    let refusal = unsafe {
        ours(
            a.slice().as_ptr(),
            a.slice().len(),
            a.counts().as_ptr(),
            a.counts().len(),
            b.slice().as_ptr(),
            b.slice().len(),
            b.counts().as_ptr(),
            b.counts().len(),
            room.out.as_mut_ptr(),
            room.out_len,
            room.counts.as_mut_ptr(),
        )
    };
    room.judge(tally, refusal, &[theirs(&of(a), &of(b))], || {
        format!("{name} {} and {}", a.tell(), b.tell())
    });
}

fn norm(a: &Lent, random: &mut Random, tally: &mut Tally) {
    let mut room = Room::draw(random, 1);
    let refusal = unsafe {
        ours::threshdune_plane_partials_norm(
            a.slice().as_ptr(),
            a.slice().len(),
            a.counts().as_ptr(),
            a.counts().len(),
            room.out.as_mut_ptr(),
            room.out_len,
            room.counts.as_mut_ptr(),
        )
    };
    square_kind(of(a).dot(&of(a)).v, tally);
    room.judge(tally, refusal, &[of(a).norm()], || {
        format!("norm {}", a.tell())
    });
}
