//! Vectors of the plane, against the original's `P2<f64>`.

use crate::lent::NO_ROOM;
use crate::ours;
use crate::random::Random;
use crate::tally::{Tally, hex, same};
use original::spline::P2;

type Vector = [f64; 2];
type Plane = P2<f64>;
type Binary = (&'static str, ours::Plane, fn(&Plane, &Plane) -> Plane);
type Product = (
    &'static str,
    fn(Vector, Vector) -> f64,
    fn(&Plane, &Plane) -> f64,
);

const BINARY: [Binary; 2] = [
    ("add", ours::threshdune_plane_add, P2::add),
    ("sub", ours::threshdune_plane_sub, P2::sub),
];

const PRODUCTS: [Product; 2] = [
    ("dot", ours::plane_dot, P2::dot),
    ("cross", ours::plane_cross, P2::cross),
];

/// Below this squared length the original sees no direction.
const LIMIT: f64 = 1e-24;

pub fn run(random: &mut Random, rounds: u64) -> Tally {
    let mut tally = Tally::default();
    for _ in 0..rounds {
        let flavour = random.flavour();
        let a = [(); 2].map(|_| random.double(flavour));
        let b = match random.below(8) {
            0 => a,
            _ => [(); 2].map(|_| random.double(flavour)),
        };
        match random.below(8) {
            op @ 0..2 => binary(&BINARY[op as usize], a, b, random, &mut tally),
            2 => scale(a, b[0], random, &mut tally),
            op @ 3..5 => product(&PRODUCTS[op as usize - 3], a, b, &mut tally),
            5 => norm(for_length(random, a), &mut tally),
            6 => rot90(a, random, &mut tally),
            _ => unit(for_length(random, a), random, &mut tally),
        }
    }
    tally
}

fn of([x, y]: Vector) -> Plane {
    P2::new(x, y)
}

fn binary(
    (name, ours, theirs): &Binary,
    a: Vector,
    b: Vector,
    random: &mut Random,
    tally: &mut Tally,
) {
    let mut room = Room::draw(random);
    let refusal = unsafe { ours(a[0], a[1], b[0], b[1], room.out.as_mut_ptr(), room.len) };
    room.judge(tally, refusal, theirs(&of(a), &of(b)), || {
        format!("{name} {} and {}", hex(&a), hex(&b))
    });
}

fn scale(a: Vector, k: f64, random: &mut Random, tally: &mut Tally) {
    let mut room = Room::draw(random);
    let out = room.out.as_mut_ptr();
    let refusal = unsafe { ours::threshdune_plane_scale(a[0], a[1], k, out, room.len) };
    room.judge(tally, refusal, of(a).scale(&k), || {
        format!("scale {} by {}", hex(&a), hex(&[k]))
    });
}

fn unit(a: Vector, random: &mut Random, tally: &mut Tally) {
    let mut room = Room::draw(random);
    let out = room.out.as_mut_ptr();
    let refusal = unsafe { ours::threshdune_plane_unit(a[0], a[1], out, room.len) };
    square_kind(of(a).dot(&of(a)), tally);
    room.judge(tally, refusal, of(a).unit(), || format!("unit {}", hex(&a)));
}

fn rot90(a: Vector, random: &mut Random, tally: &mut Tally) {
    let mut room = Room::draw(random);
    let out = room.out.as_mut_ptr();
    let refusal = unsafe { ours::threshdune_plane_rot90(a[0], a[1], out, room.len) };
    room.judge(tally, refusal, of(a).rot90(), || {
        format!("rot90 {}", hex(&a))
    });
}

fn product((name, ours, theirs): &Product, a: Vector, b: Vector, tally: &mut Tally) {
    let (found, wanted) = (ours(a, b), theirs(&of(a), &of(b)));
    tally.case(same(found, wanted), || {
        let (a, b) = (hex(&a), hex(&b));
        format!(
            "{name} {a} and {b}: {}, wanted {}",
            hex(&[found]),
            hex(&[wanted])
        )
    });
}

fn norm(a: Vector, tally: &mut Tally) {
    let (found, wanted) = (ours::plane_norm(a), of(a).norm());
    square_kind(of(a).dot(&of(a)), tally);
    tally.case(same(found, wanted), || {
        format!(
            "norm {}: {}, wanted {}",
            hex(&a),
            hex(&[found]),
            hex(&[wanted])
        )
    });
}

/// For what asks after the length: as drawn, or near the threshold.
pub fn for_length(random: &mut Random, a: Vector) -> Vector {
    match random.below(2) {
        0 => a,
        _ => near_limit(random),
    }
}

/// A squared length at the limit or a few steps to either side.
fn near_limit(random: &mut Random) -> Vector {
    let part = match random.below(4) {
        0 => 0.0,
        1 => random.of_exponents(-60, -45),
        _ => 1e-12 * random.below(1 << 20) as f64 / (1 << 20) as f64,
    };
    let rest = (LIMIT - part * part).max(0.0).sqrt();
    let pair = [part, random.beside(rest, 3)];
    let [x, y] = pair.map(|one| if random.once_in(2) { -one } else { one });
    if random.once_in(2) { [x, y] } else { [y, x] }
}

/// Counts where a squared length lies.
pub fn square_kind(square: f64, tally: &mut Tally) {
    let place = |x: f64| x.to_bits() as i64;
    match place(square).wrapping_sub(place(LIMIT)) {
        0 => tally.kind("squared length at the limit"),
        -4..0 => tally.kind("squared length just below the limit"),
        1..=4 => tally.kind("squared length just above the limit"),
        _ if square == 0.0 => tally.kind("squared length 0"),
        _ if square.is_infinite() => tally.kind("squared length infinite"),
        _ if square.is_nan() => tally.kind("squared length a NaN"),
        _ => {}
    }
}

/// Lent for the answer: two doubles, sometimes more, sometimes fewer.
struct Room {
    before: [f64; 4],
    out: [f64; 4],
    len: usize,
}

impl Room {
    fn draw(random: &mut Random) -> Self {
        let before = [(); 4].map(|_| random.any());
        let len = match random.below(8) {
            0 => random.below(5) as usize,
            _ => 2,
        };
        let out = before;
        Room { before, out, len }
    }

    fn judge(
        &self,
        tally: &mut Tally,
        refusal: u64,
        answer: Plane,
        inputs: impl FnOnce() -> String,
    ) {
        let short = self.len < 2;
        if short {
            tally.kind("refused for want of room");
        }
        let (number, written) = if short { (NO_ROOM, 0) } else { (0, 2) };
        let mut wanted = self.before;
        wanted[..written].copy_from_slice(&answer.val()[..written]);
        let agrees = |k: usize| match k < written {
            true => same(self.out[k], wanted[k]),
            false => self.out[k].to_bits() == wanted[k].to_bits(),
        };
        tally.case(refusal == number && (0..4).all(agrees), || {
            let (inputs, out, wanted) = (inputs(), hex(&self.out), hex(&wanted));
            let len = self.len;
            format!("{inputs}: refusal {refusal} and {out} in room for {len}, wanted {number} and {wanted}")
        });
    }
}
