//! Curves made from control points and crossing in slices: the build against the original's `BSpline`, and what is asked of
//! the curve, or of a damaged copy of it.

use crate::asked::{Asked, Room, Wanted, points, start};
use crate::judge::polygon_length;
use crate::layouts::Layout;
use crate::moves;
use crate::ours;
use crate::random::Random;
use crate::table::{Table, their_check_of};
use crate::tally::{Tally, hex};
use original::spline::BSpline;

pub fn run(random: &mut Random, rounds: u64) -> Tally {
    let mut tally = Tally::default();
    for _ in 0..rounds {
        // in a messy round more than one thing is wrong, so that the order of the refusals shows
        let messy = random.once_in(8);
        let mut layout = Layout::draw(random);
        layout.kinds().iter().for_each(|kind| tally.kind(kind));
        let damages = match random.below(16) {
            _ if messy => 1 + random.below(3),
            0 | 1 => 1,
            _ => 0,
        };
        (0..damages).for_each(|_| layout.damage(random));
        build(&layout, messy, random, &mut tally);
        if random.once_in(8) {
            tally.kind("a damaged copy asked after");
            layout.damage(random);
        }
        Asked::of_slices(&layout.coords, &layout.knots, messy).ask(random, &mut tally);
    }
    tally
}

fn build(layout: &Layout, messy: bool, random: &mut Random, tally: &mut Tally) {
    let coords = &layout.coords;
    // where no knots are given, those handed over are not read
    let unread: Vec<f64> = (0..random.below(12)).map(|_| random.any()).collect();
    let handed = if layout.given { &layout.knots } else { &unread };
    let given = match (layout.given, random.below(8)) {
        (false, _) => 0,
        (true, 0) => u64::MAX,
        (true, 1) => 1 << random.below(64),
        (true, _) => 1,
    };
    let knots = layout.given.then_some(&handed[..]);
    let mut control = Room::draw(random, coords.len(), messy);
    let mut knots_out = Room::draw(random, coords.len() / 2 + 4, messy);
    let refusal = unsafe {
        ours::threshdune_build_control(
            start(coords),
            coords.len(),
            given,
            start(handed),
            handed.len(),
            control.memory.as_mut_ptr(),
            control.len,
            knots_out.memory.as_mut_ptr(),
            knots_out.len,
        )
    };
    let short = control.len < coords.len() || knots_out.len < coords.len() / 2 + 4;
    let table = Table::of_curve(coords, knots).row(14, short);
    let wanted = Wanted::of(table, || {
        let curve = BSpline::from_control_points(&points(coords), knots);
        let curve = curve.expect("accepted, as no row of the table applies");
        let length = polygon_length(&curve.control_points);
        vec![curve.control_points.concat(), curve.knots, vec![length]]
    });
    tally.kind(if layout.given {
        "build over given knots"
    } else {
        "build over uniform knots"
    });
    wanted.kinds(tally, "build answered");
    let theirs = their_check_of(coords, knots);
    let fault = wanted
        .refusal_fault(refusal, theirs)
        .or_else(|| control.fault("control", wanted.entries(0)))
        .or_else(|| knots_out.fault("knots", wanted.entries(1)));
    tally.case(fault.is_none(), || {
        let (coords, handed) = (hex(coords), hex(handed));
        let fault = fault.unwrap_or_default();
        format!("build_control: {fault}, of [{coords}], given {given}: [{handed}]")
    });
    if wanted.number == 0 {
        moves::of_built(coords.len() / 2, [&control, &knots_out], random, tally);
    }
}
