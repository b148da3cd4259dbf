//! The residuals of a point held on a curve, and their partials, against the `eval` of the original's own constraint; refusal 15 by
//! `judge` over values with partials, which has to come to the numbers, and the counts of partials, of the original's `curve_d`.

use crate::asked::{Room, Wanted, start};
use crate::fits::fit_points;
use crate::judge::{Fit, Pivots};
use crate::layouts::{Layout, not_finite, parameter};
use crate::ours;
use crate::random::{Flavour, Random};
use crate::table::{MOST_HELD, NOT_FINITE, Table, their_check_of, their_check_of_fit};
use crate::tally::{Tally, hex, same};
use crate::ties::{TIED, count, tied};
use original::access;
use original::spline::{BSpline, Dv, Scalar};

pub fn run(random: &mut Random, rounds: u64) -> Tally {
    let mut tally = Tally::default();
    for _ in 0..rounds {
        // in a messy round more than one thing is wrong, so that the order of the refusals shows
        let messy = random.once_in(8);
        let held = Held::draw(random, messy, &mut tally);
        held.ask(random, &mut tally);
    }
    tally
}

/// Draws so many fit points, and says of what kind they are.
type Drawn = fn(&mut Random, usize) -> (Vec<f64>, &'static str);

/// A point held on a curve, as it is asked about.
struct Held {
    fit: bool,
    coords: Vec<f64>,
    knots: Vec<f64>,
    given: bool,
    point: [f64; 2],
    t: f64,
    messy: bool,
}

impl Held {
    fn draw(random: &mut Random, messy: bool, tally: &mut Tally) -> Self {
        let damages = match random.below(12) {
            _ if messy => 1 + random.below(3),
            0 => 1,
            _ => 0,
        };
        let mut held = match random.once_in(2) {
            _ if random.once_in(TIED) => Held::on_fit(random, tied, messy, tally),
            true => Held::on_fit(random, fit_points, messy, tally),
            false => Held::on_control(random, messy, damages, tally),
        };
        (0..damages).for_each(|_| held.damage(random));
        held
    }

    fn on_control(random: &mut Random, messy: bool, damages: u64, tally: &mut Tally) -> Self {
        let n = random.within(4, MOST_HELD as i64) as usize;
        let mut layout = Layout::draw_of(random, n);
        layout.kinds().into_iter().for_each(|kind| tally.kind(kind));
        if damages > 0 && random.once_in(2) {
            layout.damage(random);
        }
        let (t, place) = parameter(random, &layout.knots);
        tally.kind(place);
        let given = layout.given || random.once_in(4);
        Held::at(random, layout.coords, (t, messy)).over(layout.knots, given)
    }

    fn on_fit(random: &mut Random, drawn: Drawn, messy: bool, tally: &mut Tally) -> Self {
        let n = random.within(2, MOST_HELD as i64) as usize;
        let (coords, kind) = drawn(random, n);
        tally.kind(kind);
        let points: Vec<[f64; 2]> = coords.chunks_exact(2).map(|p| [p[0], p[1]]).collect();
        let knots = BSpline::from_fit_points(&points)
            .expect("two or more")
            .knots;
        let (t, place) = match knots.iter().all(|k| k.is_finite()) {
            true => parameter(random, &knots),
            false => (random.double(Flavour::Ordinary), "t of a fit that fails"),
        };
        tally.kind(place);
        let mut held = Held::at(random, coords, (t, messy));
        held.fit = true;
        held
    }

    /// On control points over uniform knots, until said otherwise.
    fn at(random: &mut Random, coords: Vec<f64>, (t, messy): (f64, bool)) -> Self {
        let near = |random: &mut Random| match random.below(4) {
            0 if !coords.is_empty() => coords[random.below(coords.len() as u64) as usize],
            1 => random.double(Flavour::Far),
            2 => random.double(Flavour::Small),
            _ => random.of_exponents(-8, 8),
        };
        let point = [near(random), near(random)];
        Held {
            fit: false,
            coords,
            knots: (0..random.below(8)).map(|_| random.any()).collect(),
            given: false,
            point,
            t,
            messy,
        }
    }

    fn over(mut self, knots: Vec<f64>, given: bool) -> Self {
        if given {
            (self.knots, self.given) = (knots, given);
        }
        self
    }

    fn damage(&mut self, random: &mut Random) {
        match random.below(8) {
            0 => self.given = !self.given,
            1 => self.fit = !self.fit,
            2 => self.point[random.below(2) as usize] = not_finite(random),
            3 => self.t = not_finite(random),
            4 => {
                self.coords.pop();
            }
            5 => {
                let handles = random.below(20) as usize;
                self.coords
                    .resize_with(2 * handles, || random.double(Flavour::Small));
            }
            6 => {
                let handles = MOST_HELD as usize + 1;
                self.coords
                    .resize_with(2 * handles, || random.double(Flavour::Ordinary));
            }
            _ if self.coords.is_empty() => {}
            _ => {
                let at = random.below(self.coords.len() as u64) as usize;
                self.coords[at] = not_finite(random);
            }
        }
    }

    fn ask(&self, random: &mut Random, tally: &mut Tally) {
        let (n, c) = (self.coords.len() / 2, self.coords.len() + 3);
        let cells = match self.fit {
            true => (n + 2) * (n + 4),
            false => 0,
        };
        let mut work = Room::draw(random, cells * (c + 1), self.messy);
        let mut counts = Bytes::draw(random, cells, self.messy);
        let mut residuals = Room::draw(random, 3, self.messy);
        let mut rows = Room::draw(random, 3 * c, self.messy);
        let flag = |random: &mut Random, set: bool| match set {
            true => 1 + random.bits() % u64::MAX,
            false => 0,
        };
        let refusal = unsafe {
            ours::threshdune_residual(
                start(&self.coords),
                self.coords.len(),
                flag(random, self.fit),
                flag(random, self.given),
                start(&self.knots),
                self.knots.len(),
                self.point[0],
                self.point[1],
                self.t,
                work.memory.as_mut_ptr(),
                work.len,
                counts.memory.as_mut_ptr(),
                counts.len,
                residuals.memory.as_mut_ptr(),
                residuals.len,
                rows.memory.as_mut_ptr(),
                rows.len,
            )
        };
        let short = work.len < cells * (c + 1)
            || counts.len < cells
            || residuals.len < 3
            || rows.len < 3 * c;
        let knots = self.given.then_some(&*self.knots);
        let table = Table::of_residuals(self.fit, &self.coords, knots, self.point, self.t);
        let mut unlike = None;
        let wanted = Wanted::judged(table.row(14, short), || {
            let (answer, fault) = self.theirs(tally);
            unlike = fault;
            answer
        });
        wanted.kinds(
            tally,
            if self.fit {
                "on a fit, answered"
            } else {
                "on control points, answered"
            },
        );
        let used = wanted.number == 0 || wanted.number == NOT_FINITE;
        let zeros = if used { cells } else { 0 };
        let fault = unlike
            .or_else(|| wanted.refusal_fault(refusal, self.check()))
            .or_else(|| residuals.fault("residuals", wanted.entries(0)))
            .or_else(|| rows.fault("rows", wanted.entries(1)))
            .or_else(|| work.fault("work", &vec![0.0; zeros * (c + 1)]))
            .or_else(|| counts.fault(zeros));
        tally.case(fault.is_none(), || {
            let (form, fault) = (
                if self.fit { "fit" } else { "control" },
                fault.unwrap_or_default(),
            );
            let Held {
                coords,
                knots,
                given,
                point,
                t,
                ..
            } = self;
            format!(
                "residual on {form}: {fault}, of [{}], given {given} [{}], at {} and {}",
                hex(coords),
                hex(knots),
                hex(point),
                hex(&[*t])
            )
        });
    }

    /// What the original's `check` says, of no more handles than are taken here.
    fn check(&self) -> Option<u64> {
        let knots = self.given.then_some(&*self.knots);
        let few = self.coords.len() as u64 / 2 <= MOST_HELD;
        few.then(|| match self.fit {
            true => their_check_of_fit(&self.coords, knots),
            false => their_check_of(&self.coords, knots),
        })?
    }

    /// The original's residuals and rows, or nothing where a number that is stored or answered is not finite; and how the judge of the
    /// stored ones came to other numbers, if it did.
    fn theirs(&self, tally: &mut Tally) -> (Option<Vec<Vec<f64>>>, Option<String>) {
        let knots = self.given.then_some(&*self.knots);
        let n = self.coords.len() / 2;
        let x = [&*self.coords, &self.point, &[self.t]].concat();
        let mut fine = true;
        let mut pivots = Pivots::default();
        let mut fault = None;
        if self.fit {
            let curve = access::curve_d(&access::spline_of(n, true, None), &x, 0);
            let points: Vec<[Dv; 2]> = (0..n)
                .map(|k| [Dv::var(&x, 2 * k), Dv::var(&x, 2 * k + 1)])
                .collect();
            let fit = Fit::through(&points);
            let control: Vec<Dv> = curve.control.into_iter().flat_map(|p| [p.x, p.y]).collect();
            let unlike = !alike(&fit.knots, &curve.knots)
                || fit
                    .control
                    .is_some_and(|ours| !alike(&ours.concat(), &control));
            fault = unlike.then(|| "the judge comes to other numbers than the original".into());
            fine = fit.fine;
            pivots = fit.pivots;
            if fit.repeated {
                tally.kind("two parameters equal");
            }
            if fine && n == 2 && !step_is_finite(&self.coords) {
                tally.kind("two points, their step infinite, built");
            }
            if !fine && fit.knots.iter().all(|k| k.val().is_finite()) {
                tally.kind("stored numbers not finite, values of the knots finite");
            }
        }
        let (residuals, rows) = access::residuals(access::spline_of(n, self.fit, knots), &x);
        let rows = rows.concat();
        fine &= residuals.iter().chain(&rows).all(|x| x.is_finite());
        count(pivots, fine, tally);
        if fine && residuals[2] != 0.0 {
            tally.kind("t past the domain");
        }
        (fine.then(|| vec![residuals, rows]), fault)
    }
}

fn step_is_finite(coords: &[f64]) -> bool {
    let (dx, dy) = (coords[2] - coords[0], coords[3] - coords[1]);
    (dx * dx + dy * dy + 1e-24).is_finite()
}

/// The same values and partials, and as many of these.
fn alike(ours: &[Dv], theirs: &[Dv]) -> bool {
    let one = |(a, b): (&Dv, &Dv)| {
        a.g.len() == b.g.len() && same(a.v, b.v) && a.g.iter().zip(&b.g).all(|(x, y)| same(*x, *y))
    };
    ours.len() == theirs.len() && ours.iter().zip(theirs).all(one)
}

/// Bytes lent for work, with rubbish in them and behind their end.
struct Bytes {
    before: Vec<u8>,
    memory: Vec<u8>,
    len: usize,
}

impl Bytes {
    fn draw(random: &mut Random, needed: usize, messy: bool) -> Self {
        let len = match random.below(if messy { 10 } else { 32 }) {
            0 => needed.saturating_sub(1),
            1 => 0,
            2..4 => needed + 1 + random.below(6) as usize,
            _ => needed,
        };
        let before: Vec<u8> = (0..len + 4).map(|_| random.bits() as u8).collect();
        Bytes {
            memory: before.clone(),
            before,
            len,
        }
    }

    /// So many zeros, and the rest as it was.
    fn fault(&self, zeros: usize) -> Option<String> {
        let wanted = |k: usize| if k < zeros { 0 } else { self.before[k] };
        let k = (0..self.memory.len()).find(|&k| self.memory[k] != wanted(k))?;
        Some(format!(
            "byte {k} of {} is {}, wanted {}",
            self.len,
            self.memory[k],
            wanted(k)
        ))
    }
}
