//! The table of docs/RULES.md, "Refusals", for control points and for fit points: the first row that applies is the
//! answer. Each row is asked whether an earlier one applies or not, so that cases in which the order
//! decides can be counted. The rows are written from that page, not from the original.

use original::spline::check;

/// The rows, from the top: 17 stands after 11.
const ROWS: [u64; 16] = [1, 2, 3, 4, 5, 6, 7, 8, 9, 10, 11, 17, 12, 13, 14, 15];

/// The most control points, and the most fit points.
const MOST: u64 = 66;
const MOST_FIT: u64 = 64;

/// The most handles of the residuals.
pub const MOST_HELD: u64 = 12;

/// An outcome is not finite.
pub const NOT_FINITE: u64 = 15;

#[derive(Clone, Copy, Default)]
pub struct Table {
    /// The first row that applies, 0 where none does.
    pub first: u64,
    /// Whether another row applies too.
    pub several: bool,
    /// So many of the rows are behind.
    behind: usize,
}

impl Table {
    /// The next row. Rows come in the table's order.
    pub fn row(mut self, number: u64, applies: bool) -> Self {
        let ahead = ROWS[self.behind..].iter().position(|row| *row == number);
        self.behind += 1 + ahead.expect("a row that is not behind yet");
        if applies {
            self.several = self.first != 0;
            if self.first == 0 {
                self.first = number;
            }
        }
        self
    }

    /// The rows 1 to 11 for control points, over knots if there are any given.
    pub fn of_curve(coords: &[f64], knots: Option<&[f64]>) -> Self {
        let counted = knots.map(|knots| (knots.len() as u64, knots));
        Table::default().row(1, coords.len() % 2 == 1).rest(
            coords.len() as u64 / 2,
            counted,
            coords,
        )
    }

    /// The same beside a point that is searched for, which row 11 judges too.
    pub fn of_search(coords: &[f64], knots: &[f64], point: [f64; 2]) -> Self {
        let numbers = [coords, &point].concat();
        Table::default().row(1, coords.len() % 2 == 1).rest(
            coords.len() as u64 / 2,
            Some((knots.len() as u64, knots)),
            &numbers,
        )
    }

    /// The rows 2 to 11 for a record: its counts, whatever they are, and the knots and coordinates that they count, as far as
    /// there is room for them; and row 17, of which the caller knows whether it applies.
    pub fn of_record(
        [points, knot_count]: [u64; 2],
        knots: &[f64],
        coords: &[f64],
        unlike: bool,
    ) -> Self {
        Table::default()
            .rest(points, Some((knot_count, knots)), coords)
            .row(17, unlike)
    }

    /// The rows 1 to 11 for fit points. A list of knots that is given is refused, whatever is in it.
    pub fn of_fit(coords: &[f64], given: bool) -> Self {
        let n = coords.len() as u64 / 2;
        Table::default()
            .row(1, coords.len() % 2 == 1)
            .row(2, n < 2)
            .row(4, n > MOST_FIT)
            .row(5, given)
            .row(11, !coords.iter().all(|x| x.is_finite()))
    }

    /// The rows 1 to 12 for the residuals of a point at t, on a curve of either form.
    pub fn of_residuals(
        fit: bool,
        coords: &[f64],
        knots: Option<&[f64]>,
        point: [f64; 2],
        t: f64,
    ) -> Self {
        let n = coords.len() as u64 / 2;
        let numbers = [coords, &point].concat();
        let counts = Table::default()
            .row(1, coords.len() % 2 == 1)
            .row(2, n < 2)
            .row(3, !fit && (n == 2 || n == 3))
            .row(4, n > MOST_HELD);
        let checked = match fit {
            true => counts.row(5, knots.is_some()),
            false => counts.judged_knots(n, knots.map(|knots| (knots.len() as u64, knots))),
        };
        checked
            .row(11, !numbers.iter().all(|x| x.is_finite()))
            .row(12, !t.is_finite())
    }

    fn rest(self, n: u64, knots: Option<(u64, &[f64])>, coords: &[f64]) -> Self {
        let counts = self.row(2, n < 2).row(3, n == 2 || n == 3).row(4, n > MOST);
        let checked = counts.judged_knots(n, knots);
        checked.row(11, !coords.iter().all(|x| x.is_finite()))
    }

    /// The rows 6 to 10, where there are knots.
    fn judged_knots(self, n: u64, knots: Option<(u64, &[f64])>) -> Self {
        let Some((count, knots)) = knots else {
            return self;
        };
        self.row(6, u128::from(count) != u128::from(n) + 4)
            .row(7, !rising(knots))
            .row(8, !clamped(knots))
            .row(9, !(knots.first() < knots.last()))
            .row(10, crowded(knots, n))
    }
}

fn rising(knots: &[f64]) -> bool {
    knots.iter().all(|k| k.is_finite()) && !knots.windows(2).any(|pair| pair[1] < pair[0])
}

fn clamped(knots: &[f64]) -> bool {
    let equal = |four: &[f64]| four.iter().all(|k| *k == four[0]);
    knots.len() >= 4 && equal(&knots[..4]) && equal(&knots[knots.len() - 4..])
}

/// Whether one of the indices 4 to n-1 has a knot that is in the whole list more than three times.
fn crowded(knots: &[f64], n: u64) -> bool {
    let often = |k: &f64| knots.iter().filter(|other| *other == k).count() > 3;
    knots.iter().take(n as usize).skip(4).any(often)
}

/// What the original's `check` says of n control points, as the number of the refusal that its words stand for; 0 where it
/// accepts. Nothing of more points than the port takes.
pub fn their_check(n: u64, knots: Option<&[f64]>) -> Option<u64> {
    (n <= MOST).then(|| numbered(check(n as usize, false, knots)))
}

/// The same of coordinates, x and y in turn: nothing of an odd number of them.
pub fn their_check_of(coords: &[f64], knots: Option<&[f64]>) -> Option<u64> {
    let even = coords.len() % 2 == 0;
    even.then(|| their_check(coords.len() as u64 / 2, knots))?
}

/// The same of fit points.
pub fn their_check_of_fit(coords: &[f64], knots: Option<&[f64]>) -> Option<u64> {
    let n = coords.len() / 2;
    let taken = coords.len() % 2 == 0 && n as u64 <= MOST_FIT;
    taken.then(|| numbered(check(n, true, knots)))
}

fn numbered(said: Result<(), String>) -> u64 {
    const WORDS: [(&str, u64); 8] = [
        ("needs at least 2 points", 2),
        ("needs at least 4 control points", 3),
        ("applies only to a control-point spline", 5),
        ("knots, got", 6),
        ("finite and non-decreasing", 7),
        ("must be clamped", 8),
        ("span no interval", 9),
        ("repeats more than", 10),
    ];
    let Err(words) = said else {
        return 0;
    };
    match WORDS.iter().find(|(part, _)| words.contains(part)) {
        Some((_, number)) => *number,
        None => panic!("the original's check has other words: {words}"),
    }
}

/// Whether the two agree: the numbers that `check` knows, and those that the port adds.
pub fn agrees_with_check(refusal: u64, theirs: Option<u64>) -> bool {
    let Some(theirs) = theirs else {
        return true;
    };
    let shared = matches!(refusal, 2 | 3 | 5..=10);
    theirs == if shared { refusal } else { 0 }
}
