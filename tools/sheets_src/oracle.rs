//! The oracle's sheet mode: what docs/RULES.md, "The sheet", has the program answer, by the original. A sheet is read line by line, which is not how the
//! program does it; the rows of refusals and the judge of 15 are those of tools/compare.

use crate::judge::{Fit, polygon_length};
use crate::table::{NOT_FINITE, Table, agrees_with_check, their_check_of, their_check_of_fit};
use original::spline::BSpline;

/// The limits of the three counts.
pub const MOST_POINTS: usize = 66;
pub const MOST_KNOTS: usize = 70;
pub const MOST_PARAMETERS: usize = 1024;
/// The longest sheet that has the form, in bytes.
pub const LONGEST: usize = 20_877;

pub const MALFORMED: u64 = 16;

pub struct Sheet {
    pub fit: bool,
    /// x and y in turn.
    pub coords: Vec<f64>,
    pub knots: Vec<f64>,
    pub at: Vec<f64>,
}

/// The whole output for this input.
pub fn answer(text: &[u8]) -> Vec<u8> {
    match parse(text) {
        Some(sheet) => sheet.answer(),
        None => refused(MALFORMED),
    }
    .into_bytes()
}

fn refused(number: u64) -> String {
    format!("r {number}\n")
}

pub fn parse(text: &[u8]) -> Option<Sheet> {
    let mut lines = text.strip_suffix(b"\n")?.split(|byte| *byte == b'\n');
    let fit = match lines.next()? {
        b"fit" => true,
        b"control" => false,
        _ => return None,
    };
    let sheet = Sheet {
        fit,
        coords: section(&mut lines, b"points ", MOST_POINTS, 2)?,
        knots: section(&mut lines, b"knots ", MOST_KNOTS, 1)?,
        at: section(&mut lines, b"at ", MOST_PARAMETERS, 1)?,
    };
    lines.next().is_none().then_some(sheet)
}

/// A head line, and after it so many lines of `per` numbers.
fn section<'a>(
    lines: &mut impl Iterator<Item = &'a [u8]>,
    word: &[u8],
    most: usize,
    per: usize,
) -> Option<Vec<f64>> {
    let count = count(lines.next()?.strip_prefix(word)?).filter(|count| *count <= most)?;
    let mut numbers = Vec::new();
    for _ in 0..count {
        let mut words = lines.next()?.split(|byte| *byte == b' ');
        for _ in 0..per {
            numbers.push(double(words.next()?)?);
        }
        if words.next().is_some() {
            return None;
        }
    }
    Some(numbers)
}

fn count(word: &[u8]) -> Option<usize> {
    let word = str::from_utf8(word).ok()?;
    let count: usize = word.parse().ok()?;
    // no sign, no leading zero: written anew it is the same
    (count.to_string() == word).then_some(count)
}

fn double(word: &[u8]) -> Option<f64> {
    let word = str::from_utf8(word).ok()?;
    let bits = u64::from_str_radix(word, 16).ok()?;
    (format!("{bits:016X}") == word).then(|| f64::from_bits(bits))
}

impl Sheet {
    fn given(&self) -> Option<&[f64]> {
        (!self.knots.is_empty()).then_some(&self.knots[..])
    }

    fn points(&self) -> Vec<[f64; 2]> {
        self.coords.as_chunks().0.to_vec()
    }

    fn answer(&self) -> String {
        let curve = match self.build() {
            Ok(curve) => curve,
            Err(number) => return refused(number),
        };
        let head = format!(
            "curve {} {}\n",
            curve.control_points.len(),
            curve.knots.len()
        );
        let lines = self.at.iter().map(|t| line(&curve, *t));
        std::iter::once(head).chain(lines).collect()
    }

    /// The original's curve, or the number of the refusal.
    fn build(&self) -> Result<BSpline, u64> {
        let (table, theirs) = match self.fit {
            true => (
                Table::of_fit(&self.coords, self.given().is_some()),
                their_check_of_fit(&self.coords, self.given()),
            ),
            false => (
                Table::of_curve(&self.coords, self.given()),
                their_check_of(&self.coords, self.given()),
            ),
        };
        assert!(
            agrees_with_check(table.first, theirs),
            "the table says {}, the original's check {theirs:?}",
            table.first
        );
        if table.first != 0 {
            return Err(table.first);
        }
        let curve = BSpline::new(&self.points(), self.fit, self.given()).expect("checked");
        let stored = !self.fit || fine(&self.points(), &curve);
        match stored && polygon_length(&curve.control_points).is_finite() {
            true => Ok(curve),
            false => Err(NOT_FINITE),
        }
    }
}

/// Whether every number that the fit stores beside the length is finite. The judge of that has to come to the original's own numbers.
fn fine(points: &[[f64; 2]], curve: &BSpline) -> bool {
    let fit = Fit::through(points);
    let bits = |list: &[f64]| -> Vec<u64> {
        let one = |x: &f64| if x.is_nan() { u64::MAX } else { x.to_bits() };
        list.iter().map(one).collect()
    };
    assert_eq!(bits(&fit.knots), bits(&curve.knots), "the judge's knots");
    if let Some(control) = fit.control {
        let [ours, theirs] = [&control, &curve.control_points].map(|list| bits(&list.concat()));
        assert_eq!(ours, theirs, "the judge's control points");
    }
    fit.fine
}

/// A parameter's line. The curve is checked again, as at every door.
fn line(curve: &BSpline, t: f64) -> String {
    let coords = curve.control_points.concat();
    let table = Table::of_curve(&coords, Some(&curve.knots)).row(12, !t.is_finite());
    if table.first != 0 {
        return refused(table.first);
    }
    let [x, y] = curve.point(t);
    if !(x.is_finite() && y.is_finite()) {
        return refused(NOT_FINITE);
    }
    format!("p {:016X} {:016X}\n", x.to_bits(), y.to_bits())
}
