//! The recorded sheets: some of every kind, few bytes each.

use crate::oracle::{LONGEST, MOST_KNOTS, MOST_PARAMETERS, MOST_POINTS, Sheet};
use crate::text::{counts, text};

/// Case S of docs/RULES.md, "The sheet".
pub fn case_s() -> Sheet {
    Sheet {
        fit: false,
        coords: vec![0.0, 0.0, 0.0, 8.0, 8.0, 8.0, 8.0, 0.0],
        knots: Vec::new(),
        at: vec![0.25, 2.0],
    }
}

fn small_fit() -> Sheet {
    Sheet {
        fit: true,
        coords: vec![0.0, 0.0, 3.0, 6.0],
        knots: Vec::new(),
        at: vec![0.5],
    }
}

/// Seven points over knots with 0.5 three times.
fn given() -> Sheet {
    Sheet {
        fit: false,
        coords: (0..14).map(|k| f64::from(k * k % 11) / 3.0).collect(),
        knots: [[0.0; 4].as_slice(), &[0.5; 3], &[1.0; 4]].concat(),
        at: vec![0.0, 0.25, 0.5, 0.75, 1.0],
    }
}

/// Every recorded sheet, in the order of the file.
pub fn sheets() -> Vec<Vec<u8>> {
    let mut all = vec![text(&case_s()), text(&small_fit()), text(&given())];
    all.extend(byte_off());
    all.extend(forms());
    all.extend(limits().iter().map(text));
    all.push([text(&longest()), b"\n".to_vec()].concat());
    all.extend(refused().iter().map(text));
    all.extend(numbers().iter().map(text));
    all.extend(lengths().iter().map(text));
    all
}

/// One byte off in each place of the grammar: two ways in each place of case S; in each place of a fit another byte, its byte taken out, and the
/// end of the sheet; and in the head of given knots.
fn byte_off() -> Vec<Vec<u8>> {
    let changed = |text: &[u8], at: usize, byte: u8| {
        let mut text = text.to_vec();
        text[at] = byte;
        text
    };
    let case_s = text(&case_s());
    let fit = text(&small_fit());
    let given = text(&given());
    let mut all = Vec::new();
    for at in 0..case_s.len() {
        all.push(changed(&case_s, at, case_s[at] ^ 0x20));
        all.push(changed(&case_s, at, case_s[at] + 1));
    }
    for at in 0..fit.len() {
        all.push(changed(&fit, at, fit[at] - 1));
        all.push([&fit[..at], &fit[at + 1..]].concat());
        all.push(fit[..at].to_vec());
    }
    // the knots' head line and the first of its numbers
    let knots = counts(&given)[1].start - "knots ".len();
    for at in knots..knots + 32 {
        all.push(changed(&given, at, given[at] ^ 1));
    }
    all
}

/// Other ways of writing than the grammar's.
fn forms() -> Vec<Vec<u8>> {
    let fit = text(&small_fit());
    let mut all = vec![
        Vec::new(),
        b"\n".to_vec(),
        b"fit".to_vec(),
        b"fit\n".to_vec(),
    ];
    for tail in [&b"\n"[..], b" ", b"0", b"\0", b"\r", b"at 0\n"] {
        all.push([&fit, tail].concat());
    }
    let with = |old: &str, new: &str| {
        let fit = String::from_utf8(fit.clone()).expect("ASCII");
        assert!(fit.contains(old));
        fit.replace(old, new).into_bytes()
    };
    for (old, new) in [
        ("\n", "\r\n"),
        ("\n", "\r"),
        ("fit\n", "Fit\n"),
        ("fit\n", "fit \n"),
        ("fit\n", "fit\n\n"),
        ("fit\n", "\u{feff}fit\n"),
        ("points 2", "points 02"),
        ("points 2", "points  2"),
        ("points 2", "points +2"),
        ("points 2", "points 2 "),
        ("points 2", "points 2.0"),
        ("points 2", "points"),
        ("points 2", "points "),
        ("points 2", "points 1"),
        ("points 2", "points 3"),
        ("points 2", "points 4294967298"),
        ("points 2", "points 18446744073709551618"),
        ("knots 0", "knots 00"),
        ("knots 0", "knots -0"),
        ("knots 0\n", ""),
        ("at 1", "at 01"),
        ("at 1", "at 0"),
        ("at 1", "at 2"),
        ("3FE0000000000000", "3fe0000000000000"),
        ("3FE0000000000000", "0x3FE00000000000"),
        ("3FE0000000000000", "3FE00000000000000"),
        ("3FE0000000000000", "3FE000000000000"),
        ("3FE0000000000000", "+FE0000000000000"),
        ("3FE0000000000000", "3FE000000000000G"),
        ("3FE0000000000000", "3FE000000000000@"),
        ("3FE0000000000000", "3FE000000000000:"),
        ("3FE0000000000000", "3FE000000000000/"),
        ("3FE0000000000000", "0.50000000000000"),
        (" 4018", "  4018"),
        (" 4018", "\t4018"),
        (" 4018", "\n4018"),
    ] {
        all.push(with(old, new));
    }
    all
}

/// So many control or fit points, on a parabola.
fn curve(fit: bool, points: usize, at: &[f64]) -> Sheet {
    let point = |k: usize| [k as f64, (k * k) as f64 / 16.0];
    Sheet {
        fit,
        coords: (0..points).flat_map(point).collect(),
        knots: Vec::new(),
        at: at.to_vec(),
    }
}

fn rising(count: usize) -> Vec<f64> {
    let inner = count.saturating_sub(8);
    let knot = |k: usize| (k as f64 - 3.0).clamp(0.0, (inner + 1) as f64);
    (0..count).map(knot).collect()
}

/// The longest of all.
pub fn longest() -> Sheet {
    let parameter = |k: usize| k as f64 / 16.0 - 1.0;
    let sheet = Sheet {
        knots: rising(MOST_KNOTS),
        at: (0..MOST_PARAMETERS).map(parameter).collect(),
        ..curve(false, MOST_POINTS, &[])
    };
    assert_eq!(text(&sheet).len(), LONGEST);
    sheet
}

/// The longest that is fitted: 64 points, for which the work buffer is used to its end.
fn longest_fit() -> Sheet {
    let parameter = |k: usize| (k as f64 - 16.0) / 992.0;
    let at: Vec<f64> = (0..MOST_PARAMETERS).map(parameter).collect();
    curve(true, 64, &at)
}

fn limits() -> Vec<Sheet> {
    let mut all = Vec::new();
    for (fit, points) in [
        (false, 0),
        (false, 65),
        (false, 66),
        (false, 67),
        (true, 0),
        (true, 63),
    ] {
        all.push(curve(fit, points, &[0.3]));
    }
    for points in [64, 65, 66, 67] {
        all.push(curve(true, points, &[0.3]));
    }
    for knots in [1, 69, 70, 71] {
        all.push(Sheet {
            knots: rising(knots),
            ..curve(false, knots.saturating_sub(4).min(MOST_POINTS), &[1.5])
        });
    }
    all.push(curve(false, 4, &[]));
    all.push(curve(true, 2, &[]));
    all.push(longest());
    all.push(longest_fit());
    all.push(curve(true, 2, &[0.5; MOST_PARAMETERS + 1]));
    all
}

/// Each refusal that a sheet can meet beside 16, and two at once.
fn refused() -> Vec<Sheet> {
    let fit = |points: usize| curve(true, points, &[0.5]);
    let over = |points: usize, knots: &[f64]| Sheet {
        knots: knots.to_vec(),
        ..curve(false, points, &[0.5])
    };
    let mut all = vec![
        // 2, 3, 4
        curve(false, 1, &[0.5]),
        fit(1),
        curve(false, 2, &[0.5]),
        curve(false, 3, &[0.5]),
        over(3, &[0.0; 7]),
        // 5, also where the knots are good ones; the count of points is judged before
        Sheet {
            knots: vec![0.0, 0.0, 0.0, 0.0, 1.0, 1.0, 1.0, 1.0],
            ..fit(4)
        },
        Sheet {
            knots: vec![f64::NAN],
            ..fit(2)
        },
        Sheet {
            knots: vec![1.0],
            ..fit(1)
        },
        Sheet {
            knots: vec![1.0],
            ..fit(65)
        },
    ];
    let good = [0.0, 0.0, 0.0, 0.0, 1.0, 2.0, 3.0, 4.0, 4.0, 4.0, 4.0];
    all.push(over(7, &good));
    // 6
    all.push(over(7, &good[..10]));
    all.push(over(6, &good));
    // 7: not finite, or less than the one before, in each place
    for at in 0..good.len() {
        for bad in [[f64::NAN, f64::INFINITY, f64::NEG_INFINITY][at % 3], 2.5] {
            let mut knots = good;
            knots[at] = bad;
            all.push(over(7, &knots));
        }
    }
    // 8, at either end
    all.push(over(
        7,
        &[0.0, 0.0, 0.0, 0.5, 1.0, 2.0, 3.0, 4.0, 4.0, 4.0, 4.0],
    ));
    all.push(over(
        7,
        &[0.0, 0.0, 0.0, 0.0, 1.0, 2.0, 3.0, 3.5, 4.0, 4.0, 4.0],
    ));
    // 9, and 10
    all.push(over(7, &[2.0; 11]));
    all.push(over(
        8,
        &[0.0, 0.0, 0.0, 0.0, 0.5, 0.5, 0.5, 0.5, 1.0, 1.0, 1.0, 1.0],
    ));
    all.push(over(
        8,
        &[0.0, 0.0, 0.0, 0.0, 0.0, 0.5, 0.5, 0.5, 1.0, 1.0, 1.0, 1.0],
    ));
    all.push(over(
        8,
        &[0.0, 0.0, 0.0, 0.0, 0.5, 0.5, 0.5, 1.0, 1.0, 1.0, 1.0, 1.0],
    ));
    // 11, in each place of both forms
    for at in 0..8 {
        for (is_fit, bad) in [(false, f64::NAN), (true, f64::NEG_INFINITY)] {
            let mut sheet = curve(is_fit, 4, &[0.5]);
            sheet.coords[at] = bad;
            all.push(sheet);
        }
    }
    // 7 before 11
    let mut both = over(7, &[f64::NAN; 11]);
    both.coords[3] = f64::NAN;
    all.push(both);
    // 12 and 15 of a parameter, beside good ones
    all.push(curve(
        false,
        4,
        &[f64::NAN, 0.5, f64::INFINITY, f64::NEG_INFINITY, -f64::NAN],
    ));
    all.push(curve(true, 4, &[1e308, 0.5, -1e308, f64::NAN]));
    // 15 of a build: the length
    all.push(Sheet {
        coords: vec![1e308, -1e308, -1e308, 1e308, 1e308, -1e308, -1e308, 1e308],
        ..curve(false, 0, &[0.0, 0.5, 1.0, 1.5, 2.0])
    });
    // a step that is infinite, and parameters that are equal; of two points the step does not matter, but the length
    let far = |list: &[f64]| Sheet {
        coords: list.to_vec(),
        ..fit(0)
    };
    all.push(far(&[0.0, 0.0, 1e200, 0.0, 0.0, 0.0]));
    all.push(far(&[0.0, 0.0, 1e21, 0.0, 1e21, 0.0, 2e21, 0.0]));
    all.push(far(&[0.0, 0.0, 1e308, 1e308]));
    all.push(far(&[0.0, 0.0, 1e200, 0.0]));
    all
}

/// Numbers that arithmetic can go wrong on.
fn numbers() -> Vec<Sheet> {
    let least = f64::from_bits(1);
    let around = [
        -1.0,
        -0.0,
        0.0,
        least,
        0.1,
        0.5,
        0.9,
        1.0,
        1.0 + f64::EPSILON,
        2.0,
        -least,
    ];
    let mut all = Vec::new();
    for fit in [false, true] {
        for coords in [
            [-0.0; 8],
            [-0.0, 0.0, 0.0, -0.0, -0.0, 0.0, -0.0, -0.0],
            [
                least,
                -least,
                3.0 * least,
                0.0,
                -7.0 * least,
                least,
                2.0 * least,
                -0.0,
            ],
            [
                1e-310, 2e-310, 5e-310, -3e-310, 1e-309, 4e-310, -2e-310, 1e-311,
            ],
            [
                1e-300, 2e-300, 5e-300, -3e-300, 1e-290, 4e-300, -2e-300, 1e-301,
            ],
            [0.1, 0.7, 1.3, 2.9, 2.3, -1.1, 3.7, 0.3],
            [1.0, 1.0, 1.0, 1.0, 1.0, 1.0, 1.0, 1.0],
            [1e150, 2e150, 3e150, -1e150, 5e150, 0.0, -2e150, 7e150],
            [1e15, 0.1, -1e15, 0.3, 1e15, 1e-15, 0.7, -1e15],
        ] {
            all.push(Sheet {
                coords: coords.to_vec(),
                ..curve(fit, 0, &around)
            });
        }
    }
    // knots: negative, of either sign of zero, tiny, huge
    for scale in [1.0, -0.0, 1e-320, 1e-308, 1e300, 4e307] {
        let at = [-4.0, -2.0, 0.0, 0.5, 1.0, 2.0, 3.0].map(|t| t * scale);
        let knots = [-2.0, -2.0, -2.0, -2.0, -0.0, 0.0, 1.0, 2.0, 2.0, 2.0, 2.0];
        all.push(Sheet {
            knots: knots.map(|k| k * scale).to_vec(),
            ..curve(false, 7, &at)
        });
    }
    all
}

/// Polygons whose length is not finite, and just finite: with an edge of 1.35e154, whose square overflows, and with one of 1.34e154. The polygon of a
/// fit of two points has three edges, each a third of the way between them. At the last parameter the point is not finite.
fn lengths() -> Vec<Sheet> {
    let at = [0.0, 0.5, 1.0, -1e200];
    let mut all = Vec::new();
    for edge in [1.35e154, 1.34e154] {
        all.push(Sheet {
            coords: vec![0.0, 0.0, edge, 0.0, edge, 1.0, edge, 2.0],
            ..curve(false, 0, &at)
        });
        all.push(Sheet {
            coords: vec![0.0, 0.0, 3.0 * edge, 0.0],
            ..curve(true, 0, &at)
        });
    }
    all
}
