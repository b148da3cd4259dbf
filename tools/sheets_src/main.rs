//! Sheets, and what the original answers to them.
//!
//!     sheets answer                        a sheet from standard input, its answer to standard output: the oracle's sheet mode
//!     sheets record WHAT                   the recorded sheets, or their answers, to standard output
//!     sheets longest                       the longest of them, to standard output
//!     sheets draw WHAT SEED COUNT          the same of so many random sheets; those longer than the program has room for are left out
//!     sheets compare SEED COUNT COMMAND..  runs the command on each of those; status 1 if an answer differs
//!
//! WHAT is `sheets`: before each a line with its length in 8 upper-case hexadecimal digits, as the program sheet_cases reads them. Or it is
//! `answers`: before each a line with its number, as that program writes them.

// Only parts of what tools/compare has are needed here.
#[allow(dead_code)]
#[path = "../compare_src/judge.rs"]
mod judge;
#[allow(dead_code)]
#[path = "../compare_src/random.rs"]
mod random;
#[allow(dead_code)]
#[path = "../compare_src/table.rs"]
mod table;
#[allow(dead_code)]
#[path = "../compare_src/told.rs"]
mod told;

mod compare;
mod draw;
mod oracle;
mod recorded;
mod text;

use std::io::{self, Read, Write};
use std::process::exit;

fn main() {
    let arguments: Vec<String> = std::env::args().skip(1).collect();
    let words: Vec<&str> = arguments.iter().map(String::as_str).collect();
    let done = match words[..] {
        ["answer"] => answer(),
        ["record", what] => write(what, recorded::sheets().into_iter()),
        ["longest"] => io::stdout().write_all(&text::text(&recorded::longest())),
        ["draw", what, seed, count] => {
            let (seed, count) = (number(seed), number(count));
            let sheets = (0..count).map(|k| draw::drawn(seed, k).text);
            write(
                what,
                sheets.filter(|sheet| sheet.len() <= oracle::LONGEST + 1),
            )
        }
        ["compare", seed, count, ref command @ ..] if !command.is_empty() => {
            exit(compare::run(number(seed), number(count), command))
        }
        _ => fail(
            "usage: sheets answer | record WHAT | longest | draw WHAT SEED COUNT | compare SEED COUNT COMMAND..",
        ),
    };
    done.unwrap_or_else(|error| fail(&error.to_string()));
}

fn fail(why: &str) -> ! {
    eprintln!("sheets: {why}");
    exit(2)
}

fn number(word: &str) -> u64 {
    word.parse()
        .unwrap_or_else(|_| fail(&format!("no number: {word}")))
}

fn answer() -> io::Result<()> {
    let mut sheet = Vec::new();
    io::stdin().read_to_end(&mut sheet)?;
    io::stdout().write_all(&oracle::answer(&sheet))
}

fn write(what: &str, sheets: impl Iterator<Item = Vec<u8>>) -> io::Result<()> {
    let mut out = io::BufWriter::new(io::stdout().lock());
    for (sheet, number) in sheets.zip(1u64..) {
        match what {
            "sheets" => {
                writeln!(out, "{:08X}", sheet.len())?;
                out.write_all(&sheet)?;
            }
            "answers" => {
                writeln!(out, "# {number}")?;
                out.write_all(&oracle::answer(&sheet))?;
            }
            _ => fail("neither sheets nor answers"),
        }
    }
    out.flush()
}
