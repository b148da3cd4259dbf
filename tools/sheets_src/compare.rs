//! The program beside the oracle: a process for each sheet, as many at once as there are processors.

use crate::draw::drawn;
use crate::oracle::{answer, parse};
use std::collections::BTreeMap;
use std::io::{self, Write};
use std::process::{Command, Stdio};
use std::sync::Mutex;
use std::sync::atomic::{AtomicU64, Ordering::Relaxed};
use std::thread;

/// So many differing sheets are shown.
const SHOWN: u64 = 3;

#[derive(Default)]
struct Tally {
    differ: u64,
    kinds: BTreeMap<String, u64>,
}

impl Tally {
    fn kind(&mut self, name: String) {
        *self.kinds.entry(name).or_default() += 1;
    }
}

/// Status 0 if no answer differs, 1 if one does, 2 if the command could not be run.
pub fn run(seed: u64, count: u64, command: &[&str]) -> i32 {
    let next = AtomicU64::new(0);
    let tally = Mutex::new(Tally::default());
    let workers = thread::available_parallelism().map_or(1, usize::from);
    let work = || -> io::Result<()> {
        loop {
            let number = next.fetch_add(1, Relaxed);
            if number >= count {
                return Ok(());
            }
            one(seed, number, command, &tally)?;
        }
    };
    let failed = thread::scope(|scope| {
        let started: Vec<_> = (0..workers).map(|_| scope.spawn(work)).collect();
        let ended = started.into_iter().map(|worker| worker.join());
        ended
            .filter_map(|end| end.expect("no worker panics").err())
            .last()
    });
    if let Some(error) = failed {
        eprintln!("sheets: {}: {error}", command[0]);
        return 2;
    }
    let tally = tally.into_inner().expect("no worker panics");
    for (kind, count) in &tally.kinds {
        println!("{count:9}  {kind}");
    }
    println!("{count} sheets of seed {seed}: {} differ", tally.differ);
    i32::from(tally.differ > 0)
}

fn one(seed: u64, number: u64, command: &[&str], tally: &Mutex<Tally>) -> io::Result<()> {
    let sheet = drawn(seed, number);
    let theirs = answer(&sheet.text);
    let ours = run_on(&sheet.text, command)?;
    let mut tally = tally.lock().expect("no worker panics");
    for kind in kinds(&sheet.text, &theirs) {
        tally.kind(kind);
    }
    tally.kind(match sheet.damage {
        Some(name) => format!("text damaged: {name}"),
        None => "text not damaged".into(),
    });
    if ours != theirs {
        tally.differ += 1;
        if tally.differ <= SHOWN {
            let [sheet, ours, theirs] = [&sheet.text, &ours, &theirs]
                .map(|text| String::from_utf8_lossy(text).into_owned());
            println!("sheet {number}:\n{sheet}answered:\n{ours}but the original:\n{theirs}");
        }
    }
    Ok(())
}

/// What a sheet shows: its form, and each refusal once.
fn kinds(sheet: &[u8], answer: &[u8]) -> Vec<String> {
    let form = match parse(sheet) {
        None => return vec!["not of the form: r 16".into()],
        Some(sheet) if sheet.fit => "fit",
        Some(_) => "control",
    };
    let answer = String::from_utf8_lossy(answer);
    let mut lines = answer.lines();
    let head = lines.next().unwrap_or_default();
    if !head.starts_with("curve") {
        return vec![format!("{form} refused: {head}")];
    }
    let mut found: Vec<String> = lines
        .filter(|line| line.starts_with('r'))
        .map(Into::into)
        .collect();
    found.sort();
    found.dedup();
    let refused = found
        .into_iter()
        .map(|line| format!("{form} with a parameter refused: {line}"));
    std::iter::once(format!("{form} built"))
        .chain(refused)
        .collect()
}

/// What the command writes. It may stop reading where no sheet is as long.
fn run_on(sheet: &[u8], command: &[&str]) -> io::Result<Vec<u8>> {
    let mut child = Command::new(command[0])
        .args(&command[1..])
        .stdin(Stdio::piped())
        .stdout(Stdio::piped())
        .spawn()?;
    let mut input = child.stdin.take().expect("piped");
    match input.write_all(sheet) {
        Err(error) if error.kind() != io::ErrorKind::BrokenPipe => return Err(error),
        _ => drop(input),
    }
    let output = child.wait_with_output()?;
    match output.status.success() {
        true => Ok(output.stdout),
        false => Err(io::Error::other(format!("ended with {}", output.status))),
    }
}
