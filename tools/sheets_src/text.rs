//! Sheets as text, good ones and damaged ones.

use crate::oracle::Sheet;
use crate::random::Random;

/// The sheet's text, its counts those of its lists whatever they are.
pub fn text(sheet: &Sheet) -> Vec<u8> {
    let mut lines = vec![if sheet.fit { "fit" } else { "control" }.to_string()];
    lines.push(format!("points {}", sheet.coords.len() / 2));
    lines.extend(sheet.coords.chunks(2).map(pair));
    for (word, list) in [("knots", &sheet.knots), ("at", &sheet.at)] {
        lines.push(format!("{word} {}", list.len()));
        lines.extend(list.iter().map(|x| digits(*x)));
    }
    lines
        .iter()
        .flat_map(|line| format!("{line}\n").into_bytes())
        .collect()
}

fn pair(point: &[f64]) -> String {
    format!("{} {}", digits(point[0]), digits(point[1]))
}

fn digits(x: f64) -> String {
    format!("{:016X}", x.to_bits())
}

/// Where the numerals of the three counts stand, the end of their lines not included.
pub fn counts(text: &[u8]) -> Vec<std::ops::Range<usize>> {
    let mut found = Vec::new();
    let mut at = 0;
    for line in text.split_inclusive(|byte| *byte == b'\n') {
        for word in [&b"points "[..], b"knots ", b"at "] {
            if line.starts_with(word) {
                found.push(at + word.len()..at + line.len() - usize::from(line.ends_with(b"\n")));
            }
        }
        at += line.len();
    }
    found
}

/// Bytes that a sheet has, or that look like one of those.
const BYTES: &[u8] = b" \n\r\t\0+-.0123456789ABCDEFGabcdefgpkfitcnorlwshx\x7f\x80\xff";

/// The text with one damage, and its name. Some damages leave a good sheet behind.
pub fn damage(text: &[u8], random: &mut Random) -> (Vec<u8>, &'static str) {
    let mut text = text.to_vec();
    let kind = random.below(20);
    let name = match kind {
        0..4 => {
            let at = place(&text, random);
            text.splice(at..(at + 1).min(text.len()), [byte(random)]);
            "a byte changed"
        }
        4 => {
            let at = place(&text, random);
            text.insert(at, byte(random));
            "a byte put in"
        }
        5 => {
            if !text.is_empty() {
                text.remove(place(&text, random));
            }
            "a byte taken out"
        }
        6 => {
            text.truncate(random.below(text.len() as u64 + 1) as usize);
            "cut off"
        }
        7 => {
            text.pop();
            "no end of the last line"
        }
        8 => {
            let more = 1 + random.below(3);
            text.extend((0..more).map(|_| byte(random)));
            "bytes after the last line"
        }
        9 => {
            let every = random.once_in(2);
            text = ended_twice(&text, every, random);
            "carriage returns"
        }
        10 => {
            lower(&mut text, random);
            "lower-case digits"
        }
        11..14 => {
            let found = counts(&text);
            if !found.is_empty() {
                let range = found[random.below(found.len() as u64) as usize].clone();
                let new = numeral(&text[range.clone()], random);
                text.splice(range, new);
            }
            "a count changed"
        }
        14 => {
            let mut lines = lines(&text);
            let [a, b] = [(); 2].map(|_| random.below(lines.len() as u64) as usize);
            lines.swap(a, b);
            text = lines.concat();
            "two lines exchanged"
        }
        15 => {
            let mut lines = lines(&text);
            lines.remove(random.below(lines.len() as u64) as usize);
            text = lines.concat();
            "a line taken out"
        }
        16 => {
            let mut lines = lines(&text);
            let at = random.below(lines.len() as u64) as usize;
            lines.insert(at, lines[at].clone());
            text = lines.concat();
            "a line twice"
        }
        17 => {
            let mut lines = lines(&text);
            lines[0] = first_line(random).to_vec();
            text = lines.concat();
            "another first line"
        }
        18 => {
            text.extend(vec![byte(random); random.below(90_000) as usize]);
            "much after the last line"
        }
        _ => {
            text = (0..random.below(64)).map(|_| byte(random)).collect();
            "rubbish"
        }
    };
    (text, name)
}

fn lines(text: &[u8]) -> Vec<Vec<u8>> {
    let lines: Vec<Vec<u8>> = text
        .split_inclusive(|byte| *byte == b'\n')
        .map(<[u8]>::to_vec)
        .collect();
    if lines.is_empty() {
        vec![Vec::new()]
    } else {
        lines
    }
}

/// Heads are short beside the numbers, so half of the places are in them.
fn place(text: &[u8], random: &mut Random) -> usize {
    let lines = lines(text);
    let line = random.below(lines.len() as u64) as usize;
    let heads = |line: &Vec<u8>| line.first().is_some_and(u8::is_ascii_lowercase);
    let head = (0..=line)
        .rev()
        .find(|k| heads(&lines[*k]))
        .filter(|_| random.once_in(2));
    let line = head.unwrap_or(line);
    let before: usize = lines[..line].iter().map(Vec::len).sum();
    before + random.below(lines[line].len().max(1) as u64) as usize
}

fn byte(random: &mut Random) -> u8 {
    match random.below(4) {
        0 => random.bits() as u8,
        _ => BYTES[random.below(BYTES.len() as u64) as usize],
    }
}

fn ended_twice(text: &[u8], every: bool, random: &mut Random) -> Vec<u8> {
    let mut lines = lines(text);
    let only = random.below(lines.len() as u64) as usize;
    for (k, line) in lines.iter_mut().enumerate() {
        if (every || k == only) && line.pop().is_some() {
            line.extend(b"\r\n");
        }
    }
    lines.concat()
}

/// One letter of a number, or all of them.
fn lower(text: &mut [u8], random: &mut Random) {
    let letters: Vec<usize> = (0..text.len())
        .filter(|k| text[*k].is_ascii_uppercase())
        .collect();
    let chosen = random.below(letters.len().max(1) as u64) as usize;
    let every = random.once_in(2);
    for (k, at) in letters.into_iter().enumerate() {
        if every || k == chosen {
            text[at].make_ascii_lowercase();
        }
    }
}

fn numeral(old: &[u8], random: &mut Random) -> Vec<u8> {
    let old = String::from_utf8_lossy(old).into_owned();
    let count: i64 = old.parse().unwrap_or(0);
    match random.below(12) {
        0 => format!("0{old}"),
        1 => format!("00{old}"),
        2 => format!("+{old}"),
        3 => format!("-{old}"),
        4 => format!(" {old}"),
        5 => format!("{old} "),
        6 => format!("{old}0"),
        7 => String::new(),
        8 => format!("{}", count + (1 << 32)),
        9 => format!("{}", i128::from(count) + (1 << 64)),
        10 => format!("{}", count + 1),
        _ => format!("{}", count - 1),
    }
    .into_bytes()
}

fn first_line(random: &mut Random) -> &'static [u8] {
    const LINES: [&[u8]; 10] = [
        b"fit\n",
        b"control\n",
        b"Fit\n",
        b"FIT\n",
        b"fit \n",
        b" fit\n",
        b"fits\n",
        b"contro\n",
        b"controls\n",
        b"\n",
    ];
    LINES[random.below(LINES.len() as u64) as usize]
}
