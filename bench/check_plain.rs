//! What `office check` does, as a plain Rust program with std alone: a measure for its speed.
//!
//! It reads a CSV of returns on the standard input, whole, splits it into records and fields as the
//! crate `csv` does, and writes the check text on the standard output.

use std::collections::HashMap;
use std::io::{Read, Write};
use std::process::exit;

const MOST_BYTES: usize = 16 * 1024 * 1024;
const MOST_ROWS: usize = 20_000;
const GREATEST: u64 = 1_000_000;
const ELECTORS: u64 = 1_000_000;

/// A record: the bytes of its fields, and where each ends.
#[derive(Default)]
struct Record {
    bytes: Vec<u8>,
    ends: Vec<usize>,
}

impl Record {
    fn field(&self, place: usize) -> &[u8] {
        let start = if place == 0 { 0 } else { self.ends[place - 1] };
        &self.bytes[start..self.ends[place]]
    }
}

/// Reads the record that begins at a place, after empty lines: where it ends, if there is one.
fn next_record(text: &[u8], mut at: usize, record: &mut Record) -> Option<usize> {
    record.bytes.clear();
    record.ends.clear();
    while at < text.len() && (text[at] == b'\n' || text[at] == b'\r') {
        at += 1;
    }
    if at == text.len() {
        return None;
    }
    loop {
        if text.get(at) == Some(&b'"') {
            at = quoted(text, at + 1, &mut record.bytes);
        }
        let start = at;
        while at < text.len() && !matches!(text[at], b',' | b'\n' | b'\r') {
            at += 1;
        }
        record.bytes.extend_from_slice(&text[start..at]);
        record.ends.push(record.bytes.len());
        if text.get(at) != Some(&b',') {
            return Some((at + 1).min(text.len()));
        }
        at += 1;
    }
}

/// Reads a field within quotes, after the first: where it ends.
fn quoted(text: &[u8], mut at: usize, bytes: &mut Vec<u8>) -> usize {
    loop {
        let start = at;
        while at < text.len() && text[at] != b'"' {
            at += 1;
        }
        bytes.extend_from_slice(&text[start..at]);
        if text.get(at + 1) != Some(&b'"') {
            return (at + 1).min(text.len());
        }
        bytes.push(b'"');
        at += 2;
    }
}

fn is_code(text: &[u8]) -> bool {
    (1..=16).contains(&text.len()) && text.iter().all(|c| c.is_ascii_alphanumeric() || *c == b'-' || *c == b'_')
}

fn number(text: &[u8]) -> Option<u64> {
    if !(1..=9).contains(&text.len()) || !text.iter().all(u8::is_ascii_digit) {
        return None;
    }
    Some(text.iter().fold(0, |n, digit| 10 * n + u64::from(digit - b'0')))
}

/// The slip, and the numbers: the blank votes, the spoiled ones, and the votes of each list.
#[derive(PartialEq)]
struct Return {
    slip: Vec<u8>,
    numbers: Vec<u64>,
}

fn return_of(record: &Record, lists: usize) -> Option<Return> {
    if record.ends.len() != lists + 4 || !is_code(record.field(0)) || !is_code(record.field(1)) {
        return None;
    }
    let numbers = (2..lists + 4).map(|place| number(record.field(place))).collect::<Option<Vec<u64>>>()?;
    Some(Return { slip: record.field(1).to_vec(), numbers })
}

fn lists_of(record: &Record) -> Option<Vec<Vec<u8>>> {
    let count = record.ends.len();
    let names: [&[u8]; 4] = [b"station", b"slip", b"blank", b"spoiled"];
    if !(5..=64).contains(&count) || (0..4).any(|place| record.field(place) != names[place]) {
        return None;
    }
    let lists: Vec<Vec<u8>> = (4..count).map(|place| record.field(place).to_vec()).collect();
    let distinct = (0..lists.len()).all(|place| !lists[..place].contains(&lists[place]));
    (distinct && lists.iter().all(|list| is_code(list))).then_some(lists)
}

fn refused(why: &str) -> ! {
    eprintln!("refused: {why}");
    exit(1)
}

fn main() {
    let mut text = Vec::new();
    std::io::stdin().lock().read_to_end(&mut text).expect("the text can be read");
    if text.len() > MOST_BYTES {
        refused("too_long");
    }
    let mut record = Record::default();
    let Some(mut at) = next_record(&text, 0, &mut record) else { refused("bad_header") };
    let Some(lists) = lists_of(&record) else { refused("bad_header") };
    let mut lodged: HashMap<Vec<u8>, Return> = HashMap::new();
    let mut counts = [0; 4];
    let mut first = None;
    let mut row = 0;
    while let Some(end) = next_record(&text, at, &mut record) {
        at = end;
        row += 1;
        if row > MOST_ROWS {
            refused("too_long");
        }
        let Some(found) = return_of(&record, lists.len()) else {
            counts[3] += 1;
            first.get_or_insert((row, 0));
            continue;
        };
        let standing = lodged.get(record.field(0));
        let refusal = if found.numbers.iter().any(|n| *n > GREATEST) {
            4
        } else if found.numbers.iter().sum::<u64>() > ELECTORS {
            6
        } else if standing.is_some_and(|standing| *standing != found) {
            7
        } else {
            0
        };
        match refusal {
            0 if standing.is_none() => {
                lodged.insert(record.field(0).to_vec(), found);
            }
            0 => counts[0] += 1,
            7 => counts[1] += 1,
            _ => counts[2] += 1,
        }
        if refusal != 0 {
            first.get_or_insert((row, refusal));
        }
    }
    let mut totals = vec![0; lists.len() + 2];
    for found in lodged.values() {
        totals.iter_mut().zip(&found.numbers).for_each(|(total, n)| *total += n);
    }
    let first = first.map_or("-".to_string(), |(row, refusal)| format!("{row} {refusal}"));
    let mut out = format!(
        "lodged {}\nsame {}\ndiffers {}\nrefused {}\nbad {}\nfirst {first}\nblank {}\nspoiled {}\n",
        lodged.len(), counts[0], counts[1], counts[2], counts[3], totals[0], totals[1]
    );
    for (list, total) in lists.iter().zip(&totals[2..]) {
        out += &format!("{} {total}\n", String::from_utf8_lossy(list));
    }
    std::io::stdout().write_all(out.as_bytes()).expect("the text can be written");
}
