//! A recount by D'Hondt as `office recount` makes it, as a plain Rust program with std alone: a
//! measure for its speed.
//!
//!     recount_plain SETUP CON [--decisive] < RETURNS
//!
//! Of the setup it reads tables as `bench/recount.py` writes them, one key on a line. It splits the
//! CSV of returns into records and fields as the crate `csv` does, and writes the text of the
//! recount.

use std::collections::HashMap;
use std::fmt::Write as _;
use std::io::{Read, Write};
use std::process::exit;

const MOST_BYTES: usize = 16 * 1024 * 1024;
const MOST_ROWS: usize = 20_000;
const GREATEST: u64 = 1_000_000;

/// A record: the bytes of its fields, and where each ends.
#[derive(Default)]
struct Record {
    bytes: Vec<u8>,
    ends: Vec<usize>,
}

impl Record {
    fn field(&self, place: usize) -> &[u8] {
        let start = if place == 0 { 0 } else { self.ends[place - 1] };
        &self.bytes[start..self.ends[place]]
    }
}

/// Reads the record that begins at a place, after empty lines: where it ends, if there is one.
fn next_record(text: &[u8], mut at: usize, record: &mut Record) -> Option<usize> {
    record.bytes.clear();
    record.ends.clear();
    while at < text.len() && (text[at] == b'\n' || text[at] == b'\r') {
        at += 1;
    }
    if at == text.len() {
        return None;
    }
    loop {
        if text.get(at) == Some(&b'"') {
            at = quoted(text, at + 1, &mut record.bytes);
        }
        let start = at;
        while at < text.len() && !matches!(text[at], b',' | b'\n' | b'\r') {
            at += 1;
        }
        record.bytes.extend_from_slice(&text[start..at]);
        record.ends.push(record.bytes.len());
        if text.get(at) != Some(&b',') {
            return Some((at + 1).min(text.len()));
        }
        at += 1;
    }
}

/// Reads a field within quotes, after the first: where it ends.
fn quoted(text: &[u8], mut at: usize, bytes: &mut Vec<u8>) -> usize {
    loop {
        let start = at;
        while at < text.len() && text[at] != b'"' {
            at += 1;
        }
        bytes.extend_from_slice(&text[start..at]);
        if text.get(at + 1) != Some(&b'"') {
            return (at + 1).min(text.len());
        }
        bytes.push(b'"');
        at += 2;
    }
}

fn is_code(text: &[u8]) -> bool {
    (1..=16).contains(&text.len()) && text.iter().all(|c| c.is_ascii_alphanumeric() || *c == b'-' || *c == b'_')
}

fn number(text: &[u8]) -> Option<u64> {
    if !(1..=9).contains(&text.len()) || !text.iter().all(u8::is_ascii_digit) {
        return None;
    }
    Some(text.iter().fold(0, |n, digit| 10 * n + u64::from(digit - b'0')))
}

/// The slip, and the numbers: the blank votes, the spoiled ones, and the votes of each list.
#[derive(PartialEq)]
struct Return {
    slip: Vec<u8>,
    numbers: Vec<u64>,
}

fn return_of(record: &Record, lists: usize) -> Option<Return> {
    if record.ends.len() != lists + 4 || !is_code(record.field(0)) || !is_code(record.field(1)) {
        return None;
    }
    let numbers = (2..lists + 4).map(|place| number(record.field(place))).collect::<Option<Vec<u64>>>()?;
    Some(Return { slip: record.field(1).to_vec(), numbers })
}

/// The keys of a table of the setup.
type Table = HashMap<String, String>;

#[derive(Default)]
struct Setup {
    profile: Table,
    con: Table,
    lists: Vec<Table>,
    stations: Vec<Table>,
}

fn setup_of(text: &str) -> Setup {
    let mut setup = Setup::default();
    let mut name = "";
    for line in text.lines() {
        if let Some(found) = line.strip_prefix("[[") {
            name = found.trim_end_matches(']');
            match name {
                "constituency.list" => setup.lists.push(Table::new()),
                "constituency.station" => setup.stations.push(Table::new()),
                _ => {}
            }
        } else if let Some((key, value)) = line.split_once(" = ") {
            let table = match name {
                "profile" => &mut setup.profile,
                "constituency" => &mut setup.con,
                "constituency.list" => setup.lists.last_mut().expect("a list"),
                _ => setup.stations.last_mut().expect("a station"),
            };
            table.insert(key.to_string(), value.trim_matches('"').to_string());
        }
    }
    setup
}

/// A poll: its votes, which of them are of eligible lists, and the seats to give.
struct Poll {
    votes: Vec<u64>,
    eligible: Vec<bool>,
    seats: u64,
}

impl Poll {
    fn new(votes: Vec<u64>, blank: u64, threshold: u64, seats: u64) -> Poll {
        let valid = votes.iter().sum::<u64>() + blank;
        let eligible = votes.iter().map(|&n| n > 0 && 10_000 * n >= threshold * valid).collect();
        Poll { votes, eligible, seats }
    }

    /// Whether the quotient of a list for this seat ranks above that of another one. Quotients that
    /// are equal are ranked by votes.
    fn above(&self, list: usize, seat: u64, other: usize, its: u64) -> bool {
        let (mine, theirs) = (self.votes[list] * its, self.votes[other] * seat);
        (mine, self.votes[list]) > (theirs, self.votes[other])
    }

    fn lists(&self) -> impl Iterator<Item = usize> + '_ {
        (0..self.votes.len()).filter(|&list| self.eligible[list])
    }

    /// The seats of each list, where no lot decides.
    fn allotment(&self) -> Option<Vec<u64>> {
        let mut given = vec![0; self.votes.len()];
        for _ in 0..self.seats {
            let mut best = self.lists().next()?;
            for list in self.lists() {
                if self.above(list, given[list] + 1, best, given[best] + 1) {
                    best = list;
                }
            }
            given[best] += 1;
        }
        self.allows(&given, true).then_some(given)
    }

    /// Whether these seats are an allotment; `alone`, whether it is the only one.
    fn allows(&self, seats: &[u64], alone: bool) -> bool {
        let mut least: Option<usize> = None;
        let mut next: Option<usize> = None;
        for list in 0..seats.len() {
            if !self.eligible[list] {
                if seats[list] > 0 {
                    return false;
                }
                continue;
            }
            if seats[list] > 0 && least.is_none_or(|it| self.above(it, seats[it], list, seats[list])) {
                least = Some(list);
            }
            if next.is_none_or(|it| self.above(list, seats[list] + 1, it, seats[it] + 1)) {
                next = Some(list);
            }
        }
        let (Some(least), Some(next)) = (least, next) else { return false };
        if alone && least != next {
            self.above(least, seats[least], next, seats[next] + 1)
        } else {
            !self.above(next, seats[next] + 1, least, seats[least])
        }
    }

    /// The list whose next quotient ranks above that of each other one.
    fn next(&self, given: &[u64]) -> Option<usize> {
        self.lists().find(|&list| {
            self.lists().all(|it| it == list || self.above(list, given[list] + 1, it, given[it] + 1))
        })
    }

    /// With how many votes more a list has one seat more, found by halving.
    fn short(&self, list: usize, given: &[u64], blank: u64, threshold: u64) -> Option<u64> {
        if !self.eligible[list] || given[list] == self.seats {
            return None;
        }
        let gains = |more: u64| {
            let mut votes = self.votes.clone();
            votes[list] += more;
            let poll = Poll::new(votes, blank, threshold, self.seats);
            let others = poll.lists().filter(|&it| it != list);
            let ahead = |it| (1..=poll.seats).take_while(|&seat| !poll.above(list, given[list] + 1, it, seat)).count();
            let before: usize = others.map(ahead).sum();
            poll.eligible[list] && before as u64 + given[list] < poll.seats
        };
        let mut most = 1;
        while !gains(most) {
            most *= 2;
        }
        let mut least = most / 2;
        while least + 1 < most {
            let middle = (least + most) / 2;
            if gains(middle) {
                most = middle;
            } else {
                least = middle;
            }
        }
        Some(most)
    }
}

fn refused(why: &str) -> ! {
    eprintln!("refused: {why}");
    exit(1)
}

fn main() {
    let words: Vec<String> = std::env::args().collect();
    let setup = setup_of(&std::fs::read_to_string(&words[1]).expect("the setup can be read"));
    if setup.con["code"] != words[2] {
        refused("no_constituency");
    }
    let mut text = Vec::new();
    std::io::stdin().lock().read_to_end(&mut text).expect("the text can be read");
    if text.len() > MOST_BYTES {
        refused("too_long");
    }
    let mut record = Record::default();
    let Some(mut at) = next_record(&text, 0, &mut record) else { refused("bad_header") };
    let codes = ["station", "slip", "blank", "spoiled"];
    let codes: Vec<&str> = codes.into_iter().chain(setup.lists.iter().map(|list| &*list["code"])).collect();
    let named = |place: usize| record.field(place) == codes[place].as_bytes();
    if record.ends.len() != codes.len() || !(0..codes.len()).all(named) {
        refused("bad_header");
    }
    let places: HashMap<&[u8], (usize, u64)> = setup
        .stations
        .iter()
        .enumerate()
        .map(|(place, it)| (it["code"].as_bytes(), (place, it["electors"].parse().expect("electors"))))
        .collect();
    let mut counted: Vec<Option<Return>> = setup.stations.iter().map(|_| None).collect();
    let (mut row, mut passed) = (0, 0);
    while let Some(end) = next_record(&text, at, &mut record) {
        at = end;
        row += 1;
        if row > MOST_ROWS {
            refused("too_long");
        }
        let found = return_of(&record, setup.lists.len());
        match (found, places.get(record.field(0))) {
            (Some(found), Some(&(place, electors)))
                if found.numbers.iter().all(|n| *n <= GREATEST)
                    && found.numbers.iter().sum::<u64>() <= electors
                    && counted[place].is_none() =>
            {
                counted[place] = Some(found);
            }
            _ => passed += 1,
        }
    }
    let mut totals = vec![0; setup.lists.len() + 2];
    for found in counted.iter().flatten() {
        totals.iter_mut().zip(&found.numbers).for_each(|(total, n)| *total += n);
    }
    let threshold: u64 = setup.profile["threshold"].parse().expect("a threshold");
    let seats: u64 = setup.con["seats"].parse().expect("seats");
    let (blank, spoiled, votes) = (totals[0], totals[1], totals[2..].to_vec());
    let sum: u64 = votes.iter().sum();
    let poll = Poll::new(votes, blank, threshold, seats);
    let Some(given) = poll.allotment() else { refused("lot_missing") };
    let mut out = format!(
        "RECOUNT {} {}\nstations {} counted {} without 0\npassed {passed}\nmethod dhondt seats {seats}\n\
         threshold {threshold} base valid rule fixed\nlot -\nvalid {} blank {blank} spoiled {spoiled}\n",
        setup.con["code"],
        setup.con["name"],
        counted.len(),
        counted.iter().flatten().count(),
        sum + blank
    );
    for (list, table) in setup.lists.iter().enumerate() {
        let share = 10_000 * poll.votes[list] / (sum + blank).max(1);
        let share = format!("{}.{:02}", share / 100, share % 100);
        let short = poll.short(list, &given, blank, threshold).map_or("-".to_string(), |n| n.to_string());
        let state = if poll.eligible[list] { "in" } else { "out" };
        let (code, name, count, has) = (&table["code"], &table["name"], poll.votes[list], given[list]);
        writeln!(out, "{code:16}{count:>12}{share:>8} {state:4}{has:>5}{short:>12} {name}").expect("room");
    }
    writeln!(out, "{:16}{sum:>12}{seats:>18}", "total").expect("room");
    writeln!(out, "next {}", poll.next(&given).map_or("-", |list| &*setup.lists[list]["code"])).expect("room");
    if words.get(3).is_some_and(|word| word == "--decisive") {
        for (station, found) in setup.stations.iter().zip(&counted) {
            let Some(found) = found else { continue };
            let rest = poll.votes.iter().zip(&found.numbers[2..]).map(|(n, by)| n - by).collect();
            if !Poll::new(rest, blank - found.numbers[0], threshold, seats).allows(&given, false) {
                writeln!(out, "decisive {}", station["code"]).expect("room");
            }
        }
    }
    std::io::stdout().write_all(out.as_bytes()).expect("the text can be written");
}
