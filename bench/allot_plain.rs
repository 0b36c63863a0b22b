//! The award of seats as a plain Rust program: the measure for the speed of `allot`.
//!
//! It is called as the program that it is compared with, and writes the same lines for `allot`.

use std::cmp::Ordering;
use std::collections::BinaryHeap;
use std::io::{Error, Read, Result};

#[derive(PartialEq, Eq)]
struct Next {
    list: usize,
    share: u64,
    divisor: u64,
    votes: u64,
    place: usize,
    seat: u32,
}

/// A divisor rule: its first divisor, how far the second is above it, and how far each later one is
/// above the one before. Hare's rule has a first divisor of 0.
struct Rule {
    first: u64,
    second: u64,
    later: u64,
    alternating: bool,
}

fn rule_of(name: &str) -> Option<Rule> {
    let (name, lots) = name.split_once('/').unwrap_or((name, ""));
    let (first, second, later) = match name {
        "hare" => (0, 0, 0),
        "dhondt" => (1, 1, 1),
        "sainte-lague" => (1, 2, 2),
        "modified-sainte-lague" => (7, 8, 10),
        _ => return None,
    };
    Some(Rule {
        first,
        second,
        later,
        alternating: lots == "alternating",
    })
}

impl Ord for Next {
    fn cmp(&self, other: &Next) -> Ordering {
        let mine = u128::from(self.share) * u128::from(other.divisor);
        let theirs = u128::from(other.share) * u128::from(self.divisor);
        mine.cmp(&theirs)
            .then(self.votes.cmp(&other.votes))
            .then(other.place.cmp(&self.place))
    }
}

impl PartialOrd for Next {
    fn partial_cmp(&self, other: &Next) -> Option<Ordering> {
        Some(self.cmp(other))
    }
}

/// The seats of each list.
fn allot(rule: &Rule, seats: u32, votes: &[u64], lot: &[u32]) -> Vec<u32> {
    let total = votes.iter().sum::<u64>().max(1);
    let mut given = vec![0; votes.len()];
    let mut places: Vec<usize> = (1..=votes.len()).collect();
    let mut turns = vec![false; votes.len()];
    for (i, place) in lot.iter().enumerate() {
        places[*place as usize - 1] = i + 1;
        turns[*place as usize - 1] = rule.alternating;
    }
    let mut heap = BinaryHeap::with_capacity(votes.len());
    for (list, &count) in votes.iter().enumerate().filter(|(_, count)| **count > 0) {
        let product = count * u64::from(seats);
        let (whole, share) = if rule.first == 0 {
            (product / total, product % total)
        } else {
            (0, count)
        };
        given[list] = whole as u32;
        heap.push(Next {
            list,
            share,
            divisor: rule.first.max(1),
            votes: count,
            place: places[list],
            seat: 1,
        });
    }
    for _ in given.iter().sum::<u32>()..seats {
        let Some(mut next) = heap.pop() else { break };
        given[next.list] += 1;
        if rule.first > 0 {
            next.divisor += if next.seat == 1 { rule.second } else { rule.later };
            next.seat += 1;
            next.place = places[next.list];
            if turns[next.list] && next.seat % 2 == 0 {
                next.place = 61 - next.place;
            }
            heap.push(next);
        }
    }
    given
}

#[repr(C)]
#[derive(Default)]
struct Time {
    seconds: i64,
    nanoseconds: i64,
}

unsafe extern "C" {
    fn clock_gettime(clock: i32, time: &mut Time) -> i32;
}

/// The nanoseconds of processor time that this thread has used.
fn used() -> i64 {
    const THREAD_CPU_TIME: i32 = 3;
    let mut time = Time::default();
    unsafe { clock_gettime(THREAD_CPU_TIME, &mut time) };
    time.seconds * 1_000_000_000 + time.nanoseconds
}

fn numbers<T: std::str::FromStr>(text: &str) -> Vec<T> {
    text.split_whitespace().flat_map(str::parse).collect()
}

fn main() -> Result<()> {
    let words: Vec<String> = std::env::args().collect();
    let [_, rule, seats, rounds] = words.as_slice() else {
        return Err(Error::other("a rule, the seats and the rounds"));
    };
    let rule = rule_of(rule).ok_or(Error::other("a wrong rule"))?;
    let [seats, rounds] = [seats, rounds].map(|word| word.parse::<u32>().unwrap_or(1));
    let mut text = String::new();
    std::io::stdin().read_to_string(&mut text)?;
    let polls: Vec<(Vec<u64>, Vec<u32>)> = (text.lines().flat_map(|line| line.split_once(';')))
        .map(|(votes, lot)| (numbers(votes), numbers(lot)))
        .collect();
    let mut given = Vec::new();
    for _ in 0..rounds {
        given = Vec::with_capacity(polls.len());
        let begun = used();
        for (votes, lot) in &polls {
            given.push(allot(&rule, seats, votes, lot));
        }
        println!("allot {}", used() - begun);
    }
    for seats in given {
        println!(
            "{}",
            seats
                .iter()
                .map(u32::to_string)
                .collect::<Vec<_>>()
                .join(" ")
        );
    }
    Ok(())
}
