//! Counts reads that wait for writes, in what valgrind's lackey tells of a program (`--trace-mem=yes`) on standard input:
//! waits BASE, where the program's code begins, in hexadecimal. Prints the counts of all, and then for each instruction that waited
//! its place behind BASE and how often.
//!
//! A processor hands what it wrote last on to who reads it, unless the read takes more than that write gave: then it waits until
//! what was written has reached the cache. What comes a few instructions behind such a wait waits along with it.

use std::collections::{HashMap, VecDeque};
use std::io::{BufRead, stdin};

/// How many writes are under way at most.
const UNDER_WAY: usize = 40;
/// How many instructions lie between two waits that are counted.
const APART: u64 = 24;

#[derive(Clone, Copy)]
struct Access {
    from: u64,
    upto: u64,
}

impl Access {
    fn overlaps(self, other: Access) -> bool {
        self.from < other.upto && other.from < self.upto
    }

    fn is_within(self, other: Access) -> bool {
        other.from <= self.from && self.upto <= other.upto
    }
}

#[derive(Default)]
struct Counts {
    instructions: u64,
    reads: u64,
    writes: u64,
    waits: HashMap<u64, u64>,
}

/// The kind of a line and what it names, as in ` S 1ffeffe7e8,8`.
fn parsed(line: &str) -> Option<(char, Access)> {
    let kind = line.trim_start().chars().next()?;
    let (from, size) = line.get(3..)?.split_once(',')?;
    let from = u64::from_str_radix(from, 16).ok()?;
    let size: u64 = size.parse().ok()?;
    "ILSM".contains(kind).then_some((kind, Access { from, upto: from + size }))
}

fn main() {
    let base = std::env::args().nth(1).expect("waits BASE");
    let base = u64::from_str_radix(&base, 16).expect("BASE is hexadecimal");
    let (mut counts, mut writes, mut place, mut last) = (Counts::default(), VecDeque::new(), 0, 0);
    for line in stdin().lock().lines() {
        let Some((kind, access)) = line.ok().as_deref().and_then(parsed) else { continue };
        if kind == 'I' {
            counts.instructions += 1;
            place = access.from;
            continue;
        }
        if kind != 'S' {
            counts.reads += 1;
            let youngest = writes.iter().find(|write: &&Access| access.overlaps(**write));
            if youngest.is_some_and(|write| !access.is_within(*write)) {
                if counts.instructions - last >= APART {
                    *counts.waits.entry(place).or_default() += 1;
                }
                last = counts.instructions;
            }
        }
        if kind != 'L' {
            counts.writes += 1;
            writes.push_front(access);
            writes.truncate(UNDER_WAY);
        }
    }
    let all: u64 = counts.waits.values().sum();
    println!("{} instructions, {} reads, {} writes, {all} waits", counts.instructions, counts.reads, counts.writes);
    for (place, times) in counts.waits {
        println!("{:x} {times}", place.wrapping_sub(base));
    }
}
