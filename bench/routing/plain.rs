//! The leaf set, the prefix table and the next hop in plain Rust, and the loops of rattle.txt.

use std::time::Instant;

include!("../circle.rs");
include!("../knowledge.rs");

enum Hop {
    Here,
    To(Id),
}

fn to_leaf(known: &Knowledge, key: Id) -> Hop {
    known.nearest(key).map_or(Hop::Here, Hop::To)
}

fn next_hop(left: Id, right: Id, known: &Knowledge, key: Id) -> Hop {
    if key == ME
        || between(ME, key, right) && cw(ME, key) <= cw(key, right)
        || between(left, key, ME) && cw(key, ME) < cw(left, key)
    {
        return Hop::Here;
    }
    if known.in_range(key) {
        return to_leaf(known, key);
    }
    let row = shared(ME, key);
    match known.entries[16 * row + digit(key, row)] {
        Some(id) if nearer(id, ME, key) => Hop::To(id),
        _ => known
            .best(key)
            .map_or_else(|| to_leaf(known, key), Hop::To),
    }
}

fn fill(known: &mut Knowledge, words: &mut Words) {
    for row in 0..32u32 {
        for col in 0..16u128 {
            known.learn(belonging(words, row, col));
        }
    }
}

fn main() {
    let mut known = knowing_nobody();
    let mut words = Words { word: 1 };
    fill(&mut known, &mut words);
    let start = Instant::now();
    for _ in 0..1_000_000 {
        known.learn(words.id());
    }
    let one = start.elapsed().as_micros();
    let start = Instant::now();
    let (left, right) = (known.left.ids[0], known.right.ids[0]);
    let mut all = 0;
    for _ in 0..1_000_000 {
        if let Hop::To(id) = next_hop(left, right, &known, words.id()) {
            all ^= id.0;
        }
    }
    let two = start.elapsed().as_micros();
    println!("{all:x}");
    println!("microseconds for a million: learn {one} next_hop {two}");
}
