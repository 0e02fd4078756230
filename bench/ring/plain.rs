//! The loops of rattle.txt in plain Rust.

use std::time::Instant;

include!("../circle.rs");

fn shared(a: Id, b: Id) -> u8 {
    ((a.0 ^ b.0).leading_zeros() / 4) as u8
}

struct Reach {
    me: Id,
    left: Id,
    right: Id,
    left_joiner: Option<Id>,
    right_joiner: Option<Id>,
}

fn effective_right(reach: &Reach) -> Id {
    match reach.right_joiner {
        Some(joiner) if between(reach.me, joiner, reach.right) => joiner,
        _ => reach.right,
    }
}

fn effective_left(reach: &Reach) -> Id {
    match reach.left_joiner {
        Some(joiner) if between(reach.left, joiner, reach.me) => joiner,
        _ => reach.left,
    }
}

fn is_in_arcs(me: Id, left: Id, right: Id, key: Id) -> bool {
    key == me
        || between(me, key, right) && cw(me, key) <= cw(key, right)
        || between(left, key, me) && cw(key, me) < cw(left, key)
}

fn stands_alone(reach: &Reach) -> bool {
    reach.left == reach.me
        && reach.right == reach.me
        && reach.left_joiner.is_none()
        && reach.right_joiner.is_none()
}

fn covers(reach: &Reach, key: Id) -> bool {
    is_in_arcs(reach.me, effective_left(reach), effective_right(reach), key) || stands_alone(reach)
}

fn distances(count: u64) -> u128 {
    let mut words = Words { word: 1 };
    let mut all = 0;
    for _ in 0..count {
        let a = words.id();
        let b = words.id();
        all ^= cw(a, b);
    }
    all
}

fn comparisons(count: u64) -> u64 {
    let mut words = Words { word: 1 };
    let mut all = 0u64;
    for _ in 0..count {
        let a = words.id();
        let b = words.id();
        let key = words.id();
        all = all.wrapping_add(u64::from(nearer(a, b, key)));
    }
    all
}

fn prefixes(count: u64) -> u64 {
    let mut words = Words { word: 1 };
    let mut all = 0u64;
    for _ in 0..count {
        let a = words.id();
        let b = words.id();
        all = all.wrapping_add(u64::from(shared(a, b)));
    }
    all
}

fn coverage(count: u64) -> u64 {
    let mut words = Words { word: 1 };
    let mut all = 0u64;
    for _ in 0..count {
        let reach = Reach {
            me: words.id(),
            left: words.id(),
            right: words.id(),
            left_joiner: None,
            right_joiner: Some(words.id()),
        };
        let key = words.id();
        all = all.wrapping_add(u64::from(covers(&reach, key)));
    }
    all
}

fn main() {
    const COUNT: u64 = 20_000_000;
    let start = Instant::now();
    let a = distances(COUNT);
    let one = start.elapsed().as_millis();
    let start = Instant::now();
    let b = comparisons(COUNT);
    let two = start.elapsed().as_millis();
    let start = Instant::now();
    let c = coverage(COUNT);
    let three = start.elapsed().as_millis();
    let start = Instant::now();
    let d = prefixes(COUNT);
    let four = start.elapsed().as_millis();
    println!("{a} {b} {c} {d}");
    println!("ms for 20 million calls: cw {one} nearer {two} covers {three} shared {four}");
}
