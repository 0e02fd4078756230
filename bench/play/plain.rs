//! The program in plain Rust, without contracts, made to be fast: reads a scenario from standard input, plays it, and prints its
//! report. It takes only scenarios that are right. It keeps the whole record, as the proved program does. With the words `made
//! NODES SEED` it prints the scenario that the proved program's `big` plays; with `large NODES SEED SIZE`, `points ROOM`, `groups`,
//! `trace` and `check` it does what the modes of these names do.
#![allow(dead_code)]

use std::collections::{BTreeMap, HashMap, HashSet};
use std::io::{Read, Write};
use std::rc::Rc;

include!("../circle.rs");
include!("hashes.rs");
include!("knowledge.rs");
include!("messages.rs");
include!("node.rs");
include!("joins.rs");
include!("record.rs");
include!("scenario.rs");
include!("report.rs");
include!("made.rs");
include!("large.rs");
include!("points.rs");
include!("groups.rs");
include!("traced.rs");
include!("checked.rs");

fn play_input() {
    let mut input = String::new();
    std::io::stdin().read_to_string(&mut input).unwrap();
    let mut declared = Declared::of(&input);
    let mut world = World::new(std::mem::take(&mut declared.nodes));
    let commands = play(&declared, &mut world, &input);
    let report = report(&world, &declared.named, commands);
    std::io::stdout().write_all(&report).unwrap();
    // The program ends here: nobody asks for the memory back.
    std::mem::forget(world);
}

fn play_input_with_points(room: usize) {
    let mut input = String::new();
    std::io::stdin().read_to_string(&mut input).unwrap();
    let mut declared = Declared::of(&input);
    let mut world = World::new(std::mem::take(&mut declared.nodes));
    let mut points = Points::new(world.ids().len(), room);
    play_lines(&declared, &mut world, &input, |world, at, command| points.command(world, at, command));
    std::io::stdout().write_all(&report_points(&points, &world, &declared.named)).unwrap();
    std::mem::forget(world);
}

fn play_groups() {
    let mut input = String::new();
    std::io::stdin().read_to_string(&mut input).unwrap();
    let (one, two) = parts_of(&input);
    let mut declared = Declared::of(one);
    let mut world = World::new(std::mem::take(&mut declared.nodes));
    let commands = play(&declared, &mut world, one);
    let mut groups = Groups::default();
    groups.play(&declared, &world, two);
    let mut text = report(&world, &declared.named, commands);
    let mut of_groups = Report::new(world.ids(), &declared.named);
    groups.report(&mut of_groups);
    text.append(&mut of_groups.text);
    std::io::stdout().write_all(&text).unwrap();
    std::mem::forget((world, groups));
}

fn trace_input() {
    let mut input = String::new();
    std::io::stdin().read_to_string(&mut input).unwrap();
    let mut declared = Declared::of(&input);
    let nodes = std::mem::take(&mut declared.nodes);
    let founder = nodes.iter().find(|node| matches!(node.phase, Phase::Ready(..))).unwrap().me;
    let mut world = World::new(nodes);
    play(&declared, &mut world, &input);
    let ids: Vec<Id> = declared.named.iter().map(|(_, id)| *id).collect();
    std::io::stdout().write_all(&trace(&world, &ids, founder)).unwrap();
    std::mem::forget(world);
}

fn check_input() {
    let mut input = String::new();
    std::io::stdin().read_to_string(&mut input).unwrap();
    let trace = Trace::read(&input).unwrap();
    print!("{}", verdict(&trace));
    std::mem::forget((trace, input));
}

fn main() {
    let words: Vec<String> = std::env::args().skip(1).collect();
    match &words[..] {
        [word, nodes, seed] if word == "made" => print!("{}", made(nodes.parse().unwrap(), seed.parse().unwrap())),
        [word, nodes, seed, size] if word == "large" => {
            let text = large(nodes.parse().unwrap(), seed.parse().unwrap(), size.parse().unwrap());
            std::io::stdout().write_all(&text).unwrap();
        }
        [word, room] if word == "points" => play_input_with_points(room.parse().unwrap()),
        [word] if word == "groups" => play_groups(),
        [word] if word == "trace" => trace_input(),
        [word] if word == "check" => check_input(),
        _ => play_input(),
    }
}
