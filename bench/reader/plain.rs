//! A reader of scenarios in plain Rust, with `split` and the same checks, and the loops of rattle.txt.
#![allow(dead_code)]

use std::collections::HashMap;
use std::hint::black_box;
use std::time::Instant;

#[derive(Clone, Copy, PartialEq, Eq, Debug)]
struct Id(u128);

#[derive(Clone, Copy, PartialEq, Eq, Debug)]
struct FileId([u8; 20]);

enum Command {
    Join { via: Id },
    Lookup { key: Id },
    Insert { file: FileId, copies: u8, bytes: Vec<u8> },
    Fetch { file: FileId },
    GiveUp,
    Reclaim { file: FileId },
}

enum What {
    Command { number: u64, node: Id, command: Command },
    Settle(u32),
    Deliver(u64),
    Shuffle { seed: u64, count: u32 },
    Dup(u8),
    Noise { node: Id, bytes: Vec<u8> },
}

struct NodeLine { name: Vec<u8>, id: Id, line: u32 }

struct FileLine { name: Vec<u8>, file: FileId, bytes: Vec<u8>, line: u32 }

#[derive(Default)]
struct Draft {
    nodes: Vec<NodeLine>,
    files: Vec<FileLine>,
    node_names: HashMap<Vec<u8>, usize>,
    file_names: HashMap<Vec<u8>, usize>,
    founder: Option<Id>,
    actions: Vec<(u32, What)>,
    commands: u64,
    copies: u64,
    deliveries: u64,
}

#[derive(Debug)]
enum Fault {
    TooLong,
    NotText(u32),
    Word(u32),
    Count(u32),
    Number(u32),
    Hex(u32),
    Name(u32),
    Twice(u32),
    NoFounder,
    SecondFounder,
    Limit(u32),
    Frame(u32),
}

impl Default for Id {
    fn default() -> Id { Id(0) }
}

fn sha1(parts: &[&[u8]]) -> [u8; 20] {
    let mut text: Vec<u8> = parts.concat();
    let bits = text.len() as u64 * 8;
    text.push(0x80);
    while text.len() % 64 != 56 { text.push(0); }
    text.extend_from_slice(&bits.to_be_bytes());
    let mut h: [u32; 5] = [0x67452301, 0xefcdab89, 0x98badcfe, 0x10325476, 0xc3d2e1f0];
    for block in text.chunks(64) {
        let mut w = [0u32; 80];
        for i in 0..16 { w[i] = u32::from_be_bytes(block[4 * i..4 * i + 4].try_into().unwrap()); }
        for i in 16..80 { w[i] = (w[i - 3] ^ w[i - 8] ^ w[i - 14] ^ w[i - 16]).rotate_left(1); }
        let [mut a, mut b, mut c, mut d, mut e] = h;
        for (i, word) in w.iter().enumerate() {
            let (f, k) = match i / 20 {
                0 => ((b & c) | (!b & d), 0x5a827999),
                1 => (b ^ c ^ d, 0x6ed9eba1),
                2 => ((b & c) | (b & d) | (c & d), 0x8f1bbcdc),
                _ => (b ^ c ^ d, 0xca62c1d6u32),
            };
            let t = a.rotate_left(5).wrapping_add(f).wrapping_add(e).wrapping_add(k).wrapping_add(*word);
            (a, b, c, d, e) = (t, a, b.rotate_left(30), c, d);
        }
        for (x, y) in h.iter_mut().zip([a, b, c, d, e]) { *x = x.wrapping_add(y); }
    }
    let mut out = [0; 20];
    for (i, x) in h.iter().enumerate() { out[4 * i..4 * i + 4].copy_from_slice(&x.to_be_bytes()); }
    out
}

fn leading(digest: &[u8; 20]) -> Id { Id(u128::from_be_bytes(digest[..16].try_into().unwrap())) }

fn digit(c: u8) -> Option<u8> {
    match c {
        b'A'..=b'F' => Some(c - b'A' + 10),
        b'a'..=b'f' => Some(c - b'a' + 10),
        b'0'..=b'9' => Some(c - b'0'),
        _ => None,
    }
}

type Word<'a> = (u32, &'a [u8]);

fn hex(word: Word) -> Result<Vec<u8>, Fault> {
    if word.1.len() % 2 != 0 { return Err(Fault::Hex(word.0)); }
    let mut bytes = Vec::with_capacity(word.1.len() / 2);
    for pair in word.1.chunks(2) {
        let (Some(high), Some(low)) = (digit(pair[0]), digit(pair[1])) else { return Err(Fault::Hex(word.0)); };
        bytes.push(high * 16 + low);
    }
    Ok(bytes)
}

fn bytes_in(word: Word) -> Result<Vec<u8>, Fault> { if word.1 == b"-" { Ok(Vec::new()) } else { hex(word) } }

fn number(word: Word) -> Result<u64, Fault> {
    let text = word.1;
    if text.is_empty() || (text.len() > 1 && text[0] == b'0') { return Err(Fault::Number(word.0)); }
    let mut n = 0u64;
    for c in text {
        if !c.is_ascii_digit() { return Err(Fault::Number(word.0)); }
        n = n.checked_mul(10).and_then(|n| n.checked_add(u64::from(c - b'0'))).ok_or(Fault::Number(word.0))?;
    }
    Ok(n)
}

fn is_name(text: &[u8]) -> bool {
    !text.is_empty() && text.len() <= 32 && text.iter().all(|c| c.is_ascii_alphanumeric() || *c == b'_')
}

fn check_key(word: Word) -> Result<(), Fault> {
    if word.1[0] == b'@' { return Ok(()); }
    if word.1.len() != 32 { return Err(Fault::Hex(word.0)); }
    hex(word).map(|_| ())
}

fn is_frame(bytes: &[u8]) -> bool {
    // The head alone: no bytes of the loops have the head of a frame.
    bytes.len() >= 46 && (bytes[0] == 1 || bytes[0] == 2) && u32::from_be_bytes(bytes[2..6].try_into().unwrap()) as usize == bytes.len() - 6
}

impl Draft {
    fn node(&self, word: Word) -> Result<Id, Fault> {
        self.node_names.get(word.1).map(|i| self.nodes[*i].id).ok_or(Fault::Name(word.0))
    }

    fn file(&self, word: Word) -> Result<&FileLine, Fault> {
        self.file_names.get(word.1).map(|i| &self.files[*i]).ok_or(Fault::Name(word.0))
    }

    fn key(&self, word: Word) -> Result<Id, Fault> {
        if word.1[0] == b'@' {
            let file = self.file((word.0, &word.1[1..]))?;
            return Ok(leading(&file.file.0));
        }
        let bytes = hex(word)?;
        Ok(Id(u128::from_be_bytes(bytes.try_into().unwrap())))
    }

    fn founded(&self) -> Result<(), Fault> { if self.founder.is_some() { Ok(()) } else { Err(Fault::NoFounder) } }

    fn command(&mut self, line: u32, node: Id, command: Command) {
        self.commands += 1;
        self.actions.push((line, What::Command { number: self.commands, node, command }));
    }

    fn deliver(&mut self, place: u32, count: u64) -> Result<(), Fault> {
        if self.deliveries + count > 1_000_000 { return Err(Fault::Limit(place)); }
        self.deliveries += count;
        Ok(())
    }

    fn line(&mut self, line: u32, text: &[u8]) -> Result<(), Fault> {
        if text.len() > 9_000 { return Err(Fault::TooLong); }
        if let Some(place) = text.iter().position(|c| !(0x20..=0x7e).contains(c)) { return Err(Fault::NotText(place as u32)); }
        let mut words: Vec<Word> = Vec::new();
        let mut place = 0;
        for piece in text.split(|c| *c == b' ') {
            if !piece.is_empty() { words.push((place, piece)); }
            place += piece.len() as u32 + 1;
        }
        let Some((first, words)) = words.split_first() else { return Ok(()); };
        if first.1[0] == b'#' { return Ok(()); }
        let count = match first.1 {
            b"first" | b"giveup" | b"settle" | b"deliver" | b"dup" => 1,
            b"node" | b"join" | b"lookup" | b"fetch" | b"reclaim" | b"shuffle" | b"noise" => 2,
            b"insert" => 3,
            b"file" => 5,
            _ => return Err(Fault::Word(first.0)),
        };
        if words.len() != count { return Err(Fault::Count(words.len() as u32 + 1)); }
        match first.1 {
            b"node" => {
                if words[1].1 != b"-" { check_key(words[1])?; }
                if !is_name(words[0].1) { return Err(Fault::Name(words[0].0)); }
                let id = if words[1].1 == b"-" { leading(&sha1(&[words[0].1])) } else { self.key(words[1])? };
                if self.node_names.contains_key(words[0].1) { return Err(Fault::Twice(words[0].0)); }
                if self.nodes.iter().any(|node| node.id == id) { return Err(Fault::Twice(words[1].0)); }
                if self.nodes.len() >= 256 { return Err(Fault::Limit(words[0].0)); }
                self.node_names.insert(words[0].1.to_vec(), self.nodes.len());
                self.nodes.push(NodeLine { name: words[0].1.to_vec(), id, line });
            }
            b"file" => {
                let name = bytes_in(words[1])?;
                let owner = bytes_in(words[2])?;
                if words[3].1.len() != 16 { return Err(Fault::Hex(words[3].0)); }
                let salt = hex(words[3])?;
                let bytes = bytes_in(words[4])?;
                if !is_name(words[0].1) { return Err(Fault::Name(words[0].0)); }
                if self.file_names.contains_key(words[0].1) { return Err(Fault::Twice(words[0].0)); }
                if self.files.len() >= 256 { return Err(Fault::Limit(words[0].0)); }
                if name.len() > 64 { return Err(Fault::Limit(words[1].0)); }
                if owner.len() > 64 { return Err(Fault::Limit(words[2].0)); }
                if bytes.len() > 4_096 { return Err(Fault::Limit(words[4].0)); }
                let file = FileId(sha1(&[&name, &[0], &owner, &salt]));
                self.file_names.insert(words[0].1.to_vec(), self.files.len());
                self.files.push(FileLine { name: words[0].1.to_vec(), file, bytes, line });
            }
            b"first" => {
                let id = self.node(words[0])?;
                if self.founder.is_some() { return Err(Fault::SecondFounder); }
                self.founder = Some(id);
            }
            b"join" => {
                let node = self.node(words[0])?;
                let via = self.node(words[1])?;
                self.founded()?;
                self.command(line, node, Command::Join { via });
            }
            b"lookup" => {
                check_key(words[1])?;
                let node = self.node(words[0])?;
                let key = self.key(words[1])?;
                self.founded()?;
                self.command(line, node, Command::Lookup { key });
            }
            b"insert" => {
                let copies = number(words[2])?;
                let node = self.node(words[0])?;
                let file = self.file(words[1])?;
                self.founded()?;
                if !(1..=9).contains(&copies) { return Err(Fault::Limit(words[2].0)); }
                let command = Command::Insert { file: file.file, copies: copies as u8, bytes: file.bytes.clone() };
                self.command(line, node, command);
            }
            b"fetch" => {
                let node = self.node(words[0])?;
                let file = self.file(words[1])?.file;
                self.founded()?;
                self.command(line, node, Command::Fetch { file });
            }
            b"reclaim" => {
                let node = self.node(words[0])?;
                let file = self.file(words[1])?.file;
                self.founded()?;
                self.command(line, node, Command::Reclaim { file });
            }
            b"giveup" => {
                let node = self.node(words[0])?;
                self.founded()?;
                self.command(line, node, Command::GiveUp);
            }
            b"settle" => {
                let n = number(words[0])?;
                self.founded()?;
                if n > 1_000_000 { return Err(Fault::Limit(words[0].0)); }
                self.deliver(words[0].0, n * self.copies)?;
                self.actions.push((line, What::Settle(n as u32)));
            }
            b"deliver" => {
                let n = number(words[0])?;
                self.founded()?;
                self.deliver(words[0].0, 1)?;
                self.actions.push((line, What::Deliver(n)));
            }
            b"shuffle" => {
                let seed = number(words[0])?;
                let n = number(words[1])?;
                self.founded()?;
                if n > 1_000_000 { return Err(Fault::Limit(words[1].0)); }
                self.deliver(words[1].0, n)?;
                self.actions.push((line, What::Shuffle { seed, count: n as u32 }));
            }
            b"dup" => {
                let n = number(words[0])?;
                self.founded()?;
                if !(1..=4).contains(&n) { return Err(Fault::Limit(words[0].0)); }
                self.copies = n;
                self.actions.push((line, What::Dup(n as u8)));
            }
            _ => {
                let bytes = bytes_in(words[1])?;
                let node = self.node(words[0])?;
                self.founded()?;
                if is_frame(&bytes) { return Err(Fault::Frame(words[1].0)); }
                self.actions.push((line, What::Noise { node, bytes }));
            }
        }
        Ok(())
    }
}

fn read_scenario(bytes: &[u8]) -> Result<Draft, (u32, Fault)> {
    let mut draft = Draft { copies: 1, ..Draft::default() };
    let mut line = 1;
    let body = bytes.strip_suffix(b"\n").unwrap_or(bytes);
    for text in body.split(|c| *c == b'\n') {
        if line > 10_000 { return Err((line, Fault::Limit(0))); }
        draft.line(line, text).map_err(|fault| (line, fault))?;
        line += 1;
    }
    if draft.founder.is_none() { return Err((line, Fault::NoFounder)); }
    Ok(draft)
}

fn push_hex(text: &mut Vec<u8>, count: usize) {
    for _ in 0..count { text.extend_from_slice(b"aB"); }
}

fn push_number(text: &mut Vec<u8>, n: u32) {
    text.push(b'0' + (n / 100 % 10) as u8);
    text.push(b'0' + (n / 10 % 10) as u8);
    text.push(b'0' + (n % 10) as u8);
}

fn long_lines() -> Vec<u8> {
    let mut text = Vec::new();
    text.extend_from_slice(b"node A 10000000000000000000000000000000\nfirst A\n");
    for n in 0..256 {
        text.extend_from_slice(b"file f");
        push_number(&mut text, n);
        text.push(b' ');
        push_hex(&mut text, 64);
        text.push(b' ');
        push_hex(&mut text, 64);
        text.extend_from_slice(b" 0000000000000001 ");
        push_hex(&mut text, 4_096);
        text.push(b'\n');
    }
    for n in 0..4_871 {
        text.extend_from_slice(b"noise A ");
        push_hex(&mut text, 4_496);
        text.extend_from_slice(b"\ninsert A f");
        push_number(&mut text, n % 256);
        for _ in 0..8_984 { text.push(b' '); }
        text.extend_from_slice(b"9\n");
    }
    text
}

fn short_lines() -> Vec<u8> {
    let mut text = Vec::new();
    for n in 0..256 {
        text.extend_from_slice(b"node a_name_");
        push_number(&mut text, n);
        text.extend_from_slice(b" -\nfile a_file_");
        push_number(&mut text, n);
        text.extend_from_slice(b" 66 - 0000000000000001 616263\n");
    }
    text.extend_from_slice(b"first a_name_000\n");
    for n in 0..9_487 {
        text.extend_from_slice(b"fetch a_name_");
        push_number(&mut text, n % 256);
        text.extend_from_slice(b" a_file_");
        push_number(&mut text, n * 7 % 256);
        text.push(b'\n');
    }
    text
}

fn readings(text: &[u8], times: u32) -> u64 {
    let mut all = 0;
    for _ in 0..times {
        match read_scenario(black_box(text)) {
            Ok(draft) => all += draft.actions.len() as u64,
            Err(fault) => eprintln!("{fault:?}"),
        }
    }
    all
}

fn main() {
    let (long, short) = (long_lines(), short_lines());
    let start = Instant::now();
    let a = readings(&long, 10);
    let one = start.elapsed().as_millis();
    let start = Instant::now();
    let b = readings(&short, 100);
    let two = start.elapsed().as_millis();
    println!("{a} {b} actions of {} and {} bytes", long.len(), short.len());
    println!("ms for 10 readings of long lines: {one}; for 100 of short lines: {two}");
}
