//! A node that passes lookups on in plain Rust, with its files, and the loops of rattle.txt.

use std::collections::BTreeMap;
use std::time::Instant;

include!("../circle.rs");
include!("../knowledge.rs");

const LEFT: Id = Id(0x0123456789abcdeffedcba9876543200);
const RIGHT: Id = Id(0x0123456789abcdeffedcba9876543220);
const ORIGIN: Id = Id(7);

enum Hop {
    Here,
    Gap(Id),
    To(Id),
}

fn to_leaf(known: &Knowledge, key: Id) -> Hop {
    known.nearest(key).map_or(Hop::Here, Hop::To)
}

/// What coverage depends on: the links, and who joins beside them.
struct Reach {
    left: Id,
    right: Id,
    left_joiner: Option<Id>,
    right_joiner: Option<Id>,
}

impl Reach {
    fn covers(&self, key: Id) -> bool {
        let right = match self.right_joiner {
            Some(id) if between(ME, id, self.right) => id,
            _ => self.right,
        };
        let left = match self.left_joiner {
            Some(id) if between(self.left, id, ME) => id,
            _ => self.left,
        };
        key == ME
            || between(ME, key, right) && cw(ME, key) <= cw(key, right)
            || between(left, key, ME) && cw(key, ME) < cw(left, key)
            || self.left == ME && self.right == ME && left == ME && right == ME
    }

    fn gap(&self, key: Id) -> Option<Id> {
        let without = |joiner: Id| Reach {
            left: self.left,
            right: self.right,
            left_joiner: self.left_joiner.filter(|id| *id != joiner),
            right_joiner: self.right_joiner.filter(|id| *id != joiner),
        };
        [self.right_joiner, self.left_joiner]
            .into_iter()
            .flatten()
            .find(|joiner| without(*joiner).covers(key) && !self.covers(key))
    }
}

fn next_hop(reach: &Reach, known: &Knowledge, key: Id) -> Hop {
    if reach.covers(key) {
        return Hop::Here;
    }
    if let Some(joiner) = reach.gap(key) {
        return Hop::Gap(joiner);
    }
    if known.in_range(key) {
        return to_leaf(known, key);
    }
    let row = shared(ME, key);
    match known.entries[16 * row + digit(key, row)] {
        Some(id) if nearer(id, ME, key) => Hop::To(id),
        _ => known.best(key).map_or_else(|| to_leaf(known, key), Hop::To),
    }
}

#[allow(dead_code)]
#[derive(Clone)]
enum Reply {
    Delivered { node: Id, hops: u16 },
    Busy { node: Id, joiner: Id },
    Stored { holders: Vec<Id> },
    Found { node: Id, bytes: Vec<u8> },
}

#[allow(dead_code)]
enum Message {
    Lookup {
        origin: Id,
        number: u64,
        key: Id,
        hops: u16,
    },
    LookupReply {
        number: u64,
        reply: Reply,
    },
    Replicate {
        origin: Id,
        number: u64,
        file: [u8; 20],
        bytes: Vec<u8>,
    },
    ReplicaAck {
        origin: Id,
        number: u64,
        file: [u8; 20],
    },
    Announce,
}

#[allow(dead_code)]
enum Note {
    Delivered {
        origin: Id,
        number: u64,
        key: Id,
        hops: u16,
    },
    Answered {
        origin: Id,
        number: u64,
        reply: Reply,
    },
}

#[allow(dead_code)]
struct Outgoing {
    receiver: Id,
    message: Message,
}

#[derive(Default)]
struct Output {
    messages: Vec<Outgoing>,
    notes: Vec<Note>,
}

struct Node {
    reach: Reach,
    known: Knowledge,
    files: BTreeMap<[u8; 20], Option<Vec<u8>>>,
}

impl Node {
    fn step(&mut self, sender: Id, message: &Message) -> Output {
        match message {
            Message::Lookup {
                origin,
                number,
                key,
                hops,
            } => self.lookup(*origin, *number, *key, *hops),
            Message::Replicate {
                origin,
                number,
                file,
                bytes,
            } => self.replicate(sender, *origin, *number, file, bytes),
            Message::Announce => {
                self.known.learn(sender);
                Output::default()
            }
            _ => Output::default(),
        }
    }

    fn lookup(&self, origin: Id, number: u64, key: Id, hops: u16) -> Output {
        let mut output = Output::default();
        let reply = match next_hop(&self.reach, &self.known, key) {
            Hop::To(receiver) => {
                let hops = hops.saturating_add(1);
                let message = Message::Lookup {
                    origin,
                    number,
                    key,
                    hops,
                };
                output.messages.push(Outgoing { receiver, message });
                return output;
            }
            Hop::Gap(joiner) => Reply::Busy { node: ME, joiner },
            Hop::Here => {
                output.notes.push(Note::Delivered {
                    origin,
                    number,
                    key,
                    hops,
                });
                Reply::Delivered { node: ME, hops }
            }
        };
        output.notes.push(Note::Answered {
            origin,
            number,
            reply: reply.clone(),
        });
        output.messages.push(Outgoing {
            receiver: origin,
            message: Message::LookupReply { number, reply },
        });
        output
    }

    fn replicate(
        &mut self,
        sender: Id,
        origin: Id,
        number: u64,
        file: &[u8; 20],
        bytes: &[u8],
    ) -> Output {
        let mut output = Output::default();
        if self.files.len() < 4096 && !self.files.contains_key(file) {
            self.files.insert(*file, Some(bytes.to_vec()));
            output.messages.push(Outgoing {
                receiver: sender,
                message: Message::ReplicaAck {
                    origin,
                    number,
                    file: *file,
                },
            });
        }
        output
    }
}

/// A ready node between its neighbours, which knows an identifier for each entry of its table.
fn knowing() -> Node {
    let mut node = Node {
        reach: Reach {
            left: LEFT,
            right: RIGHT,
            left_joiner: None,
            right_joiner: None,
        },
        known: knowing_nobody(),
        files: BTreeMap::new(),
    };
    node.step(RIGHT, &Message::Announce);
    node.step(LEFT, &Message::Announce);
    let mut words = Words { word: 1 };
    for row in 0..32u32 {
        for col in 0..16u128 {
            let id = belonging(&mut words, row, col);
            node.step(id, &Message::Announce);
        }
    }
    node
}

fn keep_files(node: &mut Node, count: u64) {
    for number in 0..count {
        let mut file = [0; 20];
        file[0] = (number / 256 % 256) as u8;
        file[1] = (number % 256) as u8;
        let replica = Message::Replicate {
            origin: ORIGIN,
            number,
            file,
            bytes: vec![7; 1024],
        };
        node.step(ORIGIN, &replica);
    }
}

fn pass_on(node: &mut Node, count: u64) -> u128 {
    let mut words = Words { word: 2 };
    let mut all = 0;
    for number in 0..count {
        let message = Message::Lookup {
            origin: ORIGIN,
            number,
            key: words.id(),
            hops: 1,
        };
        for sent in &node.step(ORIGIN, &message).messages {
            all ^= sent.receiver.0;
        }
    }
    all
}

fn timed(files: u64) {
    let mut node = knowing();
    keep_files(&mut node, files);
    let start = Instant::now();
    let all = pass_on(&mut node, 2_000_000);
    let micros = start.elapsed().as_micros();
    println!("{all:x}, microseconds for two million with {files} files: {micros}");
}

fn main() {
    timed(4096);
    timed(0);
}
