//! The codec of frames in plain Rust, and the loops of rattle.txt.
#![allow(dead_code)]

use std::hint::black_box;
use std::time::Instant;

#[derive(Clone, Copy, PartialEq, Eq, Debug)]
struct Id(u128);

#[derive(Clone, Copy, PartialEq, Eq, Debug)]
struct FileId([u8; 20]);

enum Reply {
    Delivered { node: Id, hops: u16 },
    Stored { holders: Vec<Id> },
    Found { node: Id, bytes: Vec<u8> },
    NotFound { node: Id },
    Collision { node: Id },
    TooFew { node: Id, known: u16 },
    Busy { node: Id, joiner: Id },
    NotReady { node: Id },
    Full { node: Id },
    Gone { node: Id },
    Reclaimed { node: Id },
}

enum Why {
    Busy { joiner: Id },
    Moved { left: Id, right: Id },
    NotReady,
}

enum Message {
    Lookup { origin: Id, number: u64, key: Id, hops: u16 },
    LookupReply { number: u64, reply: Reply },
    Insert { origin: Id, number: u64, hops: u16, file: FileId, copies: u8, bytes: Vec<u8> },
    InsertReply { number: u64, reply: Reply },
    Fetch { origin: Id, number: u64, hops: u16, file: FileId },
    FetchReply { number: u64, reply: Reply },
    JoinRequest { joiner: Id, attempt: u32, hops: u16 },
    JoinReply { attempt: u32, members: Vec<Id> },
    JoinRefuse { attempt: u32, why: Why },
    Probe { attempt: u32 },
    ProbeReply { attempt: u32, members: Vec<Id> },
    LeaseRequest { attempt: u32, left: Id, right: Id },
    Grant { attempt: u32, manifest: Vec<FileId>, tombs: Vec<FileId> },
    Deny { attempt: u32, why: Why },
    Handover { file: FileId, bytes: Vec<u8> },
    Release { attempt: u32 },
    Confirm { attempt: u32 },
    Announce,
    Replicate { origin: Id, number: u64, file: FileId, bytes: Vec<u8> },
    ReplicaAck { origin: Id, number: u64, file: FileId },
    Reclaim { origin: Id, number: u64, hops: u16, file: FileId },
    ReclaimReply { number: u64, reply: Reply },
}

struct Envelope {
    sender: Id,
    receiver: Id,
    stamp: u64,
    message: Message,
}

#[derive(Debug)]
enum Fault {
    Short { need: usize },
    Version { found: u8 },
    Kind { found: u8 },
    Length { stated: u32, found: usize },
    Range { place: usize },
}

// ---- writing

struct Writer(Vec<u8>);

impl Writer {
    fn byte(&mut self, n: u8) {
        self.0.push(n);
    }
    fn id(&mut self, id: Id) {
        self.0.extend_from_slice(&id.0.to_be_bytes());
    }
    fn file(&mut self, file: &FileId) {
        self.0.extend_from_slice(&file.0);
    }
    fn number(&mut self, n: u64) {
        self.0.extend_from_slice(&n.to_be_bytes());
    }
    fn attempt(&mut self, n: u32) {
        self.0.extend_from_slice(&n.to_be_bytes());
    }
    fn hops(&mut self, n: u16) {
        self.0.extend_from_slice(&n.to_be_bytes());
    }
    fn bytes(&mut self, bytes: &[u8]) {
        self.hops(bytes.len() as u16);
        self.0.extend_from_slice(bytes);
    }
    fn ids(&mut self, ids: &[Id]) {
        self.byte(ids.len() as u8);
        for id in ids {
            self.id(*id);
        }
    }
    fn files(&mut self, files: &[FileId]) {
        self.hops(files.len() as u16);
        for file in files {
            self.file(file);
        }
    }
    fn why(&mut self, why: &Why) {
        match why {
            Why::Busy { joiner } => {
                self.byte(1);
                self.id(*joiner);
            }
            Why::Moved { left, right } => {
                self.byte(2);
                self.id(*left);
                self.id(*right);
            }
            Why::NotReady => self.byte(3),
        }
    }
    fn node(&mut self, tag: u8, node: &Id) {
        self.byte(tag);
        self.id(*node);
    }
    fn reply(&mut self, reply: &Reply) {
        match reply {
            Reply::Delivered { node, hops } => {
                self.node(1, node);
                self.hops(*hops);
            }
            Reply::Stored { holders } => {
                self.byte(2);
                self.ids(holders);
            }
            Reply::Found { node, bytes } => {
                self.node(3, node);
                self.bytes(bytes);
            }
            Reply::NotFound { node } => self.node(4, node),
            Reply::Collision { node } => self.node(5, node),
            Reply::TooFew { node, known } => {
                self.node(6, node);
                self.hops(*known);
            }
            Reply::Busy { node, joiner } => {
                self.node(7, node);
                self.id(*joiner);
            }
            Reply::NotReady { node } => self.node(8, node),
            Reply::Full { node } => self.node(9, node),
            Reply::Gone { node } => self.node(10, node),
            Reply::Reclaimed { node } => self.node(11, node),
        }
    }
    fn asked(&mut self, origin: &Id, number: &u64) {
        self.id(*origin);
        self.number(*number);
    }
    fn message(&mut self, message: &Message) {
        match message {
            Message::Lookup { origin, number, key, hops } => {
                self.asked(origin, number);
                self.id(*key);
                self.hops(*hops);
            }
            Message::LookupReply { number, reply }
            | Message::InsertReply { number, reply }
            | Message::FetchReply { number, reply }
            | Message::ReclaimReply { number, reply } => {
                self.number(*number);
                self.reply(reply);
            }
            Message::Insert { origin, number, hops, file, copies, bytes } => {
                self.asked(origin, number);
                self.hops(*hops);
                self.file(file);
                self.byte(*copies);
                self.bytes(bytes);
            }
            Message::Fetch { origin, number, hops, file }
            | Message::Reclaim { origin, number, hops, file } => {
                self.asked(origin, number);
                self.hops(*hops);
                self.file(file);
            }
            Message::JoinRequest { joiner, attempt, hops } => {
                self.id(*joiner);
                self.attempt(*attempt);
                self.hops(*hops);
            }
            Message::JoinReply { attempt, members } | Message::ProbeReply { attempt, members } => {
                self.attempt(*attempt);
                self.ids(members);
            }
            Message::JoinRefuse { attempt, why } | Message::Deny { attempt, why } => {
                self.attempt(*attempt);
                self.why(why);
            }
            Message::Probe { attempt }
            | Message::Release { attempt }
            | Message::Confirm { attempt } => self.attempt(*attempt),
            Message::LeaseRequest { attempt, left, right } => {
                self.attempt(*attempt);
                self.id(*left);
                self.id(*right);
            }
            Message::Grant { attempt, manifest, tombs } => {
                self.attempt(*attempt);
                self.files(manifest);
                if !tombs.is_empty() {
                    self.files(tombs);
                }
            }
            Message::Handover { file, bytes } => {
                self.file(file);
                self.bytes(bytes);
            }
            Message::Announce => {}
            Message::Replicate { origin, number, file, bytes } => {
                self.asked(origin, number);
                self.file(file);
                self.bytes(bytes);
            }
            Message::ReplicaAck { origin, number, file } => {
                self.asked(origin, number);
                self.file(file);
            }
        }
    }
}

fn reply_version(reply: &Reply) -> u8 {
    match reply {
        Reply::Gone { .. } | Reply::Reclaimed { .. } => 2,
        _ => 1,
    }
}

fn header(message: &Message) -> (u8, u8) {
    match message {
        Message::Lookup { .. } => (1, 1),
        Message::LookupReply { reply, .. } => (reply_version(reply), 2),
        Message::Insert { .. } => (1, 3),
        Message::InsertReply { reply, .. } => (reply_version(reply), 4),
        Message::Fetch { .. } => (1, 5),
        Message::FetchReply { reply, .. } => (reply_version(reply), 6),
        Message::JoinRequest { .. } => (1, 7),
        Message::JoinReply { .. } => (1, 8),
        Message::JoinRefuse { .. } => (1, 9),
        Message::Probe { .. } => (1, 10),
        Message::ProbeReply { .. } => (1, 11),
        Message::LeaseRequest { .. } => (1, 12),
        Message::Grant { tombs, .. } => (if tombs.is_empty() { 1 } else { 2 }, 13),
        Message::Deny { .. } => (1, 14),
        Message::Handover { .. } => (1, 15),
        Message::Release { .. } => (1, 16),
        Message::Confirm { .. } => (1, 17),
        Message::Announce => (1, 18),
        Message::Replicate { .. } => (1, 19),
        Message::ReplicaAck { .. } => (1, 20),
        Message::Reclaim { .. } => (2, 21),
        Message::ReclaimReply { .. } => (2, 22),
    }
}

fn reply_size(reply: &Reply) -> usize {
    match reply {
        Reply::Stored { holders } => 2 + 16 * holders.len(),
        Reply::Found { bytes, .. } => 19 + bytes.len(),
        Reply::Delivered { .. } | Reply::TooFew { .. } => 19,
        Reply::Busy { .. } => 33,
        _ => 17,
    }
}

fn why_size(why: &Why) -> usize {
    match why {
        Why::Busy { .. } => 17,
        Why::Moved { .. } => 33,
        Why::NotReady => 1,
    }
}

fn size(message: &Message) -> usize {
    match message {
        Message::Lookup { .. } => 42,
        Message::LookupReply { reply, .. }
        | Message::InsertReply { reply, .. }
        | Message::FetchReply { reply, .. }
        | Message::ReclaimReply { reply, .. } => 8 + reply_size(reply),
        Message::Insert { bytes, .. } => 49 + bytes.len(),
        Message::Fetch { .. } | Message::Reclaim { .. } => 46,
        Message::JoinRequest { .. } => 22,
        Message::JoinReply { members, .. } | Message::ProbeReply { members, .. } => {
            5 + 16 * members.len()
        }
        Message::JoinRefuse { why, .. } | Message::Deny { why, .. } => 4 + why_size(why),
        Message::Probe { .. } | Message::Release { .. } | Message::Confirm { .. } => 4,
        Message::LeaseRequest { .. } => 36,
        Message::Grant { manifest, tombs, .. } => {
            let tombs = if tombs.is_empty() { 0 } else { 2 + 20 * tombs.len() };
            6 + 20 * manifest.len() + tombs
        }
        Message::Handover { bytes, .. } => 22 + bytes.len(),
        Message::Announce => 0,
        Message::Replicate { bytes, .. } => 46 + bytes.len(),
        Message::ReplicaAck { .. } => 44,
    }
}

fn encode(envelope: &Envelope) -> Vec<u8> {
    let size = 40 + size(&envelope.message);
    let (version, kind) = header(&envelope.message);
    let mut out = Writer(Vec::with_capacity(6 + size));
    out.byte(version);
    out.byte(kind);
    out.attempt(size as u32);
    out.id(envelope.sender);
    out.id(envelope.receiver);
    out.number(envelope.stamp);
    out.message(&envelope.message);
    out.0
}

// ---- reading

struct Reader<'a> {
    bytes: &'a [u8],
    place: usize,
}

impl<'a> Reader<'a> {
    fn array<const N: usize>(&mut self) -> Result<[u8; N], Fault> {
        match self.bytes[self.place..].first_chunk::<N>() {
            Some(chunk) => {
                self.place += N;
                Ok(*chunk)
            }
            None => Err(Fault::Short { need: self.place + N }),
        }
    }
    fn part(&mut self, len: usize) -> Result<&'a [u8], Fault> {
        let end = self.place + len;
        let part = self.bytes.get(self.place..end).ok_or(Fault::Short { need: end })?;
        self.place = end;
        Ok(part)
    }
    fn id(&mut self) -> Result<Id, Fault> {
        Ok(Id(u128::from_be_bytes(self.array()?)))
    }
    fn file(&mut self) -> Result<FileId, Fault> {
        Ok(FileId(self.array()?))
    }
    fn number(&mut self) -> Result<u64, Fault> {
        Ok(u64::from_be_bytes(self.array()?))
    }
    fn attempt(&mut self) -> Result<u32, Fault> {
        Ok(u32::from_be_bytes(self.array()?))
    }
    fn hops(&mut self) -> Result<u16, Fault> {
        Ok(u16::from_be_bytes(self.array()?))
    }
    fn byte(&mut self, lowest: u8, highest: u8) -> Result<u8, Fault> {
        let place = self.place;
        let [n] = self.array()?;
        if n < lowest || n > highest {
            return Err(Fault::Range { place });
        }
        Ok(n)
    }
    fn length(&mut self, lowest: u16) -> Result<usize, Fault> {
        let place = self.place;
        let n = self.hops()?;
        if n < lowest || n > 4096 {
            return Err(Fault::Range { place });
        }
        Ok(usize::from(n))
    }
    fn bytes(&mut self) -> Result<&'a [u8], Fault> {
        let len = self.length(0)?;
        self.part(len)
    }
    fn ids(&mut self) -> Result<&'a [u8], Fault> {
        let count = self.byte(0, 17)?;
        self.part(16 * usize::from(count))
    }
    fn files(&mut self, lowest: u16) -> Result<&'a [u8], Fault> {
        let count = self.length(lowest)?;
        self.part(20 * count)
    }
    /// No byte is left.
    fn end(&self) -> Result<(), Fault> {
        if self.place != self.bytes.len() {
            return Err(Fault::Range { place: self.place });
        }
        Ok(())
    }
    fn why(&mut self) -> Result<Why, Fault> {
        Ok(match self.byte(1, 3)? {
            1 => Why::Busy { joiner: self.id()? },
            2 => Why::Moved { left: self.id()?, right: self.id()? },
            _ => Why::NotReady,
        })
    }
    fn reply(&mut self, lowest: u8, highest: u8) -> Result<Reply, Fault> {
        let tag = self.byte(lowest, highest)?;
        if tag == 2 {
            let ids = self.ids()?;
            self.end()?;
            return Ok(Reply::Stored { holders: owned_ids(ids) });
        }
        let node = self.id()?;
        Ok(match tag {
            1 => Reply::Delivered { node, hops: self.hops()? },
            3 => {
                let bytes = self.bytes()?;
                self.end()?;
                Reply::Found { node, bytes: bytes.to_vec() }
            }
            4 => Reply::NotFound { node },
            5 => Reply::Collision { node },
            6 => Reply::TooFew { node, known: self.hops()? },
            7 => Reply::Busy { node, joiner: self.id()? },
            8 => Reply::NotReady { node },
            9 => Reply::Full { node },
            10 => Reply::Gone { node },
            _ => Reply::Reclaimed { node },
        })
    }
}

fn owned_ids(bytes: &[u8]) -> Vec<Id> {
    let mut ids = Vec::with_capacity(17);
    ids.extend(bytes.as_chunks::<16>().0.iter().map(|id| Id(u128::from_be_bytes(*id))));
    ids
}

fn owned_files(bytes: &[u8]) -> Vec<FileId> {
    bytes.as_chunks::<20>().0.iter().map(|file| FileId(*file)).collect()
}

fn message(reader: &mut Reader, version: u8, kind: u8) -> Result<Message, Fault> {
    let tags = if version == 1 { (1, 9) } else { (10, 11) };
    let message = match kind {
        1 => Message::Lookup {
            origin: reader.id()?,
            number: reader.number()?,
            key: reader.id()?,
            hops: reader.hops()?,
        },
        2 => Message::LookupReply { number: reader.number()?, reply: reader.reply(tags.0, tags.1)? },
        3 => {
            let origin = reader.id()?;
            let number = reader.number()?;
            let hops = reader.hops()?;
            let file = reader.file()?;
            let copies = reader.byte(1, 9)?;
            let bytes = reader.bytes()?;
            reader.end()?;
            Message::Insert { origin, number, hops, file, copies, bytes: bytes.to_vec() }
        }
        4 => Message::InsertReply { number: reader.number()?, reply: reader.reply(tags.0, tags.1)? },
        5 => Message::Fetch {
            origin: reader.id()?,
            number: reader.number()?,
            hops: reader.hops()?,
            file: reader.file()?,
        },
        6 => Message::FetchReply { number: reader.number()?, reply: reader.reply(tags.0, tags.1)? },
        7 => Message::JoinRequest {
            joiner: reader.id()?,
            attempt: reader.attempt()?,
            hops: reader.hops()?,
        },
        8 => {
            let attempt = reader.attempt()?;
            let members = reader.ids()?;
            reader.end()?;
            Message::JoinReply { attempt, members: owned_ids(members) }
        }
        9 => Message::JoinRefuse { attempt: reader.attempt()?, why: reader.why()? },
        10 => Message::Probe { attempt: reader.attempt()? },
        11 => {
            let attempt = reader.attempt()?;
            let members = reader.ids()?;
            reader.end()?;
            Message::ProbeReply { attempt, members: owned_ids(members) }
        }
        12 => Message::LeaseRequest {
            attempt: reader.attempt()?,
            left: reader.id()?,
            right: reader.id()?,
        },
        13 => {
            let attempt = reader.attempt()?;
            let manifest = reader.files(0)?;
            let tombs = if version == 1 { &[] } else { reader.files(1)? };
            reader.end()?;
            Message::Grant { attempt, manifest: owned_files(manifest), tombs: owned_files(tombs) }
        }
        14 => Message::Deny { attempt: reader.attempt()?, why: reader.why()? },
        15 => {
            let file = reader.file()?;
            let bytes = reader.bytes()?;
            reader.end()?;
            Message::Handover { file, bytes: bytes.to_vec() }
        }
        16 => Message::Release { attempt: reader.attempt()? },
        17 => Message::Confirm { attempt: reader.attempt()? },
        18 => Message::Announce,
        19 => {
            let origin = reader.id()?;
            let number = reader.number()?;
            let file = reader.file()?;
            let bytes = reader.bytes()?;
            reader.end()?;
            Message::Replicate { origin, number, file, bytes: bytes.to_vec() }
        }
        20 => Message::ReplicaAck {
            origin: reader.id()?,
            number: reader.number()?,
            file: reader.file()?,
        },
        21 => Message::Reclaim {
            origin: reader.id()?,
            number: reader.number()?,
            hops: reader.hops()?,
            file: reader.file()?,
        },
        _ => Message::ReclaimReply { number: reader.number()?, reply: reader.reply(1, 11)? },
    };
    reader.end()?;
    Ok(message)
}

fn decode(bytes: &[u8]) -> Result<Envelope, Fault> {
    if bytes.len() < 6 {
        return Err(Fault::Short { need: 6 });
    }
    let (version, kind) = (bytes[0], bytes[1]);
    let is_kind = match version {
        1 => (1..=20).contains(&kind),
        2 => matches!(kind, 2 | 4 | 6 | 13 | 21 | 22),
        found => return Err(Fault::Version { found }),
    };
    if !is_kind {
        return Err(Fault::Kind { found: kind });
    }
    let mut reader = Reader { bytes, place: 2 };
    let stated = reader.attempt()?;
    let found = bytes.len() - 6;
    if stated as usize != found {
        return Err(Fault::Length { stated, found });
    }
    let sender = reader.id()?;
    let receiver = reader.id()?;
    let stamp = reader.number()?;
    let message = message(&mut reader, version, kind)?;
    Ok(Envelope { sender, receiver, stamp, message })
}

// ---- the loops

const TEN: Id = Id(0x10000000000000000000000000000000);
const THIRTY: Id = Id(0x30000000000000000000000000000000);

fn sent(message: Message) -> Envelope {
    Envelope { sender: TEN, receiver: THIRTY, stamp: 5, message }
}

fn insert() -> Message {
    Message::Insert {
        origin: TEN,
        number: 1,
        hops: 2,
        file: FileId([0xf1; 20]),
        copies: 3,
        bytes: vec![0xab; 4096],
    }
}

#[inline(never)]
fn encodes(mut envelope: Envelope, count: u64) -> u64 {
    let mut all = 0u64;
    for i in 0..count {
        envelope.stamp = i;
        let frame = encode(black_box(&envelope));
        all = all.wrapping_add(frame.len() as u64 + u64::from(frame[45]));
    }
    all
}

#[inline(never)]
fn decodes(envelope: Envelope, count: u64) -> u64 {
    let mut frame = encode(&envelope);
    let mut all = 0u64;
    for i in 0..count {
        frame[45] = i as u8;
        if let Ok(envelope) = decode(black_box(&frame)) {
            all = all.wrapping_add(envelope.stamp);
        }
    }
    all
}

fn main() {
    let mut times = Vec::new();
    let mut sums = Vec::new();
    for (count, is_large) in [(20_000_000, false), (2_000_000, true)] {
        let made = || sent(if is_large { insert() } else { Message::Announce });
        let start = Instant::now();
        sums.push(encodes(made(), count));
        times.push(start.elapsed().as_millis());
        let start = Instant::now();
        sums.push(decodes(made(), count));
        times.push(start.elapsed().as_millis());
    }
    println!("{sums:?}");
    println!(
        "ms for 20 million Announces: encode {} decode {}; for 2 million Inserts: encode {} decode {}",
        times[0], times[1], times[2], times[3]
    );
}
