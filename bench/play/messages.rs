// What nodes send, what they are told to do, and what is noted of them. What is large and rare is boxed, and what several of
// these hold is shared, so that a message takes 48 bytes and none is copied on its way.

/// What messages, notes and nodes hold together.
type Bytes = Rc<[u8]>;
type Ids = Rc<[Id]>;
type Files = Rc<[File]>;

#[derive(Clone, PartialEq)]
enum Reply {
    Delivered(Id, u16),
    Stored(Ids),
    Found(Rc<Found>),
    NotFound(Id),
    Collision(Id),
    TooFew(Id, u16),
    Busy(Rc<Busy>),
    NotReady(Id),
    Full(Id),
    Gone(Id),
    Reclaimed(Id),
}

#[derive(PartialEq)]
struct Found {
    node: Id,
    bytes: Bytes,
}

#[derive(PartialEq)]
struct Busy {
    node: Id,
    joiner: Id,
}

#[derive(Clone, PartialEq)]
enum Why {
    Busy(Id),
    Moved(Rc<(Id, Id)>),
    NotReady,
}

#[derive(Clone, Copy, PartialEq)]
enum Own {
    GivenUp,
    Already,
    Spent,
}

#[derive(PartialEq)]
enum Answer {
    Reply(Reply),
    Joined(Box<(Id, Id)>),
    Denied(Box<(Id, Why)>),
    Stopped(Id, Own),
    GaveUp,
    NothingToGiveUp,
}

/// A file to keep, and on how many nodes.
#[derive(PartialEq)]
struct Insert {
    file: File,
    copies: u8,
    bytes: Bytes,
}

/// What is asked of the node that owns a key.
#[derive(Clone)]
enum Request {
    Lookup(Id),
    Insert(Rc<Insert>),
    Fetch(File),
    Reclaim(File),
}

/// What a reply answers.
#[derive(Clone, Copy, PartialEq)]
enum Asked {
    Lookup,
    Insert,
    Fetch,
    Reclaim,
}

impl Request {
    fn asked(&self) -> Asked {
        match self {
            Request::Lookup(_) => Asked::Lookup,
            Request::Insert(_) => Asked::Insert,
            Request::Fetch(_) => Asked::Fetch,
            Request::Reclaim(_) => Asked::Reclaim,
        }
    }

    fn key(&self) -> Id {
        match self {
            Request::Lookup(key) => *key,
            Request::Insert(insert) => key_of(&insert.file),
            Request::Fetch(file) | Request::Reclaim(file) => key_of(file),
        }
    }
}

enum Command {
    Request(Request),
    Join(Id),
    GiveUp,
}

/// Whose request it is, with the number that its node gave it.
#[derive(Clone, Copy, PartialEq, Eq)]
struct Asker {
    origin: Id,
    number: u64,
}

#[derive(PartialEq)]
struct Replica {
    asker: Asker,
    file: File,
    bytes: Bytes,
}

#[derive(PartialEq)]
struct Handover {
    file: File,
    bytes: Bytes,
}

#[derive(PartialEq)]
enum Message {
    Lookup(Asker, u16, Id),
    Insert(Asker, u16, Rc<Insert>),
    Fetch(Asker, u16, File),
    Reclaim(Asker, u16, File),
    Answer(Asked, u64, Reply),
    JoinRequest(Id, u32, u16),
    JoinReply(u32, Ids),
    JoinRefuse(u32, Why),
    Probe(u32),
    ProbeReply(u32, Ids),
    LeaseRequest(u32, Id, Id),
    Grant(u32, Files, Files),
    Deny(u32, Why),
    Handover(Box<Handover>),
    Release(u32),
    Confirm(u32),
    Announce,
    Replicate(Rc<Replica>),
    ReplicaAck(Asker, File),
}

impl Message {
    fn of(asker: Asker, hops: u16, request: Request) -> Message {
        match request {
            Request::Lookup(key) => Message::Lookup(asker, hops, key),
            Request::Insert(insert) => Message::Insert(asker, hops, insert),
            Request::Fetch(file) => Message::Fetch(asker, hops, file),
            Request::Reclaim(file) => Message::Reclaim(asker, hops, file),
        }
    }
}

#[derive(PartialEq)]
enum Note {
    Accepted(Box<Handover>),
    Delivered(Asker, Id, u16),
    Answered(Asker, Reply),
    Closed(u64, Answer),
    Reclaimed(File),
}
