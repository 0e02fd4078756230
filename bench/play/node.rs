// A node that has joined: what it does with requests, files and replicas.

const MOST_FILES: usize = 4096;

/// The files of a node in order, with their bytes or None for a tombstone.
#[derive(Default)]
struct Store {
    files: Vec<(File, Option<Bytes>)>,
}

impl Store {
    fn find(&self, file: &File) -> Result<usize, usize> {
        let rank = |file: &File| (key_of(file).0, u32::from_be_bytes(file[16..].try_into().unwrap()));
        let sought = rank(file);
        self.files.binary_search_by(|(other, _)| rank(other).cmp(&sought))
    }

    fn get(&self, file: &File) -> Option<&Option<Bytes>> {
        Some(&self.files[self.find(file).ok()?].1)
    }

    fn contains(&self, file: &File) -> bool {
        self.find(file).is_ok()
    }

    fn is_full(&self) -> bool {
        self.files.len() >= MOST_FILES
    }

    /// Bytes or a tombstone for a file, unless there is neither an entry nor room for it.
    fn set(&mut self, file: &File, slot: Option<Bytes>) {
        match self.find(file) {
            Ok(at) => self.files[at].1 = slot,
            Err(at) if !self.is_full() => self.files.insert(at, (*file, slot)),
            Err(_) => {}
        }
    }
}

struct Lists {
    manifest: Files,
    tombs: Files,
}

impl Lists {
    fn share(&self) -> Lists {
        Lists { manifest: self.manifest.clone(), tombs: self.tombs.clone() }
    }
}

struct Gate {
    joiner: Id,
    attempt: u32,
    lists: Lists,
}

/// A node between two others, for which it asked by the command of this number.
struct Leasing {
    number: u64,
    left: Id,
    right: Id,
    from_left: Option<Lists>,
    from_right: Option<Lists>,
}

enum Phase {
    Waiting,
    Asking(u64),
    Probing(u64, Vec<(Id, bool)>),
    Leasing(Box<Leasing>),
    Ready(Id, Id),
}

struct Pending {
    asker: Asker,
    file: File,
    targets: Vec<Id>,
    awaited: Vec<Id>,
}

struct Node {
    me: Id,
    attempt: u32,
    phase: Phase,
    left_gate: Option<Box<Gate>>,
    right_gate: Option<Box<Gate>>,
    known: Known,
    files: Store,
    pending: Vec<Pending>,
    /// The numbers of commands that are not answered, in order.
    waiting: Vec<u64>,
}

enum Hop {
    NotReady,
    Here,
    Gap(Id),
    To(Id),
}

/// What decides which keys a node covers.
#[derive(Clone, Copy)]
struct Reach {
    me: Id,
    left: Id,
    right: Id,
    left_joiner: Option<Id>,
    right_joiner: Option<Id>,
}

impl Reach {
    fn covers(&self, key: Id) -> bool {
        let Reach { me, left, right, left_joiner, right_joiner } = *self;
        let to = right_joiner.filter(|id| between(me, *id, right)).unwrap_or(right);
        let from = left_joiner.filter(|id| between(left, *id, me)).unwrap_or(left);
        key == me
            || between(me, key, to) && cw(me, key) <= cw(key, to)
            || between(from, key, me) && cw(key, me) < cw(from, key)
            || left == me && right == me && left_joiner.is_none() && right_joiner.is_none()
    }

    fn without(&self, joiner: Id) -> Reach {
        let other = |id: &Id| *id != joiner;
        Reach { left_joiner: self.left_joiner.filter(other), right_joiner: self.right_joiner.filter(other), ..*self }
    }

    fn in_gap(&self, joiner: Id, key: Id) -> bool {
        !self.covers(key) && self.without(joiner).covers(key)
    }

    /// The joiner in whose gap a key is that is not covered.
    fn gap(&self, key: Id) -> Option<Id> {
        [self.right_joiner, self.left_joiner].into_iter().flatten().find(|joiner| self.without(*joiner).covers(key))
    }
}

fn joiner_of(gate: &Option<Box<Gate>>) -> Option<Id> {
    gate.as_ref().map(|gate| gate.joiner)
}

impl Node {
    fn new(me: Id) -> Node {
        Node {
            me,
            attempt: 1,
            phase: Phase::Waiting,
            left_gate: None,
            right_gate: None,
            known: Known::new(me),
            files: Store::default(),
            pending: Vec::new(),
            waiting: Vec::new(),
        }
    }

    fn founder(me: Id) -> Node {
        Node { attempt: 0, phase: Phase::Ready(me, me), ..Node::new(me) }
    }

    fn reach(&self) -> Option<Reach> {
        let Phase::Ready(left, right) = self.phase else { return None };
        let (left_joiner, right_joiner) = (joiner_of(&self.left_gate), joiner_of(&self.right_gate));
        Some(Reach { me: self.me, left, right, left_joiner, right_joiner })
    }

    fn hop(&self, key: Id) -> Hop {
        let Some(reach) = self.reach() else { return Hop::NotReady };
        if reach.covers(key) {
            return Hop::Here;
        }
        if let Some(joiner) = reach.gap(key) {
            return Hop::Gap(joiner);
        }
        self.known.next_hop(key).map_or(Hop::Here, Hop::To)
    }

    /// A request comes here: it is passed on, refused, or served.
    fn route(&mut self, step: &mut Step, asker: Asker, hops: u16, request: Request) {
        match self.hop(request.key()) {
            Hop::NotReady => step.reply(request.asked(), asker, Reply::NotReady(self.me)),
            Hop::Gap(joiner) => step.reply(request.asked(), asker, Reply::Busy(Rc::new(Busy { node: self.me, joiner }))),
            Hop::To(next) => step.send(next, Message::of(asker, hops.saturating_add(1), request)),
            Hop::Here => self.serve(step, asker, hops, request),
        }
    }

    fn serve(&mut self, step: &mut Step, asker: Asker, hops: u16, request: Request) {
        match request {
            Request::Lookup(key) => {
                step.notes.push(Note::Delivered(asker, key, hops));
                step.reply(Asked::Lookup, asker, Reply::Delivered(self.me, hops));
            }
            Request::Fetch(file) => step.reply(Asked::Fetch, asker, self.fetched(&file)),
            Request::Reclaim(file) => self.reclaim(step, asker, &file),
            Request::Insert(insert) => self.insert(step, asker, &insert),
        }
    }

    fn fetched(&self, file: &File) -> Reply {
        match self.files.get(file) {
            Some(None) => Reply::Gone(self.me),
            Some(Some(bytes)) => Reply::Found(Rc::new(Found { node: self.me, bytes: bytes.clone() })),
            None => Reply::NotFound(self.me),
        }
    }

    fn reclaim(&mut self, step: &mut Step, asker: Asker, file: &File) {
        let me = self.me;
        match self.files.get(file) {
            Some(Some(_)) => {
                self.files.set(file, None);
                step.notes.push(Note::Reclaimed(*file));
                self.end_pending(step, |ask| ask.file == *file, || Reply::Gone(me));
                step.reply(Asked::Reclaim, asker, Reply::Reclaimed(me));
            }
            Some(None) => step.reply(Asked::Reclaim, asker, Reply::Reclaimed(me)),
            None => step.reply(Asked::Reclaim, asker, Reply::NotFound(me)),
        }
    }

    /// Those inserts are over, with this reply.
    fn end_pending(&mut self, step: &mut Step, ends: impl Fn(&Pending) -> bool, reply: impl Fn() -> Reply) {
        self.pending.retain(|ask| {
            let over = ends(ask);
            if over {
                step.reply(Asked::Insert, ask.asker, reply());
            }
            !over
        });
    }

    fn insert(&mut self, step: &mut Step, asker: Asker, insert: &Insert) {
        let Insert { file, copies, bytes } = insert;
        match self.refusal(insert) {
            Some(reply) => return step.reply(Asked::Insert, asker, reply),
            None if !self.files.contains(file) => {
                self.files.set(file, Some(bytes.clone()));
                step.notes.push(Note::Accepted(Box::new(Handover { file: *file, bytes: bytes.clone() })));
            }
            None => {}
        }
        let targets = self.known.nearest_leaves(key_of(file), *copies as usize - 1);
        if targets.is_empty() {
            return step.reply(Asked::Insert, asker, Reply::Stored([self.me].into()));
        }
        self.pending.retain(|ask| ask.asker != asker);
        let replica = Rc::new(Replica { asker, file: *file, bytes: bytes.clone() });
        for target in &targets {
            step.send(*target, Message::Replicate(replica.clone()));
        }
        self.pending.push(Pending { asker, file: *file, awaited: targets.clone(), targets });
    }

    fn refusal(&self, insert: &Insert) -> Option<Reply> {
        let Insert { file, copies, bytes } = insert;
        let known = self.known.leaves().count();
        match self.files.get(file) {
            Some(None) => Some(Reply::Gone(self.me)),
            Some(Some(held)) if held != bytes => Some(Reply::Collision(self.me)),
            _ if known + 1 < *copies as usize => Some(Reply::TooFew(self.me, known as u16)),
            None if self.files.is_full() => Some(Reply::Full(self.me)),
            _ => None,
        }
    }

    fn on_replica(&mut self, step: &mut Step, from: Id, replica: &Replica) {
        let Replica { asker, file, bytes } = replica;
        let held = match self.files.get(file) {
            Some(slot) => slot.as_ref() == Some(bytes),
            None if self.files.is_full() => false,
            None => {
                self.files.set(file, Some(bytes.clone()));
                true
            }
        };
        if held {
            step.send(from, Message::ReplicaAck(*asker, *file));
        }
    }

    fn on_ack(&mut self, step: &mut Step, from: Id, asker: Asker, file: &File) {
        let met = |ask: &Pending| ask.asker == asker && ask.file == *file && ask.awaited.contains(&from);
        let Some(at) = self.pending.iter().position(met) else { return };
        self.pending[at].awaited.retain(|id| *id != from);
        if self.pending[at].awaited.is_empty() {
            let targets = self.pending.remove(at).targets;
            let holders = std::iter::once(self.me).chain(targets).collect();
            step.reply(Asked::Insert, asker, Reply::Stored(holders));
        }
    }

    fn on_answer(&mut self, step: &mut Step, number: u64, reply: &Reply) {
        if let Ok(at) = self.waiting.binary_search(&number) {
            self.waiting.remove(at);
            step.close(number, Answer::Reply(reply.clone()));
        }
    }

    fn message(&mut self, step: &mut Step, from: Id, message: &Message) {
        match message {
            Message::Lookup(asker, hops, key) => self.route(step, *asker, *hops, Request::Lookup(*key)),
            Message::Insert(asker, hops, insert) => self.route(step, *asker, *hops, Request::Insert(insert.clone())),
            Message::Fetch(asker, hops, file) => self.route(step, *asker, *hops, Request::Fetch(*file)),
            Message::Reclaim(asker, hops, file) => self.route(step, *asker, *hops, Request::Reclaim(*file)),
            Message::Answer(_, number, reply) => self.on_answer(step, *number, reply),
            Message::Replicate(replica) => self.on_replica(step, from, replica),
            Message::ReplicaAck(asker, file) => self.on_ack(step, from, *asker, file),
            Message::Announce => self.known.learn(from),
            other => self.join_message(step, from, other),
        }
    }

    fn command(&mut self, step: &mut Step, number: u64, command: &Command) {
        match command {
            Command::Request(request) => {
                self.waiting.push(number);
                self.route(step, Asker { origin: self.me, number }, 0, request.clone());
            }
            Command::Join(via) => self.join(step, number, *via),
            Command::GiveUp => self.give_up(step, number),
        }
    }
}
