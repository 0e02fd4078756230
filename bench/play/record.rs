// All that happened, in three lists: an entry takes 20 bytes, and no memory of its own.

/// A message on its way.
struct Envelope {
    message: Message,
    /// Where its nodes stand among all.
    sender: u32,
    receiver: u32,
    /// The number of the entry that sent it, from 0.
    entry: u32,
    delivered: bool,
}

/// What happened at a node, as a number.
#[derive(Clone, Copy)]
enum Event {
    /// The place of the command among all that were given.
    Command(u32),
    Deliver(u32),
    Noise,
}

/// An event, the place of its node, and how many messages and notes there are with those of its step.
struct Entry {
    event: Event,
    node: u32,
    sent: u32,
    noted: u32,
}

struct Told {
    number: u64,
    command: Command,
}

#[derive(Default)]
struct Record {
    entries: Vec<Entry>,
    told: Vec<Told>,
    sent: Vec<Envelope>,
    notes: Vec<Note>,
    skipped: usize,
}

/// An entry as it is handed out.
struct Happened<'a> {
    event: Event,
    node: usize,
    messages: &'a [Envelope],
    notes: &'a [Note],
}

impl Record {
    fn entries(&self) -> impl Iterator<Item = Happened<'_>> {
        let (mut sent, mut noted) = (0, 0);
        self.entries.iter().map(move |entry| {
            let messages = &self.sent[sent..entry.sent as usize];
            let notes = &self.notes[noted..entry.noted as usize];
            (sent, noted) = (entry.sent as usize, entry.noted as usize);
            Happened { event: entry.event, node: entry.node as usize, messages, notes }
        })
    }
}

/// What a step sends and notes. The lists are the same at every step.
#[derive(Default)]
struct Step {
    /// All nodes in the order of their identifiers.
    ids: Vec<Id>,
    /// The place of the node that makes the step, and the number of its entry.
    node: u32,
    entry: u32,
    sent: Vec<Envelope>,
    notes: Vec<Note>,
}

/// Where an identifier stands among those in order.
fn place_of(ids: &[Id], id: Id) -> Option<usize> {
    let sought = id.0;
    ids.binary_search_by_key(&sought, |id| id.0).ok()
}

impl Step {
    fn send(&mut self, to: Id, message: Message) {
        let receiver = place_of(&self.ids, to).unwrap() as u32;
        self.sent.push(Envelope { message, sender: self.node, receiver, entry: self.entry, delivered: false });
    }

    fn send_both(&mut self, left: Id, right: Id, message: impl Fn() -> Message) {
        self.send(left, message());
        if right != left {
            self.send(right, message());
        }
    }

    fn reply(&mut self, asked: Asked, asker: Asker, reply: Reply) {
        self.notes.push(Note::Answered(asker, reply.clone()));
        self.send(asker.origin, Message::Answer(asked, asker.number, reply));
    }

    fn close(&mut self, number: u64, answer: Answer) {
        self.notes.push(Note::Closed(number, answer));
    }
}

/// The nodes in the order of their identifiers, and all that happened among them.
struct World {
    nodes: Vec<Node>,
    record: Record,
    step: Step,
    oldest: usize,
    undelivered: usize,
}

impl World {
    fn new(mut nodes: Vec<Node>) -> World {
        nodes.sort_by_key(|node| node.me.0);
        let ids = nodes.iter().map(|node| node.me).collect();
        let step = Step { ids, ..Step::default() };
        World { nodes, record: Record::default(), step, oldest: 0, undelivered: 0 }
    }

    fn ids(&self) -> &[Id] {
        &self.step.ids
    }

    /// The place of a node that is about to make a step.
    fn begin(&mut self, at: Id) -> usize {
        let place = place_of(self.ids(), at).unwrap();
        self.step.node = place as u32;
        place
    }

    /// The entry of the step that was made.
    fn happen(&mut self, event: Event) {
        let World { record, step, .. } = self;
        self.undelivered += step.sent.len();
        record.sent.append(&mut step.sent);
        record.notes.append(&mut step.notes);
        let (sent, noted) = (record.sent.len() as u32, record.notes.len() as u32);
        record.entries.push(Entry { event, node: step.node, sent, noted });
        step.entry += 1;
    }

    fn command(&mut self, at: Id, number: u64, command: Command) {
        let place = self.begin(at);
        self.nodes[place].command(&mut self.step, number, &command);
        let event = Event::Command(self.record.told.len() as u32);
        self.record.told.push(Told { number, command });
        self.happen(event);
    }

    fn noise(&mut self, at: Id) {
        self.begin(at);
        self.happen(Event::Noise);
    }

    fn deliver(&mut self, message: usize) {
        let Some(envelope) = self.record.sent.get_mut(message) else {
            self.record.skipped += 1;
            return;
        };
        self.undelivered -= usize::from(!envelope.delivered);
        envelope.delivered = true;
        self.step.node = envelope.receiver;
        let from = self.step.ids[envelope.sender as usize];
        self.nodes[envelope.receiver as usize].message(&mut self.step, from, &envelope.message);
        self.happen(Event::Deliver(message as u32));
    }

    fn oldest_undelivered(&mut self) -> Option<usize> {
        while self.record.sent.get(self.oldest)?.delivered {
            self.oldest += 1;
        }
        Some(self.oldest)
    }

    fn settle(&mut self, count: usize, copies: usize) {
        for _ in 0..count {
            let Some(message) = self.oldest_undelivered() else { return };
            (0..copies).for_each(|_| self.deliver(message));
        }
    }

    fn shuffle(&mut self, seed: u64, count: usize) {
        let mut random = Random::new(seed);
        for _ in 0..count {
            let word = random.word();
            match self.record.sent.len() {
                0 => self.record.skipped += 1,
                sent => self.deliver(word as usize % sent),
            }
        }
    }
}
