// Traces: read from their texts, and checked by nodes that take each step anew.

/// What is left of a frame's fields.
struct Fields<'a>(&'a [u8]);

impl<'a> Fields<'a> {
    fn array<const N: usize>(&mut self) -> Option<[u8; N]> {
        let (first, rest) = self.0.split_first_chunk()?;
        self.0 = rest;
        Some(*first)
    }

    fn part(&mut self, size: usize) -> Option<&'a [u8]> {
        let (first, rest) = self.0.split_at_checked(size)?;
        self.0 = rest;
        Some(first)
    }

    fn byte(&mut self, least: u8, most: u8) -> Option<u8> {
        let [byte] = self.array()?;
        (least..=most).contains(&byte).then_some(byte)
    }

    fn id(&mut self) -> Option<Id> {
        Some(Id(u128::from_be_bytes(self.array()?)))
    }

    fn number(&mut self) -> Option<u64> {
        Some(u64::from_be_bytes(self.array()?))
    }

    fn attempt(&mut self) -> Option<u32> {
        Some(u32::from_be_bytes(self.array()?))
    }

    fn hops(&mut self) -> Option<u16> {
        Some(u16::from_be_bytes(self.array()?))
    }

    fn asker(&mut self) -> Option<Asker> {
        Some(Asker { origin: self.id()?, number: self.number()? })
    }

    fn ids(&mut self) -> Option<Ids> {
        let count = usize::from(self.byte(0, 17)?);
        let (ids, _) = self.part(16 * count)?.as_chunks();
        Some(ids.iter().map(|id| Id(u128::from_be_bytes(*id))).collect())
    }

    fn length(&mut self, least: u16) -> Option<usize> {
        let length = self.hops()?;
        (least..=4096).contains(&length).then_some(usize::from(length))
    }

    fn bytes(&mut self) -> Option<Bytes> {
        let length = self.length(0)?;
        Some(self.part(length)?.into())
    }

    fn files(&mut self, least: u16) -> Option<Files> {
        let count = self.length(least)?;
        Some(self.part(20 * count)?.as_chunks().0.into())
    }

    fn why(&mut self) -> Option<Why> {
        Some(match self.byte(1, 3)? {
            1 => Why::Busy(self.id()?),
            2 => Why::Moved(Rc::new((self.id()?, self.id()?))),
            _ => Why::NotReady,
        })
    }

    fn reply(&mut self, least: u8, most: u8) -> Option<Reply> {
        Some(match self.byte(least, most)? {
            1 => Reply::Delivered(self.id()?, self.hops()?),
            2 => Reply::Stored(self.ids()?),
            3 => Reply::Found(Rc::new(Found { node: self.id()?, bytes: self.bytes()? })),
            4 => Reply::NotFound(self.id()?),
            5 => Reply::Collision(self.id()?),
            6 => Reply::TooFew(self.id()?, self.hops()?),
            7 => Reply::Busy(Rc::new(Busy { node: self.id()?, joiner: self.id()? })),
            8 => Reply::NotReady(self.id()?),
            9 => Reply::Full(self.id()?),
            10 => Reply::Gone(self.id()?),
            _ => Reply::Reclaimed(self.id()?),
        })
    }

    fn answered(&mut self, asked: Asked, version: u8) -> Option<Message> {
        let number = self.number()?;
        let reply = if version == 1 { self.reply(1, 9)? } else { self.reply(10, 11)? };
        Some(Message::Answer(asked, number, reply))
    }

    fn insert(&mut self) -> Option<Rc<Insert>> {
        Some(Rc::new(Insert { file: self.array()?, copies: self.byte(1, 9)?, bytes: self.bytes()? }))
    }

    fn handover(&mut self) -> Option<Box<Handover>> {
        Some(Box::new(Handover { file: self.array()?, bytes: self.bytes()? }))
    }

    fn lookup(&mut self) -> Option<Message> {
        let (asker, key, hops) = (self.asker()?, self.id()?, self.hops()?);
        Some(Message::Lookup(asker, hops, key))
    }

    fn grant(&mut self, version: u8) -> Option<Message> {
        let (attempt, manifest) = (self.attempt()?, self.files(0)?);
        let tombs = if version == 1 { [].into() } else { self.files(1)? };
        Some(Message::Grant(attempt, manifest, tombs))
    }

    fn replica(&mut self) -> Option<Rc<Replica>> {
        Some(Rc::new(Replica { asker: self.asker()?, file: self.array()?, bytes: self.bytes()? }))
    }

    fn message(&mut self, version: u8, kind: u8) -> Option<Message> {
        Some(match (version, kind) {
            (1, 1) => self.lookup()?,
            (_, 2) => self.answered(Asked::Lookup, version)?,
            (1, 3) => Message::Insert(self.asker()?, self.hops()?, self.insert()?),
            (_, 4) => self.answered(Asked::Insert, version)?,
            (1, 5) => Message::Fetch(self.asker()?, self.hops()?, self.array()?),
            (_, 6) => self.answered(Asked::Fetch, version)?,
            (1, 7) => Message::JoinRequest(self.id()?, self.attempt()?, self.hops()?),
            (1, 8) => Message::JoinReply(self.attempt()?, self.ids()?),
            (1, 9) => Message::JoinRefuse(self.attempt()?, self.why()?),
            (1, 10) => Message::Probe(self.attempt()?),
            (1, 11) => Message::ProbeReply(self.attempt()?, self.ids()?),
            (1, 12) => Message::LeaseRequest(self.attempt()?, self.id()?, self.id()?),
            (_, 13) => self.grant(version)?,
            (1, 14) => Message::Deny(self.attempt()?, self.why()?),
            (1, 15) => Message::Handover(self.handover()?),
            (1, 16) => Message::Release(self.attempt()?),
            (1, 17) => Message::Confirm(self.attempt()?),
            (1, 18) => Message::Announce,
            (1, 19) => Message::Replicate(self.replica()?),
            (1, 20) => Message::ReplicaAck(self.asker()?, self.array()?),
            (2, 21) => Message::Reclaim(self.asker()?, self.hops()?, self.array()?),
            (2, 22) => Message::Answer(Asked::Reclaim, self.number()?, self.reply(1, 11)?),
            _ => return None,
        })
    }

    fn command(&mut self) -> Option<Command> {
        Some(match self.byte(1, 6)? {
            1 => Command::Join(self.id()?),
            2 => Command::Request(Request::Lookup(self.id()?)),
            3 => Command::Request(Request::Insert(self.insert()?)),
            4 => Command::Request(Request::Fetch(self.array()?)),
            5 => Command::GiveUp,
            _ => Command::Request(Request::Reclaim(self.array()?)),
        })
    }

    fn answer(&mut self) -> Option<Answer> {
        Some(match self.byte(1, 6)? {
            1 => Answer::Reply(self.reply(1, 11)?),
            2 => Answer::Joined(Box::new((self.id()?, self.id()?))),
            3 => Answer::Denied(Box::new((self.id()?, self.why()?))),
            4 => {
                let (node, own) = (self.id()?, self.byte(1, 3)?);
                Answer::Stopped(node, [Own::GivenUp, Own::Already, Own::Spent][usize::from(own) - 1])
            }
            5 => Answer::GaveUp,
            _ => Answer::NothingToGiveUp,
        })
    }

    fn note(&mut self) -> Option<Note> {
        Some(match self.byte(1, 5)? {
            1 => Note::Accepted(self.handover()?),
            2 => Note::Delivered(self.asker()?, self.id()?, self.hops()?),
            3 => Note::Answered(self.asker()?, self.reply(1, 11)?),
            4 => Note::Closed(self.number()?, self.answer()?),
            _ => Note::Reclaimed(self.array()?),
        })
    }

    /// What was read, if it is all that there is.
    fn whole<T>(&self, read: T) -> Option<T> {
        self.0.is_empty().then_some(read)
    }
}

/// The place of what is none of the nodes.
const NOWHERE: u32 = u32::MAX;

fn place_or_nowhere(ids: &[Id], id: Id) -> u32 {
    place_of(ids, id).map_or(NOWHERE, |place| place as u32)
}

fn envelope(ids: &[Id], bytes: &[u8]) -> Option<Envelope> {
    let mut fields = Fields(bytes);
    let ([version, kind], length) = (fields.array()?, fields.attempt()?);
    if length as usize != fields.0.len() {
        return None;
    }
    let (sender, receiver, stamp) = (fields.id()?, fields.id()?, fields.number()?);
    let message = fields.message(version, kind)?;
    let (sender, receiver) = (place_or_nowhere(ids, sender), place_or_nowhere(ids, receiver));
    fields.whole(Envelope { message, sender, receiver, entry: stamp.wrapping_sub(1) as u32, delivered: false })
}

/// What stands for the value of a byte that is no digit.
const NO_DIGIT: u16 = 16;

/// The value of a digit. It is as wide as a pair of digits, so that many are read at once.
fn digit_value(byte: u16) -> u16 {
    const ZERO: u16 = b'0' as u16;
    const NINE: u16 = b'9' as u16;
    const A: u16 = b'a' as u16;
    const F: u16 = b'f' as u16;
    match byte {
        ZERO..=NINE => byte - ZERO,
        A..=F => byte - A + 10,
        _ => NO_DIGIT,
    }
}

/// Reads the digits of a word into the place of what was there.
fn read_digits<'a>(bytes: &'a mut Vec<u8>, word: &str) -> Option<&'a [u8]> {
    let (pairs, []) = word.as_bytes().as_chunks::<2>() else { return None };
    bytes.resize(pairs.len(), 0);
    let mut greatest = 0;
    for (byte, pair) in bytes.iter_mut().zip(pairs) {
        let pair = u16::from_le_bytes(*pair);
        let (high, low) = (digit_value(pair % 256), digit_value(pair / 256));
        greatest = greatest.max(high).max(low);
        *byte = (high * 16 + low) as u8;
    }
    (greatest < NO_DIGIT).then_some(&bytes[..])
}

fn id_in(bytes: &mut Vec<u8>, word: &str) -> Option<Id> {
    Some(Id(u128::from_be_bytes(read_digits(bytes, word)?.try_into().ok()?)))
}

/// A number without leading zeros.
fn number_in(word: &str) -> Option<u64> {
    let is_spelled = word.bytes().all(|byte| byte.is_ascii_digit()) && (word == "0" || !word.starts_with('0'));
    if is_spelled { word.parse().ok() } else { None }
}

/// A trace as it was read.
#[derive(Default)]
struct Trace {
    /// The nodes in the order of their identifiers.
    ids: Vec<Id>,
    founder: Id,
    record: Record,
}

impl Trace {
    /// Reads the lines of a setting, and hands out those behind them.
    fn read_setting<'a>(&mut self, text: &'a str, bytes: &mut Vec<u8>) -> Option<&'a str> {
        let mut rest = text.strip_prefix("trace 1\n")?;
        loop {
            let (line, behind) = rest.split_once('\n')?;
            rest = behind;
            match line.split_once(' ')? {
                ("node", word) => {
                    let id = id_in(bytes, word)?;
                    if self.ids.len() == 256 || self.ids.contains(&id) {
                        return None;
                    }
                    self.ids.push(id);
                }
                ("founder", word) => {
                    self.founder = id_in(bytes, word)?;
                    let is_node = self.ids.contains(&self.founder);
                    self.ids.sort_by_key(|id| id.0);
                    return is_node.then_some(rest);
                }
                _ => return None,
            }
        }
    }

    fn node(&self, bytes: &mut Vec<u8>, word: &str) -> Option<u32> {
        Some(place_or_nowhere(&self.ids, id_in(bytes, word)?))
    }

    fn begin(&mut self, event: Event, node: u32) {
        let Record { entries, sent, notes, .. } = &mut self.record;
        entries.push(Entry { event, node, sent: sent.len() as u32, noted: notes.len() as u32 });
    }

    fn read_command(&mut self, bytes: &mut Vec<u8>, words: &str) -> Option<()> {
        let (node, words) = words.split_once(' ')?;
        let (number, word) = words.split_once(' ')?;
        let (node, number) = (self.node(bytes, node)?, number_in(number)?);
        let mut fields = Fields(read_digits(bytes, word)?);
        let command = fields.command()?;
        let told = fields.whole(Told { number, command })?;
        self.begin(Event::Command(self.record.told.len() as u32), node);
        self.record.told.push(told);
        Some(())
    }

    fn read_sent(&mut self, bytes: &mut Vec<u8>, word: &str) -> Option<()> {
        let Record { entries, sent, notes, .. } = &mut self.record;
        let last = entries.last_mut()?;
        if (last.noted as usize) < notes.len() {
            return None;
        }
        sent.push(envelope(&self.ids, read_digits(bytes, word)?)?);
        last.sent = sent.len() as u32;
        Some(())
    }

    fn read_note(&mut self, bytes: &mut Vec<u8>, word: &str) -> Option<()> {
        let mut fields = Fields(read_digits(bytes, word)?);
        let note = fields.note()?;
        self.record.entries.last()?;
        self.record.notes.push(fields.whole(note)?);
        Some(())
    }

    fn read_line(&mut self, bytes: &mut Vec<u8>, line: &str) -> Option<()> {
        let (word, rest) = line.split_once(' ')?;
        match word {
            "deliver" => {
                let message = number_in(rest)?;
                self.begin(Event::Deliver(message.try_into().unwrap_or(NOWHERE)), NOWHERE);
            }
            "sent" => self.read_sent(bytes, rest)?,
            "note" => self.read_note(bytes, rest)?,
            "command" => self.read_command(bytes, rest)?,
            "noise" => {
                let node = self.node(bytes, rest)?;
                self.begin(Event::Noise, node);
            }
            _ => return None,
        }
        Some(())
    }

    /// The trace whose text this is.
    fn read(text: &str) -> Option<Trace> {
        let mut trace = Trace::default();
        let mut bytes = Vec::new();
        let mut rest = trace.read_setting(text, &mut bytes)?;
        loop {
            let (line, behind) = rest.split_once('\n')?;
            rest = behind;
            if let Some(skipped) = line.strip_prefix("end ") {
                trace.record.skipped = number_in(skipped)? as usize;
                trace.record.close();
                return rest.is_empty().then_some(trace);
            }
            trace.read_line(&mut bytes, line)?;
        }
    }
}

impl Record {
    /// While a trace is read, an entry has where its notes begin. They end where those of the next begin.
    fn close(&mut self) {
        let mut end = self.notes.len() as u32;
        for entry in self.entries.iter_mut().rev() {
            std::mem::swap(&mut entry.noted, &mut end);
        }
    }
}

/// What was given and is kept of commands: each number, and the greatest of each node.
struct Given {
    numbers: HashSet<u64>,
    greatest: Vec<Option<u64>>,
}

impl Given {
    fn add(&mut self, node: usize, number: u64) -> bool {
        let is_greater = self.greatest[node].is_none_or(|greatest| greatest < number);
        self.greatest[node] = Some(number);
        is_greater && self.numbers.insert(number)
    }
}

/// Whether these are the same messages, whatever their entries.
fn same_messages(one: &[Envelope], other: &[Envelope]) -> bool {
    let same = |(a, b): (&Envelope, &Envelope)| a.sender == b.sender && a.receiver == b.receiver && a.message == b.message;
    one.len() == other.len() && one.iter().zip(other).all(same)
}

impl World {
    /// Makes the step of an event, after which these messages were sent. None where it can't come.
    fn replay(&mut self, record: &Record, sent: usize, given: &mut Given, happened: &Happened) -> Option<()> {
        let World { nodes, step, .. } = self;
        match happened.event {
            Event::Command(place) => {
                let Told { number, command } = &record.told[place as usize];
                let node = nodes.get_mut(happened.node)?;
                if !given.add(happened.node, *number) {
                    return None;
                }
                step.node = happened.node as u32;
                node.command(step, *number, command);
            }
            Event::Deliver(message) => {
                let envelope = record.sent[..sent].get(message as usize)?;
                let node = nodes.get_mut(envelope.receiver as usize)?;
                step.node = envelope.receiver;
                node.message(step, *step.ids.get(envelope.sender as usize)?, &envelope.message);
            }
            Event::Noise => {
                nodes.get(happened.node)?;
            }
        }
        Some(())
    }
}

/// The line that the check of a trace writes.
fn verdict(trace: &Trace) -> String {
    let node = |id: &Id| if *id == trace.founder { Node::founder(*id) } else { Node::new(*id) };
    let mut world = World::new(trace.ids.iter().map(node).collect());
    let mut given = Given { numbers: HashSet::new(), greatest: vec![None; trace.ids.len()] };
    let mut sent = 0;
    for (place, happened) in trace.record.entries().enumerate() {
        let wrong = |part: &str| format!("wrong entry {} {part}\n", place + 1);
        if world.replay(&trace.record, sent, &mut given, &happened).is_none() {
            return wrong("event");
        }
        if !same_messages(&world.step.sent, happened.messages) {
            return wrong("sent");
        }
        if world.step.notes != happened.notes {
            return wrong("notes");
        }
        world.step.sent.clear();
        world.step.notes.clear();
        sent += happened.messages.len();
    }
    let ready = world.nodes.iter().filter(|node| matches!(node.phase, Phase::Ready(..))).count();
    format!("legal entries {} ready {ready}\n", trace.record.entries.len())
}
