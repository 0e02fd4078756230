// The report of a record, in one pass over its entries.

/// The text of a report, and the names of nodes, as the identifiers are in order.
struct Report<'a> {
    ids: &'a [Id],
    names: Vec<&'a str>,
    text: Vec<u8>,
}

impl<'a> Report<'a> {
    fn new(ids: &'a [Id], named: &[(&'a str, Id)]) -> Report<'a> {
        let mut named = named.to_vec();
        named.sort_by_key(|(_, id)| id.0);
        Report { ids, names: named.iter().map(|(name, _)| *name).collect(), text: Vec::new() }
    }

    fn put(&mut self, text: &str) {
        self.text.extend_from_slice(text.as_bytes());
    }

    fn number(&mut self, mut number: u64) {
        let mut digits = [0; 20];
        let mut at = digits.len();
        while at == digits.len() || number > 0 {
            at -= 1;
            digits[at] = b'0' + (number % 10) as u8;
            number /= 10;
        }
        self.text.extend_from_slice(&digits[at..]);
    }

    fn hex(&mut self, bytes: &[u8]) {
        const DIGITS: &[u8; 16] = b"0123456789abcdef";
        self.text.reserve(2 * bytes.len());
        for byte in bytes {
            self.text.extend_from_slice(&[DIGITS[usize::from(byte >> 4)], DIGITS[usize::from(byte & 15)]]);
        }
    }

    fn bytes(&mut self, bytes: &[u8]) {
        if bytes.is_empty() { self.put("-") } else { self.hex(bytes) }
    }

    fn name(&mut self, id: Id) {
        match place_of(self.ids, id) {
            Some(place) => self.put(self.names[place]),
            None => self.hex(&id.0.to_be_bytes()),
        }
    }

    /// Words, and a name.
    fn of(&mut self, words: &str, id: Id) {
        self.put(words);
        self.name(id);
    }

    fn reply(&mut self, reply: &Reply) {
        match reply {
            Reply::Delivered(node, hops) => {
                self.of("delivered by ", *node);
                self.put(" hops ");
                self.number(u64::from(*hops));
            }
            Reply::Stored(holders) => {
                self.put("stored at");
                holders.iter().for_each(|id| self.of(" ", *id));
            }
            Reply::Found(found) => {
                self.of("found by ", found.node);
                self.put(" ");
                self.bytes(&found.bytes);
            }
            Reply::TooFew(node, known) => {
                self.of("too few by ", *node);
                self.put(" known ");
                self.number(u64::from(*known));
            }
            Reply::Busy(busy) => {
                self.of("busy by ", busy.node);
                self.of(" for ", busy.joiner);
            }
            Reply::NotFound(node) => self.of("missing by ", *node),
            Reply::Collision(node) => self.of("collision by ", *node),
            Reply::NotReady(node) => self.of("not ready by ", *node),
            Reply::Full(node) => self.of("full by ", *node),
            Reply::Gone(node) => self.of("gone by ", *node),
            Reply::Reclaimed(node) => self.of("reclaimed by ", *node),
        }
    }

    fn denied(&mut self, node: Id, why: &Why) {
        self.of("denied by ", node);
        match why {
            Why::Busy(joiner) => self.of(" busy with ", *joiner),
            Why::Moved(links) => {
                self.of(" moved to ", links.0);
                self.of(" and ", links.1);
            }
            Why::NotReady => self.put(" not ready"),
        }
    }

    fn answer(&mut self, answer: &Answer) {
        match answer {
            Answer::Reply(reply) => self.reply(reply),
            Answer::Joined(links) => {
                self.of("joined between ", links.0);
                self.of(" and ", links.1);
            }
            Answer::Denied(denied) => self.denied(denied.0, &denied.1),
            Answer::Stopped(node, own) => {
                self.of("denied by ", *node);
                self.put(match own {
                    Own::GivenUp => " given up",
                    Own::Already => " already",
                    Own::Spent => " spent",
                });
            }
            Answer::GaveUp => self.put("gave up"),
            Answer::NothingToGiveUp => self.put("nothing to give up"),
        }
    }

    fn delivery(&mut self, number: u64, key: Id, node: usize, hops: u16) {
        self.put("delivery ");
        self.number(number);
        self.put(" of ");
        self.hex(&key.0.to_be_bytes());
        self.put(" by ");
        self.put(self.names[node]);
        self.put(" hops ");
        self.number(u64::from(hops));
        self.put("\n");
    }

    fn answers(&mut self, closings: &[Option<&Answer>]) {
        for (place, closing) in closings.iter().enumerate() {
            self.number(place as u64 + 1);
            self.put(" ");
            match closing {
                Some(answer) => self.answer(answer),
                None => self.put("unanswered"),
            }
            self.put("\n");
        }
    }

    fn summary(&mut self, world: &World, deliveries: usize) {
        let ready = world.nodes.iter().filter(|node| matches!(node.phase, Phase::Ready(..))).count();
        let record = &world.record;
        for (word, count) in [
            ("summary entries ", record.entries.len()),
            (" sent ", record.sent.len()),
            (" undelivered ", world.undelivered),
            (" deliveries ", deliveries),
            (" skipped ", record.skipped),
            (" ready ", ready),
        ] {
            self.put(word);
            self.number(count as u64);
        }
        self.put("\n");
    }
}

fn report(world: &World, named: &[(&str, Id)], commands: u64) -> Vec<u8> {
    let mut closings: Vec<Option<&Answer>> = vec![None; commands as usize];
    let mut deliveries = Vec::new();
    for entry in world.record.entries() {
        for note in entry.notes {
            match note {
                Note::Closed(number, answer) => closings[*number as usize - 1] = Some(answer),
                Note::Delivered(asker, key, hops) => deliveries.push((asker.number, *key, entry.node, *hops)),
                _ => {}
            }
        }
    }
    let mut report = Report::new(world.ids(), named);
    report.answers(&closings);
    for (number, key, node, hops) in &deliveries {
        report.delivery(*number, *key, *node, *hops);
    }
    report.summary(world, deliveries.len());
    report.text
}
