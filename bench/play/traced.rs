// Traces: the text of a record, with what each message, command and note is as bytes.

fn put_ids(bytes: &mut Vec<u8>, ids: &[Id]) {
    for id in ids {
        bytes.extend(id.0.to_be_bytes());
    }
}

fn put_counted_ids(bytes: &mut Vec<u8>, ids: &[Id]) {
    bytes.push(ids.len() as u8);
    put_ids(bytes, ids);
}

fn put_asker(bytes: &mut Vec<u8>, asker: &Asker) {
    put_ids(bytes, &[asker.origin]);
    bytes.extend(asker.number.to_be_bytes());
}

fn put_bytes(bytes: &mut Vec<u8>, contents: &[u8]) {
    bytes.extend((contents.len() as u16).to_be_bytes());
    bytes.extend_from_slice(contents);
}

fn put_files(bytes: &mut Vec<u8>, files: &[File]) {
    bytes.extend((files.len() as u16).to_be_bytes());
    bytes.extend_from_slice(files.as_flattened());
}

fn put_why(bytes: &mut Vec<u8>, why: &Why) {
    match why {
        Why::Busy(joiner) => {
            bytes.push(1);
            put_ids(bytes, &[*joiner]);
        }
        Why::Moved(links) => {
            bytes.push(2);
            put_ids(bytes, &[links.0, links.1]);
        }
        Why::NotReady => bytes.push(3),
    }
}

fn put_reply(bytes: &mut Vec<u8>, reply: &Reply) {
    let mut put = |tag: u8, node: Id, rest: &[u8]| {
        bytes.push(tag);
        put_ids(bytes, &[node]);
        bytes.extend_from_slice(rest);
    };
    match reply {
        Reply::Delivered(node, hops) => put(1, *node, &hops.to_be_bytes()),
        Reply::Stored(holders) => {
            bytes.push(2);
            put_counted_ids(bytes, holders);
        }
        Reply::Found(found) => {
            put(3, found.node, &[]);
            put_bytes(bytes, &found.bytes);
        }
        Reply::NotFound(node) => put(4, *node, &[]),
        Reply::Collision(node) => put(5, *node, &[]),
        Reply::TooFew(node, known) => put(6, *node, &known.to_be_bytes()),
        Reply::Busy(busy) => put(7, busy.node, &{ busy.joiner.0 }.to_be_bytes()),
        Reply::NotReady(node) => put(8, *node, &[]),
        Reply::Full(node) => put(9, *node, &[]),
        Reply::Gone(node) => put(10, *node, &[]),
        Reply::Reclaimed(node) => put(11, *node, &[]),
    }
}

fn version_of(reply: &Reply) -> u8 {
    1 + u8::from(matches!(reply, Reply::Gone(_) | Reply::Reclaimed(_)))
}

/// The version and the number of a message's kind.
fn kind_of(message: &Message) -> (u8, u8) {
    match message {
        Message::Lookup(..) => (1, 1),
        Message::Answer(Asked::Lookup, _, reply) => (version_of(reply), 2),
        Message::Insert(..) => (1, 3),
        Message::Answer(Asked::Insert, _, reply) => (version_of(reply), 4),
        Message::Fetch(..) => (1, 5),
        Message::Answer(Asked::Fetch, _, reply) => (version_of(reply), 6),
        Message::JoinRequest(..) => (1, 7),
        Message::JoinReply(..) => (1, 8),
        Message::JoinRefuse(..) => (1, 9),
        Message::Probe(_) => (1, 10),
        Message::ProbeReply(..) => (1, 11),
        Message::LeaseRequest(..) => (1, 12),
        Message::Grant(_, _, tombs) => (1 + u8::from(!tombs.is_empty()), 13),
        Message::Deny(..) => (1, 14),
        Message::Handover(_) => (1, 15),
        Message::Release(_) => (1, 16),
        Message::Confirm(_) => (1, 17),
        Message::Announce => (1, 18),
        Message::Replicate(_) => (1, 19),
        Message::ReplicaAck(..) => (1, 20),
        Message::Reclaim(..) => (2, 21),
        Message::Answer(Asked::Reclaim, ..) => (2, 22),
    }
}

fn put_message(bytes: &mut Vec<u8>, message: &Message) {
    match message {
        Message::Lookup(asker, hops, key) => {
            put_asker(bytes, asker);
            put_ids(bytes, &[*key]);
            bytes.extend(hops.to_be_bytes());
        }
        Message::Insert(asker, hops, insert) => {
            put_asker(bytes, asker);
            bytes.extend(hops.to_be_bytes());
            bytes.extend_from_slice(&insert.file);
            bytes.push(insert.copies);
            put_bytes(bytes, &insert.bytes);
        }
        Message::Fetch(asker, hops, file) | Message::Reclaim(asker, hops, file) => {
            put_asker(bytes, asker);
            bytes.extend(hops.to_be_bytes());
            bytes.extend_from_slice(file);
        }
        Message::Answer(_, number, reply) => {
            bytes.extend(number.to_be_bytes());
            put_reply(bytes, reply);
        }
        Message::JoinRequest(joiner, attempt, hops) => {
            put_ids(bytes, &[*joiner]);
            bytes.extend(attempt.to_be_bytes());
            bytes.extend(hops.to_be_bytes());
        }
        Message::JoinReply(attempt, members) | Message::ProbeReply(attempt, members) => {
            bytes.extend(attempt.to_be_bytes());
            put_counted_ids(bytes, members);
        }
        Message::JoinRefuse(attempt, why) | Message::Deny(attempt, why) => {
            bytes.extend(attempt.to_be_bytes());
            put_why(bytes, why);
        }
        Message::Probe(attempt) | Message::Release(attempt) | Message::Confirm(attempt) => bytes.extend(attempt.to_be_bytes()),
        Message::LeaseRequest(attempt, left, right) => {
            bytes.extend(attempt.to_be_bytes());
            put_ids(bytes, &[*left, *right]);
        }
        Message::Grant(attempt, manifest, tombs) => {
            bytes.extend(attempt.to_be_bytes());
            put_files(bytes, manifest);
            if !tombs.is_empty() {
                put_files(bytes, tombs);
            }
        }
        Message::Handover(handover) => {
            bytes.extend_from_slice(&handover.file);
            put_bytes(bytes, &handover.bytes);
        }
        Message::Announce => {}
        Message::Replicate(replica) => {
            put_asker(bytes, &replica.asker);
            bytes.extend_from_slice(&replica.file);
            put_bytes(bytes, &replica.bytes);
        }
        Message::ReplicaAck(asker, file) => {
            put_asker(bytes, asker);
            bytes.extend_from_slice(file);
        }
    }
}

fn put_command(bytes: &mut Vec<u8>, command: &Command) {
    match command {
        Command::Join(via) => {
            bytes.push(1);
            put_ids(bytes, &[*via]);
        }
        Command::Request(Request::Lookup(key)) => {
            bytes.push(2);
            put_ids(bytes, &[*key]);
        }
        Command::Request(Request::Insert(insert)) => {
            bytes.push(3);
            bytes.extend_from_slice(&insert.file);
            bytes.push(insert.copies);
            put_bytes(bytes, &insert.bytes);
        }
        Command::Request(Request::Fetch(file)) => {
            bytes.push(4);
            bytes.extend_from_slice(file);
        }
        Command::GiveUp => bytes.push(5),
        Command::Request(Request::Reclaim(file)) => {
            bytes.push(6);
            bytes.extend_from_slice(file);
        }
    }
}

fn put_answer(bytes: &mut Vec<u8>, answer: &Answer) {
    match answer {
        Answer::Reply(reply) => {
            bytes.push(1);
            put_reply(bytes, reply);
        }
        Answer::Joined(links) => {
            bytes.push(2);
            put_ids(bytes, &[links.0, links.1]);
        }
        Answer::Denied(denied) => {
            bytes.push(3);
            put_ids(bytes, &[denied.0]);
            put_why(bytes, &denied.1);
        }
        Answer::Stopped(node, own) => {
            bytes.push(4);
            put_ids(bytes, &[*node]);
            bytes.push(1 + *own as u8);
        }
        Answer::GaveUp => bytes.push(5),
        Answer::NothingToGiveUp => bytes.push(6),
    }
}

fn put_note(bytes: &mut Vec<u8>, note: &Note) {
    match note {
        Note::Accepted(accepted) => {
            bytes.push(1);
            bytes.extend_from_slice(&accepted.file);
            put_bytes(bytes, &accepted.bytes);
        }
        Note::Delivered(asker, key, hops) => {
            bytes.push(2);
            put_asker(bytes, asker);
            put_ids(bytes, &[*key]);
            bytes.extend(hops.to_be_bytes());
        }
        Note::Answered(asker, reply) => {
            bytes.push(3);
            put_asker(bytes, asker);
            put_reply(bytes, reply);
        }
        Note::Closed(number, answer) => {
            bytes.push(4);
            bytes.extend(number.to_be_bytes());
            put_answer(bytes, answer);
        }
        Note::Reclaimed(file) => {
            bytes.push(5);
            bytes.extend_from_slice(file);
        }
    }
}

/// The bytes of the frame of an envelope, in the place of what was there.
fn put_frame(bytes: &mut Vec<u8>, ids: &[Id], envelope: &Envelope) {
    let (version, kind) = kind_of(&envelope.message);
    bytes.clear();
    bytes.extend_from_slice(&[version, kind, 0, 0, 0, 0]);
    put_ids(bytes, &[ids[envelope.sender as usize], ids[envelope.receiver as usize]]);
    bytes.extend((u64::from(envelope.entry) + 1).to_be_bytes());
    put_message(bytes, &envelope.message);
    let length = (bytes.len() - 6) as u32;
    bytes[2..6].copy_from_slice(&length.to_be_bytes());
}

/// The digit of a number below 16.
fn hex_digit(value: u8) -> u8 {
    if value < 10 { b'0' + value } else { b'a' - 10 + value }
}

fn put_digits(text: &mut Vec<u8>, bytes: &[u8]) {
    let start = text.len();
    text.resize(start + 2 * bytes.len(), 0);
    for (pair, byte) in text[start..].as_chunks_mut::<2>().0.iter_mut().zip(bytes) {
        *pair = [hex_digit(byte >> 4), hex_digit(byte & 15)];
    }
}

/// A word, the digits of bytes, and the end of a line.
fn put_line(text: &mut Vec<u8>, word: &[u8], bytes: &[u8]) {
    text.extend_from_slice(word);
    put_digits(text, bytes);
    text.push(b'\n');
}

fn put_event(text: &mut Vec<u8>, bytes: &mut Vec<u8>, record: &Record, node: Id, event: Event) {
    match event {
        Event::Command(place) => {
            let Told { number, command } = &record.told[place as usize];
            text.extend_from_slice(b"command ");
            put_digits(text, &node.0.to_be_bytes());
            write!(text, " {number}").unwrap();
            bytes.clear();
            put_command(bytes, command);
            put_line(text, b" ", bytes);
        }
        Event::Deliver(message) => writeln!(text, "deliver {message}").unwrap(),
        Event::Noise => put_line(text, b"noise ", &node.0.to_be_bytes()),
    }
}

/// The text of a world's record. The nodes stand in the order in which they were declared, the founder once more.
fn trace(world: &World, declared: &[Id], founder: Id) -> Vec<u8> {
    let mut text = b"trace 1\n".to_vec();
    let mut bytes = Vec::new();
    for id in declared {
        put_line(&mut text, b"node ", &id.0.to_be_bytes());
    }
    put_line(&mut text, b"founder ", &founder.0.to_be_bytes());
    for Happened { event, node, messages, notes } in world.record.entries() {
        put_event(&mut text, &mut bytes, &world.record, world.ids()[node], event);
        for envelope in messages {
            put_frame(&mut bytes, world.ids(), envelope);
            put_line(&mut text, b"sent ", &bytes);
        }
        for note in notes {
            bytes.clear();
            put_note(&mut bytes, note);
            put_line(&mut text, b"note ", &bytes);
        }
    }
    writeln!(text, "end {}", world.record.skipped).unwrap();
    text
}
