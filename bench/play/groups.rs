// Multicast groups played over the world that a scenario has left, and their report.

/// A group that a script names.
struct Group<'a> {
    name: &'a str,
    key: Id,
    /// The parts of nodes in it, by the places of the nodes.
    parts: HashMap<u32, Part>,
}

#[derive(Clone, Copy, Default)]
enum Place {
    #[default]
    Loose,
    Root,
    Under(u32),
    Orphan,
}

/// A node's part in a group. Nodes are named by their places.
#[derive(Default)]
struct Part {
    place: Place,
    children: Vec<u32>,
    is_member: bool,
    /// The numbers of the publications that came.
    seen: HashSet<u64>,
}

enum GroupCommand {
    Subscribe,
    Leave,
    Publish(Bytes),
}

#[derive(Clone)]
enum GroupMessage {
    Graft,
    Prune,
    Publish(u64, Bytes),
    Cast(u64, Bytes),
}

/// A message on its way in a group.
struct GroupSent {
    message: GroupMessage,
    sender: u32,
    receiver: u32,
    group: u32,
    delivered: bool,
}

enum GroupNote {
    Subscribed(u64),
    Left(u64),
    Published(u64),
    Refused(u64),
    Heard(u64, u32, Bytes),
}

enum GroupEvent {
    /// The number of the command, from 1.
    Command(u64),
    Deliver(u32),
}

/// An event, the place of its node, and how many messages and notes there are with those of its step.
struct GroupEntry {
    event: GroupEvent,
    node: u32,
    sent: u32,
    noted: u32,
}

/// What a step reads and what it adds to.
struct GroupStep<'a> {
    world: &'a World,
    /// The node that makes the step, the group, and the group's key.
    node: u32,
    group: u32,
    key: Id,
    sent: &'a mut Vec<GroupSent>,
    notes: &'a mut Vec<GroupNote>,
}

impl GroupStep<'_> {
    fn send(&mut self, receiver: u32, message: GroupMessage) {
        self.sent.push(GroupSent { message, sender: self.node, receiver, group: self.group, delivered: false });
    }

    fn hop(&self) -> Hop {
        self.world.nodes[self.node as usize].hop(self.key)
    }

    fn place_of(&self, id: Id) -> u32 {
        place_of(self.world.ids(), id).unwrap() as u32
    }
}

impl Part {
    fn attach(&mut self, step: &mut GroupStep, hop: Hop) {
        self.place = match hop {
            Hop::NotReady => return,
            Hop::Here => Place::Root,
            Hop::Gap(_) => Place::Orphan,
            Hop::To(next) => {
                let parent = step.place_of(next);
                step.send(parent, GroupMessage::Graft);
                Place::Under(parent)
            }
        };
    }

    /// Leaves the tree, if nothing holds the node in it.
    fn trim(&mut self, step: &mut GroupStep) {
        if let Place::Under(parent) = self.place
            && !self.is_member
            && self.children.is_empty()
        {
            self.place = Place::Loose;
            step.send(parent, GroupMessage::Prune);
        }
    }

    fn cast(&mut self, step: &mut GroupStep, number: u64, bytes: &Bytes) {
        if !self.seen.insert(number) {
            return;
        }
        if self.is_member {
            step.notes.push(GroupNote::Heard(number, step.group, bytes.clone()));
        }
        for child in &self.children {
            step.send(*child, GroupMessage::Cast(number, bytes.clone()));
        }
    }

    fn subscribe(&mut self, step: &mut GroupStep, number: u64) {
        let is_loose = matches!(self.place, Place::Loose);
        match step.hop() {
            Hop::NotReady => return step.notes.push(GroupNote::Refused(number)),
            Hop::Gap(_) if is_loose => return step.notes.push(GroupNote::Refused(number)),
            hop if is_loose => self.attach(step, hop),
            _ => {}
        }
        self.is_member = true;
        step.notes.push(GroupNote::Subscribed(number));
    }

    fn publish(&mut self, step: &mut GroupStep, number: u64, bytes: &Bytes) {
        match step.hop() {
            Hop::NotReady | Hop::Gap(_) => step.notes.push(GroupNote::Refused(number)),
            Hop::To(next) => {
                step.send(step.place_of(next), GroupMessage::Publish(number, bytes.clone()));
                step.notes.push(GroupNote::Published(number));
            }
            Hop::Here => {
                step.notes.push(GroupNote::Published(number));
                self.cast(step, number, bytes);
            }
        }
    }

    fn command(&mut self, step: &mut GroupStep, number: u64, command: &GroupCommand) {
        match command {
            GroupCommand::Subscribe => self.subscribe(step, number),
            GroupCommand::Leave => {
                self.is_member = false;
                self.trim(step);
                step.notes.push(GroupNote::Left(number));
            }
            GroupCommand::Publish(bytes) => self.publish(step, number, bytes),
        }
    }

    fn message(&mut self, step: &mut GroupStep, from: u32, message: &GroupMessage) {
        match message {
            GroupMessage::Graft => {
                if !self.children.contains(&from) {
                    self.children.push(from);
                }
                if matches!(self.place, Place::Loose) {
                    let hop = step.hop();
                    self.attach(step, hop);
                }
            }
            GroupMessage::Prune => {
                self.children.retain(|child| *child != from);
                self.trim(step);
            }
            GroupMessage::Publish(number, bytes) => match step.hop() {
                Hop::To(next) => step.send(step.place_of(next), message.clone()),
                Hop::Here => self.cast(step, *number, bytes),
                Hop::Gap(_) | Hop::NotReady => {}
            },
            GroupMessage::Cast(number, bytes) => self.cast(step, *number, bytes),
        }
    }
}

/// All groups, and all that happened in them.
#[derive(Default)]
struct Groups<'a> {
    groups: Vec<Group<'a>>,
    named: HashMap<&'a str, u32>,
    entries: Vec<GroupEntry>,
    sent: Vec<GroupSent>,
    notes: Vec<GroupNote>,
    oldest: usize,
    commands: u64,
}

impl<'a> Groups<'a> {
    fn group(&mut self, name: &'a str) -> u32 {
        let groups = &mut self.groups;
        *self.named.entry(name).or_insert_with(|| {
            groups.push(Group { name, key: key_of(&sha1(name.as_bytes())), parts: HashMap::new() });
            groups.len() as u32 - 1
        })
    }

    fn happen(&mut self, event: GroupEvent, node: u32) {
        let (sent, noted) = (self.sent.len() as u32, self.notes.len() as u32);
        self.entries.push(GroupEntry { event, node, sent, noted });
    }

    fn command(&mut self, world: &World, at: Id, name: &'a str, command: &GroupCommand) {
        let (node, group) = (place_of(world.ids(), at).unwrap() as u32, self.group(name));
        self.commands += 1;
        let Group { key, parts, .. } = &mut self.groups[group as usize];
        let mut step = GroupStep { world, node, group, key: *key, sent: &mut self.sent, notes: &mut self.notes };
        parts.entry(node).or_default().command(&mut step, self.commands, command);
        self.happen(GroupEvent::Command(self.commands), node);
    }

    fn deliver(&mut self, world: &World, message: usize) {
        let Some(sent) = self.sent.get_mut(message) else { return };
        sent.delivered = true;
        let (node, group, from, what) = (sent.receiver, sent.group, sent.sender, sent.message.clone());
        let Group { key, parts, .. } = &mut self.groups[group as usize];
        let mut step = GroupStep { world, node, group, key: *key, sent: &mut self.sent, notes: &mut self.notes };
        parts.entry(node).or_default().message(&mut step, from, &what);
        self.happen(GroupEvent::Deliver(message as u32), node);
    }

    fn settle(&mut self, world: &World, count: usize) {
        for _ in 0..count {
            while self.sent.get(self.oldest).is_some_and(|sent| sent.delivered) {
                self.oldest += 1;
            }
            if self.oldest == self.sent.len() {
                return;
            }
            self.deliver(world, self.oldest);
        }
    }

    fn play(&mut self, declared: &Declared, world: &World, lines: &'a str) {
        for line in lines.lines() {
            let words: Vec<&str> = line.split_ascii_whitespace().collect();
            match words[..] {
                ["settle", count] => self.settle(world, count.parse().unwrap()),
                ["deliver", message] => self.deliver(world, message.parse().unwrap()),
                ["subscribe", at, group] => self.command(world, declared.ids[at], group, &GroupCommand::Subscribe),
                ["leave", at, group] => self.command(world, declared.ids[at], group, &GroupCommand::Leave),
                ["publish", at, group, bytes] => {
                    self.command(world, declared.ids[at], group, &GroupCommand::Publish(hex(bytes).into()));
                }
                _ => {}
            }
        }
    }

    fn answers(&self, report: &mut Report) {
        let mut answers = vec![""; self.commands as usize];
        for note in &self.notes {
            let (number, answer) = match note {
                GroupNote::Subscribed(number) => (*number, " subscribed\n"),
                GroupNote::Left(number) => (*number, " left\n"),
                GroupNote::Published(number) => (*number, " published\n"),
                GroupNote::Refused(number) => (*number, " refused\n"),
                GroupNote::Heard(..) => continue,
            };
            answers[number as usize - 1] = answer;
        }
        for (place, answer) in answers.iter().enumerate() {
            report.number(place as u64 + 1);
            report.put(answer);
        }
    }

    /// A line for each publication that was heard, and how many there are.
    fn hearings(&self, report: &mut Report) -> usize {
        let (mut heard, mut noted) = (0, 0);
        for entry in &self.entries {
            for note in &self.notes[noted..entry.noted as usize] {
                let GroupNote::Heard(number, group, bytes) = note else { continue };
                report.put("heard ");
                report.number(*number);
                report.put(" by ");
                report.put(report.names[entry.node as usize]);
                report.put(" ");
                report.put(self.groups[*group as usize].name);
                report.put(" ");
                report.bytes(bytes);
                report.put("\n");
                heard += 1;
            }
            noted = entry.noted as usize;
        }
        heard
    }

    fn report(&self, report: &mut Report) {
        self.answers(report);
        let heard = self.hearings(report);
        let undelivered = self.sent.iter().filter(|sent| !sent.delivered).count();
        for (word, count) in [
            ("groups entries ", self.entries.len()),
            (" sent ", self.sent.len()),
            (" undelivered ", undelivered),
            (" heard ", heard),
        ] {
            report.put(word);
            report.number(count as u64);
        }
        report.put("\n");
    }
}

/// The two parts of a script: what stands before the line that is exactly `groups`, and what stands behind it.
fn parts_of(script: &str) -> (&str, &str) {
    match script.strip_prefix("groups\n") {
        Some(behind) => ("", behind),
        None => {
            let at = script.find("\ngroups\n").unwrap();
            (&script[..at + 1], &script[at + 8..])
        }
    }
}
