// A scenario that is right, read and played. Nodes and files may be declared between actions, and all nodes are there from the
// start.

fn hex(word: &str) -> Vec<u8> {
    let value = |digit: u8| (digit as char).to_digit(16).unwrap() as u8;
    match word {
        "-" => Vec::new(),
        _ => word.as_bytes().chunks_exact(2).map(|pair| value(pair[0]) << 4 | value(pair[1])).collect(),
    }
}

fn id_of(word: &str) -> Id {
    Id(u128::from_str_radix(word, 16).unwrap())
}

#[derive(Default)]
struct Declared<'a> {
    nodes: Vec<Node>,
    /// The names of nodes with their identifiers, as declared.
    named: Vec<(&'a str, Id)>,
    ids: HashMap<&'a str, Id>,
    files: HashMap<&'a str, (File, Bytes)>,
}

impl<'a> Declared<'a> {
    fn of(input: &'a str) -> Declared<'a> {
        let mut declared = Declared::default();
        let mut founder = None;
        for line in input.lines() {
            let mut words = line.split_ascii_whitespace();
            match (words.next(), words.next()) {
                (Some("file"), Some(name)) => declared.file(name, words),
                (Some("node"), Some(name)) => declared.node(name, words.next().unwrap()),
                (Some("first"), Some(name)) => founder = Some(declared.ids[name]),
                _ => {}
            }
        }
        let founder = founder.unwrap();
        let node = |id: Id| if id == founder { Node::founder(id) } else { Node::new(id) };
        declared.nodes = declared.named.iter().map(|(_, id)| node(*id)).collect();
        declared
    }

    fn file(&mut self, name: &'a str, mut words: impl Iterator<Item = &'a str>) {
        let mut next = || hex(words.next().unwrap());
        let (bytes, owner, salt, contents) = (next(), next(), next(), next());
        let hashed = [bytes, vec![0], owner, salt].concat();
        self.files.insert(name, (sha1(&hashed), contents.into()));
    }

    fn node(&mut self, name: &'a str, word: &str) {
        let id = match word.strip_prefix('@') {
            Some(file) => key_of(&self.files[file].0),
            None if word == "-" => key_of(&sha1(name.as_bytes())),
            None => id_of(word),
        };
        self.ids.insert(name, id);
        self.named.push((name, id));
    }

    fn key(&self, word: &str) -> Id {
        word.strip_prefix('@').map_or_else(|| id_of(word), |file| key_of(&self.files[file].0))
    }

    /// The command of a line, if it is one.
    fn command(&self, words: &[&str]) -> Option<Command> {
        match *words {
            ["join", _, via] => Some(Command::Join(self.ids[via])),
            ["lookup", _, key] => Some(Command::Request(Request::Lookup(self.key(key)))),
            ["insert", _, file, copies] => {
                let (file, bytes) = self.files[file].clone();
                Some(Command::Request(Request::Insert(Rc::new(Insert { file, copies: copies.parse().unwrap(), bytes }))))
            }
            ["fetch", _, file] => Some(Command::Request(Request::Fetch(self.files[file].0))),
            ["reclaim", _, file] => Some(Command::Request(Request::Reclaim(self.files[file].0))),
            ["giveup", _] => Some(Command::GiveUp),
            _ => None,
        }
    }
}

/// The world at the end, and how many commands were given.
fn play(declared: &Declared, world: &mut World, input: &str) -> u64 {
    let mut commands = 0;
    play_lines(declared, world, input, |world, at, command| {
        commands += 1;
        world.command(at, commands, command);
    });
    commands
}

/// Plays the lines of a scenario, and does with each command what is to be done.
fn play_lines(declared: &Declared, world: &mut World, input: &str, mut told: impl FnMut(&mut World, Id, Command)) {
    let mut copies = 1;
    let mut words = Vec::new();
    for line in input.lines() {
        words.clear();
        words.extend(line.split_ascii_whitespace());
        match words[..] {
            ["settle", count] => world.settle(count.parse().unwrap(), copies),
            ["deliver", message] => world.deliver(message.parse().unwrap()),
            ["shuffle", seed, count] => world.shuffle(seed.parse().unwrap(), count.parse().unwrap()),
            ["noise", at, _] => world.noise(declared.ids[at]),
            ["dup", count] => copies = count.parse().unwrap(),
            _ => {
                let Some(command) = declared.command(&words) else { continue };
                told(world, declared.ids[words[1]], command);
            }
        }
    }
}
