// A large file, cut into fragments and an index, and the play that stores its pieces and fetches them again.

const FRAGMENT_BYTES: usize = 4096;

/// The identifiers of nodes that are made of a seed.
fn made_ids(nodes: usize, seed: u64) -> Vec<Id> {
    let mut random = Random::new(seed);
    let mut words = || (0..4).fold(0u128, |id, _| id << 32 | u128::from(random.word()));
    (0..nodes).map(|node| Id(words() & (u128::MAX >> 8) | ((node * 167 % 256) as u128) << 120)).collect()
}

/// So many bytes of stream 1 of a seed.
fn generated(seed: u64, size: usize) -> Vec<u8> {
    let mut random = Random::of_stream(seed, 1);
    let mut bytes: Vec<u8> = (0..size.div_ceil(4)).flat_map(|_| random.word().to_be_bytes()).collect();
    bytes.truncate(size);
    bytes
}

struct Piece {
    file: File,
    bytes: Bytes,
}

/// A piece of the file that is called "l", has no owner, and a salt of zeros.
fn piece(suffix: &[u8], bytes: &[u8]) -> Piece {
    Piece { file: sha1(&[b"l", suffix, &[0], &[0; 8]].concat()), bytes: bytes.into() }
}

/// The fragments, and the index behind them.
fn cut(bytes: &[u8]) -> Vec<Piece> {
    let fragments = bytes.chunks(FRAGMENT_BYTES).enumerate();
    let mut pieces: Vec<Piece> = fragments.map(|(i, fragment)| piece(&(i as u32).to_be_bytes(), fragment)).collect();
    let mut index = (bytes.len() as u32).to_be_bytes().to_vec();
    index.extend((pieces.len() as u16).to_be_bytes());
    pieces.iter().for_each(|piece| index.extend(piece.file));
    pieces.push(piece(b"", &index));
    pieces
}

/// The size that a fragment has, if an index that was found names it and this many fragments.
fn stated(index: &[u8], fragments: usize) -> Option<usize> {
    let head: &[u8; 6] = index.get(..6)?.try_into().unwrap();
    let size = u32::from_be_bytes(head[..4].try_into().unwrap()) as usize;
    let count = usize::from(u16::from_be_bytes(head[4..].try_into().unwrap()));
    let is_index = count == size.div_ceil(FRAGMENT_BYTES) && index.len() == 6 + 20 * count && count == fragments;
    is_index.then_some(size)
}

/// The bytes that fragments come to, if all were found and each has the size that it should have.
fn joined(index: &[u8], fragments: &[Option<&Bytes>]) -> Option<Vec<u8>> {
    let size = stated(index, fragments.len())?;
    let mut whole = Vec::with_capacity(size);
    for fragment in fragments {
        let bytes = (*fragment)?;
        if bytes.len() != FRAGMENT_BYTES.min(size - whole.len()) {
            return None;
        }
        whole.extend_from_slice(bytes);
    }
    Some(whole)
}

/// A world in which commands are numbered from 1 on.
struct Commanded {
    world: World,
    commands: u64,
}

impl Commanded {
    fn command(&mut self, at: Id, command: Command) {
        self.commands += 1;
        self.world.command(at, self.commands, command);
    }

    /// Nodes join beside one another, and then each again alone.
    fn join(&mut self, founder: Id, nodes: &[Id], seed: u64) {
        nodes.iter().for_each(|node| self.command(*node, Command::Join(founder)));
        self.world.shuffle(seed, 40);
        self.world.settle(2000, 1);
        for node in nodes {
            self.command(*node, Command::Join(founder));
            self.world.settle(2000, 1);
        }
    }

    fn request(&mut self, at: Id, request: Request) {
        self.command(at, Command::Request(request));
        self.world.settle(200, 1);
    }
}

fn play_large(ids: &[Id], seed: u64, pieces: &[Piece]) -> Commanded {
    let nodes = ids.iter().map(|id| if *id == ids[0] { Node::founder(*id) } else { Node::new(*id) }).collect();
    let mut play = Commanded { world: World::new(nodes), commands: 0 };
    ids[1..].chunks(3).for_each(|group| play.join(ids[0], group, seed));
    for piece in pieces {
        play.request(ids[0], Request::Insert(Rc::new(Insert { file: piece.file, copies: 2, bytes: piece.bytes.clone() })));
    }
    let last = ids[ids.len() - 1];
    let (index, fragments) = pieces.split_last().unwrap();
    play.request(last, Request::Fetch(index.file));
    fragments.iter().for_each(|fragment| play.request(last, Request::Fetch(fragment.file)));
    play
}

/// The two lines of the proved program's mode `large`.
fn large(nodes: usize, seed: u64, size: usize) -> Vec<u8> {
    let bytes = generated(seed, size);
    let pieces = cut(&bytes);
    let play = play_large(&made_ids(nodes, seed), seed, &pieces);
    let mut closings: Vec<Option<&Answer>> = vec![None; play.commands as usize];
    let mut deliveries = 0;
    for note in &play.world.record.notes {
        match note {
            Note::Closed(number, answer) => closings[*number as usize - 1] = Some(answer),
            Note::Delivered(..) => deliveries += 1,
            _ => {}
        }
    }
    let stored = closings.iter().filter(|closing| matches!(closing, Some(Answer::Reply(Reply::Stored(_))))).count();
    let found: Vec<Option<&Bytes>> = closings.iter().map(found_in).collect();
    let fetched = &found[found.len() - pieces.len()..];
    let whole = fetched[0].and_then(|index| joined(index, &fetched[1..])).is_some_and(|whole| whole == bytes);
    let mut report = Report::new(play.world.ids(), &[]);
    report.summary(&play.world, deliveries);
    let line = format!(
        "large size {size} fragments {} stored {stored} found {} whole {}\n",
        pieces.len() - 1,
        found.iter().flatten().count(),
        if whole { "yes" } else { "no" },
    );
    report.put(&line);
    let text = report.text;
    // The program ends here: nobody asks for the memory back.
    std::mem::forget(play);
    text
}

fn found_in<'a>(closing: &Option<&'a Answer>) -> Option<&'a Bytes> {
    match closing {
        Some(Answer::Reply(Reply::Found(found))) => Some(&found.bytes),
        _ => None,
    }
}
