// A play with an access point at each node: a cache of files that fetches found there.

/// Files with their bytes and the time of their last use, and the files by those times.
#[derive(Default)]
struct Point {
    files: HashMap<File, (Bytes, u64)>,
    used: BTreeMap<u64, File>,
}

impl Point {
    fn ask(&mut self, file: &File, now: u64) -> Option<Bytes> {
        let (bytes, used) = self.files.get_mut(file)?;
        self.used.remove(used);
        self.used.insert(now, *file);
        *used = now;
        Some(bytes.clone())
    }

    fn tell(&mut self, file: File, bytes: Bytes, now: u64, room: usize) {
        if let Some((_, used)) = self.files.insert(file, (bytes, now)) {
            self.used.remove(&used);
        }
        self.used.insert(now, file);
        if self.files.len() > room {
            let (_, oldest) = self.used.pop_first().unwrap();
            self.files.remove(&oldest);
        }
    }
}

/// The access points of all nodes, and what came of them.
struct Points {
    room: usize,
    /// As the identifiers of the nodes are in order.
    points: Vec<Point>,
    /// Of each command the place of its node, and the file that it fetches.
    fetches: Vec<(usize, Option<File>)>,
    hits: Vec<Option<Bytes>>,
    misses: usize,
    /// How many notes were looked at, and how often a point was used.
    noted: usize,
    now: u64,
}

impl Points {
    fn new(nodes: usize, room: usize) -> Points {
        let points = (0..nodes).map(|_| Point::default()).collect();
        Points { room, points, fetches: Vec::new(), hits: Vec::new(), misses: 0, noted: 0, now: 0 }
    }

    /// Remembers what was found since this was called last.
    fn listen(&mut self, world: &World) {
        for note in &world.record.notes[self.noted..] {
            let Note::Closed(number, Answer::Reply(Reply::Found(found))) = note else { continue };
            if let (place, Some(file)) = self.fetches[*number as usize - 1] {
                self.now += 1;
                self.points[place].tell(file, found.bytes.clone(), self.now, self.room);
            }
        }
        self.noted = world.record.notes.len();
    }

    /// The next command; a fetch that hits is kept from its node.
    fn command(&mut self, world: &mut World, at: Id, command: Command) {
        let place = place_of(world.ids(), at).unwrap();
        let file = if let Command::Request(Request::Fetch(file)) = command { Some(file) } else { None };
        self.fetches.push((place, file));
        let hit = file.and_then(|file| {
            self.listen(world);
            self.now += 1;
            self.points[place].ask(&file, self.now)
        });
        if hit.is_none() {
            self.misses += usize::from(file.is_some());
            world.command(at, self.fetches.len() as u64, command);
        }
        self.hits.push(hit);
    }
}

fn report_points(points: &Points, world: &World, named: &[(&str, Id)]) -> Vec<u8> {
    let mut closings: Vec<Option<&Answer>> = vec![None; points.hits.len()];
    let mut deliveries = Vec::new();
    for entry in world.record.entries() {
        for note in entry.notes {
            match note {
                Note::Closed(number, answer) => closings[*number as usize - 1] = Some(answer),
                Note::Delivered(asker, key, hops) => deliveries.push((asker.number, *key, entry.node, *hops)),
                _ => {}
            }
        }
    }
    let mut report = Report::new(world.ids(), named);
    for (place, (hit, closing)) in points.hits.iter().zip(&closings).enumerate() {
        report.number(place as u64 + 1);
        report.put(" ");
        match (hit, closing) {
            (Some(bytes), _) => {
                report.put("cached ");
                report.bytes(bytes);
            }
            (None, Some(answer)) => report.answer(answer),
            (None, None) => report.put("unanswered"),
        }
        report.put("\n");
    }
    for (number, key, node, hops) in &deliveries {
        report.delivery(*number, *key, *node, *hops);
    }
    report.summary(world, deliveries.len());
    report.put(&format!("points hits {} misses {}\n", points.hits.iter().flatten().count(), points.misses));
    report.text
}
