// The scenario that the proved program makes of a number of nodes and a seed, as a text.

const MADE_FILES: usize = 20;

struct Maker {
    random: Random,
    text: String,
}

impl Maker {
    fn line(&mut self, line: String) {
        self.text.push_str(&line);
        self.text.push('\n');
    }

    /// The next words, in digits.
    fn words(&mut self, count: usize) -> String {
        (0..count).map(|_| format!("{:08x}", self.random.word())).collect()
    }

    fn declare(&mut self, nodes: usize) {
        for node in 0..nodes {
            let words = self.words(4);
            self.line(format!("node n{node} {:02x}{}", node * 167 % 256, &words[2..]));
        }
        for file in 0..MADE_FILES {
            let (salt, contents) = (self.words(2), self.words(16));
            let name: String = format!("f{file}").bytes().map(|byte| format!("{byte:02x}")).collect();
            self.line(format!("file f{file} {name} - {salt} {contents}"));
        }
        self.line("first n0".to_string());
    }

    /// Nodes join beside one another, and then each again alone.
    fn group(&mut self, nodes: std::ops::Range<usize>, seed: u64) {
        nodes.clone().for_each(|node| self.line(format!("join n{node} n0")));
        self.line(format!("shuffle {seed} 40"));
        self.line("settle 2000".to_string());
        nodes.for_each(|node| self.line(format!("join n{node} n0\nsettle 2000")));
    }
}

fn made(nodes: usize, seed: u64) -> String {
    let mut maker = Maker { random: Random::new(seed), text: String::new() };
    maker.declare(nodes);
    for first in (1..nodes).step_by(3) {
        maker.group(first..nodes.min(first + 3), seed);
    }
    for file in 0..MADE_FILES {
        maker.line(format!("insert n0 f{file} {}\nsettle 2000", 1 + file % 3));
    }
    for file in 0..MADE_FILES {
        maker.line(format!("fetch n{} f{file}\nsettle 2000", file % nodes));
    }
    maker.text
}
