// Identifiers on the circle and random words, for the plain Rust programs of several benchmarks.

#[derive(Clone, Copy, Default, PartialEq, Eq)]
#[repr(Rust, packed(8))]
struct Id(u128);

fn cw(a: Id, b: Id) -> u128 {
    b.0.wrapping_sub(a.0)
}

fn dist(a: Id, b: Id) -> u128 {
    cw(a, b).min(cw(b, a))
}

fn between(a: Id, x: Id, b: Id) -> bool {
    x != a && (a == b || x != b && cw(a, x) < cw(a, b))
}

fn nearer(a: Id, b: Id, key: Id) -> bool {
    let from_a = dist(a, key);
    let from_b = dist(b, key);
    from_a < from_b || from_a == from_b && cw(a, key) < cw(b, key)
}

/// Words by a linear congruence, two to an identifier.
struct Words {
    word: u64,
}

impl Words {
    fn next(&mut self) -> u64 {
        self.word = self
            .word
            .wrapping_mul(6364136223846793005)
            .wrapping_add(1442695040888963407);
        self.word
    }

    fn id(&mut self) -> Id {
        let high = self.next();
        let low = self.next();
        Id((u128::from(high) << 64) | u128::from(low))
    }
}
