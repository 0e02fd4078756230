//! The same work over Rust's `BTreeMap`, to compare with rattle.txt: puts in random order, gets, and the files of a gap.
use std::collections::BTreeMap;
use std::collections::btree_map::Entry;
use std::time::Instant;

type FileId = [u8; 20];

#[derive(Clone, Copy)]
struct Reach {
    me: u128,
    left: u128,
    right: u128,
    left_joiner: Option<u128>,
    right_joiner: Option<u128>,
}

fn mixed(n: u64) -> u64 {
    let a = n.wrapping_add(1).wrapping_mul(0x9e37_79b9_7f4a_7c15);
    let b = (a ^ (a >> 30)).wrapping_mul(0xbf58_476d_1ce4_e5b9);
    let c = (b ^ (b >> 27)).wrapping_mul(0x94d0_49bb_1331_11eb);
    c ^ (c >> 31)
}

fn file_of(n: u64) -> FileId {
    let mut bytes = [0; 20];
    bytes[..8].copy_from_slice(&mixed(2 * n).to_be_bytes());
    bytes[8..16].copy_from_slice(&mixed(2 * n + 1).to_be_bytes());
    bytes
}

fn cw(a: u128, b: u128) -> u128 {
    b.wrapping_sub(a)
}

fn between(a: u128, x: u128, b: u128) -> bool {
    let far = cw(a, x);
    far != 0 && (a == b || far < cw(a, b))
}

fn effective(link: u128, joiner: Option<u128>, stands: impl Fn(u128) -> bool) -> u128 {
    match joiner {
        Some(j) if stands(j) => j,
        _ => link,
    }
}

fn covers(r: &Reach, key: u128) -> bool {
    let right = effective(r.right, r.right_joiner, |j| between(r.me, j, r.right));
    let left = effective(r.left, r.left_joiner, |j| between(r.left, j, r.me));
    key == r.me
        || between(r.me, key, right) && cw(r.me, key) <= cw(key, right)
        || between(left, key, r.me) && cw(key, r.me) < cw(left, key)
        || r.left == r.me && r.right == r.me && r.left_joiner.is_none() && r.right_joiner.is_none()
}

fn is_in_gap(r: &Reach, joiner: u128, key: u128) -> bool {
    let taken = |side: Option<u128>| side.filter(|j| *j != joiner);
    let without = Reach { left_joiner: taken(r.left_joiner), right_joiner: taken(r.right_joiner), ..*r };
    covers(&without, key) && !covers(r, key)
}

type Store = BTreeMap<FileId, Option<Vec<u8>>>;

fn put(store: &mut Store, file: FileId, bytes: &[u8]) -> bool {
    let has_room = store.len() < 4096;
    match store.entry(file) {
        Entry::Vacant(place) if has_room => {
            place.insert(Some(bytes.to_vec()));
            true
        }
        _ => false,
    }
}

fn in_gap(store: &Store, reach: &Reach, joiner: u128) -> Vec<FileId> {
    store
        .iter()
        .filter(|(file, slot)| {
            slot.is_some() && is_in_gap(reach, joiner, u128::from_be_bytes(file[..16].try_into().unwrap()))
        })
        .map(|(file, _)| *file)
        .collect()
}

fn filled(files: &[FileId], bytes: &[u8]) -> Store {
    let mut store = Store::new();
    for file in files {
        put(&mut store, *file, bytes);
    }
    store
}

fn main() {
    let files: Vec<FileId> = (0..4096).map(file_of).collect();
    for size in [0, 64] {
        let bytes = vec![7; size];
        let mut best = [u128::MAX; 3];
        let mut seen = 0;
        for _ in 0..40 {
            let start = Instant::now();
            let store = filled(&files, &bytes);
            best[0] = best[0].min(start.elapsed().as_nanos());
            let start = Instant::now();
            for n in 0..25_000 {
                let file = &files[(mixed(n) % 4096) as usize];
                if let Some(Some(found)) = store.get(file) {
                    seen += found.len() + 1;
                }
            }
            best[1] = best[1].min(start.elapsed().as_nanos());
            let reach = Reach { me: 1 << 124, left: 14 << 124, right: 9 << 124, left_joiner: None, right_joiner: Some(5 << 124) };
            let start = Instant::now();
            seen += in_gap(&store, &reach, 5 << 124).len();
            best[2] = best[2].min(start.elapsed().as_nanos());
        }
        println!("{size} bytes: 4096 puts {} ns, 25000 gets {} ns, in_gap {} ns ({seen})", best[0], best[1], best[2]);
    }
}
