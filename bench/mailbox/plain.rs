//! The same work over a plain queue of boxed frames, to compare with rattle.txt.
//!
//! `SegQueue` here stands in for that of the crate crossbeam-queue, which no offline build can fetch: the same list of blocks of
//! 31 slots, the same steps in the same order and with the same orderings, written anew, with its first block made at once.
use std::cell::UnsafeCell;
use std::mem::MaybeUninit;
use std::ptr;
use std::sync::atomic::Ordering::{AcqRel, Acquire, Relaxed, Release, SeqCst};
use std::sync::atomic::{AtomicPtr, AtomicUsize, fence};
use std::thread;
use std::time::Instant;

const WRITE: usize = 1;
const READ: usize = 2;
const DESTROY: usize = 4;

// An index is twice the position. The last position of a lap has no slot, and the head's lowest bit says that there is a
// further block.
const LAP: usize = 32;
const SLOTS: usize = LAP - 1;
const STEP: usize = 2;
const HAS_NEXT: usize = 1;

struct Backoff(u32);

impl Backoff {
    fn spin(&mut self) {
        for _ in 0..1 << self.0.min(6) {
            std::hint::spin_loop();
        }
        self.0 = (self.0 + 1).min(7);
    }

    fn snooze(&mut self) {
        if self.0 <= 6 {
            for _ in 0..1 << self.0 {
                std::hint::spin_loop();
            }
        } else {
            thread::yield_now();
        }
        self.0 = (self.0 + 1).min(11);
    }
}

struct Slot<T> {
    value: UnsafeCell<MaybeUninit<T>>,
    state: AtomicUsize,
}

struct Block<T> {
    next: AtomicPtr<Block<T>>,
    slots: [Slot<T>; SLOTS],
}

impl<T> Block<T> {
    // All zeros is a block with no next one and no slot in use.
    fn new() -> Box<Block<T>> {
        unsafe { Box::<Block<T>>::new_zeroed().assume_init() }
    }

    fn wait_next(&self) -> *mut Block<T> {
        let mut backoff = Backoff(0);
        loop {
            let next = self.next.load(Acquire);
            if !next.is_null() {
                return next;
            }
            backoff.snooze();
        }
    }

    // Frees the block, or leaves that to the reader of the first slot from `start` on that is not read yet.
    unsafe fn free(block: *mut Block<T>, start: usize) {
        unsafe {
            for at in start..SLOTS - 1 {
                let slot = &(*block).slots[at];
                if slot.state.load(Acquire) & READ == 0 && slot.state.fetch_or(DESTROY, AcqRel) & READ == 0 {
                    return;
                }
            }
            drop(Box::from_raw(block));
        }
    }
}

#[repr(align(128))]
struct End<T> {
    index: AtomicUsize,
    block: AtomicPtr<Block<T>>,
}

struct SegQueue<T> {
    head: End<T>,
    tail: End<T>,
}

unsafe impl<T: Send> Sync for SegQueue<T> {}

impl<T> SegQueue<T> {
    fn new() -> SegQueue<T> {
        let first = Box::into_raw(Block::new());
        let end = || End { index: AtomicUsize::new(0), block: AtomicPtr::new(first) };
        SegQueue { head: end(), tail: end() }
    }

    fn push(&self, value: T) {
        let mut backoff = Backoff(0);
        let mut tail = self.tail.index.load(Acquire);
        let mut block = self.tail.block.load(Acquire);
        let mut fresh: Option<Box<Block<T>>> = None;
        loop {
            let offset = tail / STEP % LAP;
            if offset == SLOTS {
                backoff.snooze();
                tail = self.tail.index.load(Acquire);
                block = self.tail.block.load(Acquire);
                continue;
            }
            if offset + 1 == SLOTS && fresh.is_none() {
                fresh = Some(Block::new());
            }
            let next = tail + STEP;
            match self.tail.index.compare_exchange_weak(tail, next, SeqCst, Acquire) {
                Ok(_) => unsafe {
                    if offset + 1 == SLOTS {
                        let fresh = Box::into_raw(fresh.unwrap());
                        self.tail.block.store(fresh, Release);
                        self.tail.index.store(next + STEP, Release);
                        (*block).next.store(fresh, Release);
                    }
                    let slot = (*block).slots.get_unchecked(offset);
                    slot.value.get().write(MaybeUninit::new(value));
                    slot.state.fetch_or(WRITE, Release);
                    return;
                },
                Err(found) => {
                    tail = found;
                    block = self.tail.block.load(Acquire);
                    backoff.spin();
                }
            }
        }
    }

    fn pop(&self) -> Option<T> {
        let mut backoff = Backoff(0);
        let mut head = self.head.index.load(Acquire);
        let mut block = self.head.block.load(Acquire);
        loop {
            let offset = head / STEP % LAP;
            if offset == SLOTS {
                backoff.snooze();
                head = self.head.index.load(Acquire);
                block = self.head.block.load(Acquire);
                continue;
            }
            let mut next = head + STEP;
            if next & HAS_NEXT == 0 {
                fence(SeqCst);
                let tail = self.tail.index.load(Relaxed);
                if head / STEP == tail / STEP {
                    return None;
                }
                if head / STEP / LAP != tail / STEP / LAP {
                    next |= HAS_NEXT;
                }
            }
            match self.head.index.compare_exchange_weak(head, next, SeqCst, Acquire) {
                Ok(_) => unsafe {
                    if offset + 1 == SLOTS {
                        let behind = (*block).wait_next();
                        let mut index = (next & !HAS_NEXT) + STEP;
                        if !(*behind).next.load(Relaxed).is_null() {
                            index |= HAS_NEXT;
                        }
                        self.head.block.store(behind, Release);
                        self.head.index.store(index, Release);
                    }
                    let slot = (*block).slots.get_unchecked(offset);
                    let mut waiting = Backoff(0);
                    while slot.state.load(Acquire) & WRITE == 0 {
                        waiting.snooze();
                    }
                    let value = slot.value.get().read().assume_init();
                    if offset + 1 == SLOTS {
                        Block::free(block, 0);
                    } else if slot.state.fetch_or(READ, AcqRel) & DESTROY != 0 {
                        Block::free(block, offset + 1);
                    }
                    return Some(value);
                },
                Err(found) => {
                    head = found;
                    block = self.head.block.load(Acquire);
                    backoff.spin();
                }
            }
        }
    }
}

impl<T> Drop for SegQueue<T> {
    fn drop(&mut self) {
        while self.pop().is_some() {}
        let last = *self.head.block.get_mut();
        if last != ptr::null_mut() {
            unsafe { drop(Box::from_raw(last)) };
        }
    }
}

type Frame = Box<[u8]>;

const SIZE: usize = 80;
const ROUNDS: u64 = 20_000;
const RUNS: usize = 400;

fn frame(number: u64) -> Frame {
    let mut bytes = [7; SIZE];
    bytes[..8].copy_from_slice(&number.to_be_bytes());
    Box::new(bytes)
}

// One frame goes round and round.
fn round(queue: &SegQueue<Frame>, rounds: u64) -> usize {
    let mut held = frame(0);
    for _ in 0..rounds {
        queue.push(held);
        held = loop {
            if let Some(frame) = queue.pop() {
                break frame;
            }
        };
    }
    held.len()
}

// Each frame is made, and let go once it is taken.
fn made(queue: &SegQueue<Frame>, rounds: u64) -> usize {
    let mut seen = 0;
    for number in 0..rounds {
        queue.push(frame(number));
        if let Some(frame) = queue.pop() {
            seen += frame.len();
        }
    }
    seen
}

fn run(threads: usize, work: fn(&SegQueue<Frame>, u64) -> usize) -> u64 {
    let queue = SegQueue::new();
    let start = Instant::now();
    let seen: usize = thread::scope(|scope| {
        let others: Vec<_> = (1..threads).map(|_| scope.spawn(|| work(&queue, ROUNDS))).collect();
        work(&queue, ROUNDS) + others.into_iter().map(|other| other.join().unwrap()).sum::<usize>()
    });
    assert!(seen >= SIZE);
    start.elapsed().as_nanos() as u64
}

fn main() {
    for threads in [1, 2] {
        let round = (0..RUNS).map(|_| run(threads, round)).min().unwrap();
        let made = (0..RUNS).map(|_| run(threads, made)).min().unwrap();
        println!(
            "plain queue, {threads} threads: {} ps a turn of one frame, {} ps a turn of a new frame",
            round * 1000 / ROUNDS,
            made * 1000 / ROUNDS
        );
    }
}
