//! The proved packet buffer beside natural Rust, plain and careful: the same lists of slots through all of them.

pub mod by_value;
pub mod careful;
pub mod library;
pub mod model;
pub mod natural;
pub mod rough;
pub mod traffic;
pub mod words;

use gelwynnar::Answer;
use words::Request;

/// The sizes of the table.
pub const TABLE_SIZES: [Sizes; 3] = [Sizes::new(4, 3, 20), Sizes::new(16, 8, 8), Sizes::new(63, 33, 4)];

/// The most queues that a buffer may have.
pub const MOST_QUEUES: usize = 64;

/// The sizes of a buffer: Q queues, b bytes to a block, K blocks of slow store to a queue.
#[derive(Clone, Copy, Debug)]
pub struct Sizes {
    pub queues: usize,
    pub block: usize,
    pub depth: usize,
}

impl Sizes {
    pub const fn new(queues: usize, block: usize, depth: usize) -> Sizes {
        Sizes { queues, block, depth }
    }

    pub fn accepted(self) -> bool {
        (1..=MOST_QUEUES).contains(&self.queues)
            && (1..=128).contains(&self.block)
            && (1..=255).contains(&self.depth)
            && self.queues * (self.block - 1) <= 2016
    }

    /// Cells of the lookahead.
    pub fn lookahead(self) -> usize {
        self.queues * (self.block - 1) + 1
    }

    /// Bytes that the tail cache holds.
    pub fn tail_cache(self) -> usize {
        self.queues * (self.block - 1) + self.block
    }

    /// Bytes that the head cache holds.
    pub fn head_cache(self) -> usize {
        2 * self.queues * (self.block - 1) + 1
    }

    /// Bytes of slow store that a slot asks for.
    pub fn store(self) -> usize {
        self.queues * self.depth * self.block
    }
}

/// A way to run a list of slots from a fresh state, an answer word for each call; false where it is refused, and then
/// nothing is written.
pub type Run = fn(Sizes, &[u64], &mut Lent) -> bool;

/// The same, and then so many idle slots, with no word for them.
pub type RunThenIdle = fn(Sizes, &[u64], &mut Lent, usize) -> bool;

/// What a run writes to: an answer word for each call, the slow store, and the high marks of the state that it
/// leaves, the tail's first. A way whose answers are structs keeps them as they came, so that what the comparison makes
/// of them is not in its time. Where the arbiter has slots of the list, the queue that it asked in each, and the last
/// one asked of the state.
#[derive(Clone, PartialEq)]
pub struct Lent {
    pub answers: Vec<u64>,
    pub told: Vec<Answer>,
    pub store: Vec<u8>,
    pub marks: [usize; 2],
    pub asked: Vec<Request>,
    pub last_asked: usize,
}

/// No answer has this number, and there is no such queue.
const UNTOLD: u8 = u8::MAX;
const UNASKED: u16 = u16::MAX;

impl Lent {
    /// No answer and no mark looks like these, so that one left out is seen.
    pub fn new(calls: usize, store: Vec<u8>) -> Lent {
        let untold = Answer { number: UNTOLD, ..Answer::default() };
        Lent {
            answers: vec![u64::MAX; calls],
            told: vec![untold; calls],
            store,
            marks: [usize::MAX; 2],
            asked: vec![Some(UNASKED); calls],
            last_asked: usize::MAX,
        }
    }

    /// The answers that were told as structs, as words.
    pub fn take_told(&mut self) {
        for (answer, told) in self.answers.iter_mut().zip(self.told.drain(..)) {
            if told.number != UNTOLD {
                *answer = told.word();
            }
        }
    }
}
