//! The proved library for Rust callers: what include/gelwynnar.h declares, safe to call but for `step` and
//! `arbiter_step`.
//!
//! Here is the buffer, in arrays that the caller lends; `sizes` has the sizing rule, `script` the scripts. The header
//! says what each function promises and what the numbers and words are.

mod raw;
pub mod script;
pub mod sizes;

/// The interface that the header describes; `version` tells the one that is linked.
pub const VERSION: u32 = 5;

/// How long the arrays of a buffer are.
pub const REGS: usize = 9;
pub const TAIL_PLACES: usize = 2144;
pub const HEAD_PLACES: usize = 4034;
pub const CELL_PLACES: usize = 2017;
pub const QUEUE_PLACES: usize = 64;

/// The registers, the entries of the caches, and the cells.
pub type Regs = [usize; REGS];
pub type Tail = [u16; TAIL_PLACES];
pub type Head = [u16; HEAD_PLACES];
pub type Cells = [u32; CELL_PLACES];
/// Of each queue the first block of its ring, or how many blocks it has there.
pub type Blocks = [u8; QUEUE_PLACES];
/// A count of each queue.
pub type Counts = [u16; QUEUE_PLACES];

/// The registers, by their place in `regs`.
pub mod reg {
    pub const QUEUES: usize = 0;
    pub const BLOCK: usize = 1;
    pub const DEPTH: usize = 2;
    pub const PHASE: usize = 3;
    pub const TAIL_FILL: usize = 4;
    pub const HEAD_FILL: usize = 5;
    pub const TAIL_MARK: usize = 6;
    pub const HEAD_MARK: usize = 7;
    pub const LAST_ASKED: usize = 8;
}

/// The arrays of one buffer, lent for one call. Each may lie wherever the caller has it.
pub struct Lent<'a> {
    pub regs: &'a mut Regs,
    pub tail: &'a mut Tail,
    pub head: &'a mut Head,
    pub cells: &'a mut Cells,
    pub firsts: &'a mut Blocks,
    pub stored: &'a mut Blocks,
    pub tails: &'a mut Counts,
    pub heads: &'a mut Counts,
    pub owing: &'a mut Counts,
}

/// What a slot answers.
#[repr(C)]
#[derive(Clone, Copy, Debug, Default, PartialEq, Eq)]
pub struct Answer {
    pub number: u8,
    /// 1 where the arrival was dropped (5), 2 where the request was (7), 3 where both were; else 0.
    pub dropped: u8,
    pub delivers: u8,
    pub writes: u8,
    pub reads: u8,
    pub value: u8,
    pub queue: u16,
    pub written: u16,
    pub read: u16,
    /// At a read, in how many slots the cell leaves that the block was for, 1 to L; else 0.
    pub slots_left: u32,
}

impl Answer {
    /// The same as one word, as `run` gives it.
    #[inline]
    pub fn word(&self) -> u64 {
        u64::from(self.value)
            | u64::from(self.queue) << 8
            | u64::from(self.delivers) << 18
            | u64::from(self.written) << 19
            | u64::from(self.writes) << 29
            | u64::from(self.read) << 30
            | u64::from(self.reads) << 40
            | u64::from(self.slots_left) << 41
            | u64::from(self.dropped) << 54
            | u64::from(self.number) << 56
    }
}

/// What is judged of a slot: `number` and `dropped` as in its answer.
#[repr(C)]
#[derive(Clone, Copy, Debug, Default, PartialEq, Eq)]
pub struct Judgement {
    pub number: u8,
    pub dropped: u8,
}

/// What a slot answers in which the round robin arbiter chooses: as any slot, and the queue that it asked.
#[repr(C)]
#[derive(Clone, Copy, Debug, Default, PartialEq, Eq)]
pub struct ArbiterAnswer {
    pub slot: Answer,
    /// 1 where the slot is accepted and asked for `asked`; else both are 0.
    pub asks: u8,
    pub asked: u16,
}

/// What a stretch of idle slots answers: how many were tried, and what the last of them answered.
#[repr(C)]
#[derive(Clone, Copy, Debug, Default, PartialEq, Eq)]
pub struct Stretch {
    pub passed: usize,
    pub last: Answer,
}

/// The interface of the library that is linked.
pub fn version() -> u32 {
    // Safe: a number alone.
    unsafe { raw::gel_version() }
}

// Each call below is safe for the same reason: an array is as long as its type says, which is what the header asks for,
// and a pointer goes with the length of its own slice; none overlap, since each is borrowed by itself; the library
// stays within and keeps none.

/// A fresh buffer, in arrays that may hold anything: 0; or 1, with nothing changed, where the sizes are refused.
#[inline]
pub fn open(queues: usize, block: usize, depth: usize, lent: Lent) -> u8 {
    unsafe { raw::gel_open(queues, block, depth, lent) }
}

/// One slot, whatever the arrays and the store hold: everything is judged.
#[inline]
pub fn slot(lent: Lent, call: u64, store: &mut [u8]) -> Answer {
    unsafe { raw::gel_slot(lent, call, store.as_mut_ptr(), store.len()) }
}

/// The same slot, not judging 3 and 2, which is quicker.
///
/// # Safety
///
/// Only the library has written the arrays since `open` answered 0, or since `slot`, `arbiter_slot`, `run` or `idle` of
/// a slot or more answered neither 3 nor 2; and the store has Q × K × b bytes or more.
#[inline]
pub unsafe fn step(lent: Lent, call: u64, store: &mut [u8]) -> Answer {
    raw::gel_step(lent, call, store.as_mut_ptr(), store.len())
}

/// One slot in which the round robin arbiter chooses, whatever the arrays and the store hold. Of the call's word only
/// the arrival is looked at.
#[inline]
pub fn arbiter_slot(lent: Lent, call: u64, store: &mut [u8]) -> ArbiterAnswer {
    unsafe { raw::gel_arbiter_slot(lent, call, store.as_mut_ptr(), store.len()) }
}

/// The same slot, not judging 3 and 2, which is quicker.
///
/// # Safety
///
/// As for `step`.
#[inline]
pub unsafe fn arbiter_step(lent: Lent, call: u64, store: &mut [u8]) -> ArbiterAnswer {
    raw::gel_arbiter_step(lent, call, store.as_mut_ptr(), store.len())
}

/// Many slots, as many as there are calls and places for their answers, a word for each: 0, or 3 or 2, which then each
/// of them answers.
#[inline]
pub fn run(lent: Lent, calls: &[u64], answers: &mut [u64], store: &mut [u8]) -> u8 {
    let (asked, said) = (calls.as_ptr(), answers.as_mut_ptr());
    unsafe { raw::gel_run(lent, asked, calls.len(), said, answers.len(), store.as_mut_ptr(), store.len()) }
}

/// At most so many idle slots, at the latest up to and with the first that delivers, moves or is refused.
#[inline]
pub fn idle(lent: Lent, slots: usize, store: &mut [u8]) -> Stretch {
    unsafe { raw::gel_idle(lent, slots, store.as_mut_ptr(), store.len()) }
}

/// The number that `slot` would answer with a store of so many bytes, and what it would drop. Nothing changes.
#[inline]
pub fn judge(lent: &Lent, call: u64, store_bytes: usize) -> Judgement {
    let Lent { regs, tail, head, cells, firsts, stored, .. } = lent;
    unsafe { raw::gel_judge(regs, tail, head, cells, firsts, stored, call, store_bytes) }
}

/// The margin of a queue: its head bytes less its Owed cells.
#[inline]
pub fn margin(lent: &Lent, queue: u16) -> i32 {
    unsafe { raw::gel_margin(lent.regs, lent.head, lent.cells, queue) }
}
