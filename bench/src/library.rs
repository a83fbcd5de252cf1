//! The boundary to the proved library: a buffer in lent arrays, and ways to run a whole list of slots from a fresh
//! state, all safe to call.
//!
//! Each way writes an answer for each call, a run as words, which are those of `words`, and leaves the high marks.

use gelwynnar::{reg, Answer, ArbiterAnswer, Blocks, Cells, Counts, Head, Regs, Stretch, Tail};

use crate::words::{is_arbiters, stopped, Request};
use crate::{Lent, Sizes};

/// One checked slot for each call.
pub fn slots(sizes: Sizes, calls: &[u64], lent: &mut Lent) -> bool {
    let Some(mut buffer) = Buffer::open(sizes) else { return false };
    buffer.one_by_one(Buffer::slot, calls, lent);
    true
}

/// The step, which does not judge the store, for each call: it is judged here, once for the list.
pub fn steps(sizes: Sizes, calls: &[u64], lent: &mut Lent) -> bool {
    let Some(mut buffer) = Buffer::open(sizes) else { return false };
    if lent.store.len() < sizes.store() {
        return false;
    }
    // Safe: the store is long enough.
    buffer.one_by_one(|buffer, call, store| unsafe { buffer.step(call, store) }, calls, lent);
    true
}

/// One checked slot for each call, the caller's own or the arbiter's.
pub fn arbiter_slots(sizes: Sizes, calls: &[u64], lent: &mut Lent) -> bool {
    let Some(mut buffer) = Buffer::open(sizes) else { return false };
    buffer.by_turns(Buffer::slot, Buffer::arbiter_slot, calls, lent);
    true
}

/// The same by steps.
pub fn arbiter_steps(sizes: Sizes, calls: &[u64], lent: &mut Lent) -> bool {
    let Some(mut buffer) = Buffer::open(sizes) else { return false };
    if lent.store.len() < sizes.store() {
        return false;
    }
    // Safe: the store is long enough.
    buffer.by_turns(
        |buffer, call, store| unsafe { buffer.step(call, store) },
        |buffer, call, store| unsafe { buffer.arbiter_step(call, store) },
        calls,
        lent,
    );
    true
}

/// All slots in one call.
pub fn run(sizes: Sizes, calls: &[u64], lent: &mut Lent) -> bool {
    run_then_idle(sizes, calls, lent, 0)
}

/// The same, and then so many idle slots by their count, stretch by stretch and with no word for them.
pub fn run_then_idle(sizes: Sizes, calls: &[u64], lent: &mut Lent, idle_slots: usize) -> bool {
    let Some(mut buffer) = Buffer::open(sizes) else { return false };
    let number = buffer.run(calls, &mut lent.answers, &mut lent.store);
    assert!(
        number == 0 || lent.answers.iter().all(|&answer| answer == stopped(number)),
        "{number}, but not all"
    );
    let mut left = idle_slots;
    while left > 0 {
        let stretch = buffer.idle(left, &mut lent.store);
        if stretch.last.number != 0 {
            // Nothing has changed, so that every other would be stopped too.
            break;
        }
        assert!((1..=left).contains(&stretch.passed), "{} of {left} idle slots passed", stretch.passed);
        left -= stretch.passed;
    }
    lent.marks = buffer.marks();
    true
}

/// A buffer, as `gel_buffer` has it. Its arrays are its own, so that only the library writes them.
#[repr(C)]
pub struct Buffer {
    regs: Regs,
    tail: Tail,
    head: Head,
    cells: Cells,
    firsts: Blocks,
    stored: Blocks,
    tails: Counts,
    heads: Counts,
    owing: Counts,
}

impl Buffer {
    /// A fresh buffer, or none where the sizes are refused.
    pub fn open(sizes: Sizes) -> Option<Box<Buffer>> {
        let Sizes { queues, block, depth } = sizes;
        let mut buffer = Box::new(Buffer {
            regs: [0; _],
            tail: [0; _],
            head: [0; _],
            cells: [0; _],
            firsts: [0; _],
            stored: [0; _],
            tails: [0; _],
            heads: [0; _],
            owing: [0; _],
        });
        let number = gelwynnar::open(queues, block, depth, buffer.arrays());
        (number == 0).then_some(buffer)
    }

    /// One slot. Everything is judged.
    pub fn slot(&mut self, call: u64, store: &mut [u8]) -> Answer {
        gelwynnar::slot(self.arrays(), call, store)
    }

    /// The same slot, with a store that is long enough.
    ///
    /// # Safety
    ///
    /// The store has Q × K × b bytes or more.
    pub unsafe fn step(&mut self, call: u64, store: &mut [u8]) -> Answer {
        // Safe then: `open` answered 0, and since then only the library has written the arrays.
        unsafe { gelwynnar::step(self.arrays(), call, store) }
    }

    /// One slot in which the arbiter chooses. Everything is judged.
    pub fn arbiter_slot(&mut self, call: u64, store: &mut [u8]) -> ArbiterAnswer {
        gelwynnar::arbiter_slot(self.arrays(), call, store)
    }

    /// The same slot, with a store that is long enough.
    ///
    /// # Safety
    ///
    /// The store has Q × K × b bytes or more.
    pub unsafe fn arbiter_step(&mut self, call: u64, store: &mut [u8]) -> ArbiterAnswer {
        // Safe then, as `step` is.
        unsafe { gelwynnar::arbiter_step(self.arrays(), call, store) }
    }

    /// Many slots, an answer word for each: 0, or the number that all of them answer.
    pub fn run(&mut self, calls: &[u64], answers: &mut [u64], store: &mut [u8]) -> u8 {
        assert_eq!(calls.len(), answers.len());
        gelwynnar::run(self.arrays(), calls, answers, store)
    }

    /// At most so many idle slots, up to the first that delivers, moves or is stopped.
    pub fn idle(&mut self, slots: usize, store: &mut [u8]) -> Stretch {
        gelwynnar::idle(self.arrays(), slots, store)
    }

    /// The most bytes that the tail and the head cache have held.
    pub fn marks(&self) -> [usize; 2] {
        [self.regs[reg::TAIL_MARK], self.regs[reg::HEAD_MARK]]
    }

    /// The queue that the arbiter asked last.
    pub fn last_asked(&self) -> usize {
        self.regs[reg::LAST_ASKED]
    }

    /// The arrays, lent for one call.
    fn arrays(&mut self) -> gelwynnar::Lent<'_> {
        let Buffer { regs, tail, head, cells, firsts, stored, tails, heads, owing } = self;
        gelwynnar::Lent { regs, tail, head, cells, firsts, stored, tails, heads, owing }
    }

    /// One call of the library for each slot, and the marks that they leave.
    fn one_by_one(
        &mut self,
        slot: impl Fn(&mut Buffer, u64, &mut [u8]) -> Answer,
        calls: &[u64],
        lent: &mut Lent,
    ) {
        assert_eq!(calls.len(), lent.told.len());
        for (&call, told) in calls.iter().zip(&mut lent.told) {
            *told = slot(self, call, &mut lent.store);
        }
        lent.marks = self.marks();
    }

    /// The same with slots of the caller's own and of the arbiter's, the queues that it asks, and the last one asked.
    fn by_turns(
        &mut self,
        slot: impl Fn(&mut Buffer, u64, &mut [u8]) -> Answer,
        arbiter_slot: impl Fn(&mut Buffer, u64, &mut [u8]) -> ArbiterAnswer,
        calls: &[u64],
        lent: &mut Lent,
    ) {
        assert_eq!([calls.len(); 2], [lent.told.len(), lent.asked.len()]);
        for ((&call, told), asked) in calls.iter().zip(&mut lent.told).zip(&mut lent.asked) {
            if is_arbiters(call) {
                let answer = arbiter_slot(self, call, &mut lent.store);
                (*told, *asked) = (answer.slot, request_in(&answer));
            } else {
                (*told, *asked) = (slot(self, call, &mut lent.store), None);
            }
        }
        lent.marks = self.marks();
        lent.last_asked = self.last_asked();
    }
}

/// The queue that the arbiter asked, where it asked one.
#[inline]
pub fn request_in(answer: &ArbiterAnswer) -> Request {
    (answer.asks == 1).then_some(answer.asked)
}
