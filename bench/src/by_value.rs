//! One way more: the slot of crates/buffer, which takes its state by value and hands it back, for each call. It has a
//! library of its own, for this benchmark alone.

use crate::{Lent, Sizes};

/// What a list answers: 0 with its high marks, or why it was not run.
#[repr(C)]
struct Driven {
    number: u8,
    tail_mark: usize,
    head_mark: usize,
}

extern "C" {
    fn by_value_slots(
        queues: usize,
        block: usize,
        depth: usize,
        calls: *const u64,
        calls_len: usize,
        answers: *mut u64,
        answers_len: usize,
        store: *mut u8,
        store_len: usize,
    ) -> Driven;
}

/// One checked slot by value for each call, from a fresh state; false where the sizes are refused.
pub fn slots(sizes: Sizes, calls: &[u64], lent: &mut Lent) -> bool {
    assert_eq!(calls.len(), lent.answers.len());
    let Sizes { queues, block, depth } = sizes;
    // Safe: each pointer goes with the length of its own slice; the library stays within and keeps none.
    let driven = unsafe {
        by_value_slots(
            queues,
            block,
            depth,
            calls.as_ptr(),
            calls.len(),
            lent.answers.as_mut_ptr(),
            lent.answers.len(),
            lent.store.as_mut_ptr(),
            lent.store.len(),
        )
    };
    if driven.number != 0 {
        return false;
    }
    lent.marks = [driven.tail_mark, driven.head_mark];
    true
}
