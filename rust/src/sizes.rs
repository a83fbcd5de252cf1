//! The memories that sizes need, and the rule that finds a block's size.

use crate::raw;

/// What a line card needs: the lookahead in cells, the memories in bytes.
#[repr(C)]
#[derive(Clone, Copy, Debug, Default, PartialEq, Eq)]
pub struct Memories {
    pub lookahead: usize,
    pub tail: usize,
    pub head: usize,
    pub store: usize,
}

/// The memories of Q queues, b bytes to a block and K blocks to a queue; all are 0 where these sizes are refused.
pub fn memory_sizes(queues: usize, block: usize, depth: usize) -> Memories {
    // Safe: numbers alone. So below.
    unsafe { raw::gel_memory_sizes(queues, block, depth) }
}

/// The bytes of a block at a rate of 1 to 100 Gb/s and a memory grade of 0 to 15, whose cycle takes 5 × (grade + 1) ns:
/// rate × cycle / 4, rounded up. 0 where the rule refuses them (11): a number outside its range, or a block over 128
/// bytes.
pub fn block_size(rate: usize, grade: usize) -> usize {
    unsafe { raw::gel_block_size(rate, grade) }
}
