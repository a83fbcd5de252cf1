//! The proved library's sizing rule and memories, none where it refuses them.

use gelwynnar::sizes::{block_size, memory_sizes, Memories};

/// The bytes of a block at a rate in Gb/s and a memory grade.
pub fn block(rate: usize, grade: usize) -> Option<usize> {
    Some(block_size(rate, grade)).filter(|&bytes| bytes != 0)
}

/// What Q queues, blocks of b bytes and K blocks to a queue need.
pub fn memories(queues: usize, block: usize, depth: usize) -> Option<Memories> {
    Some(memory_sizes(queues, block, depth)).filter(|memories| memories.lookahead != 0)
}
