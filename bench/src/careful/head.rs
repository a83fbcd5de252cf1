//! The head cache and the refill orders. An order sets a block aside for what it brings, so that an Owed cell knows
//! from the start where its byte will lie, and no queue has a list of head bytes.
//!
//! A block is ordered as its first byte is asked for. From a fresh state the orders, first come, first served, are
//! what the scan from the oldest cell finds: each stands for an Owed cell that its queue's head bytes do not cover,
//! in the order of the cells.

use std::collections::VecDeque;

use crate::{Sizes, MOST_QUEUES};

#[derive(Clone, Copy)]
pub struct Order {
    pub queue: u16,
    /// The place in the lookahead of the cell that gave it, which has the first byte of its block.
    pub cell: u16,
    /// Where its block begins.
    at: u16,
}

/// Of the block that a queue ordered last: the next byte to ask for, and how many there are to ask for.
#[derive(Clone, Copy, Default)]
struct Ordered {
    at: u16,
    unasked: u16,
}

pub struct Head {
    bytes: Vec<u8>,
    /// Bytes of a block, and places from one block to the next, a power of two, so that to find the block of a place
    /// is to mask.
    block: usize,
    stride: usize,
    /// Where the blocks begin that no order has; after the first `free_blocks` what is here does not count.
    free: Vec<u16>,
    free_blocks: usize,
    orders: VecDeque<Order>,
    queues: [Ordered; MOST_QUEUES],
    /// Bytes of all queues, the most that there were, and the most that there may be.
    fill: usize,
    mark: usize,
    cache: usize,
}

impl Head {
    pub fn new(sizes: Sizes) -> Head {
        let Sizes { queues, block, .. } = sizes;
        let stride = block.next_power_of_two();
        // Of a queue's blocks only the first has bytes that left, and only the last has bytes that nobody asked for.
        // All other bytes are those of Q(b - 1) + 1 cells or fewer, so that there are at most 3Q blocks.
        let blocks = 3 * queues;
        Head {
            bytes: vec![0; blocks * stride],
            block,
            stride,
            free: (0..blocks).map(|number| (number * stride) as u16).collect(),
            free_blocks: blocks,
            orders: VecDeque::with_capacity(queues),
            queues: [Ordered::default(); MOST_QUEUES],
            fill: 0,
            mark: 0,
            cache: sizes.head_cache(),
        }
    }

    pub fn mark(&self) -> usize {
        self.mark
    }

    /// The next byte of a queue is asked for, by a cell at this place: where it will lie. With the first of a block
    /// goes the order for it.
    #[inline]
    pub fn ask(&mut self, number: u16, cell: usize) -> u16 {
        let queue = &mut self.queues[number as usize];
        if queue.unasked == 0 {
            self.free_blocks -= 1;
            let at = self.free[self.free_blocks];
            self.orders.push_back(Order { queue: number, cell: cell as u16, at });
            *queue = Ordered { at, unasked: self.block as u16 };
        }
        let at = queue.at;
        queue.at += 1;
        queue.unasked -= 1;
        at
    }

    /// The order that came first.
    pub fn next_order(&mut self) -> Option<Order> {
        self.orders.pop_front()
    }

    /// The block of an order joins.
    pub fn join_block(&mut self, order: Order, block: &[u8]) {
        debug_assert!(self.fill + self.block <= self.cache, "refusal 10");
        self.bytes[order.at as usize..][..self.block].copy_from_slice(block);
        self.fill += self.block;
        self.mark = self.mark.max(self.fill);
    }

    /// The byte at this place leaves. With the last of a block the block is free, which is noted without a branch,
    /// since none could be foreseen.
    pub fn leave(&mut self, at: u16) -> u8 {
        let place = at as usize & (self.stride - 1);
        let block = at - place as u16;
        debug_assert!(self.orders.iter().all(|order| order.at != block), "refusal 8");
        self.free[self.free_blocks] = block;
        self.free_blocks += (place + 1 == self.block) as usize;
        self.fill -= 1;
        self.bytes[at as usize]
    }
}
