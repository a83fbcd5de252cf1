//! The tail cache: a ring of bytes for each queue, all in one array.

use crate::{Sizes, MOST_QUEUES};

pub struct Tail {
    bytes: Vec<u8>,
    /// Places of each ring, a power of two, so that to go round is to mask.
    ring: usize,
    /// Where the oldest byte of each queue lies in its ring.
    starts: [u16; MOST_QUEUES],
    /// The length of each queue as a number that is the greatest for the fullest: `BYTE` for each byte, and less than
    /// that on top, the more the lower the queue's number is.
    ranks: [u32; MOST_QUEUES],
    queues: usize,
    /// Bytes of all queues, the most that there were, and the most that there may be.
    fill: usize,
    mark: usize,
    cache: usize,
}

const BYTE: u32 = MOST_QUEUES as u32;

impl Tail {
    pub fn new(sizes: Sizes) -> Tail {
        // No queue has more than the whole cache, nor more than its K blocks.
        let ring = sizes.tail_cache().min(sizes.depth * sizes.block).next_power_of_two();
        Tail {
            bytes: vec![0; sizes.queues * ring],
            ring,
            starts: [0; MOST_QUEUES],
            ranks: std::array::from_fn(|queue| BYTE - 1 - queue as u32),
            queues: sizes.queues,
            fill: 0,
            mark: 0,
            cache: sizes.tail_cache(),
        }
    }

    pub fn mark(&self) -> usize {
        self.mark
    }

    /// Whether there is no byte of this queue.
    pub fn lacks(&self, queue: u16) -> bool {
        self.ranks[queue as usize] < BYTE
    }

    /// A byte joins its queue.
    pub fn join(&mut self, queue: u16, value: u8) {
        debug_assert!(self.fill < self.cache, "refusal 9");
        let queue = queue as usize;
        let length = self.ranks[queue] / BYTE;
        let at = (self.starts[queue] as usize + length as usize) & (self.ring - 1);
        self.bytes[queue * self.ring + at] = value;
        self.ranks[queue] += BYTE;
        self.fill += 1;
        self.mark = self.mark.max(self.fill);
    }

    /// The oldest byte of a queue leaves.
    pub fn leave(&mut self, queue: u16) -> u8 {
        let value = self.bytes[queue as usize * self.ring + self.starts[queue as usize] as usize];
        self.pass(queue, 1);
        value
    }

    /// As many of its oldest bytes as fill a block leave for it.
    #[inline]
    pub fn leave_block(&mut self, queue: u16, block: &mut [u8]) {
        let ring = &self.bytes[queue as usize * self.ring..][..self.ring];
        let start = self.starts[queue as usize] as usize;
        if start + block.len() <= self.ring {
            block.copy_from_slice(&ring[start..start + block.len()]);
        } else {
            let (front, back) = block.split_at_mut(self.ring - start);
            front.copy_from_slice(&ring[start..]);
            back.copy_from_slice(&ring[..back.len()]);
        }
        self.pass(queue, block.len());
    }

    /// The oldest bytes of a queue are no longer there.
    fn pass(&mut self, queue: u16, bytes: usize) {
        let start = &mut self.starts[queue as usize];
        *start = ((*start as usize + bytes) & (self.ring - 1)) as u16;
        self.ranks[queue as usize] -= BYTE * bytes as u32;
        self.fill -= bytes;
    }

    /// The queue with most bytes, a block of them or more, and the lowest number on a tie.
    pub fn fullest(&self, block: usize) -> Option<u16> {
        if self.fill < block {
            return None;
        }
        let most = self.ranks[..self.queues].iter().fold(0, |most, &rank| most.max(rank));
        (most / BYTE >= block as u32).then_some((BYTE - 1 - most % BYTE) as u16)
    }
}
