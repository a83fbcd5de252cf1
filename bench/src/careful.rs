//! The slot as one would write it in Rust to be fast, with nothing proved: nothing is shifted, once the state is made
//! nothing is allocated, and all that is searched are the lengths of the tails, once in b slots.
//!
//! The cells are a ring: the one that leaves makes place for the one that joins. Refill orders are a list
//! (request 2.12). What a drop and the kind of a cell depend on is one number of each queue, which most moves do
//! not touch. Refusals 8, 9 and 10 are not judged, since none comes from a fresh state; a debug build asserts it.

mod head;
mod tail;

use crate::model::{Model, Natural};
use crate::words::{self, Arrival, Request};
use crate::{Sizes, MOST_QUEUES};
use head::Head;
use tail::Tail;

/// A place of the lookahead: what comes out when it is the oldest.
#[derive(Clone, Copy)]
enum Cell {
    Empty,
    /// The byte travels in its cell.
    Held(u16, u8),
    /// The byte of this queue at that place of the head.
    Owed(u16, u16),
}

#[derive(Clone, Copy)]
struct Queue {
    /// Bytes that may come before its tail bytes and blocks fill its K blocks.
    room: u16,
    /// Bytes of it in the store and in the head that nobody has asked for.
    unasked: u16,
    /// The blocks of its ring in the slow store that are written and read next.
    write_next: u8,
    read_next: u8,
}

pub static CAREFUL: Natural = Natural::of::<Buffer<false>, Buffer<true>>("careful natural Rust");

/// With `ARBITER` it keeps what the arbiter looks at; a list that is all the caller's does without.
pub struct Buffer<const ARBITER: bool> {
    sizes: Sizes,
    /// Bytes of slow store that a slot asks for.
    store_bytes: usize,
    phase: usize,
    cells: Vec<Cell>,
    oldest: usize,
    queues: [Queue; MOST_QUEUES],
    /// A bit for each queue that has a byte to ask for, so that the arbiter need not search, and the queue that it
    /// asked last.
    askable: u64,
    last_asked: usize,
    tail: Tail,
    head: Head,
}

impl<const ARBITER: bool> Model for Buffer<ARBITER> {
    fn fresh(sizes: Sizes) -> Option<Self> {
        if !sizes.accepted() {
            return None;
        }
        let room = (sizes.depth * sizes.block) as u16;
        let queue = Queue { room, unasked: 0, write_next: 0, read_next: 0 };
        Some(Buffer {
            sizes,
            store_bytes: sizes.store(),
            phase: 0,
            cells: vec![Cell::Empty; sizes.lookahead()],
            oldest: 0,
            queues: [queue; MOST_QUEUES],
            askable: 0,
            last_asked: sizes.queues - 1,
            tail: Tail::new(sizes),
            head: Head::new(sizes),
        })
    }

    #[inline(always)]
    fn try_slot(&mut self, mut arrival: Arrival, mut request: Request, store: &mut [u8]) -> Result<u64, u8> {
        // Everything is judged before anything moves.
        if store.len() < self.store_bytes {
            return Err(2);
        }
        if arrival.is_some_and(|(queue, _)| queue as usize >= self.sizes.queues) {
            return Err(4);
        }
        if request.is_some_and(|queue| queue as usize >= self.sizes.queues) {
            return Err(6);
        }
        // Request 2.5: 5 and 7 drop their half, and the slot goes on without it.
        let mut answer = 0;
        let mut swaps = false;
        if let Some((arriving, _)) = arrival {
            let Queue { room, unasked, .. } = self.queues[arriving as usize];
            if room == 0 {
                // Request 2.1: the byte of the tail that the request takes makes room for the one that arrives.
                swaps = request == Some(arriving) && unasked == 0 && !self.tail.lacks(arriving);
                if !swaps {
                    arrival = None;
                    answer |= words::DROPPED_ARRIVAL;
                }
            }
        }
        let mut request_is_owed = false;
        if let Some(queue) = request {
            request_is_owed = self.queues[queue as usize].unasked > 0;
            let arrives = arrival.is_some_and(|(arriving, _)| arriving == queue);
            if !request_is_owed && !arrives && self.tail.lacks(queue) {
                request = None;
                answer |= words::DROPPED_REQUEST;
            }
        }

        // 1. The oldest cell leaves.
        answer |= match self.cells[self.oldest] {
            Cell::Empty => 0,
            Cell::Held(queue, value) => words::delivered((queue, value)),
            Cell::Owed(queue, place) => words::delivered((queue, self.head.leave(place))),
        };
        // 2. The arriving byte joins the tail, in a swap only after the request: there may be no place for it before.
        self.join(arrival.filter(|_| !swaps));
        // 3. The request takes the youngest cell, which lies where the oldest did.
        self.cells[self.oldest] = match request {
            None => Cell::Empty,
            Some(queue) if request_is_owed => {
                self.queues[queue as usize].unasked -= 1;
                Cell::Owed(queue, self.head.ask(queue, self.oldest))
            }
            Some(queue) => {
                self.queues[queue as usize].room += 1;
                Cell::Held(queue, self.tail.leave(queue))
            }
        };
        if let Some(queue) = request.filter(|_| ARBITER) {
            let none_left = self.queues[queue as usize].unasked == 0 && self.tail.lacks(queue);
            self.askable &= !(u64::from(none_left) << queue);
        }
        self.join(arrival.filter(|_| swaps));
        self.oldest += 1;
        if self.oldest == self.cells.len() {
            self.oldest = 0;
        }
        // 4. In the last phase, a write and then a read.  5. The phase rises by one.
        self.phase += 1;
        if self.phase == self.sizes.block {
            self.phase = 0;
            answer |= self.write(store).map_or(0, words::written);
            answer |= self.read(store).map_or(0, words::read);
        }
        Ok(answer)
    }

    #[inline(always)]
    fn try_arbiter_slot(&mut self, arrival: Arrival, store: &mut [u8]) -> Result<(u64, Request), u8> {
        let request = self.choice(arrival);
        let answer = self.try_slot(arrival, request, store)?;
        if let Some(queue) = request {
            self.last_asked = queue as usize;
        }
        Ok((answer, request))
    }

    fn last_asked(&self) -> usize {
        self.last_asked
    }

    fn marks(&self) -> [usize; 2] {
        [self.tail.mark(), self.head.mark()]
    }
}

impl<const ARBITER: bool> Buffer<ARBITER> {
    /// Request 2.2: the next queue, counting up from the last one asked and wrapping, that has a byte to ask for. The
    /// one that arrives counts, unless its queue is full.
    fn choice(&self, arrival: Arrival) -> Request {
        let mut askable = self.askable;
        if let Some((queue, _)) = arrival {
            if (queue as usize) < self.sizes.queues && self.queues[queue as usize].room > 0 {
                askable |= 1 << queue;
            }
        }
        // In two shifts, since the last one asked may be the last bit.
        let above = askable & (u64::MAX << self.last_asked) << 1;
        let round = if above == 0 { askable } else { above };
        (round != 0).then(|| round.trailing_zeros() as u16)
    }

    /// An arriving byte joins the tail.
    #[inline(always)]
    fn join(&mut self, arrival: Arrival) {
        if let Some((queue, value)) = arrival {
            self.queues[queue as usize].room -= 1;
            if ARBITER {
                self.askable |= 1 << queue;
            }
            self.tail.join(queue, value);
        }
    }

    /// The fullest queue sends a block to its ring.
    #[inline(always)]
    fn write(&mut self, store: &mut [u8]) -> Option<u16> {
        let Sizes { block, depth, .. } = self.sizes;
        let number = self.tail.fullest(block)?;
        let queue = &mut self.queues[number as usize];
        let at = (number as usize * depth + queue.write_next as usize) * block;
        self.tail.leave_block(number, &mut store[at..at + block]);
        queue.unasked += block as u16;
        queue.write_next = next_block(queue.write_next, depth);
        Some(number)
    }

    /// The oldest order is served: the first block of its queue's ring goes to the head. The queue, and in how many
    /// slots the cell leaves that gave the order (request 2.6).
    #[inline(always)]
    fn read(&mut self, store: &[u8]) -> Option<(u16, usize)> {
        let Sizes { block, depth, .. } = self.sizes;
        let order = self.head.next_order()?;
        let queue = &mut self.queues[order.queue as usize];
        let at = (order.queue as usize * depth + queue.read_next as usize) * block;
        self.head.join_block(order, &store[at..at + block]);
        queue.room += block as u16;
        queue.read_next = next_block(queue.read_next, depth);
        let cell = order.cell as usize;
        let round = if cell < self.oldest { self.cells.len() } else { 0 };
        Some((order.queue, round + cell - self.oldest + 1))
    }
}

/// The block after this one in a ring of `depth` blocks.
fn next_block(number: u8, depth: usize) -> u8 {
    if number as usize + 1 == depth {
        0
    } else {
        number + 1
    }
}
