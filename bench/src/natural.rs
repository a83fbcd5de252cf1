//! The slot as one would first write it in Rust, with nothing proved: a `VecDeque` for each queue's tail and
//! head, another for the lookahead, and counts kept up to date. `careful` is the one written to be fast.

use std::collections::VecDeque;

use crate::model::{Model, Natural};
use crate::words::{self, Arrival, Request};
use crate::{Sizes, MOST_QUEUES};

/// A place of the lookahead: what comes out when it is the oldest.
#[derive(Clone, Copy)]
enum Cell {
    Empty,
    /// The byte travels in its cell.
    Held(u16, u8),
    /// The oldest head byte of this queue.
    Owed(u16),
}

#[derive(Clone, Default)]
struct Queue {
    tail: VecDeque<u8>,
    head: VecDeque<u8>,
    /// Owed cells of this queue in the lookahead.
    owed: usize,
    /// The first block of its ring in the slow store, and how many are in use.
    first: usize,
    blocks: usize,
}

pub static PLAIN: Natural = Natural::of::<Buffer, Buffer>("plain natural Rust");

pub struct Buffer {
    sizes: Sizes,
    phase: usize,
    cells: VecDeque<Cell>,
    queues: Vec<Queue>,
    /// Bytes in the tail and in the head cache, over all queues.
    tail_bytes: usize,
    head_bytes: usize,
    /// The most bytes that each cache has held: the tail as an arrival joins it, the head as a block is read.
    tail_mark: usize,
    head_mark: usize,
    /// The queue that the arbiter asked last.
    last_asked: usize,
}

impl Model for Buffer {
    fn fresh(sizes: Sizes) -> Option<Buffer> {
        sizes.accepted().then(|| Buffer {
            sizes,
            phase: 0,
            cells: vec![Cell::Empty; sizes.lookahead()].into(),
            queues: vec![Queue::default(); sizes.queues],
            tail_bytes: 0,
            head_bytes: 0,
            tail_mark: 0,
            head_mark: 0,
            last_asked: sizes.queues - 1,
        })
    }

    #[inline(always)]
    fn try_slot(&mut self, mut arrival: Arrival, mut request: Request, store: &mut [u8]) -> Result<u64, u8> {
        let Sizes { queues, block, .. } = self.sizes;

        // Everything is judged before anything moves.
        if store.len() < self.sizes.store() {
            return Err(2);
        }
        if arrival.is_some_and(|(queue, _)| queue as usize >= queues) {
            return Err(4);
        }
        if request.is_some_and(|queue| queue as usize >= queues) {
            return Err(6);
        }
        // Request 2.5: 5 and 7 drop their half, and the slot goes on without it.
        let mut dropped = 0;
        let mut swaps = false;
        if let Some((queue, _)) = arrival {
            if self.queues[queue as usize].is_full(self.sizes) {
                swaps = self.swaps(arrival, request);
                if !swaps {
                    arrival = None;
                    dropped |= words::DROPPED_ARRIVAL;
                }
            }
        }
        let mut request_is_owed = false;
        if let Some(asked) = request {
            let queue = &self.queues[asked as usize];
            request_is_owed = queue.has_unasked(block);
            let arrives = arrival.is_some_and(|(queue, _)| queue == asked);
            if !request_is_owed && queue.tail.is_empty() && !arrives {
                request = None;
                dropped |= words::DROPPED_REQUEST;
            }
        }
        let mut head_bytes = self.head_bytes;
        if let Some(&Cell::Owed(queue)) = self.cells.front() {
            if self.queues[queue as usize].head.is_empty() {
                return Err(8);
            }
            head_bytes -= 1;
        }
        // In a swap the request has taken a byte out of the tail by then.
        if arrival.is_some() && self.tail_bytes - usize::from(swaps) >= self.sizes.tail_cache() {
            return Err(9);
        }
        let moves = self.phase + 1 == block;
        let mut read = None;
        if moves {
            read = self.uncovered(request.filter(|_| request_is_owed));
            if read.is_some() && head_bytes + block > self.sizes.head_cache() {
                return Err(10);
            }
        }

        // 1. The oldest cell leaves.
        let delivery = match self.cells.pop_front() {
            None | Some(Cell::Empty) => None,
            Some(Cell::Held(queue, value)) => Some((queue, value)),
            Some(Cell::Owed(queue)) => {
                let from = &mut self.queues[queue as usize];
                from.owed -= 1;
                self.head_bytes -= 1;
                from.head.pop_front().map(|value| (queue, value))
            }
        };
        // 2. The arriving byte joins the tail, in a swap only after the request.
        if !swaps {
            self.join(arrival);
        }
        // 3. The request takes the youngest cell.
        let youngest = match request {
            None => Cell::Empty,
            Some(queue) if request_is_owed => {
                self.queues[queue as usize].owed += 1;
                Cell::Owed(queue)
            }
            Some(queue) => {
                self.tail_bytes -= 1;
                let value = self.queues[queue as usize].tail.pop_front();
                Cell::Held(queue, value.expect("7 was judged"))
            }
        };
        self.cells.push_back(youngest);
        if swaps {
            self.join(arrival);
        }
        // 4. In the last phase, a write and then a read.  5. The phase rises by one.
        let mut written = None;
        if moves {
            written = self.fullest();
            if let Some(queue) = written {
                self.write(queue, store);
            }
            if let Some((queue, _)) = read {
                self.read(queue, store);
            }
            self.phase = 0;
        } else {
            self.phase += 1;
        }
        Ok(dropped
            | delivery.map_or(0, words::delivered)
            | written.map_or(0, words::written)
            | read.map_or(0, words::read))
    }

    #[inline(always)]
    fn try_arbiter_slot(&mut self, arrival: Arrival, store: &mut [u8]) -> Result<(u64, Request), u8> {
        let request = self.choice(arrival);
        let answer = self.try_slot(arrival, request, store)?;
        if let Some(queue) = request {
            self.last_asked = queue as usize;
        }
        Ok((answer, request))
    }

    fn last_asked(&self) -> usize {
        self.last_asked
    }

    fn marks(&self) -> [usize; 2] {
        [self.tail_mark, self.head_mark]
    }
}

impl Queue {
    /// Whether its tail bytes and blocks fill its K blocks.
    fn is_full(&self, Sizes { block, depth, .. }: Sizes) -> bool {
        self.tail.len() + block * self.blocks == depth * block
    }

    /// Whether a byte in the head or in the slow store is left to ask for, so that a request would be Owed.
    fn has_unasked(&self, block: usize) -> bool {
        self.head.len() + block * self.blocks > self.owed
    }
}

impl Buffer {
    /// Request 2.1: whether the slot reads and refills one full queue, by a request that is Held, for which the
    /// tail has a byte already. Then the request comes before the arrival.
    pub fn swaps(&self, arrival: Arrival, request: Request) -> bool {
        let Some((arriving, _)) = arrival else { return false };
        let Some(queue) = self.queues.get(arriving as usize) else { return false };
        queue.is_full(self.sizes)
            && request == Some(arriving)
            && !queue.has_unasked(self.sizes.block)
            && !queue.tail.is_empty()
    }

    /// Request 2.2: the next queue, counting up from the last one asked and wrapping, that has an unrequested byte.
    /// The one that arrives counts, unless its queue is full.
    pub fn choice(&self, arrival: Arrival) -> Request {
        let arriving = arrival.map(|(queue, _)| queue as usize).filter(|&number| {
            let queue = self.queues.get(number);
            queue.is_some_and(|queue| !queue.is_full(self.sizes))
        });
        let next = self.last_asked + 1;
        let mut round = (next..self.queues.len()).chain(0..next);
        let asked = round.find(|&number| {
            let queue = &self.queues[number];
            queue.has_unasked(self.sizes.block) || !queue.tail.is_empty() || arriving == Some(number)
        });
        asked.map(|number| number as u16)
    }

    /// An arriving byte joins the tail.
    #[inline(always)]
    fn join(&mut self, arrival: Arrival) {
        if let Some((queue, value)) = arrival {
            self.queues[queue as usize].tail.push_back(value);
            self.tail_bytes += 1;
            self.tail_mark = self.tail_mark.max(self.tail_bytes);
        }
    }

    /// The queue of the first Owed cell that its queue's head bytes do not cover, and in how many slots that cell
    /// leaves (request 2.6). `joining` is the queue of an Owed cell about to join. The cell about to leave is scanned
    /// with the rest, as place 0: it is covered, and uses up the head byte that it delivers.
    #[inline(always)]
    fn uncovered(&self, joining: Option<u16>) -> Option<(u16, usize)> {
        let mut left = [0; MOST_QUEUES];
        for (left, queue) in left.iter_mut().zip(&self.queues) {
            *left = queue.head.len();
        }
        let joining = joining.map(Cell::Owed);
        self.cells.iter().chain(&joining).enumerate().find_map(|(place, cell)| match *cell {
            Cell::Owed(queue) if left[queue as usize] == 0 => Some((queue, place)),
            Cell::Owed(queue) => {
                left[queue as usize] -= 1;
                None
            }
            _ => None,
        })
    }

    /// The queue with most tail bytes, a block of them or more, and the lowest number on a tie.
    fn fullest(&self) -> Option<u16> {
        let mut most = self.sizes.block - 1;
        let mut fullest = None;
        for (number, queue) in self.queues.iter().enumerate() {
            if queue.tail.len() > most {
                most = queue.tail.len();
                fullest = Some(number as u16);
            }
        }
        fullest
    }

    /// The oldest tail bytes of a queue go to the next block of its ring.
    #[inline(always)]
    fn write(&mut self, number: u16, store: &mut [u8]) {
        let Sizes { block, depth, .. } = self.sizes;
        let queue = &mut self.queues[number as usize];
        let at = (number as usize * depth + (queue.first + queue.blocks) % depth) * block;
        for (place, value) in store[at..at + block].iter_mut().zip(queue.tail.drain(..block)) {
            *place = value;
        }
        queue.blocks += 1;
        self.tail_bytes -= block;
    }

    /// The first block of a queue's ring goes to the head.
    #[inline(always)]
    fn read(&mut self, number: u16, store: &[u8]) {
        let Sizes { block, depth, .. } = self.sizes;
        let queue = &mut self.queues[number as usize];
        let at = (number as usize * depth + queue.first) * block;
        queue.head.extend(&store[at..at + block]);
        queue.first = (queue.first + 1) % depth;
        queue.blocks -= 1;
        self.head_bytes += block;
        self.head_mark = self.head_mark.max(self.head_bytes);
    }
}
