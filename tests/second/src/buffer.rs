//! The slot model. Each queue has its own rows of tail and head bytes; a
//! sequence number on every byte remembers the order of the whole cache.

use std::collections::VecDeque;

use crate::raw::RawState;
use crate::rules::{broken_rules, Cell, Fields, Ring};
use crate::sizes::Sizes;

/// What a slot hands back. Request 2.5: "5 and 7 refuse their half of the slot only. The slot runs without that half,
/// and each half has its own answer, so both numbers may come together."
#[derive(Clone, Copy, Debug, PartialEq, Eq)]
pub struct Answer {
    /// 0 where the slot is accepted, with a dropped half or without; else what stops it.
    pub number: u8,
    /// 5 where the arrival is dropped.
    pub arrival_number: u8,
    /// 7 where the request is dropped.
    pub request_number: u8,
    pub delivered: Option<(usize, u8)>,
    pub written: Option<usize>,
    pub read: Option<usize>,
    /// Request 2.6: "in how many slots the uncovered cell leaves, counted after the slot's own delivery, so 1 to L",
    /// "and 0 where nothing is read".
    pub slots_left: usize,
}

/// The number of a slot, of its arrival and of its request.
pub type Numbers = [u8; 3];

impl Answer {
    /// "Every other refusal still stops the slot and is then its only answer."
    pub fn stopped(number: u8) -> Answer {
        Answer {
            number,
            arrival_number: 0,
            request_number: 0,
            delivered: None,
            written: None,
            read: None,
            slots_left: 0,
        }
    }

    pub fn numbers(&self) -> Numbers {
        [self.number, self.arrival_number, self.request_number]
    }
}

/// The halves of a call that 5 and 7 leave, and the numbers of those that they drop.
struct Halves {
    arrival: Option<(usize, u8)>,
    arrival_number: u8,
    request: Option<usize>,
    request_number: u8,
}

/// What a slot meets that reads and refills one full queue (request 2.1).
#[derive(Clone, Copy, Debug, PartialEq, Eq, PartialOrd, Ord)]
pub enum Refill {
    /// The request is taken before the arrival, for which there is room then.
    Swap,
    /// The request would be Owed and take no byte out of the tail.
    Owed,
    /// The request would be Held, and the tail has no byte of the queue yet.
    NoTailByte,
}

#[derive(Clone, Copy)]
struct Entry {
    sequence: u64,
    byte: u8,
}

/// The bytes of one cache, one row for each queue, each row oldest first.
type Rows = Vec<VecDeque<Entry>>;

#[derive(Clone)]
pub struct Buffer {
    pub(crate) sizes: Sizes,
    phase: usize,
    tail: Rows,
    head: Rows,
    cells: VecDeque<Cell>,
    rings: Vec<Ring>,
    tail_mark: usize,
    head_mark: usize,
    /// The queue that the arbiter asked for last (request 2.2).
    pub(crate) last_asked: usize,
    next_sequence: u64,
}

impl Buffer {
    /// The making of a state: checks the sizes only.
    pub fn fresh(sizes: Sizes, cell_count: usize) -> Result<Buffer, u8> {
        if !sizes.accepted() {
            return Err(1);
        }
        Ok(Buffer {
            sizes,
            phase: 0,
            tail: vec![VecDeque::new(); sizes.q],
            head: vec![VecDeque::new(); sizes.q],
            cells: VecDeque::from(vec![Cell::Empty; cell_count]),
            rings: vec![Ring { first: 0, count: 0 }; sizes.q],
            tail_mark: 0,
            head_mark: 0,
            last_asked: sizes.q - 1,
            next_sequence: 0,
        })
    }

    /// Sorts a state that keeps the rules into its queues.
    pub fn from_raw(raw: &RawState) -> Buffer {
        let mut next_sequence = 0;
        let mut rows_of = |bytes: &[(usize, u8)]| -> Rows {
            let mut rows = vec![VecDeque::new(); raw.sizes.q];
            for &(queue, byte) in bytes {
                rows[queue].push_back(Entry { sequence: next_sequence, byte });
                next_sequence += 1;
            }
            rows
        };
        let tail = rows_of(&raw.tail);
        let head = rows_of(&raw.head);
        Buffer {
            sizes: raw.sizes,
            phase: raw.phase,
            tail,
            head,
            cells: raw.cells.iter().copied().collect(),
            rings: raw.rings.clone(),
            tail_mark: raw.tail_mark,
            head_mark: raw.head_mark,
            last_asked: raw.last_asked,
            next_sequence,
        }
    }

    pub fn to_raw(&self) -> RawState {
        RawState {
            sizes: self.sizes,
            phase: self.phase,
            tail: oldest_first(&self.tail),
            head: oldest_first(&self.head),
            cells: self.cells.iter().copied().collect(),
            rings: self.rings.clone(),
            tail_mark: self.tail_mark,
            head_mark: self.head_mark,
            last_asked: self.last_asked,
        }
    }

    /// One slot, in which the caller asks. Stopped: neither the state nor the store has changed.
    pub fn slot(
        &mut self,
        expected_cells: usize,
        arrival: Option<(usize, u8)>,
        request: Option<usize>,
        store: &mut [u8],
    ) -> Answer {
        if let Some(number) = self.stop_by_call(expected_cells, arrival, request, store.len()) {
            return Answer::stopped(number);
        }
        let swaps = self.swaps(arrival, request);
        let halves = self.halves_left(arrival, request);
        if let Some(number) = self.stop_by_halves(&halves, swaps) {
            return Answer::stopped(number);
        }

        // The steps work on a copy, so that refusal 10 has nothing to undo.
        let mut next = self.clone();
        let delivered = next.deliver_oldest_cell();
        if swaps {
            next.take_youngest_cell(halves.request);
            next.join_tail(halves.arrival);
        } else {
            next.join_tail(halves.arrival);
            next.take_youngest_cell(halves.request);
        }
        let mut written = None;
        let mut uncovered = None;
        if next.phase == next.sizes.b - 1 {
            let block = next.take_block_to_write();
            uncovered = next.first_uncovered();
            if uncovered.is_some() && fill(&next.head) + next.sizes.b > next.sizes.head_size() {
                return Answer::stopped(10);
            }
            // Past the last refusal: from here on the store may change.
            if let Some(block) = block {
                store[block.start..block.start + block.bytes.len()].copy_from_slice(&block.bytes);
                written = Some(block.queue);
            }
            if let Some((queue, _)) = uncovered {
                next.read_first_block(queue, store);
            }
        }
        // The head is looked at just after the read, so the byte that left in step 1 no longer counts. Without
        // a read the head has not grown, and nothing rises.
        next.head_mark = next.head_mark.max(fill(&next.head));
        next.phase = (next.phase + 1) % next.sizes.b;
        *self = next;
        let Halves { arrival_number, request_number, .. } = halves;
        let read = uncovered.map(|(queue, _)| queue);
        let slots_left = uncovered.map_or(0, |(_, slots_left)| slots_left);
        Answer { number: 0, arrival_number, request_number, delivered, written, read, slots_left }
    }

    /// Request 2.1: "Where the arrival's queue is full, the request is for that queue, the request would be Held, and
    /// the tail already has a byte of it, take the request before the arrival." Judged on the call as it came and the
    /// state as handed in. Such a slot has no dropped half: its arrival is taken, and its request finds a byte.
    pub fn swaps(&self, arrival: Option<(usize, u8)>, request: Option<usize>) -> bool {
        self.refill(arrival, request) == Some(Refill::Swap)
    }

    /// None where the slot does not have an arrival and a request of one queue, or that queue is not full.
    pub fn refill(&self, arrival: Option<(usize, u8)>, request: Option<usize>) -> Option<Refill> {
        let (queue, _) = arrival?;
        if request != Some(queue) || queue >= self.sizes.q || !self.is_full(queue) {
            return None;
        }
        if self.would_be_owed(queue) {
            return Some(Refill::Owed);
        }
        if self.tail[queue].is_empty() {
            return Some(Refill::NoTailByte);
        }
        Some(Refill::Swap)
    }

    /// Whether no byte of this queue may arrive: its tail bytes and blocks fill its K blocks.
    pub(crate) fn is_full(&self, queue: usize) -> bool {
        let sizes = self.sizes;
        self.tail[queue].len() + sizes.b * self.rings[queue].count == sizes.k * sizes.b
    }

    /// The free store of a queue: K x b less its tail bytes and b x blocks.
    pub fn room(&self, queue: usize) -> usize {
        let sizes = self.sizes;
        sizes.k * sizes.b - sizes.b * self.rings[queue].count - self.tail[queue].len()
    }

    pub fn tail_is_full(&self) -> bool {
        fill(&self.tail) == self.sizes.tail_size()
    }

    /// Refusals 3 and 2, the same for every call.
    pub(crate) fn refusal_of_state(&self, expected_cells: usize, store_length: usize) -> Option<u8> {
        if !self.keeps_rules(expected_cells) {
            return Some(3);
        }
        if store_length < self.sizes.store_size() {
            return Some(2);
        }
        None
    }

    /// Refusals 3, 2, 4 and 6: they look at the call as it came.
    fn stop_by_call(
        &self,
        expected_cells: usize,
        arrival: Option<(usize, u8)>,
        request: Option<usize>,
        store_length: usize,
    ) -> Option<u8> {
        let of_state = self.refusal_of_state(expected_cells, store_length);
        if of_state.is_some() {
            return of_state;
        }
        if arrival.is_some_and(|(queue, _)| queue >= self.sizes.q) {
            return Some(4);
        }
        if request.is_some_and(|queue| queue >= self.sizes.q) {
            return Some(6);
        }
        None
    }

    /// Refusals 5 and 7, each of its half. "A dropped half is absent for every later test, so 7 is judged without a
    /// dropped arrival."
    fn halves_left(&self, arrival: Option<(usize, u8)>, request: Option<usize>) -> Halves {
        let finds_no_room = |&(queue, _): &(usize, u8)| self.is_full(queue) && !self.swaps(arrival, request);
        let arrival_dropped = arrival.as_ref().is_some_and(finds_no_room);
        let arrival = arrival.filter(|_| !arrival_dropped);

        let arrives_now = |queue: usize| matches!(arrival, Some((arriving, _)) if arriving == queue);
        let finds_no_byte =
            |queue: usize| !self.would_be_owed(queue) && self.tail[queue].is_empty() && !arrives_now(queue);
        let request_dropped = request.is_some_and(finds_no_byte);
        Halves {
            arrival,
            arrival_number: if arrival_dropped { 5 } else { 0 },
            request: request.filter(|_| !request_dropped),
            request_number: if request_dropped { 7 } else { 0 },
        }
    }

    /// Refusals 8 and 9, on the state as handed in and what is left of the call.
    fn stop_by_halves(&self, halves: &Halves, swaps: bool) -> Option<u8> {
        if let Some(&Cell::Owed(queue)) = self.cells.front() {
            if self.head[queue].is_empty() {
                return Some(8);
            }
        }
        // In a swap "9 looks at the tail after the request", which took a byte out of it.
        if halves.arrival.is_some() && fill(&self.tail) - usize::from(swaps) == self.sizes.tail_size() {
            return Some(9);
        }
        None
    }

    fn keeps_rules(&self, expected_cells: usize) -> bool {
        let queues_of = |rows: &Rows| -> Vec<usize> {
            let row_queues = rows.iter().enumerate();
            row_queues.flat_map(|(queue, row)| row.iter().map(move |_| queue)).collect()
        };
        broken_rules(
            &Fields {
                sizes: self.sizes,
                expected_cells,
                phase: self.phase,
                rings: &self.rings,
                tail_mark: self.tail_mark,
                head_mark: self.head_mark,
                last_asked: self.last_asked,
            },
            queues_of(&self.tail).into_iter(),
            queues_of(&self.head).into_iter(),
            self.cells.iter().copied(),
        )
        .is_empty()
    }

    /// Whether a request of this queue takes no tail byte. The answer is the
    /// same before and after step 1 of an accepted slot, which lowers both sides or neither.
    fn would_be_owed(&self, queue: usize) -> bool {
        self.past_tail(queue) > self.owed_cells(queue)
    }

    /// Bytes of this queue that no cell has taken or is owed. Step 1 of an accepted slot leaves this as it is, too.
    pub fn unrequested(&self, queue: usize) -> usize {
        self.past_tail(queue) - self.owed_cells(queue) + self.tail[queue].len()
    }

    /// Bytes of this queue in the head and in the store.
    fn past_tail(&self, queue: usize) -> usize {
        self.head[queue].len() + self.sizes.b * self.rings[queue].count
    }

    fn owed_cells(&self, queue: usize) -> usize {
        self.cells.iter().filter(|&&cell| cell == Cell::Owed(queue)).count()
    }

    /// Step 1.
    fn deliver_oldest_cell(&mut self) -> Option<(usize, u8)> {
        match self.cells.pop_front()? {
            Cell::Empty => None,
            Cell::Held(queue, byte) => Some((queue, byte)),
            Cell::Owed(queue) => {
                let entry = self.head[queue].pop_front().expect("refusal 8 was judged");
                Some((queue, entry.byte))
            }
        }
    }

    /// Step 2. Request 2.8: the tail is looked at just after the arrival joins it, so a byte that the request takes
    /// afterwards counts too. Without an arrival, and so with a dropped one, nothing rises, since the mark is at least
    /// the fill already.
    fn join_tail(&mut self, arrival: Option<(usize, u8)>) {
        if let Some((queue, byte)) = arrival {
            let sequence = self.take_sequence();
            self.tail[queue].push_back(Entry { sequence, byte });
            self.tail_mark = self.tail_mark.max(fill(&self.tail));
        }
    }

    /// Step 3.
    fn take_youngest_cell(&mut self, request: Option<usize>) {
        let cell = match request {
            None => Cell::Empty,
            Some(queue) if self.would_be_owed(queue) => Cell::Owed(queue),
            Some(queue) => {
                let entry = self.tail[queue].pop_front().expect("refusal 7 was judged");
                Cell::Held(queue, entry.byte)
            }
        };
        self.cells.push_back(cell);
    }

    /// Step 4, the write: the fullest tail row of b bytes or more gives its b
    /// oldest. The caller puts them into the store.
    fn take_block_to_write(&mut self) -> Option<Block> {
        let sizes = self.sizes;
        let mut fullest: Option<usize> = None;
        for queue in 0..sizes.q {
            let length = self.tail[queue].len();
            // Only strictly more wins, so a tie stays with the lowest number.
            if length >= sizes.b && fullest.map_or(true, |best| length > self.tail[best].len()) {
                fullest = Some(queue);
            }
        }
        let queue = fullest?;
        let ring = &mut self.rings[queue];
        let start = sizes.block_start(queue, (ring.first + ring.count) % sizes.k);
        ring.count += 1;
        let bytes = self.tail[queue].drain(..sizes.b).map(|entry| entry.byte).collect();
        Some(Block { queue, start, bytes })
    }

    /// Step 4, the choice of the read: the first Owed cell, from the oldest, that the head bytes of its queue do not
    /// cover. Gives its queue and in how many slots it leaves; the oldest one leaves in the next.
    fn first_uncovered(&self) -> Option<(usize, usize)> {
        let mut owed_so_far = vec![0; self.sizes.q];
        for (&cell, slots_left) in self.cells.iter().zip(1..) {
            if let Cell::Owed(queue) = cell {
                owed_so_far[queue] += 1;
                if owed_so_far[queue] > self.head[queue].len() {
                    return Some((queue, slots_left));
                }
            }
        }
        None
    }

    /// Step 4, the read itself.
    fn read_first_block(&mut self, queue: usize, store: &[u8]) {
        let sizes = self.sizes;
        let start = sizes.block_start(queue, self.rings[queue].first);
        for &byte in &store[start..start + sizes.b] {
            let sequence = self.take_sequence();
            self.head[queue].push_back(Entry { sequence, byte });
        }
        let ring = &mut self.rings[queue];
        ring.first = (ring.first + 1) % sizes.k;
        ring.count -= 1;
    }

    fn take_sequence(&mut self) -> u64 {
        self.next_sequence += 1;
        self.next_sequence - 1
    }
}

/// A block on its way from the tail to the store.
struct Block {
    queue: usize,
    start: usize,
    bytes: Vec<u8>,
}

fn fill(rows: &Rows) -> usize {
    rows.iter().map(VecDeque::len).sum()
}

fn oldest_first(rows: &Rows) -> Vec<(usize, u8)> {
    let mut all: Vec<(u64, usize, u8)> = Vec::new();
    for (queue, row) in rows.iter().enumerate() {
        all.extend(row.iter().map(|entry| (entry.sequence, queue, entry.byte)));
    }
    all.sort_unstable();
    all.into_iter().map(|(_, queue, byte)| (queue, byte)).collect()
}
