//! What a buffer's arrays and its store hold, as plain values: how a state of the second program lies in them, and how
//! they read as one.

use gelwynnar::{reg, CELL_PLACES, HEAD_PLACES, QUEUE_PLACES, REGS, TAIL_PLACES};
use second::random::Random;
use second::raw::RawState;
use second::rules::{Cell, Ring};
use second::sizes::{Design, Sizes};

/// The registers and the arrays of the state, with all places past a fill.
#[derive(Clone, PartialEq, Eq)]
pub struct Places {
    pub regs: [usize; REGS],
    pub tail: [u16; TAIL_PLACES],
    pub head: [u16; HEAD_PLACES],
    pub cells: [u32; CELL_PLACES],
    pub firsts: [u8; QUEUE_PLACES],
    pub stored: [u8; QUEUE_PLACES],
}

/// The counts by queue.
#[derive(Clone, Debug, PartialEq, Eq)]
pub struct Counts {
    pub tails: [u16; QUEUE_PLACES],
    pub heads: [u16; QUEUE_PLACES],
    pub owing: [u16; QUEUE_PLACES],
}

/// All that a call may change.
#[derive(Clone, PartialEq, Eq)]
pub struct Image {
    pub places: Places,
    pub counts: Counts,
    pub store: Vec<u8>,
}

/// The kinds of a cell: 0 is empty whatever follows, 1 Held, any other Owed.
const HELD: u32 = 1;
const OWED: u32 = 2;
const LAST_KIND: usize = 65_535;

impl Image {
    /// Any numbers in every place, and an empty store.
    pub fn junk(random: &mut Random) -> Image {
        let mut places = Places::zeros();
        random_halves(random, &mut places.tail);
        random_halves(random, &mut places.head);
        places.cells.fill_with(|| random.word() as u32);
        places.regs.fill_with(|| random.word() as usize);
        places.firsts.fill_with(|| random.byte());
        places.stored.fill_with(|| random.byte());
        let mut counts = Counts::zeros();
        random_halves(random, &mut counts.tails);
        random_halves(random, &mut counts.heads);
        random_halves(random, &mut counts.owing);
        Image { places, counts, store: Vec::new() }
    }

    /// A state as it may lie there: with any numbers wherever they do not matter.
    pub fn of_state(random: &mut Random, state: &RawState) -> Image {
        let mut image = Image::junk(random);
        let places = &mut image.places;
        let sizes = state.sizes;
        places.regs = [
            sizes.q,
            sizes.b,
            sizes.k,
            state.phase,
            state.tail.len(),
            state.head.len(),
            state.tail_mark,
            state.head_mark,
            state.last_asked,
        ];
        let entry = |&(queue, value): &(usize, u8)| (queue as u16) << 8 | u16::from(value);
        places.tail.iter_mut().zip(&state.tail).for_each(|(place, byte)| *place = entry(byte));
        places.head.iter_mut().zip(&state.head).for_each(|(place, byte)| *place = entry(byte));
        let plain = random.percent(50);
        for (place, &cell) in places.cells.iter_mut().zip(&state.cells) {
            *place = cell_word(random, cell, plain);
        }
        for (queue, ring) in state.rings.iter().take(QUEUE_PLACES).enumerate() {
            places.firsts[queue] = ring.first as u8;
            places.stored[queue] = ring.count as u8;
        }
        image
    }
}

impl Places {
    pub fn zeros() -> Places {
        Places {
            regs: [0; REGS],
            tail: [0; TAIL_PLACES],
            head: [0; HEAD_PLACES],
            cells: [0; CELL_PLACES],
            firsts: [0; QUEUE_PLACES],
            stored: [0; QUEUE_PLACES],
        }
    }

    pub fn sizes(&self) -> Sizes {
        Sizes { q: self.regs[reg::QUEUES], b: self.regs[reg::BLOCK], k: self.regs[reg::DEPTH] }
    }

    /// The state that they hold. A fill past its array reads as a full array, and that is longer than any cache may be.
    pub fn state(&self) -> RawState {
        let sizes = self.sizes();
        let byte = |&entry: &u16| (usize::from(entry >> 8), entry as u8);
        let rings = self.firsts.iter().zip(&self.stored).take(sizes.q);
        RawState {
            sizes,
            phase: self.regs[reg::PHASE],
            tail: self.tail.iter().take(self.regs[reg::TAIL_FILL]).map(byte).collect(),
            head: self.head.iter().take(self.regs[reg::HEAD_FILL]).map(byte).collect(),
            cells: self.cells.iter().take(Design::Full.cells(sizes)).map(|&cell| cell_of(cell)).collect(),
            rings: rings.map(|(&first, &count)| Ring { first: first.into(), count: count.into() }).collect(),
            tail_mark: self.regs[reg::TAIL_MARK],
            head_mark: self.regs[reg::HEAD_MARK],
            last_asked: self.regs[reg::LAST_ASKED],
        }
    }

    /// The counts by queue, counted. A queue that there is not has none.
    pub fn recount(&self) -> Counts {
        let mut counts = Counts::zeros();
        for &entry in self.tail.iter().take(self.regs[reg::TAIL_FILL]) {
            one_more(&mut counts.tails, (entry >> 8).into());
        }
        for &entry in self.head.iter().take(self.regs[reg::HEAD_FILL]) {
            one_more(&mut counts.heads, (entry >> 8).into());
        }
        for &cell in self.cells.iter().take(Design::Full.cells(self.sizes())) {
            if let Cell::Owed(queue) = cell_of(cell) {
                one_more(&mut counts.owing, queue);
            }
        }
        counts
    }

    /// The margin of a queue, counted: its head bytes less its Owed cells, as many as the arrays have.
    pub fn margin(&self, queue: u16) -> i32 {
        let bytes = self.head.iter().take(self.regs[reg::HEAD_FILL]).filter(|&entry| entry >> 8 == queue);
        let cells = self.cells.iter().take(Design::Full.cells(self.sizes()));
        let owed = cells.filter(|&&cell| cell_of(cell) == Cell::Owed(queue.into()));
        bytes.count() as i32 - owed.count() as i32
    }
}

impl Counts {
    pub fn zeros() -> Counts {
        Counts { tails: [0; QUEUE_PLACES], heads: [0; QUEUE_PLACES], owing: [0; QUEUE_PLACES] }
    }
}

/// No place for its queue: the state breaks a rule, and is found out where states are compared.
fn one_more(counts: &mut [u16; QUEUE_PLACES], queue: usize) {
    if let Some(count) = counts.get_mut(queue) {
        *count += 1;
    }
}

fn cell_of(cell: u32) -> Cell {
    let queue = (cell >> 8 & 255) as usize;
    match cell >> 16 {
        0 => Cell::Empty,
        HELD => Cell::Held(queue, cell as u8),
        _ => Cell::Owed(queue),
    }
}

/// A cell as the library itself writes it where it is plain, else as any number that reads as it.
fn cell_word(random: &mut Random, cell: Cell, plain: bool) -> u32 {
    let junk = if plain { 0 } else { random.word() as u32 };
    match cell {
        Cell::Empty => junk & 0xFFFF,
        Cell::Held(queue, value) => HELD << 16 | (queue as u32) << 8 | u32::from(value),
        Cell::Owed(queue) if plain => OWED << 16 | (queue as u32) << 8,
        Cell::Owed(queue) => {
            let kind = random.between(OWED as usize, LAST_KIND) as u32;
            kind << 16 | (queue as u32) << 8 | junk & 0xFF
        }
    }
}

/// Four to a word, since there are thousands.
fn random_halves(random: &mut Random, places: &mut [u16]) {
    for four in places.chunks_mut(4) {
        let word = random.word();
        for (turn, place) in four.iter_mut().enumerate() {
            *place = (word >> (16 * turn)) as u16;
        }
    }
}
