//! The memory that the library is lent: every array of a buffer, its store, calls and answers, each by itself against
//! a page that nobody may touch.

use gelwynnar::{Lent, CELL_PLACES, HEAD_PLACES, QUEUE_PLACES, REGS, TAIL_PLACES};

use crate::difference;
use crate::guarded::{Edge, Guarded};
use crate::image::{Counts, Image, Places};

/// The longest store here: Q x b of accepted sizes is at most 63 x 33 and K 255, and some bytes beyond.
pub const STORE_BYTES: usize = 540_000;

/// The longest list of calls in one run.
pub const RUN_CALLS: usize = 64;

pub struct Memory {
    pub arrays: Arrays,
    pub store: Guarded<u8>,
    pub calls: Guarded<u64>,
    pub answers: Guarded<u64>,
}

pub struct Arrays {
    regs: Guarded<usize>,
    tail: Guarded<u16>,
    head: Guarded<u16>,
    cells: Guarded<u32>,
    firsts: Guarded<u8>,
    stored: Guarded<u8>,
    tails: Guarded<u16>,
    heads: Guarded<u16>,
    owing: Guarded<u16>,
}

impl Memory {
    pub fn new() -> Memory {
        Memory {
            arrays: Arrays {
                regs: Guarded::new(REGS),
                tail: Guarded::new(TAIL_PLACES),
                head: Guarded::new(HEAD_PLACES),
                cells: Guarded::new(CELL_PLACES),
                firsts: Guarded::new(QUEUE_PLACES),
                stored: Guarded::new(QUEUE_PLACES),
                tails: Guarded::new(QUEUE_PLACES),
                heads: Guarded::new(QUEUE_PLACES),
                owing: Guarded::new(QUEUE_PLACES),
            },
            store: Guarded::new(STORE_BYTES),
            calls: Guarded::new(RUN_CALLS),
            answers: Guarded::new(RUN_CALLS),
        }
    }

    /// The arrays and the store as in this image.
    pub fn put(&mut self, image: &Image, edge: Edge) {
        let Image { places, counts, store } = image;
        let arrays = &mut self.arrays;
        arrays.regs.put(&places.regs, edge);
        arrays.tail.put(&places.tail, edge);
        arrays.head.put(&places.head, edge);
        arrays.cells.put(&places.cells, edge);
        arrays.firsts.put(&places.firsts, edge);
        arrays.stored.put(&places.stored, edge);
        arrays.tails.put(&counts.tails, edge);
        arrays.heads.put(&counts.heads, edge);
        arrays.owing.put(&counts.owing, edge);
        self.store.put(store, edge);
    }

    /// Calls, and places for answers with these words in them.
    pub fn put_run(&mut self, calls: &[u64], answers: &[u64], edge: Edge) {
        self.calls.put(calls, edge);
        self.answers.put(answers, edge);
    }

    /// The calls are as they were, and the answers these, also in places past the calls.
    pub fn run_agrees(&self, calls: &[u64], answers: &[u64]) -> Result<(), String> {
        if !(self.calls.kept_within() && self.answers.kept_within()) {
            return Err("the library wrote beside the calls or the answers".to_string());
        }
        let calls = difference::array("calls", self.calls.slice(), calls);
        difference::same(calls.or_else(|| difference::array("answers", self.answers.slice(), answers)))
    }

    /// What the library left; an error where it wrote beside an array.
    pub fn image(&mut self) -> Result<Image, String> {
        let store = self.store.slice().to_vec();
        if !(self.arrays.kept_within() && self.store.kept_within()) {
            return Err("the library wrote beside an array".to_string());
        }
        let lent = self.arrays.lent();
        let places = Places {
            regs: *lent.regs,
            tail: *lent.tail,
            head: *lent.head,
            cells: *lent.cells,
            firsts: *lent.firsts,
            stored: *lent.stored,
        };
        let counts = Counts { tails: *lent.tails, heads: *lent.heads, owing: *lent.owing };
        Ok(Image { places, counts, store })
    }
}

impl Arrays {
    pub fn lent(&mut self) -> Lent<'_> {
        Lent {
            regs: self.regs.array(),
            tail: self.tail.array(),
            head: self.head.array(),
            cells: self.cells.array(),
            firsts: self.firsts.array(),
            stored: self.stored.array(),
            tails: self.tails.array(),
            heads: self.heads.array(),
            owing: self.owing.array(),
        }
    }

    fn kept_within(&self) -> bool {
        self.regs.kept_within()
            && self.tail.kept_within()
            && self.head.kept_within()
            && self.cells.kept_within()
            && self.firsts.kept_within()
            && self.stored.kept_within()
            && self.tails.kept_within()
            && self.heads.kept_within()
            && self.owing.kept_within()
    }
}
