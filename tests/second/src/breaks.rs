//! States that break one rule of the paper and no other.

use crate::random::Random;
use crate::random_state::{random_state, Amount, Lean};
use crate::raw::RawState;
use crate::rules::{Cell, Ring};
use crate::sizes::{Design, Sizes};

#[derive(Clone, Copy, Debug, PartialEq, Eq)]
pub enum Break {
    NoQueue,
    QueuesOver,
    NoBlockByte,
    BlockOver,
    NoBlock,
    BlocksOver,
    SpreadOver,
    Phase,
    TailTooLong,
    HeadTooLong,
    CellTooFew,
    CellTooMany,
    RingTooFew,
    RingTooMany,
    TailQueue,
    HeadQueue,
    HeldQueue,
    OwedQueue,
    RingFirst,
    RingFirstOfEmptyRing,
    TailMarkLow,
    TailMarkHigh,
    HeadMarkLow,
    HeadMarkHigh,
    RoomSumByTail,
    RoomSumByBlocks,
    OwedSum,
    LastAsked,
}

pub const ALL: [Break; 28] = [
    Break::NoQueue,
    Break::QueuesOver,
    Break::NoBlockByte,
    Break::BlockOver,
    Break::NoBlock,
    Break::BlocksOver,
    Break::SpreadOver,
    Break::Phase,
    Break::TailTooLong,
    Break::HeadTooLong,
    Break::CellTooFew,
    Break::CellTooMany,
    Break::RingTooFew,
    Break::RingTooMany,
    Break::TailQueue,
    Break::HeadQueue,
    Break::HeldQueue,
    Break::OwedQueue,
    Break::RingFirst,
    Break::RingFirstOfEmptyRing,
    Break::TailMarkLow,
    Break::TailMarkHigh,
    Break::HeadMarkLow,
    Break::HeadMarkHigh,
    Break::RoomSumByTail,
    Break::RoomSumByBlocks,
    Break::OwedSum,
    Break::LastAsked,
];

/// A last one asked far over any queue, which no byte can be.
const FAR_LAST_ASKED: usize = 65_535;

impl Break {
    /// The rules that are broken then. A fill over its cache leaves no place
    /// for a good mark, so those two come with the mark's rule.
    pub fn rules(self) -> &'static [&'static str] {
        use Break::*;
        match self {
            NoQueue | QueuesOver | NoBlockByte | BlockOver | NoBlock | BlocksOver | SpreadOver => &["sizes"],
            Phase => &["phase"],
            TailTooLong => &["tail fill", "tail mark"],
            HeadTooLong => &["head fill", "head mark"],
            CellTooFew | CellTooMany => &["cell number"],
            RingTooFew | RingTooMany => &["ring number"],
            TailQueue => &["tail queue"],
            HeadQueue => &["head queue"],
            HeldQueue => &["held queue"],
            OwedQueue => &["owed queue"],
            RingFirst | RingFirstOfEmptyRing => &["ring first"],
            TailMarkLow | TailMarkHigh => &["tail mark"],
            HeadMarkLow | HeadMarkHigh => &["head mark"],
            RoomSumByTail | RoomSumByBlocks => &["room sum"],
            OwedSum => &["owed sum"],
            LastAsked => &["last asked"],
        }
    }

    /// Sizes with one of them outside its limit and the others good.
    fn bad_sizes(self, random: &mut Random) -> Option<Sizes> {
        let q = random.between(1, 3);
        let b = random.between(1, 3);
        let k = random.between(1, 3);
        let sizes = match self {
            Break::NoQueue => Sizes { q: 0, b, k },
            Break::QueuesOver => Sizes { q: random.pick(&[65, 65, 66, 100]), b: random.between(1, 2), k },
            Break::NoBlockByte => Sizes { q, b: 0, k },
            Break::BlockOver => Sizes { q: 1, b: random.pick(&[129, 129, 130, 200]), k },
            Break::NoBlock => Sizes { q, b, k: 0 },
            Break::BlocksOver => Sizes { q: 1, b: random.between(1, 2), k: random.pick(&[256, 256, 257, 300]) },
            Break::SpreadOver => {
                // No accepted Q and b give 2,017 to 2,019, so 2,020 is the least over.
                let (q, b) = random.pick(&[(20, 102), (64, 33), (16, 128), (63, 34), (64, 128)]);
                Sizes { q, b, k: 1 }
            }
            _ => return None,
        };
        Some(sizes)
    }
}

/// A state that breaks the rules of `which` and no other. `sizes` gives
/// random accepted sizes; most breaks need some luck, hence the tries.
pub fn broken_state(
    random: &mut Random,
    which: Break,
    design: Design,
    mut sizes: impl FnMut(&mut Random) -> Sizes,
) -> RawState {
    loop {
        let state = match which.bad_sizes(random) {
            Some(bad) => state_of_bad_sizes(random, bad, design),
            None => {
                let sizes = sizes(random);
                let lean = Lean::random(random);
                let mut state = random_state(random, sizes, design.cells(sizes), lean);
                break_rule(random, which, &mut state);
                state
            }
        };
        if state.broken_rules(design.cells(state.sizes)) == which.rules() {
            return state;
        }
    }
}

/// Small lists; of the many cells that a spread over the limit asks for, all
/// are there in one state of four only.
fn state_of_bad_sizes(random: &mut Random, sizes: Sizes, design: Design) -> RawState {
    let mut lean = Lean::random(random);
    lean.most_bytes = 4;
    let mut cells = design.cells(sizes);
    if cells > 300 {
        lean = Lean { tail: Amount::Empty, head: Amount::Empty, owed: 0, held: 0, ..lean };
        if !random.percent(25) {
            cells = 3;
        }
    }
    random_state(random, sizes, cells, lean)
}

fn break_rule(random: &mut Random, which: Break, state: &mut RawState) {
    let sizes = state.sizes;
    let queue = random.below(sizes.q);
    // Just outside most of the time, else anywhere outside that a byte can be.
    let outside = if random.percent(60) { sizes.q } else { random.between(sizes.q, 255) };
    match which {
        Break::Phase => state.phase = random.pick(&[sizes.b, sizes.b, sizes.b + 1, 127.max(sizes.b), 255]),
        Break::TailTooLong => {
            while state.tail.len() <= sizes.tail_size() {
                state.tail.push((random.below(sizes.q), random.byte()));
            }
            state.tail_mark = random.pick(&[sizes.tail_size(), state.tail.len()]);
        }
        Break::HeadTooLong => {
            while state.head.len() <= sizes.head_size() {
                state.head.push((random.below(sizes.q), random.byte()));
            }
            state.head_mark = random.pick(&[sizes.head_size(), state.head.len()]);
        }
        Break::CellTooFew => {
            state.cells.pop();
        }
        Break::CellTooMany => state.cells.push(Cell::Empty),
        Break::RingTooFew => {
            state.rings.pop();
        }
        Break::RingTooMany => state.rings.push(Ring { first: 0, count: random.below(2) }),
        Break::TailQueue => replace(random, &mut state.tail, |entry| entry.0 = outside),
        Break::HeadQueue => replace(random, &mut state.head, |entry| entry.0 = outside),
        Break::HeldQueue => replace(random, &mut state.cells, |cell| *cell = Cell::Held(outside, 7)),
        Break::OwedQueue => replace(random, &mut state.cells, |cell| *cell = Cell::Owed(outside)),
        Break::RingFirst => state.rings[queue].first = sizes.k + random.pick(&[0, 0, 0, 1, 9]),
        Break::RingFirstOfEmptyRing => {
            let empty = (0..sizes.q).find(|&queue| state.rings[queue].count == 0);
            if let Some(queue) = empty {
                state.rings[queue].first = sizes.k;
            }
        }
        Break::TailMarkLow => state.tail_mark = state.tail.len().saturating_sub(1),
        Break::TailMarkHigh => state.tail_mark = sizes.tail_size() + 1,
        Break::HeadMarkLow => state.head_mark = state.head.len().saturating_sub(1),
        Break::HeadMarkHigh => state.head_mark = sizes.head_size() + 1,
        Break::RoomSumByTail => {
            // The sum becomes one too large by a last tail byte.
            let used = |state: &RawState| {
                let bytes = state.tail.iter().filter(|entry| entry.0 == queue).count();
                bytes + sizes.b * state.rings[queue].count
            };
            while used(state) <= sizes.k * sizes.b {
                state.tail.push((queue, random.byte()));
            }
            state.tail_mark = state.tail_mark.max(state.tail.len());
        }
        Break::RoomSumByBlocks => {
            let more = random.pick(&[1, 1, 1, 2, 200]);
            state.rings[queue].count = sizes.k + more;
        }
        Break::OwedSum => {
            // As many Owed cells as the queue has bytes, and one more.
            let head_bytes = state.head.iter().filter(|entry| entry.0 == queue).count();
            let wanted = head_bytes + sizes.b * state.rings[queue].count + 1;
            let mut owed = state.cells.iter().filter(|&&cell| cell == Cell::Owed(queue)).count();
            for cell in state.cells.iter_mut() {
                if owed < wanted && *cell != Cell::Owed(queue) {
                    *cell = Cell::Owed(queue);
                    owed += 1;
                }
            }
        }
        Break::LastAsked => state.last_asked = random.pick(&[sizes.q, sizes.q, sizes.q, outside, FAR_LAST_ASKED]),
        _ => unreachable!("bad sizes are made elsewhere"),
    }
}

fn replace<T>(random: &mut Random, items: &mut [T], change: impl Fn(&mut T)) {
    let index = random.below(items.len());
    if let Some(item) = items.get_mut(index) {
        change(item);
    }
}
