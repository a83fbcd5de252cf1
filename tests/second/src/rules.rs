//! The rules of a state: what the section "The state" names and what request 2.2 adds to it, nothing else.

use crate::sizes::Sizes;

#[derive(Clone, Copy, Debug, PartialEq, Eq)]
pub enum Cell {
    Empty,
    Held(usize, u8),
    Owed(usize),
}

/// The blocks of one queue in the store: the first one and how many.
#[derive(Clone, Copy, Debug, PartialEq, Eq)]
pub struct Ring {
    pub first: usize,
    pub count: usize,
}

/// The items of a state that are single fields, and the design's cell number.
pub struct Fields<'a> {
    pub sizes: Sizes,
    pub expected_cells: usize,
    pub phase: usize,
    pub rings: &'a [Ring],
    pub tail_mark: usize,
    pub head_mark: usize,
    pub last_asked: usize,
}

/// Names every rule that is broken; a state keeps the rules when the list is
/// empty. The order of bytes in a cache is no rule, so their queues in any
/// order are enough to judge.
pub fn broken_rules(
    fields: &Fields,
    tail_queues: impl Iterator<Item = usize>,
    head_queues: impl Iterator<Item = usize>,
    cells: impl Iterator<Item = Cell>,
) -> Vec<&'static str> {
    let sizes = fields.sizes;
    if !sizes.accepted() {
        // Without good sizes no other range is known.
        return vec!["sizes"];
    }

    let tail = Counts::of(sizes.q, tail_queues.map(Some));
    let head = Counts::of(sizes.q, head_queues.map(Some));
    let mut cell_number = 0;
    let mut held_outside = 0;
    let owed = Counts::of(
        sizes.q,
        cells.map(|cell| {
            cell_number += 1;
            match cell {
                Cell::Empty => None,
                Cell::Held(queue, _) => {
                    held_outside += usize::from(queue >= sizes.q);
                    None
                }
                Cell::Owed(queue) => Some(queue),
            }
        }),
    );

    let mut broken = Vec::new();
    let mut require = |holds: bool, rule: &'static str| {
        if !holds {
            broken.push(rule);
        }
    };
    require(fields.phase < sizes.b, "phase");
    require(cell_number == fields.expected_cells, "cell number");
    require(fields.rings.len() == sizes.q, "ring number");
    require(tail.outside == 0, "tail queue");
    require(head.outside == 0, "head queue");
    require(held_outside == 0, "held queue");
    require(owed.outside == 0, "owed queue");
    require(fields.rings.iter().all(|ring| ring.first < sizes.k), "ring first");
    require(tail.total <= sizes.tail_size(), "tail fill");
    require(head.total <= sizes.head_size(), "head fill");
    require(tail.total <= fields.tail_mark && fields.tail_mark <= sizes.tail_size(), "tail mark");
    require(head.total <= fields.head_mark && fields.head_mark <= sizes.head_size(), "head mark");

    // The two sums of each queue; wide, since a block count may be any number.
    let ringed = sizes.q.min(fields.rings.len());
    let block_bytes = |queue: usize| sizes.b as u128 * fields.rings[queue].count as u128;
    require(
        (0..ringed).all(|queue| tail.of_queue[queue] as u128 + block_bytes(queue) <= (sizes.k * sizes.b) as u128),
        "room sum",
    );
    require(
        (0..ringed).all(|queue| owed.of_queue[queue] as u128 <= head.of_queue[queue] as u128 + block_bytes(queue)),
        "owed sum",
    );
    require(fields.last_asked < sizes.q, "last asked");
    broken
}

/// How often each queue occurs, and how many numbers lie outside.
struct Counts {
    of_queue: Vec<usize>,
    total: usize,
    outside: usize,
}

impl Counts {
    fn of(queue_number: usize, queues: impl Iterator<Item = Option<usize>>) -> Counts {
        let mut counts = Counts { of_queue: vec![0; queue_number], total: 0, outside: 0 };
        for queue in queues.flatten() {
            counts.total += 1;
            match counts.of_queue.get_mut(queue) {
                Some(count) => *count += 1,
                None => counts.outside += 1,
            }
        }
        counts
    }
}
