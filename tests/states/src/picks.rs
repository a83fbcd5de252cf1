//! What is picked at random for a state: sizes, queues, a call, a store.

use second::random::Random;
use second::sizes::{Design, Sizes};

use crate::memory::STORE_BYTES;
use crate::words::Call;

/// Q and b at the limits: Q(b - 1) is 2,016 or little less, or one of them is at an end of its range.
pub const AT_THE_LIMITS: [(usize, usize); 9] =
    [(63, 33), (16, 127), (32, 64), (64, 32), (15, 128), (64, 1), (1, 128), (1, 1), (64, 2)];

/// Numbers beyond any range, some of which a product or a narrower register would bring back into one.
pub const FAR: [usize; 8] =
    [1 << 16 | 1, 1 << 32, 1 << 32 | 2, 1 << 58 | 1, 1 << 63, 1 << 63 | 1, usize::MAX - 1, usize::MAX];

/// The largest queue number that a call has bits for.
pub const LAST_QUEUE: usize = 65_535;

/// With more cells than these a state is large: the second program takes as long for it as for a hundred small ones.
const LARGE: usize = 300;

/// The most bytes that a store has beyond those asked for.
const BEYOND: usize = 64;

/// Accepted sizes, small ones mostly.
pub fn some_sizes(random: &mut Random) -> Sizes {
    let (q, b, k) = match random.below(100) {
        0..=66 => (random.between(1, 4), random.between(1, 4), random.between(1, 3)),
        67..=91 => (random.between(1, 16), random.between(1, 16), random.between(1, 9)),
        92..=94 => (random.between(1, 3), random.between(1, 3), random.between(254, 255)),
        _ => return sizes_at_the_limits(random),
    };
    Sizes { q, b, k }
}

/// The same with few blocks to a queue, so that queues are full while their bytes are in the tail.
pub fn shallow_sizes(random: &mut Random) -> Sizes {
    let k = random.pick(&[1, 1, 1, 2, 3]);
    Sizes { k, ..some_sizes(random) }
}

pub fn sizes_at_the_limits(random: &mut Random) -> Sizes {
    let (q, b) = random.pick(&AT_THE_LIMITS);
    Sizes { q, b, k: random.pick(&[1, 1, 2, 3, 16, 255]) }
}

pub fn is_large(sizes: Sizes) -> bool {
    sizes.accepted() && Design::Full.cells(sizes) > LARGE
}

/// A call of any kind. A queue is out of range with this chance in percent.
pub fn some_call(random: &mut Random, sizes: Sizes, outside: usize) -> Call {
    let arrival = some_queue(random, sizes, outside).map(|queue| (queue, random.byte()));
    let same = random.percent(25);
    match arrival {
        Some((queue, _)) if same => (arrival, Some(queue)),
        _ => (arrival, some_queue(random, sizes, outside)),
    }
}

fn some_queue(random: &mut Random, sizes: Sizes, outside: usize) -> Option<usize> {
    if random.percent(25) {
        None
    } else if random.percent(outside) {
        Some(queue_outside(random, sizes))
    } else {
        Some(queue_inside(random, sizes))
    }
}

pub fn queue_inside(random: &mut Random, sizes: Sizes) -> usize {
    random.below(sizes.q).min(LAST_QUEUE)
}

/// Just out of range, far out, or such that its low byte alone would be in range.
pub fn queue_outside(random: &mut Random, sizes: Sizes) -> usize {
    let first = sizes.q.min(LAST_QUEUE);
    let low = random.below(sizes.q) % 256;
    match random.below(8) {
        0 | 1 => first,
        2 => random.between(first, LAST_QUEUE),
        3 => 255,
        4 => 256,
        5 => 256 + low,
        6 => 256 * random.between(1, 255) + low,
        _ => LAST_QUEUE,
    }
}

/// Any bytes: too few, just as many as asked for, or some more.
pub fn some_store(random: &mut Random, sizes: Sizes, short: bool) -> Vec<u8> {
    let needed = sizes.store_size();
    let length = if needed > STORE_BYTES - BEYOND {
        // Sizes that are not accepted, and a length that such a product may wrap to.
        random.below(100)
    } else if short {
        let fewer = random.below(needed);
        let one_less = needed.saturating_sub(1);
        random.pick(&[0, one_less, one_less, fewer])
    } else {
        needed + random.pick(&[0, 0, 0, 1, 5, BEYOND])
    };
    let mut store: Vec<u8> = (0..length.div_ceil(8)).flat_map(|_| random.word().to_le_bytes()).collect();
    store.truncate(length);
    store
}
