//! Lists of calls, one word for each slot, the same list for the same seed.

mod arbiter;

pub use arbiter::ArbiterTraffic;

use crate::words::call;
use crate::Sizes;

#[derive(Clone, Copy)]
pub enum Traffic {
    /// An arrival in every slot where some queue has room, a request where one has a byte left to ask for, both
    /// of random queues.
    Full,
    /// The same arrivals, and requests that go round the queues in order: all of them order blocks at about the
    /// same time.
    RoundRobin,
    /// Each half with probability 1/2, for any queue: full and empty queues have some halves dropped.
    Random,
    /// Nothing, after a short prelude.
    Idle,
}

impl Traffic {
    pub const ALL: [Traffic; 4] = [Traffic::Full, Traffic::RoundRobin, Traffic::Random, Traffic::Idle];

    pub fn name(self) -> &'static str {
        match self {
            Traffic::Full => "full",
            Traffic::RoundRobin => "round robin",
            Traffic::Random => "random",
            Traffic::Idle => "idle",
        }
    }

    pub fn calls(self, sizes: Sizes, slots: usize, seed: u64) -> Vec<u64> {
        let random = &mut Random(seed);
        match self {
            Traffic::Full => full(sizes, slots, random, |random, _| random.below(sizes.queues)),
            Traffic::RoundRobin => full(sizes, slots, random, |_, next| next),
            Traffic::Random => any(sizes, slots, random),
            Traffic::Idle => {
                let mut calls = prelude(sizes);
                calls.resize(slots, call(None, None));
                calls
            }
        }
    }
}

/// Arrivals alone until a quarter of the store is full, then both halves in every slot. `start` tells at which
/// queue the search for one to ask begins, where the last that was asked is the one before `next`.
fn full(
    sizes: Sizes,
    slots: usize,
    random: &mut Random,
    start: impl Fn(&mut Random, usize) -> usize,
) -> Vec<u64> {
    let Sizes { queues, block, depth } = sizes;
    let warm_up = sizes.store() / 4;
    // Bytes of each queue that nobody has asked for, kept a block below the ring's size.
    let mut unasked = vec![0; queues];
    let most = (depth - 1) * block;
    let mut next = 0;
    let mut calls = Vec::with_capacity(slots);
    for slot in 0..slots {
        let arriving = search(queues, random.below(queues), |queue| unasked[queue] < most);
        if let Some(queue) = arriving {
            unasked[queue] += 1;
        }
        let mut asked = None;
        if slot >= warm_up {
            asked = search(queues, start(random, next), |queue| unasked[queue] > 0);
        }
        if let Some(queue) = asked {
            unasked[queue] -= 1;
            next = (queue + 1) % queues;
        }
        let arrival = arriving.map(|queue| (queue as u16, random.byte()));
        calls.push(call(arrival, asked.map(|queue| queue as u16)));
    }
    calls
}

/// Each queue is first filled to some random height, so that full and empty ones are met from the start.
fn any(sizes: Sizes, slots: usize, random: &mut Random) -> Vec<u64> {
    let Sizes { queues, block, depth } = sizes;
    let mut calls = Vec::with_capacity(slots);
    for queue in 0..queues {
        for _ in 0..random.below(depth * block + 1) {
            calls.push(call(Some((queue as u16, random.byte())), None));
        }
    }
    while calls.len() < slots {
        let arrival = random.percent(50).then(|| (random.below(queues) as u16, random.byte()));
        let request = random.percent(50).then(|| random.below(queues) as u16);
        calls.push(call(arrival, request));
    }
    calls.truncate(slots);
    calls
}

/// A short list that leaves work behind: some blocks of queue 0 wait in the store, most of two are asked for,
/// and two tails grow until one of them is due to be written in the slot that follows.
pub fn prelude(sizes: Sizes) -> Vec<u64> {
    let (block, last) = (sizes.block, sizes.queues as u16 - 1);
    let fill = (0..3 * block).map(|value| call(Some((0, value as u8)), None));
    let ask = (1..2 * block).map(|value| call(Some(([0, last][value % 2], value as u8)), Some(0)));
    fill.chain(ask).collect()
}

/// The first queue from `start` on, and round, that will do.
pub fn search(queues: usize, start: usize, will_do: impl Fn(usize) -> bool) -> Option<usize> {
    (start..queues).chain(0..start).find(|&queue| will_do(queue))
}

/// A small generator (splitmix64).
pub struct Random(pub u64);

impl Random {
    fn next(&mut self) -> u64 {
        self.0 = self.0.wrapping_add(0x9e37_79b9_7f4a_7c15);
        let mut mixed = self.0;
        mixed = (mixed ^ mixed >> 30).wrapping_mul(0xbf58_476d_1ce4_e5b9);
        mixed = (mixed ^ mixed >> 27).wrapping_mul(0x94d0_49bb_1331_11eb);
        mixed ^ mixed >> 31
    }

    /// A number below `limit`.
    pub fn below(&mut self, limit: usize) -> usize {
        (self.next() % limit as u64) as usize
    }

    pub fn byte(&mut self) -> u8 {
        self.next() as u8
    }

    pub fn percent(&mut self, chance: usize) -> bool {
        self.below(100) < chance
    }

    pub fn pick<T: Copy>(&mut self, choices: &[T]) -> T {
        choices[self.below(choices.len())]
    }

    pub fn bytes(&mut self, length: usize) -> Vec<u8> {
        (0..length).map(|_| self.byte()).collect()
    }
}
