//! Lists in which the round robin arbiter chooses (request 2.2), in all slots but for arrivals of the caller's own.

use std::iter::repeat_n;

use super::{Random, Traffic};
use crate::words::{arbiters_call, call, halves};
use crate::Sizes;

#[derive(Clone, Copy)]
pub enum ArbiterTraffic {
    /// The slots of `Traffic::RoundRobin`: arrivals of the caller's own until a quarter of the store is full, then an
    /// arrival in every slot, and the arbiter makes the same requests. Mostly it asks for the first queue that it
    /// looks at.
    RoundRobin,
    /// An arrival in every slot, of any queue. It is the only byte to ask for, so that the arbiter looks at half of the
    /// queues on the average, and the request is Held.
    Arrivals,
    /// The same in half of the slots. In the others there is nothing to ask for, and the arbiter looks at all queues.
    Half,
    /// By turns: arrivals of the caller's own at half of the queues, and as many slots in which the arbiter asks for
    /// these bytes, with no arrivals. So half of the slots are the arbiter's.
    Backlog,
}

impl ArbiterTraffic {
    pub const ALL: [ArbiterTraffic; 4] =
        [ArbiterTraffic::RoundRobin, ArbiterTraffic::Arrivals, ArbiterTraffic::Half, ArbiterTraffic::Backlog];

    pub fn name(self) -> &'static str {
        match self {
            ArbiterTraffic::RoundRobin => Traffic::RoundRobin.name(),
            ArbiterTraffic::Arrivals => "arrivals",
            ArbiterTraffic::Half => "half",
            ArbiterTraffic::Backlog => "backlog",
        }
    }

    pub fn calls(self, sizes: Sizes, slots: usize, seed: u64) -> Vec<u64> {
        let random = &mut Random(seed);
        match self {
            ArbiterTraffic::RoundRobin => round_robin(sizes, slots, seed),
            ArbiterTraffic::Arrivals => arrivals(sizes, slots, random, 100),
            ArbiterTraffic::Half => arrivals(sizes, slots, random, 50),
            ArbiterTraffic::Backlog => backlog(sizes, slots, random),
        }
    }
}

/// From the first request on all slots are the arbiter's.
fn round_robin(sizes: Sizes, slots: usize, seed: u64) -> Vec<u64> {
    let mut calls = Traffic::RoundRobin.calls(sizes, slots, seed);
    let asks = |&call: &u64| halves(call).1.is_some();
    let own = calls.iter().position(asks).unwrap_or(slots);
    for call in &mut calls[own..] {
        *call = arbiters_call(halves(*call).0);
    }
    calls
}

/// An arrival of any queue in each slot, with a chance in percent.
fn arrivals(sizes: Sizes, slots: usize, random: &mut Random, chance: usize) -> Vec<u64> {
    let mut arrival = || random.percent(chance).then(|| (random.below(sizes.queues) as u16, random.byte()));
    (0..slots).map(|_| arbiters_call(arrival())).collect()
}

/// At each turn as many bytes as a quarter of the store has.
fn backlog(sizes: Sizes, slots: usize, random: &mut Random) -> Vec<u64> {
    let bytes = sizes.store().div_ceil(4);
    let several = sizes.queues.div_ceil(2);
    let mut calls = Vec::with_capacity(slots + 2 * bytes);
    while calls.len() < slots {
        let first = random.below(sizes.queues);
        for _ in 0..bytes {
            let queue = (first + random.below(several)) % sizes.queues;
            calls.push(call(Some((queue as u16, random.byte())), None));
        }
        calls.extend(repeat_n(arbiters_call(None), bytes));
    }
    calls.truncate(slots);
    calls
}
