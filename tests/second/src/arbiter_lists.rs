//! `second arbiter-lists`: lists of slots from a fresh state, in some of which the arbiter asks (request 2.2).

use crate::arbiter::Asker;
use crate::buffer::Buffer;
use crate::lists::{print_lists_of, Kind};
use crate::random::Random;
use crate::sizes::Sizes;

/// A list has at most 40 slots, and the arbiter shall have half of them.
const MOST_FILLING: usize = 20;

pub fn print_arbiter_lists(seed: u64, count: usize) {
    let turns = |random: &mut Random, sizes: Sizes| Some(Turns::random(random, sizes));
    // Enough queues for the arbiter to pass over some, and for some to be full when it comes to them.
    print_lists_of(&Kind { most_queues: 5, full_queues: 50, dropped_halves: 20, turns }, seed, count);
}

type Arrival = Option<(usize, u8)>;
type Call = (Arrival, Option<usize>);

/// Whose slots a list has.
pub struct Turns {
    /// So many slots are the caller's before the arbiter has any.
    pub callers_first: usize,
    /// He asks for nothing in them, so that queues become full.
    pub quiet: bool,
    /// Chance in percent of an arbiter's slot afterwards.
    pub arbiters: usize,
    /// Chance in percent that an arbiter's slot swaps (request 2.1), where it can.
    pub refills: usize,
}

impl Turns {
    /// Half of the time the arbiter has every slot that follows the caller's first, else they take turns.
    pub fn random(random: &mut Random, sizes: Sizes) -> Turns {
        let filling = sizes.store_size().min(MOST_FILLING);
        Turns {
            callers_first: random.pick(&[0, 4, 8, filling, filling]),
            quiet: random.percent(60),
            arbiters: random.pick(&[30, 70, 100, 100]),
            refills: random.pick(&[0, 50, 100]),
        }
    }

    /// The call of a slot: the arrival, and who asks. `callers` is the arrival and the request if the slot is his, and
    /// the arbiter mostly gets the same arrival.
    pub fn call(&self, random: &mut Random, index: usize, buffer: &Buffer, callers: Call) -> (Arrival, Asker) {
        let (arrival, request) = callers;
        if index < self.callers_first {
            return (arrival, Asker::Caller(request.filter(|_| !self.quiet)));
        }
        if !random.percent(self.arbiters) {
            return (arrival, Asker::Caller(request));
        }
        let asked = buffer.choice(None);
        let refill = asked.map(|queue| (queue, random.byte()));
        if buffer.swaps(refill, asked) && random.percent(self.refills) {
            return (refill, Asker::Arbiter);
        }
        (arrival, Asker::Arbiter)
    }
}
