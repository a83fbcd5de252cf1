//! `second lists`: lists of slots from a fresh state, every answer printed.

use std::collections::BTreeMap;

use crate::arbiter::Asker;
use crate::arbiter_lists::Turns;
use crate::buffer::{Answer, Buffer, Numbers};
use crate::lines::{design_word, print_answer, print_call, print_call_of, print_sizes, print_state, print_store};
use crate::random::Random;
use crate::raw::RawState;
use crate::rules::Cell;
use crate::sizes::{Design, Sizes};

pub fn print_lists(seed: u64, count: usize) {
    print_lists_of(&Kind { most_queues: 3, full_queues: 35, dropped_halves: 20, turns: |_, _| None }, seed, count);
}

/// What the lists of one command have in common.
pub(crate) struct Kind {
    pub most_queues: usize,
    /// Chance in percent of a list whose queues are kept full.
    pub full_queues: usize,
    /// Chance in percent of a list many of whose halves are dropped.
    pub dropped_halves: usize,
    /// Draws whose slots a list has. None: all are the caller's, and no call tells whose it is.
    pub turns: fn(&mut Random, Sizes) -> Option<Turns>,
}

impl Kind {
    fn traffic(&self, random: &mut Random) -> Traffic {
        let roll = random.below(100);
        if roll < self.full_queues {
            Traffic::of_full_queues(random)
        } else if roll < self.full_queues + self.dropped_halves {
            Traffic::of_dropped_halves(random)
        } else {
            Traffic::random(random)
        }
    }
}

pub(crate) fn print_lists_of(kind: &Kind, seed: u64, count: usize) {
    let mut random = Random::new(seed);
    let mut tally = Tally::default();
    for number in 0..count {
        print_list(&mut random, number, kind, &mut tally);
    }
    tally.print();
}

/// What occurred how often, for the summary on standard error.
#[derive(Default)]
struct Tally {
    answers: BTreeMap<Numbers, usize>,
    swaps: usize,
    arbiter_answers: BTreeMap<Numbers, usize>,
    arbiter_asked: usize,
    arbiter_swaps: usize,
}

impl Tally {
    fn add(&mut self, asker: Asker, answer: &Answer, request: Option<usize>, swaps: bool) {
        let swapped = usize::from(answer.number == 0 && swaps);
        *self.answers.entry(answer.numbers()).or_default() += 1;
        self.swaps += swapped;
        if asker == Asker::Arbiter {
            *self.arbiter_answers.entry(answer.numbers()).or_default() += 1;
            self.arbiter_asked += usize::from(request.is_some());
            self.arbiter_swaps += swapped;
        }
    }

    fn print(&self) {
        for ([slot, arrival, request], count) in &self.answers {
            eprintln!("answer {slot} {arrival} {request}: {count}");
        }
        eprintln!("swaps: {}", self.swaps);
        if self.arbiter_answers.is_empty() {
            return;
        }
        for ([slot, arrival, request], count) in &self.arbiter_answers {
            eprintln!("arbiter, answer {slot} {arrival} {request}: {count}");
        }
        eprintln!("arbiter, asked: {}", self.arbiter_asked);
        eprintln!("arbiter, swaps: {}", self.arbiter_swaps);
    }
}

fn print_list(random: &mut Random, number: usize, kind: &Kind, tally: &mut Tally) {
    let design = if random.percent(30) { Design::Fewer } else { Design::Full };
    let least_block = if design == Design::Fewer { 2 } else { 1 };
    let q = random.between(1, kind.most_queues);
    let sizes = Sizes { q, b: random.between(least_block, 4), k: random.between(1, 3) };
    let cells = design.cells(sizes);
    let store_length = match random.below(20) {
        0 => sizes.store_size() - 1,
        roll => sizes.store_size() + roll % 3,
    };
    let mut store = random.bytes(store_length);
    let mut buffer = Buffer::fresh(sizes, cells).expect("these sizes are accepted");
    let traffic = kind.traffic(random);
    let turns = (kind.turns)(random, sizes);

    println!("list {number} design {}", design_word(design));
    print_sizes(sizes);
    print_store("", &store);
    for index in 0..random.between(5, 40) {
        let before = buffer.to_raw();
        let callers = traffic.call(random, index, &before);
        let (arrival, asker) = match &turns {
            None => (callers.0, Asker::Caller(callers.1)),
            Some(turns) => turns.call(random, index, &buffer, callers),
        };
        let found = buffer.clone();
        let (answer, request) = match asker {
            Asker::Caller(request) => (buffer.slot(cells, arrival, request, &mut store), request),
            Asker::Arbiter => {
                let turn = buffer.arbiter_slot(cells, arrival, &mut store);
                (turn.answer, turn.asked)
            }
        };
        let swaps = found.swaps(arrival, request);
        let after = buffer.to_raw();
        tally.add(asker, &answer, request, swaps);

        // A stopped slot did not happen and a dropped arrival is absent, so no byte joined; in a swap one went before.
        let joined = answer.numbers()[..2] == [0, 0] && arrival.is_some();
        let grown = usize::from(joined && !swaps);
        match turns {
            None => print_call(arrival, request),
            Some(_) => print_call_of(asker, arrival, request),
        }
        print_answer(&answer);
        println!("fills {} {} {}", before.tail.len() + grown, after.tail.len(), after.head.len());
    }
    println!("end");
    print_state("after ", &buffer.to_raw());
    print_store("after ", &store);
    println!();
}

/// A favourite queue stays for so many slots.
const SLOTS_OF_A_FAVOURITE: usize = 12;

/// The habits of one list, as chances in percent.
pub struct Traffic {
    /// So many slots without a request, for blocks to reach the store.
    quiet: usize,
    arrivals: usize,
    requests: usize,
    /// Slots that read and refill one queue.
    refills: usize,
    /// Arrivals go where most room is, and requests where they would be Owed: so many queues become full at about the
    /// same time, with bytes in the tail, of which only one block is written each b slots.
    level: bool,
    /// Both halves are of one queue for a while, so that blocks of it wait to be read with every byte owed.
    favoured: usize,
    /// Arrivals where there is room, requests where a byte is left to ask for, refills where they swap.
    sensible: usize,
    /// Arrivals where there is no room and requests where no byte is left to ask for, if there is such a queue.
    contrary: usize,
    outside: usize,
}

impl Traffic {
    pub fn random(random: &mut Random) -> Traffic {
        Traffic {
            quiet: random.pick(&[0, 4, 8, 15]),
            arrivals: random.pick(&[40, 70, 90, 100]),
            requests: random.pick(&[20, 50, 80, 100]),
            refills: random.pick(&[0, 10, 40]),
            level: random.percent(25),
            favoured: random.pick(&[0, 0, 50]),
            sensible: random.pick(&[50, 90, 100]),
            contrary: 0,
            outside: random.pick(&[0, 0, 5]),
        }
    }

    /// Queues are kept full, and read and refilled as often as that can be.
    pub fn of_full_queues(random: &mut Random) -> Traffic {
        Traffic {
            quiet: random.pick(&[0, 4, 8, 15]),
            arrivals: random.pick(&[90, 100]),
            requests: random.pick(&[50, 80, 100]),
            refills: random.pick(&[40, 80, 100]),
            level: random.percent(80),
            favoured: random.pick(&[0, 50, 80]),
            sensible: random.pick(&[80, 95, 100]),
            contrary: 0,
            outside: 0,
        }
    }

    /// 5 and 7 drop many halves (request 2.5).
    pub fn of_dropped_halves(random: &mut Random) -> Traffic {
        Traffic {
            quiet: random.pick(&[0, 4, 8, 15]),
            arrivals: random.pick(&[80, 100]),
            requests: random.pick(&[50, 80, 100]),
            refills: random.pick(&[0, 20]),
            level: false,
            favoured: random.pick(&[0, 50, 80]),
            sensible: random.pick(&[80, 100]),
            contrary: random.pick(&[20, 40, 60]),
            outside: random.pick(&[0, 0, 5]),
        }
    }

    pub fn call(&self, random: &mut Random, index: usize, state: &RawState) -> (Option<(usize, u8)>, Option<usize>) {
        let queues = state.sizes.q;
        let favourite = index / SLOTS_OF_A_FAVOURITE % queues;
        if index >= self.quiet && random.percent(self.refills) {
            if let Some(queue) = self.queue(random, queues, favourite, |queue| would_swap(state, queue)) {
                return (Some((queue, random.byte())), Some(queue));
            }
        }
        let mut arrival = None;
        if random.percent(self.arrivals) {
            let most = (0..queues).map(|queue| room(state, queue)).max().unwrap_or(0);
            let least = |queue: usize| if self.level && queue != favourite { most.max(1) } else { 1 };
            let queue = self.queue(random, queues, favourite, |queue| room(state, queue) >= least(queue));
            arrival = queue.map(|queue| (queue, random.byte()));
        }
        let mut request = None;
        if index >= self.quiet && random.percent(self.requests) {
            let passed_over = |queue: usize| if self.level { bytes_of(&state.tail, queue) } else { 0 };
            let left = |queue: usize| unrequested(state, queue) > passed_over(queue);
            request = self.queue(random, queues, favourite, left);
        }
        (arrival, request)
    }

    fn queue(
        &self,
        random: &mut Random,
        queues: usize,
        favourite: usize,
        makes_sense: impl Fn(usize) -> bool,
    ) -> Option<usize> {
        if random.percent(self.outside) {
            return Some(random.pick(&[queues, queues, queues + 1, 255]));
        }
        if !random.percent(self.sensible) {
            return Some(random.below(queues));
        }
        let (sensible, others): (Vec<usize>, Vec<usize>) = (0..queues).partition(|&queue| makes_sense(queue));
        if !others.is_empty() && random.percent(self.contrary) {
            return Some(random.pick(&others));
        }
        if random.percent(self.favoured) && sensible.contains(&favourite) {
            return Some(favourite);
        }
        if sensible.is_empty() {
            return None;
        }
        Some(random.pick(&sensible))
    }
}

/// Whether a slot that reads and refills this queue would swap (request 2.1): it is full, and the tail has a byte of
/// it and every byte that is left to ask for.
pub fn would_swap(state: &RawState, queue: usize) -> bool {
    let tail_bytes = bytes_of(&state.tail, queue);
    room(state, queue) == 0 && tail_bytes > 0 && unrequested(state, queue) == tail_bytes
}

fn bytes_of(cache: &[(usize, u8)], queue: usize) -> usize {
    cache.iter().filter(|entry| entry.0 == queue).count()
}

/// Bytes that a queue may still take.
pub(crate) fn room(state: &RawState, queue: usize) -> usize {
    let sizes = state.sizes;
    sizes.k * sizes.b - sizes.b * state.rings[queue].count - bytes_of(&state.tail, queue)
}

/// Bytes of a queue that no cell has taken or is owed.
pub(crate) fn unrequested(state: &RawState, queue: usize) -> usize {
    let owed = state.cells.iter().filter(|&&cell| cell == Cell::Owed(queue)).count();
    let blocks = state.sizes.b * state.rings[queue].count;
    bytes_of(&state.tail, queue) + bytes_of(&state.head, queue) + blocks - owed
}
