//! `second cases`: closed cases of one slot call, in which the caller asks.

use crate::arbiter::Asker;
use crate::breaks::{broken_state, Break};
use crate::buffer::Numbers;
use crate::case::{print_drawn_cases, Case};
use crate::full_queue::state_with_full_queue;
use crate::random::Random;
use crate::random_state::{random_state, Lean};
use crate::sizes::{Design, Sizes};

pub fn print_cases(seed: u64, count: usize) {
    print_drawn_cases(seed, count, |random, broken| match broken {
        Some(which) => breaking_case(random, which),
        None if random.percent(12) => refilling_case(random),
        None if random.percent(15) => full_queue_case(random),
        None => {
            let goal = if random.percent(40) { [0; 3] } else { random.pick(&GOALS) };
            case_with_answer(random, goal, leaning_case)
        }
    });
}

/// Every stop but 3, and every choice of dropped halves.
const GOALS: [Numbers; 9] =
    [[2, 0, 0], [4, 0, 0], [6, 0, 0], [8, 0, 0], [9, 0, 0], [10, 0, 0], [0, 5, 0], [0, 0, 7], [0, 5, 7]];

/// Random cases that lean towards an answer until one gives it. The answer
/// only guides what is picked: a case that misses its goal is as good a case.
pub(crate) fn case_with_answer(
    random: &mut Random,
    goal: Numbers,
    leaning: impl Fn(&mut Random, Numbers) -> Case,
) -> Case {
    let mut tries = 0;
    loop {
        let case = leaning(random, goal);
        tries += 1;
        if tries == 300 || case.run().answer.numbers() == goal {
            return case;
        }
    }
}

fn leaning_case(random: &mut Random, goal: Numbers) -> Case {
    let design = random_design(random);
    let sizes = random_sizes(random, design);
    let lean = Lean::towards(random, goal);
    let state = random_state(random, sizes, design.cells(sizes), lean);
    let trouble = trouble_beside(goal);
    Case {
        design,
        state,
        store: random_store(random, sizes, goal),
        arrival: random_queue(random, sizes, trouble).map(|queue| (queue, random.byte())),
        asker: Asker::Caller(random_queue(random, sizes, trouble)),
    }
}

/// Troubles beside the goal stay in, so that the order of refusals shows: their chance in percent.
pub(crate) fn trouble_beside(goal: Numbers) -> usize {
    if goal == [0; 3] {
        0
    } else {
        20
    }
}

/// Long enough, unless the goal or some trouble wants it one byte short.
pub(crate) fn random_store(random: &mut Random, sizes: Sizes, goal: Numbers) -> Vec<u8> {
    let short = goal == [2, 0, 0] || random.percent(trouble_beside(goal) / 4);
    let length = match short {
        false => sizes.store_size() + random.pick(&[0, 0, 0, 1, 5]),
        true => sizes.store_size() - 1,
    };
    random.bytes(length)
}

/// A full queue, read and refilled in one slot (request 2.1).
fn refilling_case(random: &mut Random) -> Case {
    let case = full_queue_case(random);
    let request = case.arrival.map(|(queue, _)| queue);
    Case { asker: Asker::Caller(request), ..case }
}

/// An arrival to a full queue, with any request beside it: 5 drops the arrival, or something stops the slot and hides
/// that (request 2.5).
fn full_queue_case(random: &mut Random) -> Case {
    let design = random_design(random);
    let sizes = random_sizes(random, design);
    let stop = random.pick(&[0, 0, 0, 8, 10]);
    let lean = Lean::towards(random, [stop, 0, 0]);
    let (state, queue) = state_with_full_queue(random, sizes, design.cells(sizes), lean);
    Case {
        design,
        state,
        store: random.bytes(sizes.store_size()),
        arrival: Some((queue, random.byte())),
        asker: Asker::Caller(random_queue(random, sizes, 10)),
    }
}

pub(crate) fn breaking_case(random: &mut Random, which: Break) -> Case {
    let design = random_design(random);
    let state = broken_state(random, which, design, |random| random_sizes(random, design));
    let sizes = state.sizes;
    // A store that is too short as well must still answer 3.
    let needed = sizes.store_size();
    let store_length = if needed > 300 {
        random.below(4)
    } else if random.percent(15) {
        needed.saturating_sub(1)
    } else {
        needed + random.below(3)
    };
    Case {
        design,
        store: random.bytes(store_length),
        arrival: random_queue(random, sizes, 10).map(|queue| (queue, random.byte())),
        asker: Asker::Caller(random_queue(random, sizes, 10)),
        state,
    }
}

pub(crate) fn random_design(random: &mut Random) -> Design {
    if random.percent(15) {
        Design::Fewer
    } else {
        Design::Full
    }
}

/// Small sizes mostly. One cell fewer needs b of 2 or more, else no cell is left.
pub(crate) fn random_sizes(random: &mut Random, design: Design) -> Sizes {
    loop {
        let sizes = if random.percent(4) {
            let (q, b, k) =
                random.pick(&[(8, 2, 2), (2, 8, 2), (5, 5, 2), (64, 1, 1), (1, 128, 1), (1, 1, 255), (3, 2, 7)]);
            Sizes { q, b, k }
        } else {
            Sizes { q: random.between(1, 4), b: random.between(1, 4), k: random.between(1, 3) }
        };
        if design == Design::Full || sizes.b >= 2 {
            return sizes;
        }
    }
}

/// None, a queue in range, or with chance `outside` percent one out of range.
pub(crate) fn random_queue(random: &mut Random, sizes: Sizes, outside: usize) -> Option<usize> {
    if random.percent(25) {
        None
    } else if random.percent(outside) {
        let far = random.between(sizes.q, 255);
        Some(random.pick(&[sizes.q, sizes.q, far]))
    } else {
        Some(random.below(sizes.q))
    }
}
