//! `second arbiter-cases`: closed cases of one slot call, in which the arbiter asks (request 2.2).

use crate::arbiter::Asker;
use crate::buffer::Numbers;
use crate::case::{print_drawn_cases, Case};
use crate::cases::{
    breaking_case, case_with_answer, random_design, random_queue, random_sizes, random_store, trouble_beside,
};
use crate::full_queue::{forgive, owe_at, state_with_full_queue};
use crate::lists::{room, unrequested};
use crate::random::Random;
use crate::random_state::{random_mark, random_state, Lean};
use crate::raw::RawState;
use crate::rules::Cell;
use crate::sizes::Sizes;

pub fn print_arbiter_cases(seed: u64, count: usize) {
    print_drawn_cases(seed, count, |random, broken| match broken {
        Some(which) => Case { asker: Asker::Arbiter, ..breaking_case(random, which) },
        None => {
            let goal = if random.percent(50) { [0; 3] } else { random.pick(&GOALS) };
            case_with_answer(random, goal, leaning_case)
        }
    });
}

/// The arbiter never asks for an unknown queue, nor for one that has nothing to ask for: no 6, and no 7.
const GOALS: [Numbers; 7] = [[2, 0, 0], [4, 0, 0], [0, 5, 0], [0, 5, 0], [8, 0, 0], [9, 0, 0], [10, 0, 0]];

fn leaning_case(random: &mut Random, goal: Numbers) -> Case {
    let design = random_design(random);
    let sizes = random_sizes(random, design);
    let state = leaning_state(random, sizes, design.cells(sizes), goal);
    Case {
        design,
        store: random_store(random, sizes, goal),
        arrival: leaning_queue(random, &state, goal).map(|queue| (queue, random.byte())),
        asker: Asker::Arbiter,
        state,
    }
}

/// Often with a full queue, and often with queues that the arbiter passes over.
pub(crate) fn leaning_state(random: &mut Random, sizes: Sizes, cell_count: usize, goal: Numbers) -> RawState {
    let lean = Lean::towards(random, goal);
    let (mut state, full) = if random.percent(40) {
        let (state, queue) = state_with_full_queue(random, sizes, cell_count, lean);
        (state, Some(queue))
    } else {
        (random_state(random, sizes, cell_count, lean), None)
    };
    let passed_over = random.pick(&[0, 0, 50, 80, 100]);
    for queue in (0..sizes.q).filter(|&queue| Some(queue) != full) {
        if random.percent(passed_over) {
            leave_nothing(random, &mut state, queue);
        }
    }
    state.tail_mark = random_mark(random, state.tail.len(), sizes.tail_size());
    state.head_mark = random_mark(random, state.head.len(), sizes.head_size());
    state
}

/// Leaves no byte of the queue to ask for. Those in the head and in the store are owed, or there are none.
fn leave_nothing(random: &mut Random, state: &mut RawState, queue: usize) {
    state.tail.retain(|entry| entry.0 != queue);
    forgive(state, queue);
    let is_free = |place: &usize| !matches!(state.cells[*place], Cell::Owed(_));
    let places: Vec<usize> = (0..state.cells.len()).filter(is_free).collect();
    if unrequested(state, queue) > places.len() || random.percent(30) {
        state.head.retain(|entry| entry.0 != queue);
        state.rings[queue].count = 0;
    }
    let left = unrequested(state, queue);
    owe_at(random, state, queue, left, places);
}

/// Half of the arrivals are of a full queue, where there is one.
pub(crate) fn leaning_queue(random: &mut Random, state: &RawState, goal: Numbers) -> Option<usize> {
    let full: Vec<usize> = (0..state.sizes.q).filter(|&queue| room(state, queue) == 0).collect();
    if !full.is_empty() && random.percent(50) {
        return Some(random.pick(&full));
    }
    random_queue(random, state.sizes, trouble_beside(goal))
}
