//! Random states with a full queue, for slots that read and refill it (request 2.1).

use crate::random::Random;
use crate::random_state::{random_mark, random_state, Lean};
use crate::raw::RawState;
use crate::rules::Cell;
use crate::sizes::Sizes;

/// A state that keeps the rules, and a queue of it that is full. Mostly a slot that reads and refills that queue swaps,
/// else the request would be Owed, or the tail has no byte of the queue.
pub fn state_with_full_queue(random: &mut Random, sizes: Sizes, cell_count: usize, lean: Lean) -> (RawState, usize) {
    let mut state = random_state(random, sizes, cell_count, lean);
    let queue = random.below(sizes.q);
    fill_queue(random, &mut state, queue);
    if random.percent(40) {
        fill_tail(random, &mut state);
    }
    owe(random, &mut state, queue);
    state.tail_mark = random_mark(random, state.tail.len(), sizes.tail_size());
    (state, queue)
}

/// The K blocks of the queue are full: some of them in the store, which may be all or none, and the others' bytes in
/// the tail, where these fit.
fn fill_queue(random: &mut Random, state: &mut RawState, queue: usize) {
    let sizes = state.sizes;
    state.tail.retain(|entry| entry.0 != queue);
    let most_in_tail = sizes.k.min((sizes.tail_size() - state.tail.len()) / sizes.b);
    let some = random.between(0, most_in_tail);
    let in_tail = random.pick(&[most_in_tail, most_in_tail, some]);
    for _ in 0..sizes.b * in_tail {
        let place = random.between(0, state.tail.len());
        state.tail.insert(place, (queue, random.byte()));
    }
    state.rings[queue].count = sizes.k - in_tail;
}

/// Bytes of the other queues fill the tail, as far as they have room.
fn fill_tail(random: &mut Random, state: &mut RawState) {
    let sizes = state.sizes;
    for queue in 0..sizes.q {
        let used = sizes.b * state.rings[queue].count + state.tail.iter().filter(|entry| entry.0 == queue).count();
        let room = sizes.k * sizes.b - used;
        for _ in 0..room.min(sizes.tail_size() - state.tail.len()) {
            let place = random.between(0, state.tail.len());
            state.tail.insert(place, (queue, random.byte()));
        }
    }
}

/// Most often every byte of the queue in the head and in the store is owed, so that the next request would be Held.
fn owe(random: &mut Random, state: &mut RawState, queue: usize) {
    let stored = state.sizes.b * state.rings[queue].count;
    let head_bytes = |state: &RawState| state.head.iter().filter(|entry| entry.0 == queue).count();
    if head_bytes(state) + stored > state.cells.len() {
        state.head.retain(|entry| entry.0 != queue);
    }
    let all = head_bytes(state) + stored;
    let owed = if random.percent(80) { all } else { random.below(all) };

    forgive(state, queue);
    let places = (0..state.cells.len()).collect();
    owe_at(random, state, queue, owed, places);
}

/// No cell is owed to the queue any more.
pub(crate) fn forgive(state: &mut RawState, queue: usize) {
    for cell in state.cells.iter_mut().filter(|cell| **cell == Cell::Owed(queue)) {
        *cell = Cell::Empty;
    }
}

/// So many of the places become Owed cells of the queue, or all of them if they are fewer.
pub(crate) fn owe_at(random: &mut Random, state: &mut RawState, queue: usize, owed: usize, mut places: Vec<usize>) {
    for _ in 0..owed.min(places.len()) {
        let place = places.swap_remove(random.below(places.len()));
        state.cells[place] = Cell::Owed(queue);
    }
}
