//! Request 2.6: "The choice of the block to read must also say in how many slots the uncovered cell leaves, counted
//! after the slot's own delivery, so 1 to L. The slot's answer carries it, and 0 where nothing is read."

use super::{any_traffic, arbiter_slot, fresh, moves_nothing, printed, sizes, slot};
use crate::buffer::Answer;
use crate::random::Random;
use crate::random_state::{random_state, Lean};
use crate::raw::RawState;
use crate::reads::Reads;
use crate::rules::{Cell, Ring};
use crate::sizes::Design;

/// Q 1, b 2: the request of phase b - 1 finds a stored block, and its new cell is the one that is not covered.
#[test]
fn a_request_as_its_block_is_read_leaves_all_of_the_lookahead() {
    let script = [0x10, 1, 2, 1, 0x01, 0, 65, 0x01, 0, 66, 0x00, 0x02, 0, 0x04, 2, 0, 0x05];
    assert_eq!(printed(&script), "M 3 0 2\nD 5 0 65\nE 6\n");
}

/// The same request a slot earlier; the block is read in the first of four idle slots that are one command.
#[test]
fn a_count_of_idle_slots_prints_reads() {
    let script = [0x10, 1, 2, 1, 0x01, 0, 65, 0x01, 0, 66, 0x02, 0, 0x04, 4, 0, 0x05];
    assert_eq!(printed(&script), "M 3 0 1\nD 4 0 65\nE 7\n");
}

/// A block of each queue is stored, and all are asked one after the other, the first in phase 0. Each read leaves b - 1
/// slots fewer than the one before, and the last comes in the slot before its byte leaves.
#[test]
fn the_last_of_all_queues_is_read_in_the_last_slot() {
    for (queues, block) in [(1, 2), (2, 2), (3, 4), (5, 3), (8, 1), (16, 16), (63, 33)] {
        let mut state = fresh(queues, block, 1);
        state.rings = vec![Ring { first: 0, count: 1 }; queues];
        let mut store = vec![0; queues * block];
        let requests = (0..queues * block).map(|index| Some(index).filter(|&queue| queue < queues));
        let answers: Vec<Answer> = requests.map(|request| slot(&mut state, None, request, &mut store)).collect();
        let reads: Vec<(usize, usize)> =
            answers.iter().filter_map(|answer| Some((answer.read?, answer.slots_left))).collect();
        let expected: Vec<(usize, usize)> =
            (0..queues).map(|queue| (queue, (queues - 1 - queue) * (block - 1) + 1)).collect();
        assert_eq!(reads, expected, "Q {queues}, b {block}");
    }
}

/// Q 2, b 3, so L is 5: a slot with moves due, and a stored block of queue 0.
fn stored_block() -> (RawState, Vec<u8>) {
    let mut state = RawState { phase: 2, ..fresh(2, 3, 1) };
    state.rings[0].count = 1;
    (state, vec![0; 6])
}

fn reads_queue_0(slots_left: usize) -> Answer {
    Answer { read: Some(0), slots_left, ..moves_nothing([0; 3]) }
}

#[test]
fn each_place_of_the_uncovered_cell() {
    for place in 1..5 {
        let (mut state, mut store) = stored_block();
        state.cells[place] = Cell::Owed(0);
        assert_eq!(slot(&mut state, None, None, &mut store), reads_queue_0(place));
    }
    let (mut state, mut store) = stored_block();
    assert_eq!(slot(&mut state, None, Some(0), &mut store), reads_queue_0(5));
}

/// Cells that are empty, Held, or Owed and covered take a slot as any other. The one that leaves is not counted.
#[test]
fn cells_before_the_uncovered_one() {
    let (mut state, mut store) = stored_block();
    state.head = vec![(0, 1), (1, 2), (0, 3)];
    state.head_mark = 3;
    state.cells = vec![Cell::Owed(0), Cell::Held(1, 4), Cell::Owed(1), Cell::Owed(0), Cell::Owed(0)];
    let expected = Answer { delivered: Some((0, 1)), ..reads_queue_0(4) };
    assert_eq!(slot(&mut state, None, None, &mut store), expected);
}

#[test]
fn the_arbiter_passes_it_on() {
    let (mut state, mut store) = stored_block();
    let turn = arbiter_slot(&mut state, None, &mut store);
    assert_eq!((turn.answer, turn.asked), (reads_queue_0(5), Some(0)));
}

#[test]
fn nothing_is_left_where_nothing_is_read() {
    // Another phase, though a cell is not covered.
    for phase in [0, 1] {
        let (mut state, mut store) = stored_block();
        state.phase = phase;
        state.cells[1] = Cell::Owed(0);
        assert_eq!(slot(&mut state, None, None, &mut store), moves_nothing([0; 3]));
    }
    // All cells are covered, and a block is written.
    let (mut state, mut store) = stored_block();
    state.head = vec![(0, 7)];
    state.head_mark = 1;
    state.tail = vec![(1, 8); 3];
    state.tail_mark = 3;
    state.cells[1] = Cell::Owed(0);
    let written = Answer { written: Some(1), ..moves_nothing([0; 3]) };
    assert_eq!(slot(&mut state, None, None, &mut store), written);
}

/// A read is due in each of these slots but for what stops it.
#[test]
fn nothing_is_left_in_a_stopped_slot() {
    let (mut due, store) = stored_block();
    due.cells[1] = Cell::Owed(0);
    let wrong_mark = RawState { head_mark: 10, ..due.clone() };
    let full_tail = RawState { sizes: sizes(2, 3, 4), tail: vec![(1, 8); 7], tail_mark: 7, ..due.clone() };
    let full_head = RawState { head: vec![(1, 8); 7], head_mark: 7, ..due.clone() };
    let mut missing = due.clone();
    missing.cells[0] = Cell::Owed(0);
    let stopped = [
        (3, &wrong_mark, None, None, store.len()),
        (2, &due, None, None, store.len() - 1),
        (4, &due, Some((2, 9)), None, store.len()),
        (6, &due, None, Some(2), store.len()),
        (8, &missing, None, None, store.len()),
        (9, &full_tail, Some((1, 9)), None, full_tail.sizes.store_size()),
        (10, &full_head, None, None, store.len()),
    ];
    for (number, before, arrival, request, store_length) in stopped {
        let answer = slot(&mut before.clone(), arrival, request, &mut vec![0; store_length]);
        assert_eq!((answer.number, answer.slots_left), (number, 0));
    }
}

/// What a slot leaves, looked at from its end: in so many slots leaves a cell that is Owed to the queue read, and none
/// before it lacks its head byte, the bytes of the block not counted.
fn check_slots_left(answer: &Answer, after: &RawState) {
    let Some(read) = answer.read else {
        assert_eq!(answer.slots_left, 0, "{answer:?} {after:?}");
        return;
    };
    assert!((1..=after.cells.len()).contains(&answer.slots_left), "{answer:?} {after:?}");
    let found = &after.head[..after.head.len() - after.sizes.b];
    let lacking = |queue: usize, cells: &[Cell]| {
        let owed = cells.iter().filter(|&&cell| cell == Cell::Owed(queue)).count();
        owed > found.iter().filter(|entry| entry.0 == queue).count()
    };
    let (before, from_there) = after.cells.split_at(answer.slots_left - 1);
    assert_eq!(from_there[0], Cell::Owed(read), "{answer:?} {after:?}");
    assert!(lacking(read, &after.cells[..answer.slots_left]), "{answer:?} {after:?}");
    assert!((0..after.sizes.q).all(|queue| !lacking(queue, before)), "{answer:?} {after:?}");
}

#[test]
fn from_any_state_the_first_uncovered_cell_leaves_then() {
    let mut random = Random::new(26);
    let mut seen = Reads::default();
    for _ in 0..40_000 {
        let sizes = sizes(random.between(1, 5), random.between(1, 5), random.between(1, 3));
        let lean = Lean::random(&mut random);
        let before = random_state(&mut random, sizes, Design::Full.cells(sizes), lean);
        let mut store = random.bytes(sizes.store_size());
        let (arrival, request) = any_traffic(&mut random).call(&mut random, usize::MAX, &before);
        let mut state = before.clone();
        let answer = slot(&mut state, arrival, request, &mut store);
        check_slots_left(&answer, &state);
        seen.add(state.cells.len(), answer.slots_left);
    }
    assert!(seen.both_ends() >= 12 && seen.between() >= 300, "{seen}");
}

/// So many accepted slots later leaves the first byte of the block that was read. With b 1 that is always the next.
#[test]
fn from_a_fresh_state_the_block_begins_to_leave_then() {
    let mut random = Random::new(26);
    let mut seen = Reads::default();
    let mut at_once = 0;
    for _ in 0..600 {
        let sizes = sizes(random.between(1, 5), random.between(1, 5), random.between(1, 3));
        let mut state = fresh(sizes.q, sizes.b, sizes.k);
        let mut store = random.bytes(sizes.store_size());
        let traffic = any_traffic(&mut random);
        let mut delivered = Vec::new();
        let mut due = Vec::new();
        for index in 0..400 {
            let (arrival, request) = traffic.call(&mut random, index, &state);
            let answer = slot(&mut state, arrival, request, &mut store);
            check_slots_left(&answer, &state);
            if answer.number != 0 {
                continue;
            }
            if answer.read.is_some() {
                let first = state.head[state.head.len() - sizes.b];
                due.push((delivered.len() + answer.slots_left, first));
                at_once += usize::from(sizes.b == 1);
                assert!(sizes.b > 1 || answer.slots_left == 1);
            }
            delivered.push(answer.delivered);
            seen.add(state.cells.len(), answer.slots_left);
        }
        for (slot, byte) in due.into_iter().filter(|&(slot, _)| slot < delivered.len()) {
            assert_eq!(delivered[slot], Some(byte), "{sizes:?}, slot {slot}");
        }
    }
    assert!(seen.both_ends() >= 6 && seen.between() >= 300 && at_once >= 300, "{seen}, {at_once} with b 1");
}
