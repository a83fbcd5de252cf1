//! Request 2.8: each high mark is exactly the greatest fill since the fresh state. The tail is looked at just
//! after the arrival joins it, the head just after the read.

use super::{any_traffic, fresh, is_swap, looked_at, sizes, slot};
use crate::buffer::Answer;
use crate::lists::Traffic;
use crate::random::Random;
use crate::random_state::{random_state, Lean};
use crate::raw::RawState;
use crate::rules::Cell;
use crate::sizes::Design;

fn marks(state: &RawState) -> (usize, usize) {
    (state.tail_mark, state.head_mark)
}

/// Q 1, b 2, K 2, phase 0, one tail byte.
fn one_tail_byte(tail_mark: usize) -> RawState {
    let mut state = fresh(1, 2, 2);
    state.tail = vec![(0, 1)];
    state.tail_mark = tail_mark;
    state
}

/// Q 2, b 2, head size 5, a slot with moves due: three head bytes, of which the oldest cell takes one, and a
/// stored block of queue 0 that the next cell waits for.
fn read_due(head_mark: usize) -> (RawState, Vec<u8>) {
    let mut state = fresh(2, 2, 1);
    state.phase = 1;
    state.head = vec![(0, 1), (1, 2), (1, 3)];
    state.head_mark = head_mark;
    state.rings[0].count = 1;
    state.cells = vec![Cell::Owed(0), Cell::Owed(0), Cell::Empty];
    (state, vec![4, 5, 6, 7])
}

#[test]
fn a_byte_that_is_taken_at_once_counts() {
    let mut state = fresh(1, 2, 2);
    assert_eq!(slot(&mut state, Some((0, 9)), Some(0), &mut [0; 4]).number, 0);
    assert!(state.tail.is_empty());
    assert_eq!(marks(&state), (1, 0));
}

#[test]
fn a_byte_that_is_written_at_once_counts() {
    let mut state = fresh(1, 2, 2);
    let mut store = [0; 4];
    assert_eq!(slot(&mut state, Some((0, 8)), None, &mut store).written, None);
    assert_eq!(marks(&state), (1, 0));
    assert_eq!(slot(&mut state, Some((0, 9)), None, &mut store).written, Some(0));
    assert!(state.tail.is_empty());
    assert_eq!(marks(&state), (2, 0));
}

#[test]
fn the_tail_mark_is_the_greater_of_the_old_one_and_the_fill() {
    for (old, new) in [(1, 2), (2, 2), (3, 3)] {
        let mut state = one_tail_byte(old);
        assert_eq!(slot(&mut state, Some((0, 9)), None, &mut [0; 4]).number, 0);
        assert_eq!(state.tail.len(), 2);
        assert_eq!(marks(&state), (new, 0), "old mark {old}");
    }
}

/// The fills are 3, 2 and 4: the byte that leaves and the block are never there together.
#[test]
fn the_head_mark_is_the_greater_of_the_old_one_and_the_fill() {
    for (old, new) in [(3, 4), (4, 4), (5, 5)] {
        let (mut state, mut store) = read_due(old);
        let answer = slot(&mut state, None, None, &mut store);
        assert_eq!((answer.delivered, answer.read), (Some((0, 1)), Some(0)));
        assert_eq!(state.head.len(), 4);
        assert_eq!(marks(&state), (0, new), "old mark {old}");
    }
}

#[test]
fn without_an_arrival_the_tail_mark_stays() {
    for old in [2, 3] {
        for (phase, request) in [(0, None), (0, Some(0)), (1, None), (1, Some(0))] {
            let mut state = one_tail_byte(old);
            state.tail.push((0, 2));
            state.phase = phase;
            let answer = slot(&mut state, None, request, &mut [0; 4]);
            // Two bytes are a block; with one of them asked for there is none.
            let written = if phase == 1 && request.is_none() { Some(0) } else { None };
            assert_eq!((answer.number, answer.written), (0, written));
            assert_eq!(marks(&state), (old, 0), "phase {phase}, request {request:?}");
        }
    }
}

#[test]
fn without_a_read_the_head_mark_stays() {
    for old in [3, 4, 5] {
        for (phase, oldest) in [(0, Cell::Owed(0)), (0, Cell::Empty), (1, Cell::Owed(0)), (1, Cell::Empty)] {
            let (mut state, mut store) = read_due(old);
            state.phase = phase;
            state.cells = vec![oldest, Cell::Empty, Cell::Empty];
            let answer = slot(&mut state, Some((1, 9)), None, &mut store);
            assert_eq!((answer.number, answer.read), (0, None));
            assert_eq!(state.head.len(), if oldest == Cell::Empty { 3 } else { 2 });
            assert_eq!(marks(&state), (1, old), "phase {phase}, oldest {oldest:?}");
        }
    }
}

/// Each slot has an arrival that would raise the tail mark.
#[test]
fn a_stopped_slot_leaves_both_marks() {
    let (good, store) = read_due(3);
    let wrong_phase = RawState { phase: 2, ..good.clone() };
    let no_head_byte = RawState { head: vec![(1, 2), (1, 3)], ..good.clone() };
    let full_tail = RawState { tail: vec![(1, 8); 4], tail_mark: 4, ..fresh(2, 2, 3) };
    let full_head = RawState {
        head: vec![(1, 1), (1, 2), (1, 3), (1, 4)],
        head_mark: 4,
        cells: vec![Cell::Empty, Cell::Empty, Cell::Owed(0)],
        ..good.clone()
    };
    let stopped = [
        (3, &wrong_phase, (1, 9), None, store.len()),
        (2, &good, (1, 9), None, store.len() - 1),
        (4, &good, (2, 9), None, store.len()),
        (6, &good, (1, 9), Some(2), store.len()),
        (8, &no_head_byte, (1, 9), None, store.len()),
        (9, &full_tail, (1, 9), None, full_tail.sizes.store_size()),
        (10, &full_head, (1, 9), None, store.len()),
    ];
    for (number, before, arrival, request, store_length) in stopped {
        let mut state = before.clone();
        let answer = slot(&mut state, Some(arrival), request, &mut vec![0; store_length]);
        assert_eq!(answer, Answer::stopped(number));
        assert_eq!(marks(&state), marks(before), "refusal {number}");
    }
}

/// The stored block fills queue 0, so its byte does not join the tail, which is at its mark. The slot goes on, and its
/// read raises the head mark.
#[test]
fn a_dropped_arrival_leaves_the_tail_mark() {
    let (mut state, mut store) = read_due(3);
    state.tail = vec![(1, 8)];
    state.tail_mark = 1;
    let answer = slot(&mut state, Some((0, 9)), None, &mut store);
    assert_eq!((answer.numbers(), answer.read), ([0, 5, 0], Some(0)));
    assert_eq!(state.tail, [(1, 8)]);
    assert_eq!(marks(&state), (1, 4));
}

/// The byte that arrives counts, though the request beside it is dropped.
#[test]
fn a_dropped_request_leaves_the_arrival_its_mark() {
    let mut state = fresh(2, 2, 1);
    assert_eq!(slot(&mut state, Some((0, 9)), Some(1), &mut [0; 4]).numbers(), [0, 0, 7]);
    assert_eq!(marks(&state), (1, 0));
}

fn greater(old: (usize, usize), fills: (usize, usize)) -> (usize, usize) {
    (old.0.max(fills.0), old.1.max(fills.1))
}

/// What random slots must have shown, so that none of them passes for want of a case.
#[derive(Debug, Default)]
struct Seen {
    /// The tail mark rose above what the tail holds as the slot ends.
    tail_raised_and_left: usize,
    /// The head mark rose in a slot that also delivered from the head.
    head_raised_and_left: usize,
    tail_below_mark: usize,
    head_below_mark: usize,
    /// A swap with the tail at its mark, which would rise if the tail were looked at before the request.
    swapped_at_mark: usize,
    /// A dropped arrival with the tail at its mark, which would rise if the byte joined.
    dropped_at_mark: usize,
    stopped: usize,
}

impl Seen {
    fn add(&mut self, before: &RawState, swaps: bool, answer: &Answer, after: &RawState) {
        let accepted = answer.number == 0;
        let from_head = matches!(before.cells.first(), Some(Cell::Owed(_)));
        let tail_rose = after.tail_mark > before.tail_mark;
        let head_rose = after.head_mark > before.head_mark;
        self.tail_raised_and_left += usize::from(tail_rose && after.tail.len() < after.tail_mark);
        self.head_raised_and_left += usize::from(head_rose && from_head);
        self.tail_below_mark += usize::from(!tail_rose && after.tail.len() < after.tail_mark);
        self.head_below_mark += usize::from(!head_rose && after.head.len() < after.head_mark);
        self.swapped_at_mark += usize::from(accepted && swaps && before.tail.len() == before.tail_mark);
        let dropped = answer.arrival_number == 5;
        self.dropped_at_mark += usize::from(dropped && before.tail.len() == before.tail_mark);
        self.stopped += usize::from(!accepted);
    }

    fn least(&self) -> usize {
        let tail = self.tail_raised_and_left.min(self.tail_below_mark).min(self.swapped_at_mark);
        let head = self.head_raised_and_left.min(self.head_below_mark);
        tail.min(head).min(self.dropped_at_mark).min(self.stopped)
    }
}

#[test]
fn from_a_fresh_state_the_marks_are_the_greatest_fills() {
    let mut random = Random::new(28);
    let mut seen = Seen::default();
    for _ in 0..800 {
        let sizes = sizes(random.between(1, 5), random.between(1, 5), random.between(1, 3));
        let mut state = fresh(sizes.q, sizes.b, sizes.k);
        let mut store = random.bytes(sizes.store_size());
        let traffic = any_traffic(&mut random);
        let mut greatest = (0, 0);
        for index in 0..400 {
            let before = state.clone();
            let (arrival, request) = traffic.call(&mut random, index, &before);
            let answer = slot(&mut state, arrival, request, &mut store);
            greatest = greater(greatest, looked_at(&before, arrival, request, &answer, &state));
            assert_eq!(marks(&state), greatest, "{before:?} {arrival:?} {request:?}");
            seen.add(&before, is_swap(&before, arrival, request), &answer, &state);
        }
    }
    assert!(seen.least() >= 100, "{seen:?}");
}

#[test]
fn from_any_state_the_marks_are_the_old_ones_or_the_fills() {
    let mut random = Random::new(28);
    let mut seen = Seen::default();
    for _ in 0..40_000 {
        let sizes = sizes(random.between(1, 5), random.between(1, 5), random.between(1, 3));
        let lean = Lean::random(&mut random);
        let before = random_state(&mut random, sizes, Design::Full.cells(sizes), lean);
        let mut store = random.bytes(sizes.store_size());
        let (arrival, request) = Traffic::random(&mut random).call(&mut random, usize::MAX, &before);
        let mut state = before.clone();
        let answer = slot(&mut state, arrival, request, &mut store);
        let fills = looked_at(&before, arrival, request, &answer, &state);
        assert_eq!(marks(&state), greater(marks(&before), fills), "{before:?} {arrival:?} {request:?}");
        seen.add(&before, is_swap(&before, arrival, request), &answer, &state);
    }
    assert!(seen.least() >= 100, "{seen:?}");
}
