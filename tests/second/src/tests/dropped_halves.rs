//! Request 2.5: "5 and 7 refuse their half of the slot only. The slot runs without that half, and each half has its own
//! answer, so both numbers may come together. [...] Every other refusal still stops the slot and is then its only
//! answer."

use std::collections::BTreeMap;

use super::{any_traffic, callers_call, check_list, dropped, fresh, moves_nothing, printed, sizes, slot};
use crate::arbiter_cases::{leaning_queue, leaning_state};
use crate::buffer::{Answer, Numbers};
use crate::cases::random_queue;
use crate::random::Random;
use crate::raw::RawState;
use crate::rules::Cell;
use crate::sizes::Design;

#[test]
fn a_dropped_arrival_leaves_the_request() {
    let script = [0x10, 1, 2, 1, 0x01, 0, 65, 0x01, 0, 66, 0x03, 0, 67, 0, 0x04, 4, 0, 0x05];
    assert_eq!(printed(&script), "R 2 5\nM 3 0 1\nD 4 0 65\nE 7\n");
}

/// The R line of a stopped slot has the number of the slot that would have run.
#[test]
fn a_stop_is_the_only_answer_of_its_slot() {
    let script = [0x10, 1, 1, 1, 0x01, 0, 65, 0x03, 0, 66, 1, 0x05];
    assert_eq!(printed(&script), "R 1 6\nE 1\n");
}

/// "A slot's D line comes before its R lines, 5 before 7." Its M line comes after them (request 2.6).
#[test]
fn the_lines_of_a_slot_in_their_order() {
    #[rustfmt::skip]
    let script = [
        0x10, 2, 2, 1, 0x01, 0, 66, 0x01, 1, 67, 0x01, 1, 68, 0x00, 0x01, 0, 70, 0x01, 0, 71,
        0x02, 0, 0x02, 1, 0x02, 1, 0x03, 1, 75, 1, 0x02, 1, 0x05,
    ];
    let lines = "R 5 5\nM 7 0 2\nD 9 0 66\nR 9 5\nR 9 7\nM 9 1 1\nD 10 1 67\nR 10 7\nE 11\n";
    assert_eq!(printed(&script), lines);
}

/// Q 2, b 2, K 1, phase 0: the stored block fills queue 0 and is owed, and queue 1 has nothing. The oldest cell is as
/// given.
fn full_and_owed(oldest: Cell) -> RawState {
    let mut state = fresh(2, 2, 1);
    state.rings[0].count = 1;
    state.cells = vec![oldest, Cell::Owed(0), Cell::Owed(0)];
    state
}

const ARRIVAL: Option<(usize, u8)> = Some((0, 9));

/// The slot with enough store.
fn answered(state: &mut RawState, arrival: Option<(usize, u8)>, request: Option<usize>) -> Answer {
    let mut store = vec![0; state.sizes.store_size()];
    slot(state, arrival, request, &mut store)
}

#[test]
fn each_choice_of_dropped_halves_with_a_delivery_and_without() {
    for (oldest, delivered) in [(Cell::Empty, None), (Cell::Held(1, 4), Some((1, 4)))] {
        let before = full_and_owed(oldest);
        let passed = RawState { phase: 1, cells: vec![Cell::Owed(0), Cell::Owed(0), Cell::Empty], ..before.clone() };
        let calls = [
            ([0, 5, 0], ARRIVAL, None),
            ([0, 0, 7], None, Some(0)),
            ([0, 0, 7], None, Some(1)),
            ([0, 5, 7], ARRIVAL, Some(0)),
            ([0, 5, 7], ARRIVAL, Some(1)),
        ];
        for (numbers, arrival, request) in calls {
            let mut state = before.clone();
            let expected = Answer { delivered, ..moves_nothing(numbers) };
            assert_eq!(answered(&mut state, arrival, request), expected, "{arrival:?} {request:?}");
            assert_eq!(state, passed, "{arrival:?} {request:?}");
        }
    }
}

/// The moves of the slot go on, too. Q 3, b 2, K 1: a block of queue 1 is written and the one of queue 0 read.
#[test]
fn blocks_move_in_a_slot_with_both_halves_dropped() {
    let mut state = RawState { phase: 1, tail: vec![(1, 6), (1, 7)], tail_mark: 2, ..fresh(3, 2, 1) };
    state.rings[0].count = 1;
    state.cells[1] = Cell::Owed(0);
    let mut store = [11, 12, 0, 0, 0, 0];
    let expected = Answer { written: Some(1), read: Some(0), slots_left: 1, ..moves_nothing([0, 5, 7]) };
    assert_eq!(slot(&mut state, ARRIVAL, Some(2), &mut store), expected);
    assert_eq!((state.phase, state.head), (0, vec![(0, 11), (0, 12)]));
    assert_eq!((state.tail, store), (vec![], [11, 12, 6, 7, 0, 0]));
}

/// The other half of the slot is taken.
#[test]
fn one_half_is_taken_and_the_other_dropped() {
    let before = RawState { tail: vec![(1, 6)], tail_mark: 1, ..full_and_owed(Cell::Empty) };
    let mut state = before.clone();
    assert_eq!(answered(&mut state, ARRIVAL, Some(1)), moves_nothing([0, 5, 0]));
    let cells = vec![Cell::Owed(0), Cell::Owed(0), Cell::Held(1, 6)];
    assert_eq!(state, RawState { phase: 1, tail: vec![], cells, ..before.clone() });

    let mut state = before.clone();
    assert_eq!(answered(&mut state, Some((1, 9)), Some(0)), moves_nothing([0, 0, 7]));
    let cells = vec![Cell::Owed(0), Cell::Owed(0), Cell::Empty];
    assert_eq!(state, RawState { phase: 1, tail: vec![(1, 6), (1, 9)], tail_mark: 2, cells, ..before });
}

/// Such a slot answers its stop alone, and nothing changes.
fn check_stopped(before: &RawState, arrival: Option<(usize, u8)>, request: Option<usize>, number: u8) {
    let mut state = before.clone();
    assert_eq!(answered(&mut state, arrival, request), Answer::stopped(number), "{arrival:?} {request:?}");
    assert_eq!(&state, before);
}

#[test]
fn a_request_of_an_unknown_queue_hides_a_5() {
    check_stopped(&full_and_owed(Cell::Empty), ARRIVAL, Some(2), 6);
}

/// 4 looks at the call as it came, before 6 and whatever the request meets.
#[test]
fn an_arrival_of_an_unknown_queue_comes_first() {
    for request in [Some(0), Some(1), Some(2)] {
        check_stopped(&full_and_owed(Cell::Empty), Some((2, 9)), request, 4);
    }
}

#[test]
fn a_miss_hides_a_5_and_a_7() {
    let mut before = full_and_owed(Cell::Owed(1));
    before.rings[1].count = 1;
    for (arrival, request) in [(ARRIVAL, None), (None, Some(0)), (ARRIVAL, Some(0))] {
        check_stopped(&before, arrival, request, 8);
    }
}

/// The head has four bytes of five, and the stored block of queue 0 is due.
#[test]
fn a_read_without_room_hides_a_5_and_a_7() {
    let head = vec![(1, 1); 4];
    let mut before = RawState { phase: 1, head, head_mark: 4, ..full_and_owed(Cell::Empty) };
    for (arrival, request) in [(ARRIVAL, None), (None, Some(0)), (ARRIVAL, Some(0)), (ARRIVAL, Some(1))] {
        check_stopped(&before, arrival, request, 10);
    }
    // The delivery of this slot makes room.
    before.cells[0] = Cell::Owed(1);
    let answer = answered(&mut before, ARRIVAL, Some(0));
    assert_eq!((answer.numbers(), answer.delivered, answer.read), ([0, 5, 7], Some((1, 1)), Some(0)));
}

/// Q 2, b 2, K 3: the tail is full, and its four bytes with a block fill queue 0.
fn full_tail() -> RawState {
    let mut state = RawState { tail: vec![(0, 7); 4], tail_mark: 4, ..fresh(2, 2, 3) };
    state.rings[0].count = 1;
    state
}

/// "A dropped half is absent for every later test." The stored bytes are not owed, so that no slot swaps.
#[test]
fn the_full_tail_is_not_looked_at_once_the_arrival_is_dropped() {
    for (request, numbers) in [(None, [0, 5, 0]), (Some(0), [0, 5, 0]), (Some(1), [0, 5, 7])] {
        let mut state = full_tail();
        assert_eq!(answered(&mut state, ARRIVAL, request), moves_nothing(numbers));
        assert_eq!((state.tail.len(), state.tail_mark), (4, 4));
    }
    // The arrival of the other queue has room in its queue, and is stopped by the tail.
    check_stopped(&full_tail(), Some((1, 9)), None, 9);
}

/// 9 hides no 5, since it asks for an arrival that is left, but it hides a 7.
#[test]
fn a_full_tail_hides_a_7() {
    let mut before = full_tail();
    before.sizes.k = 4;
    check_stopped(&before, ARRIVAL, Some(1), 9);
}

/// "7 is judged without a dropped arrival": with room for it the same arrival feeds the request.
#[test]
fn a_request_does_not_find_a_dropped_arrival() {
    let full = full_and_owed(Cell::Empty);
    let roomy = RawState { sizes: sizes(2, 2, 2), ..full.clone() };
    for (before, numbers, youngest) in [(full, [0, 5, 7], Cell::Empty), (roomy, [0; 3], Cell::Held(0, 9))] {
        let mut state = before.clone();
        assert_eq!(answered(&mut state, ARRIVAL, Some(0)), moves_nothing(numbers));
        assert_eq!(state.cells.last(), Some(&youngest));
    }
}

/// Which halves would be dropped, and what the slot answers.
type Met = ([u8; 2], Numbers);

/// The slot is that of the halves that are left, with the numbers of the others beside it, unless something stops it.
#[test]
fn from_any_state_the_slot_runs_without_its_dropped_halves() {
    let goals = [[0, 5, 0], [0, 0, 7], [0, 5, 7], [8, 0, 0], [9, 0, 0], [10, 0, 0], [10, 0, 0]];
    let mut random = Random::new(25);
    let mut met: BTreeMap<Met, usize> = BTreeMap::new();
    let mut dropped_in_full_tail = 0;
    for _ in 0..150_000 {
        let sizes = sizes(random.between(1, 4), random.between(1, 4), random.between(1, 3));
        let goal = random.pick(&goals);
        let before = leaning_state(&mut random, sizes, Design::Full.cells(sizes), goal);
        let store = random.bytes(sizes.store_size());
        let arrival = leaning_queue(&mut random, &before, [0; 3]).map(|queue| (queue, random.byte()));
        let request = random_queue(&mut random, sizes, 5);

        let mut after = (before.clone(), store.clone());
        let answer = slot(&mut after.0, arrival, request, &mut after.1);
        let asked = request.filter(|&queue| queue < sizes.q);
        let numbers = dropped(&before, arrival, asked);
        let mut expected = (before.clone(), store);
        let expected_answer = if request == asked {
            let halves = (arrival.filter(|_| numbers[0] == 0), request.filter(|_| numbers[1] == 0));
            let left = slot(&mut expected.0, halves.0, halves.1, &mut expected.1);
            assert_eq!((left.arrival_number, left.request_number), (0, 0));
            with_half_numbers(left, numbers)
        } else {
            Answer::stopped(6)
        };
        assert_eq!((answer, after), (expected_answer, expected), "{before:?} {arrival:?} {request:?}");
        *met.entry((numbers, answer.numbers())).or_default() += 1;
        let tail_full = before.tail.len() == sizes.tail_size();
        dropped_in_full_tail += usize::from(answer.arrival_number == 5 && tail_full);
    }
    let least = |wanted: &[Met]| wanted.iter().map(|one| met.get(one).copied().unwrap_or(0)).min();
    let dropped = [([5, 0], [0, 5, 0]), ([0, 7], [0, 0, 7]), ([5, 7], [0, 5, 7])];
    let hidden_5 = [([5, 0], [6, 0, 0]), ([5, 0], [8, 0, 0]), ([5, 0], [10, 0, 0])];
    let hidden_7 = [([0, 7], [8, 0, 0]), ([0, 7], [9, 0, 0]), ([0, 7], [10, 0, 0])];
    let hidden_both = [([5, 7], [8, 0, 0]), ([5, 7], [10, 0, 0])];
    assert!(least(&dropped) >= Some(1_000) && least(&hidden_5) >= Some(1_000), "{met:?}");
    // 10 rarely hides a 7, since the head is full of bytes, which are mostly left to ask for.
    assert!(least(&hidden_7) >= Some(15) && least(&hidden_both) >= Some(15), "{met:?}");
    assert!(dropped_in_full_tail >= 300, "{dropped_in_full_tail}");
    assert!(met.keys().all(|(numbers, answer)| numbers[0] == 0 || answer[0] != 9), "{met:?}");
}

fn with_half_numbers(answer: Answer, [arrival_number, request_number]: [u8; 2]) -> Answer {
    match answer.number {
        0 => Answer { arrival_number, request_number, ..answer },
        _ => answer,
    }
}

/// "The fixed delay then counts slots with a dropped half as accepted ones, and still concerns only requests and
/// arrivals that were taken." Many queues of these lists are full.
#[test]
fn lists_that_drop_halves_deliver_what_was_asked() {
    let mut random = Random::new(25);
    let mut met: BTreeMap<Numbers, usize> = BTreeMap::new();
    for _ in 0..1_000 {
        let sizes = sizes(random.between(1, 6), random.between(1, 5), random.between(1, 3));
        let traffic = any_traffic(&mut random);
        check_list(&mut random, sizes, callers_call(&traffic), |slot| {
            *met.entry(slot.answer.numbers()).or_default() += 1;
        });
    }
    assert_eq!(met.len(), 4, "{met:?}");
    assert!(met.values().all(|&count| count >= 1_000), "{met:?}");
}
