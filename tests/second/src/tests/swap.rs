//! Request 2.1: a slot that reads and refills one full queue is taken where its request would be Held and the tail
//! already has a byte of the queue; then the request comes before the arrival.

use super::{callers_call, check_list, fresh, is_swap, moves_nothing, printed, sizes, slot};
use crate::buffer::{Answer, Buffer, Refill};
use crate::full_queue::state_with_full_queue;
use crate::lists::Traffic;
use crate::program::run_script;
use crate::random::Random;
use crate::random_state::Lean;
use crate::raw::RawState;
use crate::rules::{Cell, Ring};
use crate::sizes::Design;

/// Sizes Q 1, b 2, K 1 and an idle slot, two arrivals, one that reads and refills the queue, four idle slots.
#[rustfmt::skip]
const SWAPS: [u8; 19] = [
    0x10, 1, 2, 1, 0x00, 0x01, 0, 65, 0x01, 0, 66, 0x03, 0, 67, 0, 0x04, 4, 0, 0x05,
];

#[test]
fn a_script_that_swaps() {
    assert_eq!(printed(&SWAPS), "D 5 0 65\nE 8\n");
    assert_eq!(run_script(&SWAPS, &mut Vec::new()).ok(), Some(1));
}

/// Without the idle slot before them the two bytes are a block in store as the third one comes. It is dropped, and the
/// request is taken.
#[test]
fn a_script_whose_request_would_be_owed() {
    let mut script = SWAPS.to_vec();
    script.remove(4);
    assert_eq!(printed(&script), "R 2 5\nM 3 0 1\nD 4 0 65\nE 7\n");
}

/// Q 1, b 2, K 1, phase 0, both bytes of the queue in the tail.
fn full(tail_mark: usize) -> RawState {
    let mut state = fresh(1, 2, 1);
    state.tail = vec![(0, 7), (0, 8)];
    state.tail_mark = tail_mark;
    state
}

/// The slot that reads and refills queue 0, with as much store as it asks for.
fn refill(state: &mut RawState) -> Answer {
    let mut store = vec![0; state.sizes.store_size()];
    slot(state, Some((0, 9)), Some(0), &mut store)
}

#[test]
fn the_request_takes_an_old_byte_and_the_arrival_joins() {
    let mut state = full(2);
    assert_eq!(refill(&mut state), moves_nothing([0; 3]));
    let cells = vec![Cell::Empty, Cell::Held(0, 7)];
    assert_eq!(state, RawState { phase: 1, tail: vec![(0, 8), (0, 9)], cells, ..full(2) });
}

/// The write finds the arriving byte: it is one of the b oldest once the request has taken its own.
#[test]
fn the_arriving_byte_is_written() {
    let mut state = RawState { phase: 1, ..full(2) };
    let mut store = [0; 2];
    assert_eq!(slot(&mut state, Some((0, 9)), Some(0), &mut store).written, Some(0));
    assert_eq!(store, [8, 9]);
    assert_eq!((state.tail.len(), state.rings[0].count), (0, 1));
}

/// Q 1, b 1, K 1: one byte fills the queue and the tail.
#[test]
fn a_full_tail_takes_the_arrival_of_a_swap() {
    let mut state = RawState { tail: vec![(0, 7)], tail_mark: 1, ..fresh(1, 1, 1) };
    let mut store = [0];
    let written = Answer { written: Some(0), ..moves_nothing([0; 3]) };
    assert_eq!(slot(&mut state, Some((0, 9)), Some(0), &mut store), written);
    assert_eq!(store, [9]);
    assert_eq!((state.tail.len(), &state.cells[..], state.tail_mark), (0, &[Cell::Held(0, 7)][..], 1));
}

/// The oldest cell is Owed a byte of the other queue, which is still in the store.
#[test]
fn a_swap_that_misses() {
    let mut state = RawState { tail: vec![(0, 7), (0, 8)], tail_mark: 2, ..fresh(2, 2, 1) };
    state.cells[0] = Cell::Owed(1);
    state.rings[1].count = 1;
    let before = state.clone();
    assert_eq!(refill(&mut state), Answer::stopped(8));
    assert_eq!(state, before);
    state.head = vec![(1, 5)];
    state.head_mark = 1;
    assert_eq!(refill(&mut state).delivered, Some((1, 5)));
}

/// The head has six bytes of seven, and a cell of another queue waits for a block of two.
#[test]
fn a_swap_whose_read_finds_no_room() {
    let mut state = RawState { phase: 1, tail: vec![(0, 7), (0, 8)], tail_mark: 2, ..fresh(3, 2, 1) };
    state.head = vec![(1, 1); 6];
    state.head_mark = 6;
    state.cells[1] = Cell::Owed(2);
    state.rings[2].count = 1;
    let before = state.clone();
    assert_eq!(refill(&mut state), Answer::stopped(10));
    assert_eq!(state, before);
    state.head.pop();
    assert_eq!(refill(&mut state).read, Some(2));
}

#[test]
fn what_comes_before_5_comes_before_a_swap() {
    let store = &mut [0; 2];
    assert_eq!(slot(&mut RawState { phase: 2, ..full(2) }, Some((0, 9)), Some(0), store).number, 3);
    assert_eq!(slot(&mut full(2), Some((0, 9)), Some(0), &mut store[..1]).number, 2);
    assert_eq!(slot(&mut full(2), Some((1, 9)), Some(1), store).number, 4);
    assert_eq!(slot(&mut full(2), Some((1, 9)), Some(0), store).number, 4);
}

#[test]
fn a_swap_leaves_the_tail_mark() {
    for mark in [2, 3] {
        let mut state = full(mark);
        assert_eq!(refill(&mut state).number, 0);
        assert_eq!((state.tail.len(), state.tail_mark), (2, mark));
    }
}

/// Where the queue has room the arrival comes first, as the tail's mark shows.
#[test]
fn a_queue_with_room_does_not_swap() {
    let mut state = RawState { tail: vec![(0, 7)], tail_mark: 1, ..fresh(1, 2, 1) };
    assert_eq!(refill(&mut state).number, 0);
    assert_eq!((state.tail, state.tail_mark), (vec![(0, 9)], 2));
    let mut deeper = RawState { sizes: sizes(1, 2, 2), ..full(2) };
    assert_eq!(refill(&mut deeper).number, 0);
    assert_eq!((deeper.tail, deeper.tail_mark), (vec![(0, 8), (0, 9)], 3));
}

/// The arrival is dropped, and the slot leaves what the request alone leaves.
#[test]
fn a_request_of_another_queue_or_none_does_not_swap() {
    let state = RawState { tail: vec![(0, 7), (0, 8), (1, 6)], tail_mark: 3, ..fresh(2, 2, 1) };
    for request in [None, Some(1)] {
        let (mut after, mut without) = (state.clone(), state.clone());
        assert_eq!(slot(&mut after, Some((0, 9)), request, &mut [0; 4]), moves_nothing([0, 5, 0]));
        assert_eq!(slot(&mut without, None, request, &mut [0; 4]), moves_nothing([0; 3]));
        assert_eq!(after, without);
    }
    // And a full queue of which no byte arrives is of no matter.
    assert_eq!(slot(&mut state.clone(), Some((1, 9)), Some(0), &mut [0; 4]).number, 0);
}

/// One byte of two in the head or in the store is owed, and the other is left to ask for.
#[test]
fn a_request_that_would_be_owed_does_not_swap() {
    let one_owed = RawState { cells: vec![Cell::Empty, Cell::Owed(0)], ..full(2) };
    let in_head = RawState { head: vec![(0, 5), (0, 6)], head_mark: 2, ..one_owed.clone() };
    let one_block = vec![Ring { first: 0, count: 1 }];
    let in_store = RawState { sizes: sizes(1, 2, 2), rings: one_block, ..one_owed };
    for state in [in_head, in_store] {
        let mut after = state.clone();
        assert_eq!(refill(&mut after), moves_nothing([0, 5, 0]));
        assert_eq!(after, RawState { phase: 1, cells: vec![Cell::Owed(0); 2], ..state });
    }
}

/// The same with both bytes owed. Whether the oldest cell takes one of them in this slot is of no matter.
#[test]
fn a_queue_that_is_owed_all_but_its_tail_bytes_swaps() {
    let head = vec![(0, 5), (0, 6)];
    let mut in_head = RawState { head, head_mark: 2, cells: vec![Cell::Owed(0); 2], ..full(2) };
    assert_eq!(refill(&mut in_head).delivered, Some((0, 5)));
    assert_eq!(in_head.cells, [Cell::Owed(0), Cell::Held(0, 7)]);

    let mut in_store = RawState { tail: vec![(0, 7), (0, 8)], tail_mark: 2, ..fresh(2, 2, 2) };
    in_store.rings[0].count = 1;
    in_store.cells = vec![Cell::Empty, Cell::Owed(0), Cell::Owed(0)];
    assert_eq!(refill(&mut in_store).number, 0);
    assert_eq!(in_store.cells, [Cell::Owed(0), Cell::Owed(0), Cell::Held(0, 7)]);
}

/// Both bytes of the queue are in the store, and owed: the request would be Held, and take the byte that arrives. That
/// byte is dropped, and so is the request.
#[test]
fn a_tail_without_a_byte_of_the_queue_does_not_swap() {
    let mut state = fresh(2, 2, 1);
    state.rings[0].count = 1;
    state.cells = vec![Cell::Empty, Cell::Owed(0), Cell::Owed(0)];
    // A byte of another queue in the tail is of no help.
    for tail in [vec![], vec![(1, 7)]] {
        let before = RawState { tail_mark: tail.len(), tail, ..state.clone() };
        let mut after = before.clone();
        assert_eq!(refill(&mut after), moves_nothing([0, 5, 7]));
        assert_eq!(after, RawState { phase: 1, cells: vec![Cell::Owed(0), Cell::Owed(0), Cell::Empty], ..before });
    }
}

/// What random slots that read and refill a full queue must have met.
#[derive(Debug, Default)]
struct Seen {
    swapped: usize,
    swapped_in_full_tail: usize,
    /// Some of the queue's blocks are in the store, all owed.
    swapped_with_blocks: usize,
    missed: usize,
    read_without_room: usize,
    owed: usize,
    no_tail_byte: usize,
}

impl Seen {
    fn add(&mut self, before: &RawState, queue: usize, met: Option<Refill>, answer: &Answer) {
        let swaps = met == Some(Refill::Swap);
        let swapped = swaps && answer.number == 0;
        let tail_full = before.tail.len() == before.sizes.tail_size();
        self.swapped += usize::from(swapped);
        self.swapped_in_full_tail += usize::from(swapped && tail_full);
        self.swapped_with_blocks += usize::from(swapped && before.rings[queue].count > 0);
        self.missed += usize::from(swaps && answer.number == 8);
        self.read_without_room += usize::from(swaps && answer.number == 10);
        self.owed += usize::from(met == Some(Refill::Owed));
        self.no_tail_byte += usize::from(met == Some(Refill::NoTailByte));
    }

    fn least(&self) -> usize {
        let kinds = [self.swapped_in_full_tail, self.swapped_with_blocks, self.owed, self.no_tail_byte];
        kinds.into_iter().chain([self.swapped, self.missed, self.read_without_room]).min().unwrap_or(0)
    }
}

#[test]
fn from_any_state_the_request_comes_first() {
    let mut random = Random::new(21);
    let mut seen = Seen::default();
    for _ in 0..20_000 {
        let sizes = sizes(random.between(1, 5), random.between(1, 5), random.between(1, 3));
        let stop = random.pick(&[0, 8, 10]);
        let lean = Lean::towards(&mut random, [stop, 0, 0]);
        let (before, queue) = state_with_full_queue(&mut random, sizes, Design::Full.cells(sizes), lean);
        let store = random.bytes(sizes.store_size());
        let (arrival, request) = (Some((queue, random.byte())), Some(queue));

        let mut after = (before.clone(), store.clone());
        let answer = slot(&mut after.0, arrival, request, &mut after.1);
        let met = Buffer::from_raw(&before).refill(arrival, request);
        assert_eq!(met == Some(Refill::Swap), is_swap(&before, arrival, request), "{before:?} {queue}");
        let expected = match met {
            Some(Refill::Swap) => swapped(&before, &store, (queue, arrival)),
            _ => request_alone(&before, &store, queue),
        };
        assert_ne!(answer.number, 9);
        assert_eq!((answer, after), expected, "{before:?} {queue}");
        seen.add(&before, queue, met, &answer);
    }
    assert!(seen.least() >= 300, "{seen:?}");
}

/// What a swap comes to, by slots without one: the arrival's slot on a state without the byte that the request takes;
/// that byte is in the youngest cell afterwards.
fn swapped(
    before: &RawState,
    store: &[u8],
    (queue, arrival): (usize, Option<(usize, u8)>),
) -> (Answer, (RawState, Vec<u8>)) {
    let mut state = before.clone();
    let mut store = store.to_vec();
    let oldest = state.tail.iter().position(|entry| entry.0 == queue).expect("a byte to take");
    let (_, taken) = state.tail.remove(oldest);
    let answer = slot(&mut state, arrival, None, &mut store);
    if answer.number != 0 {
        return (answer, (before.clone(), store));
    }
    *state.cells.last_mut().expect("at least one cell") = Cell::Held(queue, taken);
    (answer, (state, store))
}

/// What a slot that does not swap comes to: the request's slot, and 5 beside it unless something stops it.
fn request_alone(before: &RawState, store: &[u8], queue: usize) -> (Answer, (RawState, Vec<u8>)) {
    let mut state = before.clone();
    let mut store = store.to_vec();
    let answer = slot(&mut state, None, Some(queue), &mut store);
    let arrival_number = if answer.number == 0 { 5 } else { 0 };
    (Answer { arrival_number, ..answer }, (state, store))
}

/// "The delay and cache sizes hold for runs with these slots in them." No swap of these finds the tail full, since from
/// a fresh state there is room in it for whatever arrives.
#[test]
fn lists_that_swap_deliver_what_was_asked() {
    let mut random = Random::new(21);
    let mut lists = 0;
    let mut swaps = 0;
    let mut with_blocks = 0;
    for _ in 0..600 {
        let sizes = sizes(random.between(1, 8), random.between(2, 5), random.between(1, 2));
        let traffic = Traffic::of_full_queues(&mut random);
        let swaps_before = swaps;
        check_list(&mut random, sizes, callers_call(&traffic), |slot| {
            if is_swap(slot.before, slot.arrival, slot.request) {
                let (queue, _) = slot.arrival.expect("a swap has an arrival");
                assert!(slot.before.tail.len() < sizes.tail_size(), "{:?}", slot.before);
                swaps += 1;
                with_blocks += usize::from(slot.before.rings[queue].count > 0);
            }
        });
        lists += usize::from(swaps > swaps_before);
    }
    let seen = format!("{swaps} swaps in {lists} lists, {with_blocks} of them with blocks in the store");
    assert!(lists >= 200 && swaps >= 5_000 && with_blocks >= 50, "{seen}");
}
