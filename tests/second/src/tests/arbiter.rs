//! Request 2.2: the arbiter asks for the next queue that has an unrequested byte, counting up from the last one asked.
//! A queue that has one is asked for within Q accepted slots, so its front byte leaves at most Q - 1 + L slots later.

use super::{any_traffic, arbiter_slot, check_list, fresh, is_swap, moves_nothing, sizes, slot, Accepted, Call};
use crate::arbiter::{ArbiterAnswer, Asker};
use crate::arbiter_cases::{leaning_queue, leaning_state};
use crate::arbiter_lists::Turns;
use crate::breaks::{broken_state, ALL};
use crate::buffer::{Answer, Buffer};
use crate::lists::{room, unrequested, Traffic};
use crate::random::Random;
use crate::raw::RawState;
use crate::rules::Cell;
use crate::sizes::{Design, Sizes};

/// The arbiter's slot with as much store as it asks for.
fn turn(state: &mut RawState, arrival: Option<(usize, u8)>) -> ArbiterAnswer {
    let mut store = vec![0; state.sizes.store_size()];
    arbiter_slot(state, arrival, &mut store)
}

/// An accepted slot that moves no byte but the one that is asked for.
fn asks(queue: Option<usize>) -> ArbiterAnswer {
    ArbiterAnswer { answer: moves_nothing([0; 3]), asked: queue }
}

/// The same with an arrival that is dropped.
fn drops_and_asks(queue: Option<usize>) -> ArbiterAnswer {
    ArbiterAnswer { answer: moves_nothing([0, 5, 0]), asked: queue }
}

/// Q 2, b 2, K 1, phase 0: such tail bytes, and the last one asked.
fn two_queues(tail: &[(usize, u8)], last_asked: usize) -> RawState {
    RawState { tail: tail.to_vec(), tail_mark: tail.len(), last_asked, ..fresh(2, 2, 1) }
}

#[test]
fn a_fresh_state_asks_for_nothing() {
    let mut state = fresh(3, 2, 1);
    assert_eq!(turn(&mut state, None), asks(None));
    assert_eq!(state, RawState { phase: 1, ..fresh(3, 2, 1) });
    assert_eq!(state.last_asked, 2);
}

#[test]
fn a_byte_that_arrives_is_asked_for() {
    let mut state = fresh(3, 2, 1);
    assert_eq!(turn(&mut state, Some((1, 9))), asks(Some(1)));
    assert_eq!(state.cells.last(), Some(&Cell::Held(1, 9)));
    assert_eq!((state.tail.len(), state.last_asked), (0, 1));
}

#[test]
fn the_count_goes_up_and_wraps() {
    let mut state = two_queues(&[(0, 7), (1, 8)], 1);
    assert_eq!(turn(&mut state, None), asks(Some(0)));
    assert_eq!(state.last_asked, 0);
    assert_eq!(turn(&mut state, None), asks(Some(1)));
    assert_eq!((state.last_asked, state.tail.len()), (1, 0));
    assert_eq!(state.cells, [Cell::Empty, Cell::Held(0, 7), Cell::Held(1, 8)]);
}

/// The last one asked is the last that is looked at, and it is asked for again where no other queue has a byte.
#[test]
fn the_last_one_asked_comes_last() {
    let mut state = two_queues(&[(1, 7), (1, 8)], 1);
    assert_eq!(turn(&mut state, Some((0, 9))).asked, Some(0));
    assert_eq!(turn(&mut state, None).asked, Some(1));
    assert_eq!(turn(&mut state, None).asked, Some(1));
    assert_eq!(turn(&mut state, None).asked, None);
    assert_eq!(state.last_asked, 1);
}

/// A byte is waiting in the head, in the store or in the tail; once it is owed it waits no more.
#[test]
fn bytes_that_are_owed_are_passed_over() {
    let mut in_head = RawState { head: vec![(0, 5)], head_mark: 1, ..two_queues(&[(1, 8)], 1) };
    let mut in_store = two_queues(&[(1, 8)], 1);
    in_store.rings[0].count = 1;
    for (state, waiting) in [(&mut in_head, 1), (&mut in_store, 2)] {
        for owed in 0..=waiting {
            let mut state = state.clone();
            (1..=owed).for_each(|place| state.cells[place] = Cell::Owed(0));
            let next = usize::from(owed == waiting);
            assert_eq!(turn(&mut state, None), asks(Some(next)), "{owed} of {waiting} owed");
            assert_eq!(state.last_asked, next);
        }
    }
}

/// The cell that leaves takes its byte along, so the slot's delivery leaves nothing more to ask for, nor less.
#[test]
fn a_delivery_does_not_matter() {
    let cells = vec![Cell::Owed(0), Cell::Empty, Cell::Empty];
    let one = RawState { head: vec![(0, 5)], head_mark: 1, cells, ..two_queues(&[], 1) };
    let two = RawState { head: vec![(0, 5), (0, 6)], head_mark: 2, ..one.clone() };
    for (before, asked) in [(one, None), (two, Some(0))] {
        let answered = turn(&mut before.clone(), None);
        assert_eq!((answered.answer.delivered, answered.asked), (Some((0, 5)), asked));
    }
}

/// Q 2, b 2, K 1: both bytes of queue 0 are in the store, and owed.
fn full_and_owed() -> RawState {
    let mut state = two_queues(&[], 1);
    state.rings[0].count = 1;
    state.cells = vec![Cell::Empty, Cell::Owed(0), Cell::Owed(0)];
    state
}

#[test]
fn an_arrival_to_a_full_queue_does_not_count() {
    let before = full_and_owed();
    assert_eq!(Buffer::from_raw(&before).choice(Some((0, 9))), None);
    let mut state = before.clone();
    assert_eq!(turn(&mut state, Some((0, 9))), drops_and_asks(None));
    let cells = vec![Cell::Owed(0), Cell::Owed(0), Cell::Empty];
    assert_eq!(state, RawState { phase: 1, cells, ..before.clone() });
    // With room for it the same arrival is asked for.
    let mut deeper = RawState { sizes: sizes(2, 2, 2), ..before };
    assert_eq!(turn(&mut deeper, Some((0, 9))), asks(Some(0)));
    assert_eq!(deeper.cells.last(), Some(&Cell::Held(0, 9)));
}

#[test]
fn a_full_queue_is_asked_for_its_older_bytes_and_swaps() {
    let before = two_queues(&[(0, 7), (0, 8)], 1);
    let mut state = before.clone();
    assert_eq!(turn(&mut state, Some((0, 9))), asks(Some(0)));
    let cells = vec![Cell::Empty, Cell::Empty, Cell::Held(0, 7)];
    assert_eq!(state, RawState { phase: 1, tail: vec![(0, 8), (0, 9)], cells, last_asked: 0, ..before });
}

/// The full queue's older bytes are stored, so the request would be Owed; or it is another queue's turn. The arrival is
/// dropped, and the queue asked is noted.
#[test]
fn a_full_queue_that_does_not_swap_answers_5() {
    let mut stored = two_queues(&[], 1);
    stored.rings[0].count = 1;
    let others_turn = two_queues(&[(0, 7), (0, 8), (1, 6)], 0);
    for (before, chosen, youngest) in [(stored, 0, Cell::Owed(0)), (others_turn, 1, Cell::Held(1, 6))] {
        assert_eq!(Buffer::from_raw(&before).choice(Some((0, 9))), Some(chosen));
        let mut state = before.clone();
        assert_eq!(turn(&mut state, Some((0, 9))), drops_and_asks(Some(chosen)));
        let tail = before.tail.iter().copied().filter(|&entry| entry != (1, 6)).collect();
        let cells = vec![Cell::Empty, Cell::Empty, youngest];
        assert_eq!(state, RawState { phase: 1, tail, cells, last_asked: chosen, ..before });
    }
}

/// A stop hides the 5, and the last one asked stays.
#[test]
fn a_full_queue_whose_slot_is_stopped() {
    let mut before = two_queues(&[(1, 6)], 0);
    before.rings[0].count = 1;
    before.cells[0] = Cell::Owed(0);
    let mut state = before.clone();
    assert_eq!(turn(&mut state, Some((0, 9))), ArbiterAnswer::stopped(8));
    assert_eq!(state, before);
}

#[test]
fn an_arrival_of_an_unknown_queue_answers_4() {
    for before in [two_queues(&[], 1), two_queues(&[(0, 7)], 1), full_and_owed()] {
        for queue in [2, 255] {
            let mut state = before.clone();
            assert_eq!(turn(&mut state, Some((queue, 9))), ArbiterAnswer::stopped(4));
            assert_eq!(state, before);
        }
    }
}

#[test]
fn a_last_one_asked_outside_breaks_the_rules() {
    for last_asked in [2, 3, 255, usize::MAX] {
        let before = two_queues(&[(0, 7)], last_asked);
        assert_eq!(before.broken_rules(Design::Full.cells(before.sizes)), ["last asked"]);
        let mut state = before.clone();
        // 3 comes before 2 and 4.
        assert_eq!(arbiter_slot(&mut state, Some((2, 9)), &mut []), ArbiterAnswer::stopped(3));
        assert_eq!(turn(&mut state, None), ArbiterAnswer::stopped(3));
        assert_eq!(slot(&mut state, None, Some(0), &mut [0; 4]), Answer::stopped(3));
        assert_eq!(Buffer::from_raw(&before).arbiter_slot(3, None, &mut [0; 4]), ArbiterAnswer::stopped(3));
        assert_eq!(state, before);
    }
}

#[test]
fn a_short_store_answers_2() {
    let before = two_queues(&[(0, 7)], 1);
    let mut state = before.clone();
    assert_eq!(arbiter_slot(&mut state, Some((2, 9)), &mut [0; 3]), ArbiterAnswer::stopped(2));
    assert_eq!(state, before);
}

#[test]
fn every_broken_rule_answers_3() {
    let mut random = Random::new(22);
    for which in ALL.into_iter().cycle().take(20 * ALL.len()) {
        let small = |random: &mut Random| sizes(random.between(1, 4), random.between(1, 4), random.between(1, 3));
        let before = broken_state(&mut random, which, Design::Full, small);
        let mut state = before.clone();
        let mut store = vec![0; before.sizes.store_size().min(300)];
        let arrival = Some((random.below(3), random.byte()));
        assert_eq!(arbiter_slot(&mut state, arrival, &mut store), ArbiterAnswer::stopped(3), "{which:?}");
        assert_eq!(slot(&mut state, arrival, Some(0), &mut store), Answer::stopped(3), "{which:?}");
        assert_eq!(state, before, "{which:?}");
    }
}

#[test]
fn a_caller_leaves_the_last_one_asked() {
    for last_asked in [0, 1] {
        for request in [None, Some(0), Some(1), Some(2)] {
            let mut state = two_queues(&[(0, 7), (1, 8)], last_asked);
            let number = slot(&mut state, Some((0, 9)), request, &mut [0; 4]).number;
            assert_eq!(number, if request == Some(2) { 6 } else { 0 });
            assert_eq!(state.last_asked, last_asked);
        }
    }
    // And the arbiter goes on from where it was.
    let mut state = two_queues(&[(0, 7), (1, 8), (0, 9)], 0);
    assert_eq!(slot(&mut state, None, Some(0), &mut [0; 4]).number, 0);
    assert_eq!(turn(&mut state, None).asked, Some(1));
}

/// The arbiter's choice on the lists of a state: the least way up from the last one asked to a queue that waits.
fn next_waiting(state: &RawState, arrival: Option<(usize, u8)>) -> Option<usize> {
    let queues = state.sizes.q;
    let counted = arrival.map(|(queue, _)| queue).filter(|&queue| queue < queues && room(state, queue) > 0);
    let waits = |queue: &usize| unrequested(state, *queue) > 0 || counted == Some(*queue);
    let way_up = |queue: &usize| (queue + queues - 1 - state.last_asked) % queues;
    (0..queues).filter(waits).min_by_key(way_up)
}

/// What random slots of the arbiter must have met.
#[derive(Debug, Default)]
struct Seen {
    asked_nothing: usize,
    wrapped: usize,
    asked_again: usize,
    asked_since_it_arrives: usize,
    swapped: usize,
    full_and_nothing_waits: usize,
    full_and_chosen: usize,
    full_and_another_chosen: usize,
    /// Refusals 8, 9 and 10.
    stopped: usize,
}

impl Seen {
    fn add(&mut self, before: &RawState, arrival: Option<(usize, u8)>, chosen: Option<usize>, answer: &Answer) {
        let number = answer.number;
        let full = answer.arrival_number == 5;
        let asked = chosen.filter(|_| number == 0);
        let arriving = arrival.map(|(queue, _)| queue);
        self.asked_nothing += usize::from(number == 0 && chosen.is_none());
        self.wrapped += usize::from(asked.is_some_and(|queue| queue < before.last_asked));
        self.asked_again += usize::from(asked == Some(before.last_asked));
        self.asked_since_it_arrives += usize::from(asked.is_some() && asked != next_waiting(before, None));
        self.swapped += usize::from(number == 0 && is_swap(before, arrival, chosen));
        self.full_and_nothing_waits += usize::from(full && chosen.is_none());
        self.full_and_chosen += usize::from(full && chosen == arriving);
        self.full_and_another_chosen += usize::from(full && chosen.is_some() && chosen != arriving);
        self.stopped += usize::from(number >= 8);
    }

    fn least(&self) -> usize {
        let asked = [self.asked_nothing, self.wrapped, self.asked_again, self.asked_since_it_arrives, self.swapped];
        let full = [self.full_and_nothing_waits, self.full_and_chosen, self.full_and_another_chosen];
        asked.into_iter().chain(full).chain([self.stopped]).min().unwrap_or(0)
    }
}

/// Its slot is the caller's with the request that it chooses, but for the last one asked.
#[test]
fn from_any_state_the_next_waiting_queue_is_asked_for() {
    let mut random = Random::new(22);
    let mut seen = Seen::default();
    for _ in 0..20_000 {
        let sizes = sizes(random.between(1, 6), random.between(1, 4), random.between(1, 3));
        let stop = random.pick(&[0, 0, 4, 8, 9, 10]);
        let goal = if random.percent(15) { [0, 5, 0] } else { [stop, 0, 0] };
        let before = leaning_state(&mut random, sizes, Design::Full.cells(sizes), goal);
        let store = random.bytes(sizes.store_size());
        let arrival = leaning_queue(&mut random, &before, goal).map(|queue| (queue, random.byte()));

        let chosen = next_waiting(&before, arrival);
        assert_eq!(Buffer::from_raw(&before).choice(arrival), chosen, "{before:?} {arrival:?}");
        let mut expected = (before.clone(), store.clone());
        let answer = slot(&mut expected.0, arrival, chosen, &mut expected.1);
        let asked = chosen.filter(|_| answer.number == 0);
        expected.0.last_asked = asked.unwrap_or(before.last_asked);
        assert!(answer.number != 6 && answer.request_number == 0, "{before:?} {arrival:?}");

        let mut after = (before.clone(), store);
        let answered = arbiter_slot(&mut after.0, arrival, &mut after.1);
        assert_eq!(answered, ArbiterAnswer { answer, asked }, "{before:?} {arrival:?}");
        assert_eq!(after, expected, "{before:?} {arrival:?}");
        seen.add(&before, arrival, chosen, &answer);
    }
    assert!(seen.least() >= 300, "{seen:?}");
}

/// What a list tells of one queue: the bytes that arrived, and the slots in which they were asked for and left.
#[derive(Clone, Default)]
struct Row {
    arrived: Vec<u8>,
    asked_in: Vec<usize>,
    left_in: Vec<(usize, u8)>,
}

/// A queue has an unrequested byte in an arbiter's slot, this slot's arrival counted. Its front byte is the oldest one:
/// the byte of this number.
struct Front {
    slot: usize,
    queue: usize,
    number: usize,
}

struct History {
    sizes: Sizes,
    rows: Vec<Row>,
    fronts: Vec<Front>,
    slots: usize,
    swaps: usize,
    /// Arrivals that were dropped in the arbiter's slots.
    dropped: usize,
}

impl History {
    fn new(sizes: Sizes) -> History {
        History { sizes, rows: vec![Row::default(); sizes.q], fronts: Vec::new(), slots: 0, swaps: 0, dropped: 0 }
    }

    fn add(&mut self, slot: &Accepted) {
        if let Some((queue, byte)) = slot.arrival {
            self.rows[queue].arrived.push(byte);
        }
        let by_arbiter = slot.asker == Asker::Arbiter;
        for (queue, row) in self.rows.iter().enumerate() {
            let joined = usize::from(slot.arrival.is_some_and(|(arriving, _)| arriving == queue));
            let number = row.asked_in.len();
            assert_eq!(row.arrived.len() - number, unrequested(slot.before, queue) + joined);
            if by_arbiter && number < row.arrived.len() {
                self.fronts.push(Front { slot: self.slots, queue, number });
            }
        }
        if let Some(queue) = slot.request {
            self.rows[queue].asked_in.push(self.slots);
        }
        if let Some((queue, byte)) = slot.answer.delivered {
            self.rows[queue].left_in.push((self.slots, byte));
        }
        self.slots += 1;
        self.swaps += usize::from(by_arbiter && is_swap(slot.before, slot.arrival, slot.request));
        self.dropped += usize::from(by_arbiter && slot.answer.arrival_number == 5);
    }

    /// "A queue that has an unrequested byte is asked within Q accepted slots, that slot included. So its front byte
    /// leaves at most Q - 1 + L accepted slots later, if the list lasts that long." Gives the greatest wait that
    /// occurs: how many slots further the asking is.
    fn greatest_wait(&self) -> usize {
        let most = self.sizes.q - 1;
        let cells = Design::Full.cells(self.sizes);
        let mut greatest = 0;
        for &Front { slot, queue, number } in &self.fronts {
            let row = &self.rows[queue];
            match row.asked_in.get(number) {
                Some(asked_in) => greatest = greatest.max(asked_in - slot),
                None => assert!(slot + most >= self.slots, "queue {queue} is not asked for after slot {slot}"),
            }
            match row.left_in.get(number) {
                Some(&(left_in, byte)) => {
                    assert_eq!((left_in, byte), (row.asked_in[number] + cells, row.arrived[number]));
                    assert!(left_in <= slot + most + cells, "queue {queue} waits too long after slot {slot}");
                }
                None => assert!(slot + most + cells >= self.slots, "queue {queue} is stuck after slot {slot}"),
            }
        }
        assert!(greatest <= most, "{:?}: a queue is asked for {greatest} slots later", self.sizes);
        greatest
    }
}

/// The calls of a list whose slots are the caller's and the arbiter's.
fn mixed_call<'a>(traffic: &'a Traffic, turns: &'a Turns) -> impl FnMut(&mut Random, usize, &RawState) -> Call + 'a {
    |random, index, state| {
        let callers = traffic.call(random, index, state);
        turns.call(random, index, &Buffer::from_raw(state), callers)
    }
}

/// A caller's slots first, then the arbiter in every slot, over any arrivals.
#[test]
fn every_queue_is_asked_within_as_many_slots_as_there_are_queues() {
    let mut random = Random::new(22);
    let mut swaps = 0;
    let mut dropped = 0;
    for queues in [1, 2, 3, 4, 5, 6, 8] {
        let mut greatest = 0;
        for _ in 0..60 {
            let sizes = sizes(queues, random.between(1, 4), random.between(1, 3));
            let traffic = any_traffic(&mut random);
            let callers_first = random.pick(&[0, 10, sizes.store_size()]);
            let turns = Turns { callers_first, arbiters: 100, ..Turns::random(&mut random, sizes) };
            let mut history = History::new(sizes);
            check_list(&mut random, sizes, mixed_call(&traffic, &turns), |slot| history.add(slot));
            assert!(history.fronts.len() >= 100, "{sizes:?}");
            greatest = greatest.max(history.greatest_wait());
            swaps += history.swaps;
            dropped += history.dropped;
        }
        assert_eq!(greatest, queues - 1);
    }
    assert!(swaps >= 100 && dropped >= 500, "{swaps} swaps, {dropped} dropped arrivals");
}

/// A caller's slots between the arbiter's keep the delay, and the last one asked.
#[test]
fn lists_that_take_turns_deliver_what_was_asked() {
    let mut random = Random::new(22);
    let mut both = 0;
    for _ in 0..300 {
        let sizes = sizes(random.between(1, 6), random.between(1, 4), random.between(1, 3));
        let traffic = Traffic::random(&mut random);
        let turns = Turns { arbiters: random.pick(&[20, 50, 80]), ..Turns::random(&mut random, sizes) };
        let mut asked = [0; 2];
        check_list(&mut random, sizes, mixed_call(&traffic, &turns), |slot| {
            asked[usize::from(slot.asker == Asker::Arbiter)] += usize::from(slot.request.is_some());
        });
        both += usize::from(asked.iter().all(|&slots| slots >= 10));
    }
    assert!(both >= 200, "{both} lists have requests of both");
}

/// One byte of each queue, and it is the last queue's turn last: it waits all of Q - 1 slots, and its byte leaves no
/// sooner than Q - 1 + L slots after the first.
#[test]
fn the_greatest_wait_occurs() {
    for (queues, block) in [(1, 1), (1, 3), (2, 2), (3, 1), (4, 3), (7, 2), (64, 1)] {
        let sizes = sizes(queues, block, 1);
        let cells = Design::Full.cells(sizes);
        let mut state = fresh(queues, block, 1);
        let mut store = vec![0; sizes.store_size()];
        for queue in 0..queues {
            assert_eq!(slot(&mut state, Some((queue, queue as u8)), None, &mut store).number, 0);
        }
        for index in 0..queues + cells {
            let answered = arbiter_slot(&mut state, None, &mut store);
            let left = index.checked_sub(cells).map(|queue| (queue, queue as u8));
            assert_eq!(answered.asked, Some(index).filter(|&queue| queue < queues));
            assert_eq!((answered.answer.number, answered.answer.delivered), (0, left));
        }
        assert_eq!(state.last_asked, queues - 1);
    }
}
