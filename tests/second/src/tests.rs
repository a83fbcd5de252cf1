//! The paper's examples C1 to C12, its listing, and what else it settles.

mod arbiter;
mod captures;
mod dropped_halves;
mod high_marks;
mod packet_lists;
mod packet_records;
mod packets;
mod slots_left;
mod swap;

use crate::arbiter::{ArbiterAnswer, Asker};
use crate::buffer::{Answer, Buffer, Numbers};
use crate::lists::{room, unrequested, would_swap, Traffic};
use crate::program::run_script;
use crate::random::Random;
use crate::raw::RawState;
use crate::rules::{Cell, Ring};
use crate::script::{read_command, read_script, Command, Fault};
use crate::sizes::{Design, Sizes};
use crate::sizing::block_size;

fn sizes(q: usize, b: usize, k: usize) -> Sizes {
    Sizes { q, b, k }
}

fn fresh(q: usize, b: usize, k: usize) -> RawState {
    let sizes = sizes(q, b, k);
    Buffer::fresh(sizes, Design::Full.cells(sizes)).ok().expect("accepted sizes").to_raw()
}

/// One slot of the full design.
fn slot(state: &mut RawState, arrival: Option<(usize, u8)>, request: Option<usize>, store: &mut [u8]) -> Answer {
    let cells = Design::Full.cells(state.sizes);
    state.slot(cells, arrival, request, store)
}

/// One slot of the full design, in which the arbiter asks.
fn arbiter_slot(state: &mut RawState, arrival: Option<(usize, u8)>, store: &mut [u8]) -> ArbiterAnswer {
    let cells = Design::Full.cells(state.sizes);
    state.arbiter_slot(cells, arrival, store)
}

/// The answer of a slot that delivers nothing and moves no block.
fn moves_nothing([number, arrival_number, request_number]: Numbers) -> Answer {
    Answer { number, arrival_number, request_number, delivered: None, written: None, read: None, slots_left: 0 }
}

#[test]
fn c1_largest_spread_is_taken() {
    let largest = sizes(63, 33, 1);
    assert!(Buffer::fresh(largest, Design::Full.cells(largest)).is_ok());
    assert_eq!(Design::Full.cells(largest), 2017);
}

#[test]
fn c2_spread_over_the_limit_answers_1() {
    assert_eq!(Buffer::fresh(sizes(64, 33, 1), 2049).err(), Some(1));
}

#[test]
fn c3_and_c4_derived_sizes() {
    let derived = |sizes: Sizes| (Design::Full.cells(sizes), sizes.tail_size(), sizes.head_size());
    assert_eq!(derived(sizes(4, 3, 1)), (9, 11, 17));
    assert_eq!(derived(sizes(1, 1, 1)), (1, 1, 1));
}

#[test]
fn c5_to_c7_sizing() {
    assert_eq!(block_size(10, 9), Ok(125));
    assert_eq!(block_size(51, 1), Ok(128));
    assert_eq!(block_size(52, 1), Err(11));
}

#[test]
fn sizing_ranges() {
    assert_eq!(block_size(0, 0), Err(11));
    assert_eq!(block_size(101, 0), Err(11));
    assert_eq!(block_size(1, 16), Err(11));
    assert_eq!(block_size(1, 0), Ok(2));
    assert_eq!(block_size(100, 0), Ok(125));
    assert_eq!(block_size(6, 15), Ok(120));
    assert_eq!(block_size(7, 15), Err(11));
}

/// Request 2.4: the formula gives the paper's table, so that every block is as by the table. At 4 Gb/s it is the cycle
/// time itself.
#[test]
fn grades_as_in_the_table() {
    let table = [5, 10, 15, 20, 25, 30, 35, 40, 45, 50, 55, 60, 65, 70, 75, 80];
    for (grade, time) in table.into_iter().enumerate() {
        assert_eq!(block_size(4, grade as u64), Ok(time));
        for rate in 1..=100 {
            let block = (rate * time + 3) / 4;
            let expected = if block <= 128 { Ok(block) } else { Err(11) };
            assert_eq!(block_size(rate, grade as u64), expected);
        }
    }
}

#[test]
fn c8_third_arrival_waits_for_the_read() {
    let mut state = fresh(1, 2, 1);
    let mut store = [0; 2];
    assert_eq!(slot(&mut state, Some((0, 11)), None, &mut store).number, 0);
    assert_eq!(slot(&mut state, Some((0, 12)), None, &mut store).written, Some(0));
    assert_eq!(store, [11, 12]);
    let before = state.clone();
    assert_eq!(slot(&mut state, Some((0, 13)), None, &mut store), moves_nothing([0, 5, 0]));
    // The slot has passed, and that is all.
    assert_eq!(state, RawState { phase: 1, ..before });
    assert_eq!(slot(&mut state, None, Some(0), &mut store).read, Some(0));
    assert_eq!(slot(&mut state, Some((0, 13)), None, &mut store), moves_nothing([0; 3]));
    assert_eq!(slot(&mut state, None, None, &mut store).delivered, Some((0, 11)));
}

#[test]
fn c9_request_with_its_own_arrival() {
    let mut state = fresh(1, 2, 1);
    let mut store = [0; 2];
    assert_eq!(slot(&mut state, None, Some(0), &mut store), moves_nothing([0, 0, 7]));
    assert_eq!(state, RawState { phase: 1, ..fresh(1, 2, 1) });
    assert_eq!(slot(&mut state, Some((0, 9)), Some(0), &mut store), moves_nothing([0; 3]));
    assert_eq!(state.cells, [Cell::Empty, Cell::Held(0, 9)]);
    assert!(state.tail.is_empty());
}

/// Q 2, b 2, a block of each queue stored, phase 0.
fn two_blocks(cells: usize) -> (RawState, Vec<u8>) {
    let mut state = fresh(2, 2, 1);
    state.cells = vec![Cell::Empty; cells];
    state.rings = vec![Ring { first: 0, count: 1 }; 2];
    (state, vec![1, 2, 3, 4])
}

#[test]
fn c10_reads_in_the_order_of_the_cells() {
    let (mut state, mut store) = two_blocks(3);
    let calls = [Some(1), Some(0), None, None, None];
    let answers: Vec<Answer> = calls.iter().map(|&request| slot(&mut state, None, request, &mut store)).collect();
    assert!(answers.iter().all(|answer| answer.number == 0));
    assert_eq!(answers.iter().map(|answer| answer.read).collect::<Vec<_>>(), [None, Some(1), None, Some(0), None]);
    assert_eq!(answers[3].delivered, Some((1, 3)));
    assert_eq!(answers[4].delivered, Some((0, 1)));
}

#[test]
fn c10_misses_with_a_cell_fewer() {
    let (mut state, mut store) = two_blocks(2);
    let numbers: Vec<u8> =
        [Some(1), Some(0), None, None].iter().map(|&request| state.slot(2, None, request, &mut store).number).collect();
    assert_eq!(numbers, [0, 0, 0, 8]);
}

#[test]
fn c11_owed_cell_without_head_byte() {
    let mut state = fresh(1, 2, 1);
    state.rings[0].count = 1;
    state.cells = vec![Cell::Owed(0), Cell::Empty];
    let before = state.clone();
    assert_eq!(slot(&mut state, None, None, &mut [5, 6]), Answer::stopped(8));
    assert_eq!(state, before);
}

#[test]
fn c12_full_tail() {
    let mut state = fresh(1, 2, 2);
    state.tail = vec![(0, 1), (0, 2), (0, 3)];
    state.tail_mark = 3;
    let mut store = [0; 4];
    assert_eq!(slot(&mut state.clone(), Some((0, 4)), None, &mut store), Answer::stopped(9));
    // Without an arrival a full tail is no refusal.
    assert_eq!(slot(&mut state.clone(), None, None, &mut store).number, 0);
    assert_eq!(slot(&mut state, None, Some(0), &mut store).number, 0);
}

#[test]
fn c12_head_cannot_take_the_block() {
    let mut state = fresh(2, 2, 1);
    state.phase = 1;
    state.head = vec![(1, 1), (1, 2), (1, 3), (1, 4)];
    state.head_mark = 4;
    state.rings[0].count = 1;
    state.cells = vec![Cell::Empty, Cell::Empty, Cell::Owed(0)];
    // A write that would be due in the same slot must not happen either.
    state.tail = vec![(1, 8), (1, 9)];
    state.tail_mark = 2;
    let before = state.clone();
    let mut store = [20, 21, 22, 23];
    assert_eq!(slot(&mut state, None, None, &mut store), Answer::stopped(10));
    assert_eq!(state, before);
    assert_eq!(store, [20, 21, 22, 23]);
    state.tail.clear();
    assert_eq!(slot(&mut state, None, None, &mut store), Answer::stopped(10));
}

#[test]
fn refusals_come_in_the_order_of_the_paper() {
    let mut state = fresh(1, 2, 1);
    let short = &mut [0; 1];
    assert_eq!(slot(&mut state, Some((1, 0)), Some(1), short).number, 2);
    state.phase = 2;
    assert_eq!(slot(&mut state, Some((1, 0)), Some(1), short).number, 3);
    state.phase = 0;
    let long = &mut [0; 2];
    assert_eq!(slot(&mut state, Some((1, 0)), Some(1), long).number, 4);
    state.rings[0].count = 1;
    state.cells = vec![Cell::Owed(0), Cell::Owed(0)];
    assert_eq!(slot(&mut state, Some((0, 0)), Some(1), long).number, 6);
    assert_eq!(slot(&mut state, Some((0, 0)), Some(0), long).number, 8);
    assert_eq!(slot(&mut state, None, None, long).number, 8);
}

fn printed(script: &[u8]) -> String {
    let mut output = Vec::new();
    run_script(script, &mut output).expect("a vector takes all");
    String::from_utf8(output).expect("plain text")
}

/// Request 2.5: "The listing in document 01 now ends `D 9 0 67`, `E 10`, its other lines unchanged." Request 2.6: "The
/// listing gains `M 7 0 2` before its last D line."
#[test]
fn the_listing_of_the_paper() {
    let script = [
        0x10, 0x01, 0x02, 0x02, 0x03, 0x00, 0x41, 0x00, 0x01, 0x00, 0x42, 0x02, 0x00, 0x02, 0x00, 0x01, 0x00, 0x43,
        0x01, 0x00, 0x44, 0x00, 0x02, 0x00, 0x04, 0x02, 0x00, 0x05,
    ];
    assert_eq!(printed(&script), "D 2 0 65\nR 3 7\nD 4 0 66\nM 7 0 2\nD 9 0 67\nE 10\n");
}

#[test]
fn what_the_program_prints_at_the_edges() {
    assert_eq!(printed(&[]), "S 15 0\n");
    assert_eq!(printed(&[0x10, 0, 1, 1, 0x05]), "R 0 1\nE 0\n");
    assert_eq!(printed(&[0x10, 64, 1, 255, 0x05]), "E 0\n");
    assert_eq!(printed(&[0x10, 64, 32, 32, 0x05]), "E 0\n");
    assert_eq!(printed(&[0x10, 64, 32, 33, 0x05]), "R 0 2\nE 0\n");
    assert_eq!(printed(&[0x10, 0, 1, 1, 0x06]), "S 12 4\n");
    assert_eq!(printed(&[0x10, 1, 1, 1, 0x04, 0, 0, 0x04, 0, 1, 0x05]), "E 256\n");
    let mut script = vec![0x10, 1, 1, 1];
    script.resize(65_535, 0x00);
    script.push(0x05);
    assert_eq!(printed(&script), "E 65531\n");
    script.push(0x05);
    assert_eq!(printed(&script), "S 15 65536\n");
    assert_eq!(printed(&[0x99; 65_537]), "S 15 65536\n");
}

#[test]
fn script_faults() {
    let fault = |script: &[u8]| match read_script(script) {
        Ok(_) => (0, 0),
        Err(Fault { number, offset }) => (number, offset),
    };
    assert_eq!(fault(&[0x10, 1, 1, 1, 0x05]), (0, 0));
    assert_eq!(fault(&[]), (15, 0));
    assert_eq!(fault(&[0x05]), (14, 0));
    assert_eq!(fault(&[0x01]), (14, 0));
    assert_eq!(fault(&[0x11]), (12, 0));
    assert_eq!(fault(&[0x10, 1, 1]), (13, 0));
    assert_eq!(fault(&[0x10, 1, 1, 1]), (15, 4));
    assert_eq!(fault(&[0x10, 1, 1, 1, 0x10]), (14, 4));
    assert_eq!(fault(&[0x10, 1, 1, 1, 0x00, 0x04, 9]), (13, 5));
    assert_eq!(fault(&[0x10, 1, 1, 1, 0x00, 0x06]), (12, 5));
    assert_eq!(fault(&[0x10, 1, 1, 1, 0x05, 0x99]), (15, 5));
    assert_eq!(fault(&[0x10, 1, 1, 1, 0x03, 1, 2, 3]), (15, 8));
}

#[test]
fn every_command_is_read_with_its_operands() {
    assert_eq!(read_command(&[0x10, 1, 2, 3], 0), Ok((Command::Sizes(sizes(1, 2, 3)), 4)));
    assert_eq!(read_command(&[9, 0x00], 1), Ok((Command::Idle, 2)));
    assert_eq!(read_command(&[0x01, 7, 8], 0), Ok((Command::Arrival { queue: 7, byte: 8 }, 3)));
    assert_eq!(read_command(&[0x02, 7], 0), Ok((Command::Request { queue: 7 }, 2)));
    let both = Command::Both { arrival_queue: 7, byte: 8, request_queue: 9 };
    assert_eq!(read_command(&[0x03, 7, 8, 9], 0), Ok((both, 4)));
    assert_eq!(read_command(&[0x04, 1, 2], 0), Ok((Command::IdleCount(513), 3)));
    assert_eq!(read_command(&[0x05], 0), Ok((Command::End, 1)));
    assert_eq!(read_command(&[0x05], 1), Err(15));
}

/// The claim of "Lists of slots" on random lists.
#[test]
fn lists_deliver_what_was_asked() {
    let mut random = Random::new(1);
    for _ in 0..400 {
        let sizes = sizes(random.between(1, 5), random.between(1, 5), random.between(1, 3));
        let traffic = Traffic::random(&mut random);
        check_list(&mut random, sizes, callers_call(&traffic), |_| ());
    }
}

/// Many queues of these lists are full, and many halves are dropped.
fn any_traffic(random: &mut Random) -> Traffic {
    let kinds: [fn(&mut Random) -> Traffic; 3] = [Traffic::random, Traffic::of_full_queues, Traffic::of_dropped_halves];
    random.pick(&kinds)(random)
}

/// The arrival of a slot, and who asks in it.
type Call = (Option<(usize, u8)>, Asker);

/// An accepted slot of a list: whose it is, the state before it, the halves of its call that were taken, its answer.
struct Accepted<'a> {
    asker: Asker,
    before: &'a RawState,
    arrival: Option<(usize, u8)>,
    request: Option<usize>,
    answer: &'a Answer,
}

/// The caller asks in every slot.
fn callers_call(traffic: &Traffic) -> impl FnMut(&mut Random, usize, &RawState) -> Call + '_ {
    |random, index, state| {
        let (arrival, request) = traffic.call(random, index, state);
        (arrival, Asker::Caller(request))
    }
}

/// A list of 400 slots: who asks is served L slots later, in the order of arrival, both caches hold at all times that
/// the paper looks at them, and 3, 8, 9 and 10 never come. Neither do 6 and 7 where the arbiter asks, and the last one
/// asked is the one that it asked for last. 5 and 7 come where there is no room and no byte left, and nowhere else.
/// "The fixed delay then counts slots with a dropped half as accepted ones, and still concerns only requests and
/// arrivals that were taken." `accepted` is told each accepted slot.
fn check_list(
    random: &mut Random,
    sizes: Sizes,
    mut call: impl FnMut(&mut Random, usize, &RawState) -> Call,
    mut accepted: impl FnMut(&Accepted),
) {
    let cells = Design::Full.cells(sizes);
    let mut state = fresh(sizes.q, sizes.b, sizes.k);
    let mut store = random.bytes(sizes.store_size());
    let mut arrived: Vec<Vec<u8>> = vec![Vec::new(); sizes.q];
    let mut asked = vec![0; sizes.q];
    let mut due: Vec<Option<(usize, u8)>> = vec![None; cells];
    let mut last_asked = sizes.q - 1;
    for index in 0..400 {
        let before = state.clone();
        let (arrival, asker) = call(random, index, &before);
        let (answer, request) = match asker {
            Asker::Caller(request) => {
                let answer = slot(&mut state, arrival, request, &mut store);
                assert!([0, 4, 6].contains(&answer.number), "{answer:?}");
                (answer, request)
            }
            Asker::Arbiter => {
                let turn = arbiter_slot(&mut state, arrival, &mut store);
                assert!([0, 4].contains(&turn.answer.number), "{turn:?}");
                assert_eq!(turn.answer.request_number, 0, "{turn:?}");
                last_asked = turn.asked.unwrap_or(last_asked);
                (turn.answer, turn.asked)
            }
        };
        assert_eq!(state.last_asked, last_asked, "{before:?} {arrival:?}");
        if answer.number != 0 {
            assert_eq!(answer, Answer::stopped(answer.number));
            assert_eq!(state, before);
            continue;
        }
        let half_numbers = [answer.arrival_number, answer.request_number];
        assert_eq!(half_numbers, dropped(&before, arrival, request), "{before:?} {arrival:?} {request:?}");
        let arrival = arrival.filter(|_| answer.arrival_number == 0);
        let request = request.filter(|_| answer.request_number == 0);
        accepted(&Accepted { asker, before: &before, arrival, request, answer: &answer });
        if let Some((queue, byte)) = arrival {
            arrived[queue].push(byte);
        }
        due.push(request.map(|queue| {
            asked[queue] += 1;
            (queue, arrived[queue][asked[queue] - 1])
        }));
        assert_eq!(answer.delivered, due[due.len() - 1 - cells]);
        let (tail_fill, head_fill) = looked_at(&before, arrival, request, &answer, &state);
        assert!(tail_fill.max(state.tail.len()) <= sizes.tail_size(), "{before:?} {arrival:?} {request:?}");
        assert!(head_fill <= sizes.head_size(), "{before:?} {arrival:?} {request:?}");
    }
}

/// The numbers of the two halves on the lists of a state that keeps the rules, for queues below Q: 5 where there is no
/// room, and 7 where no byte is left to ask for, that of an arrival which is taken counted.
fn dropped(state: &RawState, arrival: Option<(usize, u8)>, request: Option<usize>) -> [u8; 2] {
    let swaps = is_swap(state, arrival, request);
    let arriving = arrival.map(|(queue, _)| queue);
    let taken = arriving.filter(|&queue| swaps || room(state, queue) > 0);
    let finds_a_byte = |queue: usize| unrequested(state, queue) > 0 || taken == Some(queue);
    let arrival_dropped = arriving.is_some() && taken.is_none();
    let request_dropped = request.is_some_and(|queue| !finds_a_byte(queue));
    [5 * u8::from(arrival_dropped), 7 * u8::from(request_dropped)]
}

/// The fills that the paper and request 2.8 look at, by the states around a slot and its call alone: what the tail held
/// and the arrival if it was taken, less the byte that goes before it in a swap; and what the head holds as the slot
/// ends, since nothing leaves it after the read.
fn looked_at(
    before: &RawState,
    arrival: Option<(usize, u8)>,
    request: Option<usize>,
    answer: &Answer,
    after: &RawState,
) -> (usize, usize) {
    let joined = usize::from(answer.number == 0 && answer.arrival_number == 0 && arrival.is_some());
    let gone = usize::from(answer.number == 0 && is_swap(before, arrival, request));
    (before.tail.len() + joined - gone, after.head.len())
}

/// Request 2.1 on the lists of a state that keeps the rules.
fn is_swap(state: &RawState, arrival: Option<(usize, u8)>, request: Option<usize>) -> bool {
    match (arrival, request) {
        (Some((arriving, _)), Some(asked)) => arriving == asked && asked < state.sizes.q && would_swap(state, asked),
        _ => false,
    }
}
