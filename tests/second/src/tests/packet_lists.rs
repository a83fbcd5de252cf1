//! Request 2.7: "in a run from a fresh state and record, its bytes leave in as many successive accepted slots, whole and
//! in order, if it lasts that long"; and from any state the layer's slot is the buffer's with a byte and a byte request.

use std::collections::BTreeMap;

use super::packets::Layer;
use super::{sizes, slot};
use crate::arbiter_cases::leaning_state;
use crate::lists::room;
use crate::packet_traffic::{Lengths, PacketTraffic};
use crate::packets::{Coming, PacketByte, PacketCall, PacketNumbers, Record, MOST_BYTES};
use crate::random::Random;
use crate::random_record::{random_packet_call, random_record, ANSWERS};
use crate::sizes::{Design, Sizes};
use crate::whole_packets::{Came, WholePackets};

/// How often each answer came.
type Met = BTreeMap<PacketNumbers, usize>;

/// A list of so many slots, and then idle ones until all that was asked for has left: who keeps the packets themselves
/// foresees every answer, so that 5 and the 7 of a byte request never come.
fn check_list(random: &mut Random, sizes: Sizes, traffic: &PacketTraffic, slots: usize, met: &mut Met) -> Came {
    let mut layer = Layer::fresh(sizes.q, sizes.b, sizes.k);
    layer.store = random.bytes(sizes.store_size());
    let mut packets = WholePackets::new(sizes);
    let mut index = 0;
    while index < slots || !packets.is_done() {
        let call =
            if index < slots { traffic.call(random, index, &layer.state, &layer.record) } else { Default::default() };
        let before = layer.clone();
        let foreseen = packets.slot(call, |queue| room(&before.state, queue));
        let answer = layer.slot(call.byte, call.request);
        assert!(foreseen.is_of(&answer), "{call:?} {answer:?} {foreseen:?} {before:?}");
        if answer.answer.number != 0 {
            assert_eq!(layer, before);
        }
        for (queue, list) in layer.record.lists.iter().enumerate() {
            assert_eq!(list, &packets.standing(queue));
        }
        *met.entry(answer.numbers()).or_default() += 1;
        index += 1;
    }
    packets.came()
}

#[test]
fn packets_leave_whole_and_in_order() {
    let mut random = Random::new(27);
    let mut met = Met::new();
    let mut came = Came::default();
    for _ in 0..3_000 {
        let sizes = sizes(random.between(1, 5), random.between(1, 5), random.between(1, 4));
        let traffic = PacketTraffic::random(&mut random);
        came.add(check_list(&mut random, sizes, &traffic, 150, &mut met));
    }
    assert!(came.left >= 20_000 && came.left == came.asked, "{came:?}");
    assert!(came.behind_another >= 1_000 && came.left_of_one >= 1_000, "{came:?}");
    assert!(came.left_of_a_whole_queue >= 1_000, "{came:?}");
    let numbers: Vec<PacketNumbers> = met.keys().copied().collect();
    let stops = [4, 6, 20, 21, 22].map(|number| [number, 0, 0, 0]);
    assert_eq!(numbers, [&[[0, 0, 0, 0], [0, 0, 0, 7]], &stops[..]].concat());
    assert!(met.values().all(|&count| count >= 1_000), "{met:?}");
}

/// 32 packets of one byte stand in a queue, and the next start is refused.
#[test]
fn lists_become_full() {
    let mut random = Random::new(27);
    let mut met = Met::new();
    let mut came = Came::default();
    for _ in 0..300 {
        let sizes = sizes(random.between(1, 3), random.between(2, 5), random.between(17, 25));
        let traffic = PacketTraffic::of_long_lists(&mut random);
        came.add(check_list(&mut random, sizes, &traffic, 200, &mut met));
    }
    assert!(came.full_lists >= 200 && came.left >= 5_000 && came.left_of_one == came.left, "{came:?}");
    assert!(met.get(&[21, 0, 0, 0]) >= Some(&1_000), "{met:?}");
}

/// The longest packets, in queues that have just room for one, and for some.
#[test]
fn the_longest_packets_leave_whole() {
    let mut random = Random::new(27);
    let mut met = Met::new();
    let mut came = Came::default();
    for (q, b, k) in [(1, 56, 161), (2, 98, 92), (1, 128, 255)] {
        let traffic = PacketTraffic { lengths: Lengths::All, ..PacketTraffic::patient() };
        came.add(check_list(&mut random, sizes(q, b, k), &traffic, 3 * MOST_BYTES, &mut met));
    }
    assert!(came.left_of_the_most >= 4 && came.left_of_a_whole_queue >= 1, "{came:?}");
}

/// Where nothing of the layer stops the slot, it is the buffer's own, with the packet's byte and the byte request.
#[test]
fn from_any_state_the_slot_is_that_of_its_bytes() {
    let mut random = Random::new(27);
    let mut met = Met::new();
    let mut swaps = 0;
    for _ in 0..60_000 {
        let sizes = sizes(random.between(1, 4), random.between(1, 4), random.between(1, 3));
        let goal = random.pick(&ANSWERS);
        let state = leaning_state(&mut random, sizes, Design::Full.cells(sizes), [goal[0], goal[1], goal[2]]);
        let record = random_record(&mut random, sizes);
        let short = usize::from(goal[0] == 2 && random.percent(50));
        let store = random.bytes(sizes.store_size() - short);
        let before = Layer { state, record, store };
        let trouble = if goal[0] == 0 { 0 } else { 20 };
        let free = |queue| room(&before.state, queue);
        let call = random_packet_call(&mut random, sizes, &before.record, free, trouble);

        let mut after = before.clone();
        let answer = after.slot(call.byte, call.request);
        *met.entry(answer.numbers()).or_default() += 1;
        let [number, arrival_number, request_number, packet_number] = answer.numbers();
        if number != 0 {
            assert_eq!(after, before);
        }
        if [2, 4, 6, 20, 21, 22].contains(&number) {
            continue;
        }
        let mut plain = before.clone();
        let arrival = arrival(&before.record, call.byte);
        let request = if before.record.left > 0 { Some(before.record.asked) } else { None };
        assert_eq!(answer.answer, slot(&mut plain.state, arrival, request, &mut plain.store));
        assert_eq!((&after.state, &after.store), (&plain.state, &plain.store));
        if number == 0 {
            let taken = call.byte.filter(|_| arrival_number == 0);
            let made = request.is_some() && request_number == 0;
            let asked = call.request.filter(|_| packet_number == 0);
            assert_eq!(after.record, record_after(&before.record, taken, made, asked), "{before:?} {call:?}");
            assert_eq!(packet_number == 7, packet_waits(&before.record, call), "{before:?} {call:?}");
            swaps += usize::from(super::is_swap(&before.state, arrival, request));
        }
    }
    let least = ANSWERS.iter().map(|numbers| met.get(numbers).copied().unwrap_or(0)).min();
    assert_eq!(met.len(), ANSWERS.len(), "{met:?}");
    assert!(least >= Some(50) && swaps >= 50, "{met:?}, {swaps} swaps");
}

fn arrival(record: &Record, byte: Option<PacketByte>) -> Option<(usize, u8)> {
    match (byte, record.coming) {
        (Some(PacketByte::Start { queue, value, .. }), _) => Some((queue, value)),
        (Some(PacketByte::Next { value }), Some(Coming { queue, .. })) => Some((queue, value)),
        _ => None,
    }
}

fn packet_waits(record: &Record, call: PacketCall) -> bool {
    call.request.is_some_and(|queue| record.left > 0 || record.lists[queue].is_empty())
}

/// The record with what a slot took: its byte, its byte request, its packet request.
fn record_after(before: &Record, taken: Option<PacketByte>, made: bool, asked: Option<usize>) -> Record {
    let mut after = Record { left: before.left - usize::from(made), ..before.clone() };
    let grown = match (taken, before.coming) {
        (Some(PacketByte::Start { queue, length, .. }), _) => Some(Coming { queue, length, bytes_in: 1 }),
        (Some(_), Some(coming)) => Some(Coming { bytes_in: coming.bytes_in + 1, ..coming }),
        (_, coming) => coming,
    };
    after.coming = grown.filter(|coming| coming.bytes_in < coming.length);
    if let (Some(Coming { queue, length, .. }), None) = (grown, after.coming) {
        after.lists[queue].push_back(length);
    }
    if let Some(queue) = asked {
        after.asked = queue;
        after.left = before.lists[queue][0];
        after.lists[queue].pop_front();
    }
    after
}
