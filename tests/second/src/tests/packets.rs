//! Request 2.7, sentence by sentence: whole packets over the buffer, one byte in and one byte request in a slot.

use super::{fresh, moves_nothing};
use crate::buffer::Answer;
use crate::packets::{Coming, PacketAnswer, PacketByte, PacketCall, PacketNumbers, Record, MOST_BYTES};
use crate::raw::RawState;
use crate::rules::Cell;
use crate::sizes::Design;

/// A state, the record beside it, and the store.
#[derive(Clone, Debug, PartialEq, Eq)]
pub(super) struct Layer {
    pub state: RawState,
    pub record: Record,
    pub store: Vec<u8>,
}

impl Layer {
    pub fn fresh(q: usize, b: usize, k: usize) -> Layer {
        Layer { state: fresh(q, b, k), record: Record::fresh(q), store: vec![0; q * b * k] }
    }

    pub fn slot(&mut self, byte: Option<PacketByte>, request: Option<usize>) -> PacketAnswer {
        let cells = Design::Full.cells(self.state.sizes);
        self.state.packet_slot(cells, &mut self.record, PacketCall { byte, request }, &mut self.store)
    }

    /// The slot answers this stop alone, and nothing has changed.
    pub fn check_stopped(&self, byte: Option<PacketByte>, request: Option<usize>, number: u8) {
        let mut after = self.clone();
        assert_eq!(after.slot(byte, request), PacketAnswer::stopped(number), "{byte:?} {request:?}");
        assert_eq!(&after, self);
    }

    fn lists(&mut self, queue: usize, lengths: &[usize]) {
        self.record.lists[queue] = lengths.iter().copied().collect();
    }
}

pub(super) fn start(queue: usize, length: usize, value: u8) -> Option<PacketByte> {
    Some(PacketByte::Start { queue, length, value })
}

pub(super) fn next(value: u8) -> Option<PacketByte> {
    Some(PacketByte::Next { value })
}

/// An accepted slot that delivers nothing and moves no block.
fn quiet([number, arrival_number, request_number, packet_number]: PacketNumbers) -> PacketAnswer {
    PacketAnswer { answer: moves_nothing([number, arrival_number, request_number]), packet_number }
}

fn coming(queue: usize, length: usize, bytes_in: usize) -> Option<Coming> {
    Some(Coming { queue, length, bytes_in })
}

/// Q 2, b 2, K 3: two packets of queue 0, of which the second is asked for as often as can be. Their bytes leave from
/// slots 3 + 1 + L and 7 + 1 + L on, L being 3.
#[test]
fn two_packets_leave_whole() {
    let mut layer = Layer::fresh(2, 2, 3);
    let calls = [
        (start(0, 3, 65), None),
        (next(66), Some(0)),
        (next(67), Some(0)),
        (start(0, 1, 70), Some(0)),
        (None, Some(0)),
        (None, Some(0)),
        (None, Some(0)),
        (None, Some(0)),
        (None, Some(0)),
        (None, Some(0)),
        (None, Some(0)),
        (None, Some(0)),
        (None, Some(0)),
    ];
    let answers = calls.map(|(byte, request)| layer.slot(byte, request));
    assert!(answers.iter().all(|answer| answer.answer.numbers() == [0; 3]), "{answers:?}");
    assert_eq!(answers.map(|answer| answer.packet_number), [0, 7, 7, 0, 7, 7, 7, 0, 7, 7, 7, 7, 7]);
    let mut delivered = [None; 13];
    delivered[7..10].copy_from_slice(&[Some((0, 65)), Some((0, 66)), Some((0, 67))]);
    delivered[11] = Some((0, 70));
    assert_eq!(answers.map(|answer| answer.answer.delivered), delivered);
    assert_eq!(layer.record, Record::fresh(2));
}

#[test]
fn a_fresh_record_is_empty() {
    let record = Record { lists: vec![Default::default(); 3], coming: None, asked: 0, left: 0 };
    assert_eq!(Record::fresh(3), record);
    assert!(record.keeps_rules(3));
}

/// "When its last byte is in, its length enters a list [...] for its queue".
#[test]
fn a_packet_comes_in_byte_by_byte() {
    let mut layer = Layer::fresh(2, 2, 3);
    for (byte, bytes_in) in [(start(1, 4, 9), 1), (next(8), 2), (next(7), 3)] {
        assert_eq!(layer.slot(byte, None).numbers(), [0; 4]);
        assert_eq!(layer.record, Record { coming: coming(1, 4, bytes_in), ..Record::fresh(2) });
        // A slot without a byte leaves it.
        let before = layer.record.clone();
        assert_eq!(layer.slot(None, None).numbers(), [0; 4]);
        assert_eq!(layer.record, before);
    }
    assert_eq!(layer.slot(next(6), None).numbers(), [0; 4]);
    let mut whole = Record::fresh(2);
    whole.lists[1].push_back(4);
    assert_eq!(layer.record, whole);
    assert_eq!(layer.slot(None, None).answer.written, Some(1));
    assert_eq!(layer.store[6..10], [9, 8, 7, 6]);
}

#[test]
fn a_packet_of_one_byte_is_whole_with_its_start() {
    let mut layer = Layer::fresh(2, 2, 3);
    assert_eq!(layer.slot(start(1, 1, 9), Some(1)), quiet([0, 0, 0, 7]));
    assert_eq!((layer.record.coming, &layer.record.lists[1]), (None, &[1].into()));
    assert_eq!(layer.slot(start(1, 1, 8), Some(1)).numbers(), [0; 4]);
    // The oldest has gone out, and the new one has come.
    let record = Record { asked: 1, left: 1, ..layer.record.clone() };
    assert_eq!((&layer.record, &layer.record.lists[1]), (&record, &[1].into()));
}

/// "A packet request is accepted once the packet is fully in": one whose last byte comes in this slot does not stand yet.
#[test]
fn a_packet_stands_from_the_slot_after_its_last_byte() {
    let mut layer = Layer::fresh(1, 4, 2);
    assert_eq!(layer.slot(start(0, 2, 1), Some(0)), quiet([0, 0, 0, 7]));
    assert_eq!(layer.slot(next(2), Some(0)), quiet([0, 0, 0, 7]));
    assert_eq!(layer.slot(None, Some(0)), quiet([0; 4]));
    assert_eq!((layer.record.asked, layer.record.left), (0, 2));
}

/// "An accepted request takes it out", the oldest first; and "its byte requests begin" one slot later.
#[test]
fn a_request_takes_the_oldest_length() {
    let mut layer = Layer::fresh(2, 8, 3);
    layer.lists(1, &[3, 5, 2]);
    assert_eq!(layer.slot(None, Some(1)), quiet([0; 4]));
    let mut expected = Record { asked: 1, left: 3, ..Record::fresh(2) };
    expected.lists[1] = [5, 2].into();
    assert_eq!(layer.record, expected);
    assert!(layer.state.cells.iter().all(|&cell| cell == Cell::Empty));
}

/// A packet of two bytes in the tail: "It becomes one byte request in each of the following accepted slots, with no
/// other request between."
#[test]
fn byte_requests_follow_one_in_a_slot() {
    let mut layer = Layer::fresh(2, 4, 2);
    layer.state.tail = vec![(1, 5), (0, 9), (1, 6)];
    layer.state.tail_mark = 3;
    layer.lists(0, &[1]);
    layer.lists(1, &[2]);
    assert_eq!(layer.slot(None, Some(1)).numbers(), [0; 4]);
    for (left, value) in [(1, 5), (0, 6)] {
        // This slot still makes a byte request, so that the other queue waits.
        assert_eq!(layer.slot(None, Some(0)).numbers(), [0, 0, 0, 7]);
        assert_eq!(layer.state.cells.last(), Some(&Cell::Held(1, value)));
        assert_eq!((layer.record.asked, layer.record.left), (1, left));
    }
    assert_eq!(layer.slot(None, Some(0)).numbers(), [0; 4]);
    assert_eq!(layer.state.cells.last(), Some(&Cell::Empty));
    assert_eq!((layer.record.asked, layer.record.left), (0, 1));
    assert_eq!(layer.slot(None, None).numbers(), [0; 4]);
    assert_eq!(layer.state.cells.last(), Some(&Cell::Held(0, 9)));
    assert_eq!(layer.record, Record::fresh(2));
}

/// A stopped slot is no accepted one, and the byte requests wait.
#[test]
fn a_stopped_slot_leaves_the_byte_requests() {
    let mut layer = Layer::fresh(1, 2, 2);
    layer.state.tail = vec![(0, 5)];
    layer.state.tail_mark = 1;
    layer.record.left = 1;
    layer.check_stopped(next(9), None, 20);
    assert_eq!(layer.slot(None, None).numbers(), [0; 4]);
    assert_eq!((layer.record.left, layer.state.cells.last()), (0, Some(&Cell::Held(0, 5))));
}

#[test]
fn a_start_of_an_unknown_queue_answers_4() {
    let mut layer = Layer::fresh(2, 2, 3);
    layer.record.coming = coming(0, 3, 1);
    for queue in [2, 3, 255, 65_535] {
        for length in [0, 1, 100, MOST_BYTES + 1] {
            layer.check_stopped(start(queue, length, 9), Some(2), 4);
        }
    }
}

#[test]
fn a_length_out_of_range_answers_20() {
    let mut layer = Layer::fresh(2, 2, 3);
    for beside in [None, coming(0, 3, 1)] {
        layer.record.coming = beside;
        for length in [0, MOST_BYTES + 1, 65_535] {
            layer.check_stopped(start(0, length, 9), Some(2), 20);
        }
    }
    // The longest is in range, and there is no room for it.
    layer.record.coming = None;
    layer.check_stopped(start(0, MOST_BYTES, 9), Some(2), 22);
}

#[test]
fn a_next_byte_without_a_packet_answers_20() {
    let mut layer = Layer::fresh(2, 2, 3);
    layer.check_stopped(next(9), None, 20);
    layer.check_stopped(next(9), Some(2), 20);
    layer.lists(0, &[3]);
    layer.check_stopped(next(9), Some(0), 20);
}

#[test]
fn a_start_beside_a_packet_coming_in_answers_21() {
    let mut layer = Layer::fresh(2, 2, 3);
    assert_eq!(layer.slot(start(0, 3, 65), None).numbers(), [0; 4]);
    for queue in [0, 1] {
        layer.check_stopped(start(queue, 2, 9), None, 21);
        // 21 comes before 22 and 6.
        layer.check_stopped(start(queue, 100, 9), Some(2), 21);
    }
}

/// Also where this slot's request would take a length out of the list.
#[test]
fn a_start_beside_a_full_list_answers_21() {
    let mut layer = Layer::fresh(2, 2, 3);
    layer.lists(0, &[1; 32]);
    layer.check_stopped(start(0, 1, 9), None, 21);
    layer.check_stopped(start(0, 1, 9), Some(0), 21);
    layer.check_stopped(start(0, 100, 9), Some(0), 21);
    assert_eq!(layer.clone().slot(start(1, 1, 9), Some(0)).numbers(), [0; 4]);
    assert_eq!(layer.slot(None, Some(0)).numbers(), [0; 4]);
    assert_eq!(layer.slot(start(0, 1, 9), None).numbers()[0], 0);
    assert_eq!(layer.record.lists[0].len(), 32);
}

/// Four bytes of queue 0 in tail and store, of the six that it may have: "K × b less tail bytes and b × blocks".
#[test]
fn a_start_without_enough_free_store_answers_22() {
    for blocks in [0, 1, 2] {
        let mut layer = Layer::fresh(2, 2, 3);
        layer.state.rings[0].count = blocks;
        layer.state.tail = vec![(0, 7); 4 - 2 * blocks];
        layer.state.tail_mark = 4;
        // What is in the head or in a cell takes no store.
        layer.state.head = vec![(0, 1)];
        layer.state.head_mark = 1;
        layer.state.cells[1] = Cell::Held(0, 9);
        layer.check_stopped(start(0, 3, 9), None, 22);
        layer.check_stopped(start(0, 3, 9), Some(2), 22);
        layer.check_stopped(start(1, 7, 9), None, 22);
        if blocks == 0 {
            // 9 comes after 22.
            layer.check_stopped(start(0, 2, 9), None, 9);
            continue;
        }
        assert_eq!(layer.clone().slot(start(1, 6, 9), None).numbers(), [0; 4]);
        assert_eq!(layer.slot(start(0, 2, 9), None).numbers(), [0; 4]);
        assert_eq!(layer.record.coming, coming(0, 2, 1));
    }
}

/// It stops the slot, also where that request would get 7.
#[test]
fn a_packet_request_of_an_unknown_queue_answers_6() {
    let mut layer = Layer::fresh(2, 2, 3);
    for left in [0, 1] {
        layer.record.left = left;
        for queue in [2, 3, 255, 65_535] {
            layer.check_stopped(None, Some(queue), 6);
            layer.check_stopped(start(0, 1, 9), Some(queue), 6);
        }
    }
}

/// Q 2, b 2, K 1: the stored block fills queue 0, and a packet of it is coming in.
fn full_queue() -> Layer {
    let mut layer = Layer::fresh(2, 2, 1);
    layer.state.rings[0].count = 1;
    layer.record.coming = coming(0, 3, 2);
    layer
}

/// "A byte or byte request that 5 or 7 drops is not counted in the record."
#[test]
fn a_dropped_byte_is_not_counted() {
    let before = full_queue();
    let mut layer = before.clone();
    assert_eq!(layer.slot(next(9), None), quiet([0, 5, 0, 0]));
    assert_eq!(layer.record, before.record);
    assert_eq!(layer.state, RawState { phase: 1, ..before.state.clone() });
    // 6 comes where 5 would.
    before.check_stopped(next(9), Some(2), 6);
    // With room the same byte makes the packet whole.
    let mut roomy = before;
    roomy.state.rings[0].count = 0;
    assert_eq!(roomy.slot(next(9), None), quiet([0; 4]));
    assert_eq!((roomy.record.coming, &roomy.record.lists[0]), (None, &[3].into()));
}

#[test]
fn a_dropped_byte_request_is_not_counted() {
    let mut layer = Layer::fresh(2, 2, 3);
    layer.record.asked = 1;
    layer.record.left = 2;
    let record = layer.record.clone();
    assert_eq!(layer.slot(None, None), quiet([0, 0, 7, 0]));
    assert_eq!(layer.record, record);
    // The slot's own byte feeds it.
    assert_eq!(layer.slot(start(1, 2, 9), None).numbers(), [0; 4]);
    let record = Record { coming: coming(1, 2, 1), left: 1, ..record };
    assert_eq!(layer.record, record);
}

/// Two sevens may come in one slot, and each says whose it is.
#[test]
fn both_sevens_in_one_slot() {
    let mut layer = Layer::fresh(2, 2, 3);
    layer.record.left = 1;
    layer.lists(1, &[2]);
    let before = layer.record.clone();
    for request in [Some(0), Some(1)] {
        assert_eq!(layer.slot(None, request).numbers(), [0, 0, 7, 7]);
        assert_eq!(layer.record, before);
    }
    // The packet request's alone, and the byte request's alone.
    layer.state.tail = vec![(0, 5)];
    layer.state.tail_mark = 1;
    assert_eq!(layer.clone().slot(None, Some(1)).numbers(), [0, 0, 0, 7]);
    layer.state.tail = vec![(1, 5)];
    assert_eq!(layer.slot(None, None).numbers(), [0, 0, 7, 0]);
}

/// "That 7 drops the packet request only": the byte and the byte request are taken beside it.
#[test]
fn a_dropped_packet_request_leaves_the_rest() {
    let mut layer = Layer::fresh(2, 2, 3);
    layer.record = Record { coming: coming(0, 3, 1), left: 2, ..Record::fresh(2) };
    assert_eq!(layer.slot(next(9), Some(1)), quiet([0, 0, 0, 7]));
    assert_eq!(layer.record, Record { coming: coming(0, 3, 2), left: 1, ..Record::fresh(2) });
    assert_eq!(layer.state.cells.last(), Some(&Cell::Held(0, 9)));
}

/// All three halves of a slot dropped, and it goes on.
#[test]
fn all_that_can_be_dropped_in_one_slot() {
    let mut layer = full_queue();
    layer.state.cells[0] = Cell::Held(1, 4);
    layer.record.asked = 1;
    layer.record.left = 1;
    let before = layer.clone();
    let answer = Answer { delivered: Some((1, 4)), ..moves_nothing([0, 5, 7]) };
    assert_eq!(layer.slot(next(9), Some(0)), PacketAnswer { answer, packet_number: 7 });
    let state = RawState { phase: 1, cells: vec![Cell::Empty; 3], ..before.state };
    assert_eq!(layer, Layer { state, ..before });
}

/// Request 2.1 in the layer: the byte request takes an old byte before the packet's next byte comes in.
#[test]
fn a_next_byte_swaps_in_a_full_queue() {
    let mut layer = Layer::fresh(2, 2, 1);
    layer.state.tail = vec![(0, 5), (0, 6)];
    layer.state.tail_mark = 2;
    layer.record = Record { coming: coming(0, 3, 1), left: 2, ..Record::fresh(2) };
    assert_eq!(layer.slot(next(9), None), quiet([0; 4]));
    assert_eq!((layer.state.tail, layer.state.cells.last()), (vec![(0, 6), (0, 9)], Some(&Cell::Held(0, 5))));
    assert_eq!(layer.record, Record { coming: coming(0, 3, 2), left: 1, ..Record::fresh(2) });
}

/// 8, 9 and 10 come last, hide every drop, and leave the record too.
#[test]
fn a_miss_stops_the_slot() {
    let mut layer = full_queue();
    layer.state.cells = vec![Cell::Owed(0), Cell::Empty, Cell::Empty];
    layer.record.asked = 1;
    layer.record.left = 1;
    layer.lists(1, &[2]);
    for (byte, request) in [(None, None), (next(9), None), (next(9), Some(1)), (None, Some(0))] {
        layer.check_stopped(byte, request, 8);
    }
}

#[test]
fn a_full_tail_stops_the_slot() {
    let mut layer = Layer::fresh(1, 2, 2);
    layer.state.tail = vec![(0, 1), (0, 2), (0, 3)];
    layer.state.tail_mark = 3;
    layer.lists(0, &[3]);
    layer.check_stopped(start(0, 1, 9), None, 9);
    layer.check_stopped(start(0, 1, 9), Some(0), 9);
    layer.record.coming = coming(0, 9, 8);
    layer.check_stopped(next(9), Some(0), 9);
    // Without a byte a full tail is no refusal.
    assert_eq!(layer.slot(None, Some(0)).numbers(), [0; 4]);
}

#[test]
fn a_read_without_room_stops_the_slot() {
    let mut layer = Layer::fresh(2, 2, 1);
    layer.state.phase = 1;
    layer.state.head = vec![(1, 1); 4];
    layer.state.head_mark = 4;
    layer.state.rings[0].count = 1;
    layer.state.cells[2] = Cell::Owed(0);
    layer.lists(1, &[4]);
    layer.check_stopped(None, None, 10);
    layer.check_stopped(start(1, 1, 9), Some(1), 10);
    // The byte request's cell is looked at, too: nothing was owed before it.
    layer.state.cells[2] = Cell::Empty;
    layer.record.left = 1;
    layer.check_stopped(None, None, 10);
    layer.record.left = 0;
    assert_eq!(layer.slot(None, Some(1)).numbers(), [0; 4]);
}
