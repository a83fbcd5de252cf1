//! Request 2.7: the layer of whole packets. It keeps the lengths of packets beside the buffer, and turns each packet
//! that is asked for into byte requests, one in a slot.

use std::collections::VecDeque;

use crate::buffer::{Answer, Buffer};
use crate::raw::RawState;

/// "A packet has 1 to 9,016 bytes, and when its last byte is in, its length enters a list of at most 32 for its queue".
pub const MOST_BYTES: usize = 9_016;
pub const MOST_LISTED: usize = 32;

/// "One packet comes in at a time, at most one byte in a slot: its start brings queue, length and first byte, later
/// slots a next byte."
#[derive(Clone, Copy, Debug, PartialEq, Eq)]
pub enum PacketByte {
    Start { queue: usize, length: usize, value: u8 },
    Next { value: u8 },
}

/// What a slot of the layer is asked: a byte that comes in, and the queue whose oldest packet is to leave.
#[derive(Clone, Copy, Debug, Default, PartialEq, Eq)]
pub struct PacketCall {
    pub byte: Option<PacketByte>,
    pub request: Option<usize>,
}

/// The packet that is coming in, and how many of its bytes are in.
#[derive(Clone, Copy, Debug, PartialEq, Eq)]
pub struct Coming {
    pub queue: usize,
    pub length: usize,
    pub bytes_in: usize,
}

/// The layer's own record, which goes beside the state. A record that is handed in may hold any numbers, and need not
/// fit the bytes of the state beside it.
#[derive(Clone, Debug, PartialEq, Eq)]
pub struct Record {
    /// By queue, the lengths of the whole packets that are not asked for yet, oldest first.
    pub lists: Vec<VecDeque<usize>>,
    pub coming: Option<Coming>,
    /// The queue of the packet that was asked for last, and how many of its byte requests are left.
    pub asked: usize,
    pub left: usize,
}

/// What a slot of the layer hands back. The arrival of its answer is the packet's byte, and the request the byte request
/// of a packet that was asked for earlier: its 7 is not the packet request's.
#[derive(Clone, Copy, Debug, PartialEq, Eq)]
pub struct PacketAnswer {
    pub answer: Answer,
    /// 7 where the packet request is dropped.
    pub packet_number: u8,
}

/// The number of a slot, of its byte, of its byte request and of its packet request.
pub type PacketNumbers = [u8; 4];

impl PacketAnswer {
    pub fn stopped(number: u8) -> PacketAnswer {
        PacketAnswer { answer: Answer::stopped(number), packet_number: 0 }
    }

    pub fn numbers(&self) -> PacketNumbers {
        let [slot, byte, byte_request] = self.answer.numbers();
        [slot, byte, byte_request, self.packet_number]
    }
}

impl Record {
    pub fn fresh(queues: usize) -> Record {
        Record { lists: vec![VecDeque::new(); queues], coming: None, asked: 0, left: 0 }
    }

    /// The queue and the value that a packet's byte brings to the buffer. A next byte without a packet has no queue.
    pub fn arrival(&self, byte: Option<PacketByte>) -> Option<(usize, u8)> {
        match byte? {
            PacketByte::Start { queue, value, .. } => Some((queue, value)),
            PacketByte::Next { value } => self.coming.map(|coming| (coming.queue, value)),
        }
    }

    /// "It becomes one byte request in each of the following accepted slots, with no other request between."
    pub fn byte_request(&self) -> Option<usize> {
        (self.left > 0).then_some(self.asked)
    }

    /// "A packet request answers 7 where no whole packet stood before the slot, or this slot still makes a byte request
    /// of an earlier one." For a queue below Q.
    fn drops_packet_request(&self, queue: usize) -> bool {
        self.lists[queue].is_empty() || self.byte_request().is_some()
    }

    /// "An accepted request takes it out": the oldest length.
    fn ask_for_oldest(&mut self, queue: usize) {
        self.left = self.lists[queue].pop_front().expect("7 was judged");
        self.asked = queue;
    }

    /// A packet of one byte is whole with its start.
    fn count_byte(&mut self, byte: PacketByte) {
        let coming = match byte {
            PacketByte::Start { queue, length, .. } => Coming { queue, length, bytes_in: 1 },
            PacketByte::Next { .. } => {
                let coming = self.coming.expect("20 was judged");
                Coming { bytes_in: coming.bytes_in + 1, ..coming }
            }
        };
        if coming.bytes_in < coming.length {
            self.coming = Some(coming);
        } else {
            self.coming = None;
            self.lists[coming.queue].push_back(coming.length);
        }
    }
}

impl Buffer {
    /// One slot of the layer. Stopped: neither the state, nor the record, nor the store has changed.
    pub fn packet_slot(
        &mut self,
        expected_cells: usize,
        record: &mut Record,
        call: PacketCall,
        store: &mut [u8],
    ) -> PacketAnswer {
        if let Some(number) = self.stop_by_packets(expected_cells, record, call, store.len()) {
            return PacketAnswer::stopped(number);
        }
        let byte_request = record.byte_request();
        let packet_dropped = call.request.is_some_and(|queue| record.drops_packet_request(queue));
        let answer = self.slot(expected_cells, record.arrival(call.byte), byte_request, store);
        if answer.number != 0 {
            return PacketAnswer::stopped(answer.number);
        }

        // "A byte or byte request that 5 or 7 drops is not counted in the record."
        if byte_request.is_some() && answer.request_number == 0 {
            record.left -= 1;
        }
        // Before the byte: what it makes whole did not stand before the slot.
        if let Some(queue) = call.request.filter(|_| !packet_dropped) {
            record.ask_for_oldest(queue);
        }
        if let Some(byte) = call.byte.filter(|_| answer.arrival_number == 0) {
            record.count_byte(byte);
        }
        PacketAnswer { answer, packet_number: if packet_dropped { 7 } else { 0 } }
    }

    /// The refusals that the byte's slot does not judge, or judges with 5 before them: 3, 2, 4, 20, 21, 22, and the 6 of
    /// a packet request, which comes also where that request would get 7.
    fn stop_by_packets(
        &self,
        expected_cells: usize,
        record: &Record,
        call: PacketCall,
        store_length: usize,
    ) -> Option<u8> {
        let of_state = self.refusal_of_state(expected_cells, store_length);
        if of_state == Some(3) || !record.keeps_rules(self.sizes.q) {
            return Some(3);
        }
        if of_state.is_some() {
            return of_state;
        }
        let of_byte = call.byte.and_then(|byte| self.refusal_of_byte(record, byte));
        if of_byte.is_some() {
            return of_byte;
        }
        if call.request.is_some_and(|queue| queue >= self.sizes.q) {
            return Some(6);
        }
        None
    }

    /// "Answers: 20, length outside the range, or a next byte with no packet coming in; 21, at a start, the list holds 32
    /// or another packet is still coming in; 22, at a start, the queue's free store, K × b less tail bytes and b × blocks,
    /// is below the length. They are judged as the slot begins, in that order, after 4".
    fn refusal_of_byte(&self, record: &Record, byte: PacketByte) -> Option<u8> {
        let PacketByte::Start { queue, length, .. } = byte else {
            return if record.coming.is_none() { Some(20) } else { None };
        };
        if queue >= self.sizes.q {
            return Some(4);
        }
        if !(1..=MOST_BYTES).contains(&length) {
            return Some(20);
        }
        if record.coming.is_some() || record.lists[queue].len() == MOST_LISTED {
            return Some(21);
        }
        if self.room(queue) < length {
            return Some(22);
        }
        None
    }
}

impl RawState {
    /// One slot of the layer on a state that may break any rule.
    pub fn packet_slot(
        &mut self,
        expected_cells: usize,
        record: &mut Record,
        call: PacketCall,
        store: &mut [u8],
    ) -> PacketAnswer {
        self.in_queues(expected_cells, |buffer| buffer.packet_slot(expected_cells, record, call, store))
            .unwrap_or(PacketAnswer::stopped(3))
    }
}
