//! Request 2.7 as someone sees it who keeps the packets themselves: what the slots of a run answer and deliver, from a
//! fresh state and record. Here is no record, and of the buffer there is only the delay and the free store of a queue.

use std::collections::VecDeque;

use crate::packets::{PacketAnswer, PacketByte, PacketCall, MOST_BYTES, MOST_LISTED};
use crate::sizes::{Design, Sizes};

/// A packet that is coming in.
struct Growing {
    queue: usize,
    length: usize,
    bytes: Vec<u8>,
}

/// A byte of a packet that was asked for, and the accepted slot in which it leaves.
struct Due {
    slot: usize,
    queue: usize,
    value: u8,
    /// Of the packet, where this is its last byte.
    length: Option<usize>,
}

/// How many packets of a run did what.
#[derive(Clone, Copy, Debug, Default)]
pub struct Came {
    /// Became whole while another one of their queue stood; .. and filled its list with that.
    pub behind_another: usize,
    pub full_lists: usize,
    pub asked: usize,
    /// Left with their last byte; .. of one byte, of as many as a queue has store, of the most that a packet may have.
    pub left: usize,
    pub left_of_one: usize,
    pub left_of_a_whole_queue: usize,
    pub left_of_the_most: usize,
}

impl Came {
    pub fn add(&mut self, other: Came) {
        self.behind_another += other.behind_another;
        self.full_lists += other.full_lists;
        self.asked += other.asked;
        self.left += other.left;
        self.left_of_one += other.left_of_one;
        self.left_of_a_whole_queue += other.left_of_a_whole_queue;
        self.left_of_the_most += other.left_of_the_most;
    }
}

pub struct WholePackets {
    sizes: Sizes,
    /// By queue, the whole packets that nobody has asked for, oldest first.
    standing: Vec<VecDeque<Vec<u8>>>,
    growing: Option<Growing>,
    due: VecDeque<Due>,
    /// Accepted slots so far, and the first that no longer makes a byte request of a packet that was asked for.
    slots: usize,
    free_from: usize,
    came: Came,
}

/// What the slot is to answer, all but the blocks that it moves.
#[derive(Clone, Copy, Debug, PartialEq, Eq)]
pub struct Foreseen {
    pub number: u8,
    pub packet_number: u8,
    pub delivered: Option<(usize, u8)>,
}

impl Foreseen {
    fn stopped(number: u8) -> Foreseen {
        Foreseen { number, packet_number: 0, delivered: None }
    }

    /// 5 and the 7 of a byte request never come.
    pub fn is_of(&self, found: &PacketAnswer) -> bool {
        found.numbers() == [self.number, 0, 0, self.packet_number] && found.answer.delivered == self.delivered
    }
}

impl WholePackets {
    pub fn new(sizes: Sizes) -> WholePackets {
        WholePackets {
            sizes,
            standing: vec![VecDeque::new(); sizes.q],
            growing: None,
            due: VecDeque::new(),
            slots: 0,
            free_from: 0,
            came: Came::default(),
        }
    }

    pub fn came(&self) -> Came {
        self.came
    }

    /// The lengths of the whole packets of a queue that nobody has asked for, oldest first.
    pub fn standing(&self, queue: usize) -> Vec<usize> {
        self.standing[queue].iter().map(Vec::len).collect()
    }

    /// Whether every byte that was asked for has left.
    pub fn is_done(&self) -> bool {
        self.due.is_empty()
    }

    /// The next slot of the run. `room` tells the free store of a queue before it.
    pub fn slot(&mut self, call: PacketCall, room: impl Fn(usize) -> usize) -> Foreseen {
        if let Some(number) = self.stop(call, room) {
            return Foreseen::stopped(number);
        }
        let packet = call.request.and_then(|queue| self.packet_for(queue));
        let packet_dropped = call.request.is_some() && packet.is_none();
        if let Some(byte) = call.byte {
            self.grow(byte);
        }
        if let (Some(queue), Some(packet)) = (call.request, packet) {
            self.leaves_later(queue, packet);
        }
        let delivered = self.leaves_now();
        self.slots += 1;
        Foreseen { number: 0, packet_number: if packet_dropped { 7 } else { 0 }, delivered }
    }

    fn stop(&self, call: PacketCall, room: impl Fn(usize) -> usize) -> Option<u8> {
        match call.byte {
            Some(PacketByte::Start { queue, .. }) if queue >= self.sizes.q => return Some(4),
            Some(PacketByte::Start { length, .. }) if length == 0 || length > MOST_BYTES => return Some(20),
            Some(PacketByte::Start { .. }) if self.growing.is_some() => return Some(21),
            Some(PacketByte::Start { queue, .. }) if self.standing[queue].len() == MOST_LISTED => return Some(21),
            Some(PacketByte::Start { queue, length, .. }) if room(queue) < length => return Some(22),
            Some(PacketByte::Next { .. }) if self.growing.is_none() => return Some(20),
            _ => {}
        }
        call.request.filter(|&queue| queue >= self.sizes.q).map(|_| 6)
    }

    /// The packet that a request is to get, where it gets one.
    fn packet_for(&mut self, queue: usize) -> Option<Vec<u8>> {
        if self.slots < self.free_from {
            return None;
        }
        self.standing[queue].pop_front()
    }

    fn grow(&mut self, byte: PacketByte) {
        let mut growing = match byte {
            PacketByte::Start { queue, length, .. } => Growing { queue, length, bytes: Vec::new() },
            PacketByte::Next { .. } => self.growing.take().expect("20 was judged"),
        };
        let (PacketByte::Start { value, .. } | PacketByte::Next { value }) = byte;
        growing.bytes.push(value);
        if growing.bytes.len() < growing.length {
            self.growing = Some(growing);
            return;
        }
        let list = &mut self.standing[growing.queue];
        self.came.behind_another += usize::from(!list.is_empty());
        list.push_back(growing.bytes);
        self.came.full_lists += usize::from(list.len() == MOST_LISTED);
    }

    /// A packet of n bytes that is asked for in slot t leaves in slots t + 1 + L to t + n + L.
    fn leaves_later(&mut self, queue: usize, packet: Vec<u8>) {
        let length = packet.len();
        let lookahead = Design::Full.cells(self.sizes);
        self.came.asked += 1;
        self.free_from = self.slots + 1 + length;
        self.due.extend(packet.into_iter().zip(1..).map(|(value, number)| Due {
            slot: self.slots + number + lookahead,
            queue,
            value,
            length: (number == length).then_some(length),
        }));
    }

    fn leaves_now(&mut self) -> Option<(usize, u8)> {
        if self.due.front()?.slot != self.slots {
            return None;
        }
        let due = self.due.pop_front()?;
        if let Some(length) = due.length {
            self.came.left += 1;
            self.came.left_of_one += usize::from(length == 1);
            self.came.left_of_a_whole_queue += usize::from(length == self.sizes.k * self.sizes.b);
            self.came.left_of_the_most += usize::from(length == MOST_BYTES);
        }
        Some((due.queue, due.value))
    }
}
