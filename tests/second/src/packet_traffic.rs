//! What the slots of the packet layer (request 2.7) are asked in random runs from a fresh state and record.

use crate::lists::room;
use crate::packets::{PacketByte, PacketCall, Record, MOST_BYTES, MOST_LISTED};
use crate::random::Random;
use crate::raw::RawState;
use crate::sizes::Sizes;

/// How long packets are.
#[derive(Clone, Copy, Debug, PartialEq, Eq)]
pub enum Lengths {
    /// One byte each, so that lists become long.
    One,
    Few,
    /// Whatever there is room for.
    Any,
    /// As many bytes as there is room for, which in an empty queue is K x b.
    All,
}

/// Chances in percent.
pub struct PacketTraffic {
    /// In so many first slots there is no packet request.
    pub quiet: usize,
    pub lengths: Lengths,
    /// A byte where a packet is coming in; a start where none is; a packet request.
    pub bytes: usize,
    pub starts: usize,
    pub requests: usize,
    /// A request only of a packet that stands, and where no byte request is left.
    pub patient: usize,
    /// A byte or a packet request that is refused.
    pub trouble: usize,
    /// A start of queue 0, so that its list becomes long.
    pub favoured: usize,
}

impl PacketTraffic {
    pub fn random(random: &mut Random) -> PacketTraffic {
        PacketTraffic {
            quiet: random.pick(&[0, 0, 10, 40]),
            lengths: random.pick(&[Lengths::One, Lengths::Few, Lengths::Any, Lengths::All]),
            bytes: random.pick(&[60, 90, 100, 100]),
            starts: random.pick(&[50, 90, 100, 100]),
            requests: random.pick(&[10, 50, 90, 100]),
            patient: random.pick(&[0, 50, 90]),
            trouble: random.pick(&[0, 5, 15]),
            favoured: random.pick(&[0, 0, 70]),
        }
    }

    /// A packet is asked for as soon as it stands and no other is under way, and nothing is refused.
    pub fn patient() -> PacketTraffic {
        PacketTraffic {
            quiet: 0,
            lengths: Lengths::Any,
            bytes: 100,
            starts: 100,
            requests: 100,
            patient: 100,
            trouble: 0,
            favoured: 0,
        }
    }

    /// Many packets of one byte, and few requests in the first slots.
    pub fn of_long_lists(random: &mut Random) -> PacketTraffic {
        PacketTraffic {
            quiet: random.pick(&[40, 60, 80]),
            lengths: Lengths::One,
            bytes: 100,
            starts: 100,
            favoured: random.pick(&[80, 100]),
            ..PacketTraffic::random(random)
        }
    }

    /// `index` is the number of the slot in its run.
    pub fn call(&self, random: &mut Random, index: usize, state: &RawState, record: &Record) -> PacketCall {
        let byte = if random.percent(self.trouble) {
            Some(self.refused_byte(random, state, record))
        } else {
            self.byte(random, state, record)
        };
        let request = if index < self.quiet { None } else { self.request(random, state.sizes, record) };
        PacketCall { byte, request }
    }

    fn byte(&self, random: &mut Random, state: &RawState, record: &Record) -> Option<PacketByte> {
        if record.coming.is_some() {
            return random.percent(self.bytes).then(|| PacketByte::Next { value: random.byte() });
        }
        if !random.percent(self.starts) {
            return None;
        }
        let queue = if random.percent(self.favoured) { 0 } else { random.below(state.sizes.q) };
        let room = room(state, queue).min(MOST_BYTES);
        // A start beside a full list stops the slot, so that nothing is asked for in it.
        let list_full = record.lists[queue].len() == MOST_LISTED;
        if room == 0 || list_full && random.percent(70) {
            return None;
        }
        let length = match self.lengths {
            Lengths::One => 1,
            Lengths::Few => random.between(1, room.min(4)),
            Lengths::Any => random.between(1, room),
            Lengths::All => room,
        };
        Some(PacketByte::Start { queue, length, value: random.byte() })
    }

    /// 4, 20, 21 where a packet is coming in, 22 where none is.
    fn refused_byte(&self, random: &mut Random, state: &RawState, record: &Record) -> PacketByte {
        let queues = state.sizes.q;
        let queue = random.below(queues);
        let value = random.byte();
        match random.below(4) {
            0 => PacketByte::Start { queue: outside(random, queues), length: random.below(3), value },
            1 => PacketByte::Start { queue, length: random.pick(&[0, MOST_BYTES + 1, 65_535]), value },
            2 if record.coming.is_none() => PacketByte::Next { value },
            _ => PacketByte::Start { queue, length: room(state, queue).min(MOST_BYTES - 1) + 1, value },
        }
    }

    fn request(&self, random: &mut Random, sizes: Sizes, record: &Record) -> Option<usize> {
        if !random.percent(self.requests) {
            return None;
        }
        if random.percent(self.trouble) {
            return Some(outside(random, sizes.q));
        }
        if !random.percent(self.patient) {
            return Some(random.below(sizes.q));
        }
        let standing: Vec<usize> = (0..sizes.q).filter(|&queue| !record.lists[queue].is_empty()).collect();
        if record.left > 0 || standing.is_empty() {
            return None;
        }
        Some(random.pick(&standing))
    }
}

/// A queue that there is not. A call has two bytes for it.
pub fn outside(random: &mut Random, queues: usize) -> usize {
    random.pick(&[queues, queues, queues + 1, 255, 65_535])
}
