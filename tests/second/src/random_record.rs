//! Random records of the packet layer that keep the rules, and calls beside them (request 2.7).

use std::collections::VecDeque;

use crate::packet_traffic::outside;
use crate::packets::{Coming, PacketByte, PacketCall, PacketNumbers, Record, MOST_BYTES, MOST_LISTED};
use crate::random::Random;
use crate::sizes::Sizes;

/// What a slot of the layer may answer on a state and a record that keep the rules: accepted, every stop, and every
/// choice of what is dropped.
pub const ANSWERS: [PacketNumbers; 17] = [
    [0, 0, 0, 0],
    [2, 0, 0, 0],
    [4, 0, 0, 0],
    [6, 0, 0, 0],
    [8, 0, 0, 0],
    [9, 0, 0, 0],
    [10, 0, 0, 0],
    [20, 0, 0, 0],
    [21, 0, 0, 0],
    [22, 0, 0, 0],
    [0, 5, 0, 0],
    [0, 0, 7, 0],
    [0, 0, 0, 7],
    [0, 5, 7, 0],
    [0, 5, 0, 7],
    [0, 0, 7, 7],
    [0, 5, 7, 7],
];

/// A record that need not fit any state.
pub fn random_record(random: &mut Random, sizes: Sizes) -> Record {
    let mut lists: Vec<VecDeque<usize>> = (0..sizes.q).map(|_| random_list(random)).collect();
    let coming = if random.percent(60) { Some(random_coming(random, sizes)) } else { None };
    if let Some(coming) = coming {
        lists[coming.queue].truncate(MOST_LISTED - 1);
    }
    let some = random.between(1, MOST_BYTES);
    Record { lists, coming, asked: random.below(sizes.q), left: random.pick(&[0, 0, 0, 1, 2, some, MOST_BYTES]) }
}

fn random_list(random: &mut Random) -> VecDeque<usize> {
    let some = random.between(1, MOST_LISTED);
    let count = random.pick(&[0, 0, 1, 2, some, MOST_LISTED - 1, MOST_LISTED]);
    (0..count).map(|_| random_length(random)).collect()
}

/// Often at an end of the range, or short.
pub fn random_length(random: &mut Random) -> usize {
    let short = random.between(1, 8);
    let any = random.between(1, MOST_BYTES);
    random.pick(&[1, 2, short, short, any, MOST_BYTES])
}

/// Often with no byte in, or with all but the last.
fn random_coming(random: &mut Random, sizes: Sizes) -> Coming {
    let length = random_length(random);
    let some = random.below(length);
    Coming { queue: random.below(sizes.q), length, bytes_in: random.pick(&[0, some, length - 1, length - 1]) }
}

/// A call of any kind beside a record. `room` tells the free store of a queue, and a queue or a length is out of range
/// with this chance in percent.
pub fn random_packet_call(
    random: &mut Random,
    sizes: Sizes,
    record: &Record,
    room: impl Fn(usize) -> usize,
    trouble: usize,
) -> PacketCall {
    let fits = if record.coming.is_some() { 85 } else { 15 };
    let byte = match random.below(100) {
        0..=14 => None,
        _ if random.percent(fits) => Some(PacketByte::Next { value: random.byte() }),
        _ => Some(random_start(random, sizes, room, trouble)),
    };
    PacketCall { byte, request: random_request(random, sizes, record, trouble) }
}

fn random_start(random: &mut Random, sizes: Sizes, room: impl Fn(usize) -> usize, trouble: usize) -> PacketByte {
    let queue = if random.percent(trouble) { outside(random, sizes.q) } else { random.below(sizes.q) };
    let length = if random.percent(trouble) {
        random.pick(&[0, MOST_BYTES + 1, 65_535])
    } else if queue < sizes.q && random.percent(80) {
        // Mostly it just fits, or is one too long.
        let room = room(queue).min(MOST_BYTES - 1);
        let some = random.between(1, room.max(1));
        random.pick(&[1, some, room.max(1), room + 1])
    } else {
        random_length(random)
    };
    PacketByte::Start { queue, length, value: random.byte() }
}

/// Often of a queue in whose list something stands.
fn random_request(random: &mut Random, sizes: Sizes, record: &Record, trouble: usize) -> Option<usize> {
    if random.percent(30) {
        return None;
    }
    if random.percent(trouble) {
        return Some(outside(random, sizes.q));
    }
    let queue = random.below(sizes.q);
    let has_some = |queue: &usize| record.lists.get(*queue).is_some_and(|list| !list.is_empty());
    let standing = (0..sizes.q).map(|steps| (queue + steps) % sizes.q).find(has_some);
    match standing {
        Some(standing) if random.percent(50) => Some(standing),
        _ => Some(queue),
    }
}
