//! A call and an answer as one word each, as the proved library takes and gives them (include/gelwynnar.h).

/// The byte that arrives in a slot, if one does: its queue and its value.
pub type Arrival = Option<(u16, u8)>;

/// The queue that is asked for a byte in a slot, if one is.
pub type Request = Option<u16>;

/// A call as one word: bits 0 to 7 the arriving value, 8 to 23 its queue, 24 whether a byte arrives, 25 to 40
/// the queue asked, 41 whether one is asked.
pub fn call(arrival: Arrival, request: Request) -> u64 {
    let arrival = arrival.map_or(0, |(queue, value)| 1 << 24 | (queue as u64) << 8 | value as u64);
    let request = request.map_or(0, |queue| 1 << 41 | (queue as u64) << 25);
    arrival | request
}

/// The arrival and the request of a call. No other bit is looked at.
pub fn halves(call: u64) -> (Arrival, Request) {
    let arrival = (call >> 24 & 1 == 1).then_some(((call >> 8) as u16, call as u8));
    let request = (call >> 41 & 1 == 1).then_some((call >> 25) as u16);
    (arrival, request)
}

/// A bit of a call that the library does not look at: the lists of this benchmark have it where the arbiter chooses the
/// request (request 2.2).
const ARBITERS: u64 = 1 << 63;

/// The call of a slot in which the arbiter chooses.
pub fn arbiters_call(arrival: Arrival) -> u64 {
    ARBITERS | call(arrival, None)
}

/// Whether the arbiter chooses in the slot of a call.
pub fn is_arbiters(call: u64) -> bool {
    call & ARBITERS != 0
}

// An answer is the parts of it that there are: 0 where nothing left, nothing moved and nothing was dropped.

/// Bits 0 to 7 the delivered value, 8 to 17 its queue, 18 that there is one.
pub fn delivered((queue, value): (u16, u8)) -> u64 {
    1 << 18 | (queue as u64) << 8 | value as u64
}

/// Bits 19 to 28 the queue written, 29 that one was.
pub fn written(queue: u16) -> u64 {
    1 << 29 | (queue as u64) << 19
}

/// Bits 30 to 39 the queue read, 40 that one was, 41 to 53 in how many slots the cell leaves that lacked its byte
/// (request 2.6).
pub fn read((queue, slots_left): (u16, usize)) -> u64 {
    (slots_left as u64) << 41 | 1 << 40 | (queue as u64) << 30
}

/// Bits 54 and 55: 5 dropped the arrival, 7 dropped the request, and the slot ran without (request 2.5).
pub const DROPPED_ARRIVAL: u64 = 1 << 54;
pub const DROPPED_REQUEST: u64 = 1 << 55;

/// Bits 56 to 63 the number that stops the slot, and then there is no other part.
pub fn stopped(number: u8) -> u64 {
    (number as u64) << 56
}

/// The number of an answer: 0, or what stops the slot.
pub fn number(answer: u64) -> u8 {
    (answer >> 56) as u8
}

/// What a slot with this answer took of an arrival and a request.
pub fn taken(answer: u64, arrival: Arrival, request: Request) -> (Arrival, Request) {
    let takes = |dropped: u64| number(answer) == 0 && answer & dropped == 0;
    (arrival.filter(|_| takes(DROPPED_ARRIVAL)), request.filter(|_| takes(DROPPED_REQUEST)))
}
