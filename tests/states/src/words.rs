//! Calls and answers as the header packs them.

use gelwynnar::{Answer, ArbiterAnswer};
use second::buffer::Numbers;
use second::random::Random;
use second::{arbiter, buffer};

/// The queue and the value that arrive.
pub type Arrival = Option<(usize, u8)>;

/// What a slot is asked: what arrives, and the queue asked.
pub type Call = (Arrival, Option<usize>);

pub const IDLE: Call = (None, None);

const ARRIVES: u64 = 1 << 24;
const ASKS: u64 = 1 << 41;

/// The bits of an arrival, of a request, and of neither.
const ARRIVAL_BITS: u64 = (1 << 24) - 1;
const REQUEST_BITS: u64 = ((1 << 41) - 1) & !((1 << 25) - 1);
const OTHER_BITS: u64 = !((1 << 42) - 1);

/// A call as one word. Half of the time there are any bits where none is looked at.
pub fn call_word(random: &mut Random, (arrival, request): Call) -> u64 {
    let mut word = 0;
    let mut free = OTHER_BITS;
    match arrival {
        Some((queue, value)) => word |= ARRIVES | wide(queue) << 8 | u64::from(value),
        None => free |= ARRIVAL_BITS,
    }
    match request {
        Some(queue) => word |= ASKS | wide(queue) << 25,
        None => free |= REQUEST_BITS,
    }
    let junk = if random.percent(50) { random.word() } else { 0 };
    word | junk & free
}

/// The word of a slot in which the arbiter chooses. The caller's own request is not looked at, so there may be any.
pub fn arbiter_word(random: &mut Random, arrival: Arrival) -> u64 {
    let near = random.below(4);
    let far = random.below(1 << 16);
    let own = random.pick(&[None, Some(near), Some(far)]);
    call_word(random, (arrival, own))
}

fn wide(queue: usize) -> u64 {
    assert!(queue < 1 << 16, "a call has 16 bits for a queue");
    queue as u64
}

/// What was dropped, in the bits of `dropped`.
pub const ARRIVAL_DROPPED: u8 = 1;
pub const REQUEST_DROPPED: u8 = 2;

/// What the library is to answer where the second program answers this: 0 in every field that has nothing to say.
pub fn answer(found: buffer::Answer) -> Answer {
    let (queue, value) = found.delivered.unwrap_or((0, 0));
    Answer {
        number: found.number,
        dropped: dropped(&found),
        delivers: found.delivered.is_some().into(),
        writes: found.written.is_some().into(),
        reads: found.read.is_some().into(),
        value,
        queue: queue as u16,
        written: found.written.unwrap_or(0) as u16,
        read: found.read.unwrap_or(0) as u16,
        slots_left: found.slots_left as u32,
    }
}

/// The same of a slot in which the arbiter chooses.
pub fn arbiter_answer(found: arbiter::ArbiterAnswer) -> ArbiterAnswer {
    ArbiterAnswer {
        slot: answer(found.answer),
        asks: found.asked.is_some().into(),
        asked: found.asked.unwrap_or(0) as u16,
    }
}

fn dropped(found: &buffer::Answer) -> u8 {
    let arrival = if found.arrival_number == 5 { ARRIVAL_DROPPED } else { 0 };
    let request = if found.request_number == 7 { REQUEST_DROPPED } else { 0 };
    arrival | request
}

/// The number of the slot, of its arrival and of its request, as the second program has them.
pub fn numbers(answer: Answer) -> Numbers {
    let of_half = |bit: u8, number: u8| if answer.dropped & bit != 0 { number } else { 0 };
    [answer.number, of_half(ARRIVAL_DROPPED, 5), of_half(REQUEST_DROPPED, 7)]
}
