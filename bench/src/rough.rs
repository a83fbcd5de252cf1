//! Lists of calls for tests, of which natural Rust tells which halves were taken.

use crate::model::Model;
use crate::natural::Buffer;
use crate::traffic::{search, Random};
use crate::words::{arbiters_call, call, taken};
use crate::Sizes;

/// Stretches of changing habits, from filling a few queues to emptying them. Most calls make
/// sense, some are for any queue, and a few for a queue that does not exist. In some stretches a queue that
/// can swap (request 2.1) is read and refilled, and in some many halves are dropped (request 2.5).
pub fn rough(sizes: Sizes, slots: usize, seed: u64) -> Vec<u64> {
    rough_with(sizes, slots, seed, &[0])
}

/// The same, and in some stretches the arbiter (request 2.2) has half of the slots or all of them.
pub fn rough_with_arbiter(sizes: Sizes, slots: usize, seed: u64) -> Vec<u64> {
    rough_with(sizes, slots, seed, &[0, 50, 100])
}

/// The chances in percent, one for a stretch, that a slot is the arbiter's.
fn rough_with(sizes: Sizes, slots: usize, seed: u64, chances: &[usize]) -> Vec<u64> {
    let random = &mut Random(seed);
    // Numbers of its own: a list without the arbiter does not depend on them.
    let turns = &mut Random(!seed);
    let Sizes { queues, block, depth } = sizes;
    let mut buffer = Buffer::fresh(sizes).expect("these sizes are accepted");
    let mut store = vec![0; sizes.store()];
    let mut unasked = vec![0; queues];
    let mut calls = Vec::with_capacity(slots);
    while calls.len() < slots {
        // The chances of an arrival and of a request in percent, and the queues to begin a search at.
        let habits = [(100, 0), (90, 30), (100, 100), (50, 50), (30, 90), (0, 100), (0, 0)];
        let (arrivals, requests) = random.pick(&habits);
        let first = random.below(queues);
        let span = random.pick(&[1, 2, queues]);
        // The chances in percent that a queue which can swap is read and refilled, and that a half makes no sense.
        let refills = random.pick(&[0, 50, 100]);
        let contrary = random.pick(&[0, 0, 0, 30]);
        let arbiters = turns.pick(chances);
        for _ in 0..1 + random.below(sizes.lookahead() + 20) {
            let mut queue = |makes_sense: &dyn Fn(usize) -> bool| match random.below(100) {
                // As a byte 256 would be queue 0, and so would 1,024 in the ten bits that an answer has for one.
                0 => Some(random.pick(&[queues, queues + 1, 255, 256, 1024, 65535])),
                1..=5 => Some(random.below(queues)),
                _ => {
                    let sought = !random.percent(contrary);
                    let start = (first + random.below(span)) % queues;
                    search(queues, start, |queue| makes_sense(queue) == sought)
                }
            };
            let arriving = queue(&|queue| unasked[queue] < depth * block);
            let asked = queue(&|queue| unasked[queue] > 0);
            let mut arriving = arriving.filter(|_| random.percent(arrivals));
            let mut asked = asked.filter(|_| random.percent(requests));
            let swaps = |&queue: &usize| buffer.swaps(Some((queue as u16, 0)), Some(queue as u16));
            let is_arbiters = turns.percent(arbiters);
            let swapping = if is_arbiters {
                // The arbiter asks for this queue whatever arrives there, since it is full.
                buffer.choice(None).map(usize::from).filter(swaps)
            } else {
                search(queues, first, |queue| swaps(&queue))
            };
            if swapping.is_some() && random.percent(refills) {
                (arriving, asked) = (swapping, swapping);
            }
            let arrival = arriving.map(|queue| (queue as u16, random.byte()));
            let request = asked.map(|queue| queue as u16);
            let call = if is_arbiters { arbiters_call(arrival) } else { call(arrival, request) };
            let (answer, chosen) = buffer.turn(call, &mut store);
            let request = if is_arbiters { chosen } else { request };
            let (taken_arrival, taken_request) = taken(answer, arrival, request);
            if let Some((queue, _)) = taken_arrival {
                unasked[queue as usize] += 1;
            }
            if let Some(queue) = taken_request {
                unasked[queue as usize] -= 1;
            }
            calls.push(call);
        }
    }
    calls.truncate(slots);
    calls
}
