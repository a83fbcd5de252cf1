//! The library's ways and both natural models say the same, slot by slot, and leave the same store and the same high
//! marks.

#[path = "agree/arbiter.rs"]
mod arbiter;
#[path = "agree/examples.rs"]
mod examples;
#[path = "agree/idle.rs"]
mod idle;
#[path = "agree/lists.rs"]
mod lists;
#[path = "agree/refusals.rs"]
mod refusals;

use bench::careful::CAREFUL;
use bench::library::{self, Buffer};
use bench::natural::PLAIN;
use bench::traffic::Random;
use bench::words::call;
use bench::{by_value, Lent, Run, Sizes};

/// Who is compared with plain natural Rust.
const WAYS: [(&str, Run); 6] = [
    (CAREFUL.name, CAREFUL.run),
    ("by value", by_value::slots),
    ("slots", library::slots),
    ("steps", library::steps),
    ("run", library::run),
    ("mixed", mixed),
];

/// At the limits: the least, the most of each, and Q(b - 1) = 2,016.
const LIMITS: [Sizes; 14] = [
    Sizes::new(1, 1, 1),
    Sizes::new(1, 1, 255),
    Sizes::new(1, 2, 1),
    Sizes::new(2, 1, 1),
    Sizes::new(1, 128, 1),
    Sizes::new(1, 128, 255),
    Sizes::new(64, 1, 1),
    Sizes::new(64, 1, 255),
    Sizes::new(64, 32, 2),
    Sizes::new(63, 33, 1),
    Sizes::new(63, 33, 4),
    Sizes::new(63, 33, 255),
    Sizes::new(16, 127, 1),
    Sizes::new(16, 127, 3),
];

fn small_sizes() -> Vec<Sizes> {
    let random = &mut Random(7);
    let mut size = |most| 1 + random.below(most);
    (0..40).map(|_| Sizes::new(size(8), size(8), size(6))).collect()
}

/// Of few blocks, so that queues are full while their bytes are in the tail.
fn shallow_sizes() -> Vec<Sizes> {
    let random = &mut Random(21);
    (0..40).map(|_| Sizes::new(1 + random.below(8), 2 + random.below(7), 1 + random.below(2))).collect()
}

/// Small ones, shallow ones and the limits, each with a seed.
fn many_sizes() -> impl Iterator<Item = (u64, Sizes)> {
    (0..).zip(small_sizes().into_iter().chain(shallow_sizes()).chain(LIMITS))
}

/// The library's functions in turn on one buffer, a few slots with each.
fn mixed(sizes: Sizes, calls: &[u64], lent: &mut Lent) -> bool {
    let Some(mut buffer) = Buffer::open(sizes) else { return false };
    let Lent { answers, store, marks, .. } = lent;
    let for_steps = store.len() >= sizes.store();
    for (turn, (calls, answers)) in calls.chunks(5).zip(answers.chunks_mut(5)).enumerate() {
        if turn % 3 == 0 {
            buffer.run(calls, answers, store);
            continue;
        }
        for (&call, answer) in calls.iter().zip(answers) {
            *answer = match turn % 3 {
                // Safe: the store is long enough.
                1 if for_steps => unsafe { buffer.step(call, store) }.word(),
                _ => buffer.slot(call, store).word(),
            };
        }
    }
    *marks = buffer.marks();
    true
}

/// A store with any bytes in it.
fn random_store(length: usize) -> Vec<u8> {
    Random(length as u64).bytes(length)
}

/// The answers, the store and the marks after a run.
fn outcome(run: Run, sizes: Sizes, calls: &[u64], store: &[u8]) -> Lent {
    let mut lent = Lent::new(calls.len(), store.to_vec());
    assert!(run(sizes, calls, &mut lent), "{sizes:?} is refused");
    lent.take_told();
    lent
}

/// Runs the list in every way, and gives the answers that all of them give.
fn agree(sizes: Sizes, calls: &[u64], store: &[u8]) -> Vec<u64> {
    agree_in(&WAYS, sizes, calls, store)
}

/// The same in some of the ways.
fn agree_in(ways: &[(&str, Run)], sizes: Sizes, calls: &[u64], store: &[u8]) -> Vec<u64> {
    let plain = outcome(PLAIN.run, sizes, calls, store);
    for &(way, run) in ways {
        assert_same(&plain, &outcome(run, sizes, calls, store), &format!("{sizes:?}, {way}"));
    }
    plain.answers
}

/// The same answer in every slot, the same store and the same high marks.
fn assert_same(plain: &Lent, other: &Lent, list: &str) {
    for (slot, (plain, other)) in plain.answers.iter().zip(&other.answers).enumerate() {
        assert_eq!(plain, other, "{list}: slot {slot} of plain natural Rust, and here");
    }
    assert!(plain.store == other.store, "{list}: the stores differ");
    assert_eq!(plain.marks, other.marks, "{list}: the high marks of plain natural Rust, and here");
}

const IDLE: u64 = 0;

fn arrival(queue: u16, value: u8) -> u64 {
    call(Some((queue, value)), None)
}

fn request(queue: u16) -> u64 {
    call(None, Some(queue))
}

// The parts of an answer word, read as include/gelwynnar.h gives them.

/// What stops the slot, or 0.
fn number(answer: u64) -> u64 {
    answer >> 56
}

/// The numbers of the halves that were dropped: of the arrival 5 or 0, of the request 7 or 0 (request 2.5).
fn dropped(answer: u64) -> [u64; 2] {
    [5 * (answer >> 54 & 1), 7 * (answer >> 55 & 1)]
}

/// Whether the slot ran with all that it was asked.
fn is_whole(answer: u64) -> bool {
    number(answer) == 0 && dropped(answer) == [0, 0]
}

fn delivery(answer: u64) -> Option<(u16, u8)> {
    (answer >> 18 & 1 == 1).then_some(((answer >> 8 & 1023) as u16, answer as u8))
}

fn written(answer: u64) -> Option<u16> {
    (answer >> 29 & 1 == 1).then_some((answer >> 19 & 1023) as u16)
}

/// The queue read, and in how many slots the cell leaves that lacked its byte (request 2.6).
fn read(answer: u64) -> Option<(u16, usize)> {
    let slots_left = (answer >> 41 & 8191) as usize;
    (answer >> 40 & 1 == 1).then_some(((answer >> 30 & 1023) as u16, slots_left))
}
