//! Scripts to compare the two programs on, each from a seeded generator: heavy traffic at many sizes and at the
//! limits, full queues that are read and refilled, halves that are dropped, queues out of range, counts, every
//! malformation, and bytes at random.

use second::buffer::Buffer;
use second::lists::Traffic;
use second::random::Random;
use second::sizes::{Design, Sizes};

const SIZES: u8 = 0x10;
const IDLE: u8 = 0x00;
const ARRIVAL: u8 = 0x01;
const REQUEST: u8 = 0x02;
const BOTH: u8 = 0x03;
const COUNT: u8 = 0x04;
const END: u8 = 0x05;

/// The most bytes that a script may have.
const LIMIT: usize = 65_536;

/// Sizes at the limits that fit a store of 65,536: Q(b - 1) is 2,016, or Q, b or K is at an end of its range.
const AT_THE_LIMITS: [(usize, usize, usize); 12] = [
    (63, 33, 31),
    (16, 127, 32),
    (32, 64, 32),
    (63, 33, 1),
    (1, 1, 1),
    (1, 128, 255),
    (1, 128, 1),
    (64, 1, 255),
    (64, 1, 1),
    (1, 1, 255),
    (64, 32, 32),
    (15, 128, 34),
];

/// Sizes that are refused, or for which 65,536 bytes are too few.
const REFUSED: [(usize, usize, usize); 9] = [
    (64, 33, 1),
    (0, 3, 2),
    (3, 0, 2),
    (3, 2, 0),
    (65, 1, 1),
    (1, 129, 1),
    (17, 127, 32),
    (63, 33, 32),
    (16, 127, 33),
];

/// Worked cases, each with its text. Of request 2.1: a full queue is read and refilled in slot 3, with both bytes in
/// the tail, and in slot 2, with both in the store, so that the request would be Owed and the arrival is dropped. Of
/// request 2.5: the listing of the paper; in slot 7 a byte leaves, a full queue drops an arrival, and the request of
/// that queue, whose bytes are all owed, is dropped too; and what stops a slot is its only answer, though both halves
/// would be dropped, as they are in slot 2. Of request 2.6: a request in the slot that reads its block, all L = 2 slots
/// before its byte leaves; and with b 1 a read is always 1 slot before that.
#[rustfmt::skip]
pub const WORKED: [(&[u8], &str); 9] = [
    (
        &[SIZES, 1, 2, 1, IDLE, ARRIVAL, 0, 65, ARRIVAL, 0, 66, BOTH, 0, 67, 0, COUNT, 4, 0, END],
        "D 5 0 65\nE 8\n",
    ),
    (
        &[SIZES, 1, 2, 1, ARRIVAL, 0, 65, ARRIVAL, 0, 66, BOTH, 0, 67, 0, COUNT, 4, 0, END],
        "R 2 5\nM 3 0 1\nD 4 0 65\nE 7\n",
    ),
    (
        &[
            SIZES, 1, 2, 2, BOTH, 0, 65, 0, ARRIVAL, 0, 66, REQUEST, 0, REQUEST, 0, ARRIVAL, 0, 67, ARRIVAL, 0, 68,
            IDLE, REQUEST, 0, COUNT, 2, 0, END,
        ],
        "D 2 0 65\nR 3 7\nD 4 0 66\nM 7 0 2\nD 9 0 67\nE 10\n",
    ),
    (
        &[
            SIZES, 2, 2, 1, ARRIVAL, 0, 65, ARRIVAL, 0, 66, ARRIVAL, 1, 67, ARRIVAL, 1, 68, REQUEST, 1, REQUEST, 0,
            REQUEST, 0, BOTH, 0, 69, 0, COUNT, 2, 0, END,
        ],
        "M 5 1 2\nD 7 1 67\nR 7 5\nR 7 7\nM 7 0 1\nD 8 0 65\nD 9 0 66\nE 10\n",
    ),
    (
        &[
            SIZES, 2, 2, 1, ARRIVAL, 0, 65, ARRIVAL, 0, 66, BOTH, 0, 67, 2, BOTH, 2, 67, 1, BOTH, 0, 67, 1, END,
        ],
        "R 2 6\nR 2 4\nR 2 5\nR 2 7\nE 3\n",
    ),
    (&[SIZES, 1, 1, 1, ARRIVAL, 0, 65, BOTH, 0, 66, 1, END], "R 1 6\nE 1\n"),
    (
        &[
            SIZES, 2, 2, 1, ARRIVAL, 0, 66, ARRIVAL, 1, 67, ARRIVAL, 1, 68, IDLE, ARRIVAL, 0, 70, ARRIVAL, 0, 71,
            REQUEST, 0, REQUEST, 1, REQUEST, 1, BOTH, 1, 75, 1, REQUEST, 1, END,
        ],
        "R 5 5\nM 7 0 2\nD 9 0 66\nR 9 5\nR 9 7\nM 9 1 1\nD 10 1 67\nR 10 7\nE 11\n",
    ),
    (
        &[SIZES, 1, 2, 1, ARRIVAL, 0, 65, ARRIVAL, 0, 66, IDLE, REQUEST, 0, COUNT, 2, 0, END],
        "M 3 0 2\nD 5 0 65\nE 6\n",
    ),
    (
        &[SIZES, 3, 1, 1, ARRIVAL, 2, 65, ARRIVAL, 1, 66, REQUEST, 2, REQUEST, 1, IDLE, END],
        "M 2 2 1\nD 3 2 65\nM 3 1 1\nD 4 1 66\nE 5\n",
    ),
];

/// One script.
pub fn script(random: &mut Random) -> Vec<u8> {
    match random.below(100) {
        0..=44 => traffic(random),
        45..=54 => refills(random),
        55..=59 => drops(random),
        60..=64 => with_sizes_refused(random),
        65..=89 => damaged(random),
        _ => bytes_at_random(random),
    }
}

/// The scripts at the edges of the format, which every comparison begins with.
pub fn edges() -> Vec<Vec<u8>> {
    let sizes = [SIZES, 2, 3, 2];
    let filled = |length: usize| {
        let mut script = sizes.to_vec();
        script.resize(length - 1, IDLE);
        script.push(END);
        script
    };
    let mut all = vec![
        vec![],
        vec![END],
        vec![IDLE],
        vec![ARRIVAL],
        vec![SIZES],
        vec![SIZES, 1, 1],
        vec![6],
        vec![SIZES, 1, 1, 1],
        vec![SIZES, 1, 1, 1, END],
        vec![SIZES, 1, 1, 1, SIZES],
        vec![SIZES, 1, 1, 1, END, END],
        vec![SIZES, 1, 1, 1, COUNT, 0, 0, END],
        vec![SIZES, 1, 1, 1, COUNT, 255, 255, END],
        filled(LIMIT),
        filled(LIMIT + 1),
        filled(2 * LIMIT),
        vec![IDLE; LIMIT],
        vec![IDLE; LIMIT + 1],
    ];
    // Exactly the limit and no end; the end one byte too late.
    let mut no_end = filled(LIMIT);
    no_end[LIMIT - 1] = IDLE;
    all.push(no_end);
    let mut early_end = filled(LIMIT + 1);
    early_end[4] = END;
    all.push(early_end);
    all
}

/// Two scripts for each of some sizes: all queues are asked one after the other, with a block of each in store, so that
/// the last is read in the slot before its byte leaves; and one is asked in the slot that reads its block, all of the
/// lookahead before (request 2.6).
pub fn reads() -> Vec<Vec<u8>> {
    let small = [(1, 2, 1), (2, 2, 1), (3, 2, 2), (2, 3, 1), (4, 3, 2), (5, 4, 1)];
    let of_sizes = |&(q, b, k): &(usize, usize, usize)| {
        let sizes = vec![SIZES, q as u8, b as u8, k as u8];
        let block = |queue: u8| [ARRIVAL, queue, 65].repeat(b);
        let idle = |slots: usize| vec![COUNT, slots as u8, (slots >> 8) as u8];
        let blocks: Vec<u8> = (0..q as u8).flat_map(block).collect();
        let requests: Vec<u8> = (0..q as u8).flat_map(|queue| [REQUEST, queue]).collect();
        let end = [idle(q * b), vec![END]].concat();
        let last = [sizes.clone(), blocks, requests, end.clone()].concat();
        let first = [sizes, block(0), idle(b - 1), vec![REQUEST, 0], end].concat();
        [last, first]
    };
    small.iter().chain(&AT_THE_LIMITS).flat_map(of_sizes).collect()
}

/// Long scripts under full traffic, at the three sizes that the benchmarks use and at the limits.
pub fn long(random: &mut Random) -> Vec<Vec<u8>> {
    let mut all = Vec::new();
    for &(q, b, k) in [(4, 3, 20), (16, 8, 64)].iter().chain(&AT_THE_LIMITS) {
        let sizes = Sizes { q, b, k };
        let mix = Mix { arrival: 95, request: 90, count: 0, wild: 0, spread: q };
        all.push(slots(random, sizes, mix, LIMIT));
        let mix = Mix { arrival: 80, request: 60, count: 2, wild: 1, spread: q.min(3) };
        all.push(slots(random, sizes, mix, LIMIT));
    }
    all
}

/// As many bytes as a script may have, a byte arriving and one asked for in nearly every slot.
pub fn full_traffic(random: &mut Random, q: usize, b: usize, k: usize) -> Vec<u8> {
    let mix = Mix { arrival: 100, request: 97, count: 0, wild: 0, spread: q };
    slots(random, Sizes { q, b, k }, mix, LIMIT)
}

/// As many idle slots as a script can have: some 1.4 billion.
pub fn idle_counts() -> Vec<u8> {
    let mut script = vec![SIZES, 4, 3, 20];
    while script.len() + 4 <= LIMIT {
        script.extend([COUNT, 255, 255]);
    }
    script.push(END);
    script
}

/// Bytes for all queues, and then requests far apart from each other.
pub fn requests_apart() -> Vec<u8> {
    let (q, b, k) = (63, 33, 31);
    let mut script = vec![SIZES, q, b, k];
    for turn in 0..7_200u32 {
        let queue = (turn % u32::from(q)) as u8;
        script.extend([BOTH, queue, turn as u8, queue]);
        let [low, high] = (500 + turn as u16 % 3_000).to_le_bytes();
        script.extend([COUNT, low, high]);
    }
    script.push(END);
    script
}

/// How often a slot has an arrival and a request, how often a command is a count of idle slots, how often a queue is
/// out of range (all in percent), and among how many queues the traffic goes.
#[derive(Clone, Copy)]
struct Mix {
    arrival: usize,
    request: usize,
    count: usize,
    wild: usize,
    spread: usize,
}

fn traffic(random: &mut Random) -> Vec<u8> {
    let sizes = some_sizes(random);
    let mix = Mix {
        arrival: random.pick(&[20, 50, 80, 100]),
        request: random.pick(&[10, 40, 70, 100]),
        count: random.pick(&[0, 2, 10, 30]),
        wild: random.pick(&[0, 0, 2, 10]),
        spread: random.between(1, sizes.q.max(1)),
    };
    let most = if random.percent(5) { 8_000 } else { 900 };
    let length = random.between(5, most);
    slots(random, sizes, mix, length)
}

fn some_sizes(random: &mut Random) -> Sizes {
    let (q, b, k) = match random.below(100) {
        0..=54 => (random.between(1, 4), random.between(1, 4), random.between(1, 3)),
        55..=84 => (random.between(1, 16), random.between(1, 16), random.between(1, 9)),
        _ => random.pick(&AT_THE_LIMITS),
    };
    Sizes { q, b, k }
}

/// A script of these sizes that reads well and has at most so many bytes.
fn slots(random: &mut Random, sizes: Sizes, mix: Mix, length: usize) -> Vec<u8> {
    let mut script = vec![SIZES, sizes.q as u8, sizes.b as u8, sizes.k as u8];
    // The longest command has four bytes, the end one.
    while script.len() + 5 <= length {
        if random.percent(mix.count) {
            let [low, high] = count(random, sizes).to_le_bytes();
            script.extend([COUNT, low, high]);
            continue;
        }
        match (random.percent(mix.arrival), random.percent(mix.request)) {
            (false, false) => script.push(IDLE),
            (true, false) => script.extend([ARRIVAL, queue(random, mix), random.byte()]),
            (false, true) => script.extend([REQUEST, queue(random, mix)]),
            (true, true) => {
                let arrival = queue(random, mix);
                let request = if random.percent(50) { arrival } else { queue(random, mix) };
                script.extend([BOTH, arrival, random.byte(), request]);
            }
        }
    }
    script.push(END);
    script
}

/// Queues of few blocks that are kept full, read and refilled in one slot (request 2.1).
fn refills(random: &mut Random) -> Vec<u8> {
    let sizes = Sizes { q: random.between(1, 8), b: random.between(2, 6), k: random.pick(&[1, 1, 2]) };
    let traffic = Traffic::of_full_queues(random);
    by_state(random, sizes, traffic)
}

/// Many arrivals to full queues and requests of queues without a byte, also in one slot (request 2.5).
fn drops(random: &mut Random) -> Vec<u8> {
    let sizes = Sizes { q: random.between(1, 8), b: random.between(1, 6), k: random.between(1, 3) };
    let traffic = Traffic::of_dropped_halves(random);
    by_state(random, sizes, traffic)
}

/// Traffic that looks at the queues. Which of them are full or without a byte the second program tells.
fn by_state(random: &mut Random, sizes: Sizes, traffic: Traffic) -> Vec<u8> {
    let cells = Design::Full.cells(sizes);
    let mut buffer = Buffer::fresh(sizes, cells).expect("these sizes are accepted");
    let mut store = vec![0; sizes.store_size()];
    let mut script = vec![SIZES, sizes.q as u8, sizes.b as u8, sizes.k as u8];
    for index in 0..random.between(50, 300) {
        let (arrival, request) = traffic.call(random, index, &buffer.to_raw());
        buffer.slot(cells, arrival, request, &mut store);
        match (arrival, request) {
            (None, None) => script.push(IDLE),
            (Some((queue, byte)), None) => script.extend([ARRIVAL, queue as u8, byte]),
            (None, Some(asked)) => script.extend([REQUEST, asked as u8]),
            (Some((queue, byte)), Some(asked)) => script.extend([BOTH, queue as u8, byte, asked as u8]),
        }
    }
    script.push(END);
    script
}

fn queue(random: &mut Random, mix: Mix) -> u8 {
    if random.percent(mix.wild) {
        return random.byte();
    }
    random.below(mix.spread) as u8
}

fn count(random: &mut Random, sizes: Sizes) -> u16 {
    let lookahead = sizes.q * (sizes.b - 1) + 1;
    match random.below(1_000) {
        0..=99 => 0,
        100..=799 => random.below(2 * sizes.b + 1) as u16,
        800..=998 => random.below(lookahead + sizes.b + 1) as u16,
        _ => 65_535,
    }
}

fn with_sizes_refused(random: &mut Random) -> Vec<u8> {
    let (q, b, k) = random.pick(&REFUSED);
    let mut script = vec![SIZES, q as u8, b as u8, k as u8];
    for _ in 0..random.below(4) {
        script.extend([ARRIVAL, random.byte(), random.byte()]);
    }
    script.push(END);
    script
}

/// A script that reads well, damaged at one place or two.
fn damaged(random: &mut Random) -> Vec<u8> {
    let mut script = traffic(random);
    for _ in 0..random.between(1, 2) {
        damage(random, &mut script);
    }
    script
}

fn damage(random: &mut Random, script: &mut Vec<u8>) {
    let place = random.below(script.len() + 1);
    match random.below(8) {
        // Cut short: in the operands, at the end, or anywhere.
        0 => script.truncate(place),
        1 => {
            script.pop();
        }
        2 => {
            script.pop();
            script.push(random.pick(&[ARRIVAL, REQUEST, BOTH, COUNT, SIZES]));
        }
        // Bytes after the end.
        3 => {
            let behind = random.between(1, 3);
            script.extend(random.bytes(behind));
        }
        // Another byte somewhere, often a command byte.
        4 => script.insert(place, random.pick(&[SIZES, END, COUNT, 6, 255])),
        5 => script.insert(place, random.byte()),
        // The first command is another one.
        6 => {
            if let Some(first) = script.first_mut() {
                *first = random.pick(&[IDLE, ARRIVAL, REQUEST, BOTH, COUNT, END, 6, 17]);
            }
        }
        _ => {
            if place < script.len() {
                script[place] = random.byte();
            }
        }
    }
}

fn bytes_at_random(random: &mut Random) -> Vec<u8> {
    let length = random.below(30);
    let known = random.percent(70);
    let mut script: Vec<u8> =
        (0..length).map(|_| if known { random.below(7) as u8 } else { random.byte() }).collect();
    if random.percent(50) {
        script.splice(0..0, [SIZES, 2, 2, 2]);
    }
    script
}
