//! States to hand in, each with a call and a store, from a seeded generator: states that keep the rules and lean
//! towards an answer, states with a full queue that the call reads and refills, states with queues that the arbiter
//! passes over, states with one fault, states with a few numbers changed, and any numbers at all.

use gelwynnar::{reg, REGS};
use second::buffer::Numbers;
use second::full_queue::state_with_full_queue;
use second::random::Random;
use second::random_state::{random_state, Amount, Lean};
use second::raw::RawState;
use second::rules::Cell;
use second::sizes::Design;

use crate::arbitrated::Arbitrated;
use crate::expected::Expected;
use crate::faults::Fault;
use crate::image::Image;
use crate::picks::{is_large, shallow_sizes, some_call, some_sizes, some_store};
use crate::refilled::Refilled;
use crate::words::Call;

pub struct Handed {
    pub image: Image,
    pub call: Call,
    pub fault: Option<Fault>,
}

/// The numbers of a slot, of its arrival and of its request: every stop but 3, and every choice of dropped halves.
const GOALS: [Numbers; 9] =
    [[2, 0, 0], [4, 0, 0], [6, 0, 0], [8, 0, 0], [9, 0, 0], [10, 0, 0], [0, 5, 0], [0, 0, 7], [0, 5, 7]];

/// So many states are tried for one that gives the answer that it leans towards.
const TRIES: usize = 100;

pub fn handed(random: &mut Random) -> Handed {
    match random.below(100) {
        0..=39 => {
            let goal = if random.percent(40) { [0; 3] } else { random.pick(&GOALS) };
            leaning(random, goal)
        }
        40..=53 => refilled(random),
        54..=69 => arbitrated(random),
        70..=84 => {
            let fault = random.pick(&Fault::all());
            faulty(random, fault)
        }
        85..=92 => changed(random),
        _ => any_numbers(random),
    }
}

/// A state that keeps the rules. The answer only guides what is picked: a state that misses it is as good a state.
fn leaning(random: &mut Random, goal: Numbers) -> Handed {
    let outside = match goal {
        [0, 0, 0] => 0,
        [4 | 6, ..] => 40,
        _ => 10,
    };
    let mut tries = 0;
    loop {
        tries += 1;
        let sizes = some_sizes(random);
        let lean = lean(random, goal);
        let mut state = random_state(random, sizes, Design::Full.cells(sizes), lean);
        if random.percent(30) {
            to_ring_ends(random, &mut state);
        }
        let call = some_call(random, sizes, outside);
        // Troubles beside the goal stay in, so that the order of refusals shows.
        let short = goal[0] == 2 || goal != [0; 3] && random.percent(5);
        let store = some_store(random, sizes, short);
        if is_large(sizes) || tries == TRIES || numbers(&state, call, store.clone()) == goal {
            let image = Image { store, ..Image::of_state(random, &state) };
            return Handed { image, call, fault: None };
        }
    }
}

/// A state with a full queue, and the call that reads and refills it (request 2.1). What is to come of it only guides
/// what is picked, as above.
fn refilled(random: &mut Random) -> Handed {
    let goal = random.pick(&Refilled::ALL);
    let mut tries = 0;
    loop {
        tries += 1;
        let sizes = shallow_sizes(random);
        let lean = Lean::towards(random, goal.numbers());
        let (mut state, queue) = state_with_full_queue(random, sizes, Design::Full.cells(sizes), lean);
        if random.percent(30) {
            to_ring_ends(random, &mut state);
        }
        // For the arbiter to choose it too.
        if random.percent(85) {
            state.last_asked = (queue + sizes.q - 1) % sizes.q;
        }
        let call = (Some((queue, random.byte())), Some(queue));
        let short = random.percent(2);
        let store = some_store(random, sizes, short);
        let mut expected = Expected::new(&state, &store);
        let met = expected.meets(call);
        if is_large(sizes) || tries == TRIES || met.comes_to(expected.slot(call)) == Some(goal) {
            let image = Image { store, ..Image::of_state(random, &state) };
            return Handed { image, call, fault: None };
        }
    }
}

/// A state in which some queues have no byte to ask for, and one may be full. What is to come of an arbiter's slot
/// (request 2.2) only guides what is picked, as above.
fn arbitrated(random: &mut Random) -> Handed {
    // 8 or 10 often stops the slot that nothing is to be asked in, since all that is owed is in the store.
    let rare = random.percent(25);
    let goal = if rare { Arbitrated::FullAndAsksNone } else { random.pick(&Arbitrated::ALL) };
    let mut tries = 0;
    loop {
        tries += 1;
        let sizes = if goal.is_of_a_full_queue() { shallow_sizes(random) } else { some_sizes(random) };
        let cells = Design::Full.cells(sizes);
        let lean = Lean::random(random);
        let (mut state, full) = if goal.is_of_a_full_queue() {
            let (state, queue) = state_with_full_queue(random, sizes, cells, lean);
            (state, Some(queue))
        } else {
            (random_state(random, sizes, cells, lean), None)
        };
        let passed_over = random.pick(&[30, 70, 100]);
        for queue in (0..sizes.q).filter(|&queue| Some(queue) != full) {
            if random.percent(passed_over) {
                leave_nothing(random, &mut state, queue);
            }
        }
        if random.percent(30) {
            to_ring_ends(random, &mut state);
        }
        let (arrival, request) = some_call(random, sizes, 0);
        let arrival = full.map(|queue| (queue, random.byte())).or(arrival);
        let store = some_store(random, sizes, false);
        let mut expected = Expected::new(&state, &store);
        let turn = expected.turn(arrival).expect("a state that keeps the rules");
        let answer = expected.arbiter_slot(arrival).slot;
        if is_large(sizes) || tries == TRIES || turn.comes_to(answer).contains(&goal) {
            let image = Image { store, ..Image::of_state(random, &state) };
            return Handed { image, call: (arrival, request), fault: None };
        }
    }
}

/// Leaves a queue no byte to ask for. Most often those in the head and in the store are owed, where there are as many
/// cells for them; else they are gone.
fn leave_nothing(random: &mut Random, state: &mut RawState, queue: usize) {
    let is_owed = |cell: &&mut Cell| **cell == Cell::Owed(queue);
    state.tail.retain(|byte| byte.0 != queue);
    state.cells.iter_mut().filter(is_owed).for_each(|cell| *cell = Cell::Empty);
    let head_bytes = state.head.iter().filter(|byte| byte.0 == queue).count();
    let bytes = head_bytes + state.sizes.b * state.rings[queue].count;
    let mut free: Vec<&mut Cell> =
        state.cells.iter_mut().filter(|cell| !matches!(cell, Cell::Owed(_))).collect();
    if bytes <= free.len() && random.percent(70) {
        for _ in 0..bytes {
            *free.swap_remove(random.below(free.len())) = Cell::Owed(queue);
        }
    } else {
        state.head.retain(|byte| byte.0 != queue);
        state.rings[queue].count = 0;
    }
}

fn lean(random: &mut Random, goal: Numbers) -> Lean {
    let mut lean = Lean::towards(random, goal);
    // Few cells and no block to write, so that idle slots go on for a while.
    if goal == [0; 3] && random.percent(30) {
        lean.tail = Amount::Empty;
        lean.owed = random.below(8);
        lean.held = random.below(4);
    }
    lean
}

/// Rings that begin at their first or last place, which is where they come round.
fn to_ring_ends(random: &mut Random, state: &mut RawState) {
    for ring in &mut state.rings {
        ring.first = random.pick(&[0, state.sizes.k - 1]);
    }
}

fn numbers(state: &RawState, (arrival, request): Call, mut store: Vec<u8>) -> Numbers {
    state.clone().slot(Design::Full.cells(state.sizes), arrival, request, &mut store).numbers()
}

fn faulty(random: &mut Random, fault: Fault) -> Handed {
    let mut image = fault.image(random);
    let sizes = image.places.sizes();
    // A store that is too short as well must still answer 3.
    let short = random.percent(30);
    image.store = some_store(random, sizes, short);
    Handed { image, call: some_call(random, sizes, 10), fault: Some(fault) }
}

/// A state that kept the rules, with some numbers changed: it may still keep them, or break more than one.
fn changed(random: &mut Random) -> Handed {
    let mut handed = leaning(random, [0; 3]);
    for _ in 0..random.between(1, 3) {
        change(random, &mut handed.image);
    }
    // The sizes may be others now.
    handed.image.store = some_store(random, handed.image.places.sizes(), false);
    handed
}

/// Queues up to 31, kinds up to 3 and small numbers, of which many are still good.
fn change(random: &mut Random, image: &mut Image) {
    let places = &mut image.places;
    let queue = random.below(places.firsts.len().min(places.regs[reg::QUEUES]));
    let depth = places.regs[reg::DEPTH].min(255);
    match random.below(7) {
        0 => {
            let register = &mut places.regs[random.below(REGS)];
            *register = register.wrapping_add(random.pick(&[1, usize::MAX]));
        }
        1 => places.regs[random.between(reg::PHASE, reg::LAST_ASKED)] = random.below(40),
        2 => {
            *random_place(random, &mut places.tail, places.regs[reg::TAIL_FILL]) =
                random.word() as u16 & 0x1FFF
        }
        3 => {
            *random_place(random, &mut places.head, places.regs[reg::HEAD_FILL]) =
                random.word() as u16 & 0x1FFF
        }
        4 => {
            let cells = Design::Full.cells(places.sizes());
            *random_place(random, &mut places.cells, cells) = random.word() as u32 & 0x3_1FFF;
        }
        5 => places.firsts[queue] = random.below(depth + 1) as u8,
        _ => places.stored[queue] = random.below(depth + 2) as u8,
    }
}

/// One of the first so many places.
fn random_place<'a, T>(random: &mut Random, places: &'a mut [T], first: usize) -> &'a mut T {
    let place = random.below(first.min(places.len()));
    &mut places[place]
}

/// Any numbers in every array; in some states also in the registers, in others these may be good.
fn any_numbers(random: &mut Random) -> Handed {
    let mut image = Image::junk(random);
    if random.percent(70) {
        let sizes = some_sizes(random);
        let tail_mark = random.below(sizes.tail_size() + 2);
        let head_mark = random.below(sizes.head_size() + 2);
        image.places.regs = [
            sizes.q,
            sizes.b,
            sizes.k,
            random.below(sizes.b),
            random.below(tail_mark + 1),
            random.below(head_mark + 1),
            tail_mark,
            head_mark,
            random.below(sizes.q),
        ];
    }
    let sizes = image.places.sizes();
    let short = random.percent(25);
    image.store = some_store(random, sizes, short);
    Handed { image, call: some_call(random, sizes, 10), fault: None }
}
