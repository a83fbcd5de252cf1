//! Lists of slots from a fresh state, in which slots, steps, runs, idle slots and slots and steps of the arbiter's come
//! in any order; or in which the arbiter has every slot after a caller's first part.

use second::arbiter_lists::Turns;
use second::lists::Traffic;
use second::random::Random;
use second::sizes::Sizes;

use crate::difference;
use crate::expected::Expected;
use crate::fresh;
use crate::guarded::Edge;
use crate::image::Image;
use crate::memory::{Memory, RUN_CALLS};
use crate::picks::{is_large, shallow_sizes, some_call, some_sizes};
use crate::seen::{self, Seen};
use crate::waits::Waits;
use crate::words::{arbiter_word, call_word, Arrival, Call, IDLE};

/// How many calls of the library a list has, and how many more for each queue, so that the arbiter comes round to all;
/// and of large sizes, for the first requests to come through all cells.
const CALLS: usize = 80;
const CALLS_FOR_A_QUEUE: usize = 2;
const CALLS_AT_LARGE_SIZES: usize = 250;

const KEEPS: &str = "a fresh state keeps the rules, and so does what a slot leaves";

/// State and store are compared each so many calls.
const EVERY: usize = 8;

/// Whose slots a list has.
enum Order {
    /// They take turns.
    Mixed,
    /// The first so many are the caller's, and all others the arbiter's. The caller may ask for nothing, so that the
    /// arbiter finds every queue with bytes, and full ones.
    CallersFirst { slots: usize, quiet: bool },
}

impl Order {
    fn random(random: &mut Random, sizes: Sizes, full_queues: bool) -> Order {
        if random.percent(50) {
            return Order::Mixed;
        }
        // Of large sizes the arrivals come in any order, and it takes some more for every queue to have one.
        let most = if is_large(sizes) { 8 * sizes.q } else { 2 * sizes.q.max(40) };
        let filling = sizes.store_size().min(most);
        let slots = if full_queues { filling } else { random.pick(&[0, 8, filling]) };
        Order::CallersFirst { slots, quiet: full_queues || random.percent(60) }
    }
}

/// A list under way, and the second program's side of it.
struct List<'a> {
    sizes: Sizes,
    fresh: Image,
    expected: Expected,
    traffic: Traffic,
    /// What arrives in the arbiter's slots.
    turns: Turns,
    /// Whether the caller asks for nothing now.
    quiet: bool,
    waits: Waits,
    /// How many slots the list has so far.
    slots: usize,
    memory: &'a mut Memory,
    edge: Edge,
    random: &'a mut Random,
    seen: &'a mut Seen,
}

pub fn check(edge: Edge, memory: &mut Memory, random: &mut Random, seen: &mut Seen) -> Result<(), String> {
    let roll = random.below(100);
    let (full_queues, dropped_halves) = (roll < 40, (40..75).contains(&roll));
    let sizes = if full_queues || dropped_halves { shallow_sizes(random) } else { some_sizes(random) };
    let store_bytes = sizes.store_size() + random.pick(&[0, 0, 1, 7]);
    let store = random.bytes(store_bytes);
    let fresh = fresh::open(sizes, store, edge, memory, random);
    let fresh = fresh.map_err(|what| format!("{sizes:?}, open: {what}"))?;
    let expected = Expected::fresh(sizes, &fresh.store);
    let traffic = if full_queues {
        Traffic::of_full_queues(random)
    } else if dropped_halves {
        Traffic::of_dropped_halves(random)
    } else {
        Traffic::random(random)
    };
    let calls = if is_large(sizes) { CALLS_AT_LARGE_SIZES } else { CALLS + CALLS_FOR_A_QUEUE * sizes.q };
    let order = Order::random(random, sizes, full_queues);
    let refills = if full_queues { 100 } else { random.pick(&[0, 50, 100]) };
    let turns = Turns { callers_first: 0, quiet: false, arbiters: 100, refills };
    let waits = Waits::new(sizes);
    let mut list = List {
        sizes,
        fresh,
        expected,
        traffic,
        turns,
        quiet: false,
        waits,
        slots: 0,
        memory,
        edge,
        random,
        seen,
    };
    for turn in 1..=calls {
        let done = match order {
            Order::Mixed if list.random.percent(60) => list.callers_call(),
            Order::CallersFirst { slots, quiet } if list.slots < slots => {
                list.quiet = quiet;
                list.callers_call()
            }
            _ => list.arbiters_call(),
        };
        done.and_then(|()| list.counts_are_right())
            .map_err(|what| format!("{sizes:?}, call {turn}: {what}"))?;
        if turn % EVERY == 0 || turn == calls {
            list.compare().map_err(|what| format!("{sizes:?}, after call {turn}: {what}"))?;
        }
    }
    list.seen.waited(list.waits.waited());
    Ok(())
}

impl List<'_> {
    fn callers_call(&mut self) -> Result<(), String> {
        // Idle slots by the count would take the bytes out of the tail.
        match self.random.below(if self.quiet { 85 } else { 100 }) {
            0..=29 => self.slot().map_err(|what| format!("slot: {what}")),
            30..=59 => self.step().map_err(|what| format!("step: {what}")),
            60..=84 => self.run().map_err(|what| format!("run: {what}")),
            _ => self.idle().map_err(|what| format!("idle: {what}")),
        }
    }

    fn arbiters_call(&mut self) -> Result<(), String> {
        if self.random.percent(50) {
            self.arbiter_slot().map_err(|what| format!("arbiter's slot: {what}"))
        } else {
            self.arbiter_step().map_err(|what| format!("arbiter's step: {what}"))
        }
    }

    fn counts_are_right(&mut self) -> Result<(), String> {
        // So that the next step is allowed.
        let after = self.memory.image()?;
        difference::same(difference::counts(&after.counts, &after.places.recount()))
    }

    fn slot(&mut self) -> Result<(), String> {
        let lent = self.store_lent();
        let call = self.next_call();
        let word = call_word(self.random, call);
        let before = self.memory.image()?;
        let met = self.expected.meets(call);
        let answer = self.expected.slot_in(call, lent);
        self.seen.listed(answer, met);
        let store = &mut self.memory.store.slice_mut()[..lent];
        let found = gelwynnar::slot(self.memory.arrays.lent(), word, store);
        self.seen.call(seen::Call::Slot);
        self.answered(call, found, answer, &before)
    }

    fn step(&mut self) -> Result<(), String> {
        let call = self.next_call();
        let word = call_word(self.random, call);
        let before = self.memory.image()?;
        let met = self.expected.meets(call);
        let answer = self.expected.slot(call);
        self.seen.listed(answer, met);
        let store = self.memory.store.slice_mut();
        // Safe: the library alone writes the arrays of a list, and its store is long enough.
        let found = unsafe { gelwynnar::step(self.memory.arrays.lent(), word, store) };
        self.seen.call(seen::Call::Step);
        self.answered(call, found, answer, &before)
    }

    fn arbiter_slot(&mut self) -> Result<(), String> {
        let lent = self.store_lent();
        let arrival = self.next_arrival();
        let word = arbiter_word(self.random, arrival);
        let before = self.memory.image()?;
        let turn = self.expected.turn(arrival);
        let answer = self.expected.arbiter_slot_in(arrival, lent);
        self.seen.arbiter_listed(answer, turn);
        let store = &mut self.memory.store.slice_mut()[..lent];
        let found = gelwynnar::arbiter_slot(self.memory.arrays.lent(), word, store);
        self.seen.call(seen::Call::ArbiterSlot);
        self.arbiter_answered(arrival, found, answer, &before)
    }

    fn arbiter_step(&mut self) -> Result<(), String> {
        let arrival = self.next_arrival();
        let word = arbiter_word(self.random, arrival);
        let before = self.memory.image()?;
        let turn = self.expected.turn(arrival);
        let answer = self.expected.arbiter_slot(arrival);
        self.seen.arbiter_listed(answer, turn);
        let store = self.memory.store.slice_mut();
        // Safe: as of a step.
        let found = unsafe { gelwynnar::arbiter_step(self.memory.arrays.lent(), word, store) };
        self.seen.call(seen::Call::ArbiterStep);
        self.arbiter_answered(arrival, found, answer, &before)
    }

    /// One slot's answer. A stopped slot leaves every byte, also those past a fill.
    fn answered(
        &mut self,
        call: Call,
        found: gelwynnar::Answer,
        answer: gelwynnar::Answer,
        before: &Image,
    ) -> Result<(), String> {
        if found != answer {
            return Err(format!("{call:?} answers {found:?}, expected {answer:?}"));
        }
        self.waits.callers(call.0, call.1, found)?;
        self.unchanged_if_stopped(found, before)
    }

    /// The same of a slot in which the arbiter chooses.
    fn arbiter_answered(
        &mut self,
        arrival: Arrival,
        found: gelwynnar::ArbiterAnswer,
        answer: gelwynnar::ArbiterAnswer,
        before: &Image,
    ) -> Result<(), String> {
        difference::arbiter_answers(arrival, found, answer)?;
        self.waits.arbiters(arrival, found)?;
        self.unchanged_if_stopped(found.slot, before)
    }

    fn unchanged_if_stopped(&mut self, found: gelwynnar::Answer, before: &Image) -> Result<(), String> {
        if found.number == 0 {
            return Ok(());
        }
        let changed = difference::places(&self.memory.image()?.places, &before.places);
        difference::same(changed.map(|what| format!("{} comes, and {what}", found.number)))
    }

    fn run(&mut self) -> Result<(), String> {
        let lent = self.store_lent();
        let number = self.expected.refuses_all(lent);
        let count = self.random.below(if is_large(self.sizes) { RUN_CALLS } else { 12 });
        let mut words = Vec::new();
        let mut answers = Vec::new();
        let mut slots = Vec::new();
        for _ in 0..count {
            let call = self.next_call();
            words.push(call_word(self.random, call));
            let met = self.expected.meets(call);
            let answer = self.expected.slot_in(call, lent);
            self.seen.listed(answer, met);
            answers.push(answer.word());
            slots.push((call, answer));
        }
        let blank: Vec<u64> = (0..count).map(|_| self.random.word()).collect();
        let memory = &mut *self.memory;
        memory.put_run(&words, &blank, self.edge);
        let store = &mut memory.store.slice_mut()[..lent];
        let found =
            gelwynnar::run(memory.arrays.lent(), memory.calls.slice(), memory.answers.slice_mut(), store);
        self.seen.call(seen::Call::Run);
        if found != number {
            return Err(format!("{count} calls: {found}, expected {number}"));
        }
        memory.run_agrees(&words, &answers)?;
        slots
            .into_iter()
            .try_for_each(|((arrival, request), found)| self.waits.callers(arrival, request, found))
    }

    fn idle(&mut self) -> Result<(), String> {
        let lent = self.store_lent();
        let few = self.random.below(2 * self.sizes.b + 1);
        let most = if is_large(self.sizes) { few } else { self.random.pick(&[few, few, 1_000, usize::MAX]) };
        let met = self.expected.meets(IDLE);
        let stretch = self.expected.idle_in(most, lent);
        self.seen.listed(stretch.last, met);
        let store = &mut self.memory.store.slice_mut()[..lent];
        let found = gelwynnar::idle(self.memory.arrays.lent(), most, store);
        self.seen.call(seen::Call::Idle);
        if found != stretch {
            return Err(format!("{most} slots answer {found:?}, expected {stretch:?}"));
        }
        self.waits.idle(found.passed, found.last)
    }

    /// Most often the whole store, else less than is asked for, which a checked call refuses with 2.
    fn store_lent(&mut self) -> usize {
        if self.random.percent(97) {
            self.expected.store().len()
        } else {
            self.random.below(self.sizes.store_size())
        }
    }

    fn next_call(&mut self) -> Call {
        let (arrival, request) = self.usual_call();
        (arrival, request.filter(|_| !self.quiet))
    }

    /// What arrives in a slot of the arbiter's: sometimes what makes it swap, or a byte of the queue that it is to ask,
    /// which may be full and does not swap.
    fn next_arrival(&mut self) -> Arrival {
        let call = self.usual_call();
        if is_large(self.sizes) {
            return call.0;
        }
        let buffer = self.expected.buffer().expect(KEEPS);
        if self.random.percent(10) {
            return buffer.choice(None).map(|queue| (queue, self.random.byte()));
        }
        self.turns.call(self.random, 0, buffer, call).0
    }

    /// Arrivals where there is room and requests where a byte is left, mostly. To find these takes long at large sizes.
    fn usual_call(&mut self) -> Call {
        self.slots += 1;
        if is_large(self.sizes) {
            return some_call(self.random, self.sizes, 1);
        }
        // So that no list goes without queues that there are not.
        if self.random.percent(2) {
            return some_call(self.random, self.sizes, 40);
        }
        let state = self.expected.state().expect(KEEPS);
        self.traffic.call(self.random, self.slots, &state)
    }

    fn compare(&mut self) -> Result<(), String> {
        let after = self.memory.image()?;
        self.expected.agrees(&self.fresh, &after)
    }
}
