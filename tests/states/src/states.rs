//! One handed-in state, and what each call makes of it.

use gelwynnar::Judgement;
use second::buffer::Refill;
use second::random::Random;
use second::sizes::Design;

use crate::difference;
use crate::expected::Expected;
use crate::guarded::Edge;
use crate::handed::Handed;
use crate::image::Image;
use crate::memory::Memory;
use crate::picks::{is_large, queue_inside, queue_outside, some_call};
use crate::seen::{self, Seen};
use crate::words::{arbiter_word, call_word, Call};

/// What a step shall meet, and the last is anything. A full queue without a tail byte is the rarest.
const SOUGHT: [Option<Refill>; 4] =
    [Some(Refill::Swap), Some(Refill::NoTailByte), Some(Refill::NoTailByte), None];

/// A state, the second program's side of it, and what its calls need.
struct Trial<'a> {
    before: &'a Image,
    call: Call,
    expected: Expected,
    edge: Edge,
    memory: &'a mut Memory,
    random: &'a mut Random,
    seen: &'a mut Seen,
}

pub fn check(
    handed: &Handed,
    edge: Edge,
    memory: &mut Memory,
    random: &mut Random,
    seen: &mut Seen,
) -> Result<(), String> {
    let before = &handed.image;
    let expected = Expected::new(&before.places.state(), &before.store);
    let mut trial = Trial { before, call: handed.call, expected, edge, memory, random, seen };
    let judgement = trial.slot().map_err(|what| format!("slot: {what}"))?;
    trial.arbiter().map_err(|what| format!("arbiter's slot: {what}"))?;
    trial.judge(judgement).map_err(|what| format!("judge: {what}"))?;
    trial.run().map_err(|what| format!("run: {what}"))?;
    trial.idle().map_err(|what| format!("idle: {what}"))?;
    trial.margin().map_err(|what| format!("margin: {what}"))
}

impl Trial<'_> {
    /// What a judgement of the slot is to say.
    fn slot(&mut self) -> Result<Judgement, String> {
        let mut expected = self.expected.clone();
        let met = expected.meets(self.call);
        let answer = expected.slot(self.call);
        let word = call_word(self.random, self.call);
        self.memory.put(self.before, self.edge);
        let found = gelwynnar::slot(self.memory.arrays.lent(), word, self.memory.store.slice_mut());
        self.seen.slot(answer, met);
        if found != answer {
            return Err(format!("{:?} answers {found:?}, expected {answer:?}", self.call));
        }
        self.agrees(&expected)?;
        if answer.number != 3 && answer.number != 2 {
            self.steps(expected).map_err(|what| format!("and then step: {what}"))?;
        }
        Ok(Judgement { number: answer.number, dropped: answer.dropped })
    }

    /// The same arrival, where the arbiter chooses.
    fn arbiter(&mut self) -> Result<(), String> {
        let mut expected = self.expected.clone();
        let (arrival, _) = self.call;
        let turn = expected.turn(arrival);
        let answer = expected.arbiter_slot(arrival);
        let word = arbiter_word(self.random, arrival);
        self.memory.put(self.before, self.edge);
        let found = gelwynnar::arbiter_slot(self.memory.arrays.lent(), word, self.memory.store.slice_mut());
        self.seen.arbiter_slot(answer, turn);
        difference::arbiter_answers(arrival, found, answer)?;
        self.agrees(&expected)?;
        if answer.slot.number != 3 && answer.slot.number != 2 {
            self.steps(expected).map_err(|what| format!("and then step: {what}"))?;
        }
        Ok(())
    }

    /// Steps from the state that a slot left, accepted or not, now that its counts are right. In some the arbiter
    /// chooses.
    fn steps(&mut self, mut expected: Expected) -> Result<(), String> {
        let sizes = self.before.places.sizes();
        let mut before = self.memory.image()?;
        for _ in 0..if is_large(sizes) { 2 } else { 6 } {
            let sought = self.random.pick(&SOUGHT);
            let refill = sought.and_then(|refill| expected.some_refill(self.random, refill));
            let call = refill.unwrap_or_else(|| some_call(self.random, sizes, 5));
            let number = if self.random.percent(50) {
                self.step(&mut expected, call)?
            } else {
                self.arbiter_step(&mut expected, call)?
            };
            let after = self.memory.image()?;
            if number != 0 {
                same_image(&after, &before).map_err(|what| format!("{call:?} is stopped, and {what}"))?;
            }
            before = after;
        }
        self.agrees(&expected)
    }

    /// The number that a step answers. For `steps`, which is called where the slot before it answered neither 3 nor 2.
    fn step(&mut self, expected: &mut Expected, call: Call) -> Result<u8, String> {
        let met = expected.meets(call);
        let answer = expected.slot(call);
        let word = call_word(self.random, call);
        let (lent, store) = (self.memory.arrays.lent(), self.memory.store.slice_mut());
        // Safe: the slot answered neither 3 nor 2, and since then the library alone has written the arrays.
        let found = unsafe { gelwynnar::step(lent, word, store) };
        self.seen.step(answer, met);
        if found != answer {
            return Err(format!("{call:?} answers {found:?}, expected {answer:?}"));
        }
        Ok(answer.number)
    }

    /// The same, where the arbiter chooses: of the call only its arrival counts.
    fn arbiter_step(&mut self, expected: &mut Expected, (arrival, _): Call) -> Result<u8, String> {
        let turn = expected.turn(arrival);
        let answer = expected.arbiter_slot(arrival);
        let word = arbiter_word(self.random, arrival);
        let (lent, store) = (self.memory.arrays.lent(), self.memory.store.slice_mut());
        // Safe: as above.
        let found = unsafe { gelwynnar::arbiter_step(lent, word, store) };
        self.seen.arbiter_step(answer, turn);
        difference::arbiter_answers(arrival, found, answer)?;
        Ok(answer.slot.number)
    }

    /// What the slot answers and drops, with as many bytes of store and with others, and nothing changed.
    fn judge(&mut self, expected: Judgement) -> Result<(), String> {
        let given = self.before.store.len();
        let needed = self.before.places.sizes().store_size();
        let short = Judgement { number: 2, dropped: 0 };
        let mut lengths = vec![(given, expected)];
        if self.expected.refuses_all(given) == 0 {
            // Long enough is long enough, and a byte too few is 2 whatever the call.
            lengths.extend([needed, 1 << 32, usize::MAX].map(|length| (length, expected)));
            lengths.extend([(needed - 1, short), (0, short)]);
        }
        let word = call_word(self.random, self.call);
        self.memory.put(self.before, self.edge);
        for (length, expected) in lengths {
            let found = gelwynnar::judge(&self.memory.arrays.lent(), word, length);
            self.seen.call(seen::Call::Judge);
            if found != expected {
                return Err(format!("{:?}, {length} bytes: {found:?}, expected {expected:?}", self.call));
            }
        }
        self.unchanged()
    }

    /// A short list of calls, the slot's own first, with as many places for answers or some more or fewer.
    fn run(&mut self) -> Result<(), String> {
        let sizes = self.before.places.sizes();
        let most = if is_large(sizes) { 3 } else { 9 };
        let mut calls: Vec<Call> = (0..most).map(|_| some_call(self.random, sizes, 5)).collect();
        calls[0] = self.call;
        calls.truncate(self.random.between(0, most));
        let words: Vec<u64> = calls.iter().map(|&call| call_word(self.random, call)).collect();
        let places = (calls.len() + self.random.pick(&[2, 2, 2, 3, 5, 1, 0])).saturating_sub(2);
        let blank: Vec<u64> = (0..places).map(|_| self.random.word()).collect();

        let mut expected = self.expected.clone();
        let number = expected.refuses_all(self.before.store.len());
        let mut answers = blank.clone();
        for (place, &call) in answers.iter_mut().zip(&calls) {
            *place = expected.slot(call).word();
        }

        let memory = &mut *self.memory;
        memory.put(self.before, self.edge);
        memory.put_run(&words, &blank, self.edge);
        let (lent, store) = (memory.arrays.lent(), memory.store.slice_mut());
        let found = gelwynnar::run(lent, memory.calls.slice(), memory.answers.slice_mut(), store);
        self.seen.call(seen::Call::Run);
        if found != number {
            return Err(format!("{calls:?}, {places} places: {found}, expected {number}"));
        }
        memory.run_agrees(&words, &answers).map_err(|what| format!("{calls:?}: {what}"))?;
        self.agrees(&expected)
    }

    /// Few idle slots, as many as bring every cell out, or a number without end, for which large states take too long.
    fn idle(&mut self) -> Result<(), String> {
        let sizes = self.before.places.sizes();
        let few = self.random.below(4);
        let some = self.random.below(20);
        let through = self.random.below(Design::Full.cells(sizes).saturating_add(2 * sizes.b.min(128)));
        let endless = self.random.pick(&[1 << 16, 1 << 32, usize::MAX - 1, usize::MAX]);
        let most = if is_large(sizes) {
            self.random.pick(&[few, some])
        } else {
            self.random.pick(&[few, some, through, endless])
        };

        let mut expected = self.expected.clone();
        let stretch = expected.idle_in(most, self.before.store.len());
        self.memory.put(self.before, self.edge);
        let found = gelwynnar::idle(self.memory.arrays.lent(), most, self.memory.store.slice_mut());
        self.seen.call(seen::Call::Idle);
        if found != stretch {
            return Err(format!("{most} slots answer {found:?}, expected {stretch:?}"));
        }
        self.agrees(&expected)
    }

    /// Of a queue in range and one out of it.
    fn margin(&mut self) -> Result<(), String> {
        let sizes = self.before.places.sizes();
        let queues = [queue_inside(self.random, sizes), queue_outside(self.random, sizes)];
        self.memory.put(self.before, self.edge);
        for queue in queues.map(|queue| queue as u16) {
            let found = gelwynnar::margin(&self.memory.arrays.lent(), queue);
            let expected = self.before.places.margin(queue);
            self.seen.call(seen::Call::Margin);
            if found != expected {
                return Err(format!("queue {queue}: {found}, expected {expected}"));
            }
        }
        self.unchanged()
    }

    fn agrees(&mut self, expected: &Expected) -> Result<(), String> {
        let after = self.memory.image()?;
        expected.agrees(self.before, &after)?;
        expected.counts_agree(self.before, &after)
    }

    fn unchanged(&mut self) -> Result<(), String> {
        same_image(&self.memory.image()?, self.before)
    }
}

/// Every byte of every array is the same, the counts among them.
fn same_image(after: &Image, before: &Image) -> Result<(), String> {
    let places = difference::places(&after.places, &before.places);
    let counts = || difference::counts(&after.counts, &before.counts);
    let store = || difference::array("store", &after.store, &before.store);
    difference::same(places.or_else(counts).or_else(store))
}
