//! How often each answer, each broken rule, each call, each outcome of a full queue that is read and refilled and each
//! outcome of the arbiter's choice came, and which slots were left at a read. What came too seldom has not been tested.

use std::collections::BTreeMap;
use std::fmt;

use gelwynnar::{Answer, ArbiterAnswer};
use second::buffer::Numbers;
use second::reads::Reads;

use crate::arbitrated::{Arbitrated, Turn};
use crate::faults::Fault;
use crate::refilled::{Met, Refilled};
use crate::waits::{Waited, MANY};
use crate::words;

/// As many states as the least counts below are meant for.
pub const USUAL_STATES: usize = 20_000;

const LEAST_OF_A_NUMBER: usize = 300;
const LEAST_OF_A_FAULT: usize = 50;
const LEAST_OF_A_CALL: usize = 1_000;
const LEAST_OF_A_LONG_WAIT: usize = 50;
const LEAST_OF_BOTH_ENDS: usize = 5;

/// What an accepted slot can do.
const MOVES: [&str; 3] = ["delivers", "writes", "reads"];

/// What must come of slots of one kind.
struct Due {
    kind: &'static str,
    /// What stops them, or 0: 1 is of making, 11 and more are of other calls.
    numbers: &'static [u8],
    /// The numbers of the arrivals and requests that are dropped, where none stops the slot (request 2.5).
    dropped: &'static [[u8; 2]],
    /// What comes of a full queue that is read and refilled.
    refills: &'static [Refilled],
    /// What comes of the arbiter's choice.
    turns: &'static [Arbitrated],
}

/// Every choice of dropped halves; and those of the arbiter, which asks for no queue without a byte.
const DROPPED: &[[u8; 2]] = &[[5, 0], [0, 7], [5, 7]];
const DROPPED_BESIDE_THE_ARBITER: &[[u8; 2]] = &[[5, 0]];

const OF_SLOTS: Due = Due {
    kind: "slot",
    numbers: &[0, 2, 3, 4, 6, 8, 9, 10],
    dropped: DROPPED,
    refills: &Refilled::ALL,
    turns: &[],
};

/// A step does not judge 3 and 2. Steps seldom meet a full tail, since the slot before them has often written a block
/// of it.
const OF_STEPS: Due = Due {
    kind: "step",
    numbers: &[0, 4, 6, 8, 9, 10],
    dropped: DROPPED,
    refills: &[
        Refilled::Swaps,
        Refilled::Misses,
        Refilled::CannotRead,
        Refilled::WouldBeOwed,
        Refilled::HasNoTailByte,
    ],
    turns: &[],
};

/// From a fresh state 3, 8, 9 and 10 never come, no slot meets a full tail, and few meet a queue with all its bytes in
/// the store and owed.
const OF_LISTS: Due = Due {
    kind: "slot of a list",
    numbers: &[0, 2, 4, 6],
    dropped: DROPPED,
    refills: &[Refilled::Swaps, Refilled::WouldBeOwed],
    turns: &[],
};

/// The arbiter asks for no unknown queue, and for none without a byte. So a full queue without a tail byte is asked
/// only where the request is Owed.
const OF_ARBITER_SLOTS: Due = Due {
    kind: "slot of the arbiter's",
    numbers: &[0, 2, 3, 4, 8, 9, 10],
    dropped: DROPPED_BESIDE_THE_ARBITER,
    refills: &[
        Refilled::Swaps,
        Refilled::SwapsInFullTail,
        Refilled::Misses,
        Refilled::CannotRead,
        Refilled::WouldBeOwed,
    ],
    turns: &Arbitrated::ALL,
};

const OF_ARBITER_STEPS: Due = Due {
    kind: "step of the arbiter's",
    numbers: &[0, 4, 8, 9, 10],
    dropped: DROPPED_BESIDE_THE_ARBITER,
    refills: &[Refilled::Swaps, Refilled::Misses, Refilled::CannotRead, Refilled::WouldBeOwed],
    turns: &Arbitrated::ALL,
};

const OF_ARBITER_LISTS: Due = Due {
    kind: "slot of the arbiter's in a list",
    numbers: &[0, 2, 4],
    dropped: DROPPED_BESIDE_THE_ARBITER,
    refills: OF_LISTS.refills,
    turns: &[
        Arbitrated::AsksNone,
        Arbitrated::AsksTheNext,
        Arbitrated::PassesOver,
        Arbitrated::AsksAgain,
        Arbitrated::BeginsWith0,
        Arbitrated::Wraps,
        Arbitrated::AsksTheArriving,
        Arbitrated::FullAndAsksAnother,
    ],
};

#[derive(Clone, Copy, Debug, PartialEq, Eq, PartialOrd, Ord)]
pub enum Call {
    Slot,
    Step,
    ArbiterSlot,
    ArbiterStep,
    Run,
    Idle,
    Judge,
    Margin,
}

const CALLS: [Call; 8] = [
    Call::Slot,
    Call::Step,
    Call::ArbiterSlot,
    Call::ArbiterStep,
    Call::Run,
    Call::Idle,
    Call::Judge,
    Call::Margin,
];

/// The answers of some slots: their numbers, and what those that were accepted did.
#[derive(Default)]
struct Answers {
    numbers: BTreeMap<Numbers, usize>,
    moves: BTreeMap<&'static str, usize>,
    reads: Reads,
    refills: BTreeMap<Refilled, usize>,
    turns: BTreeMap<Arbitrated, usize>,
}

impl Answers {
    fn add(&mut self, answer: Answer, met: Met) {
        *self.numbers.entry(words::numbers(answer)).or_default() += 1;
        for (name, happened) in MOVES.into_iter().zip([answer.delivers, answer.writes, answer.reads]) {
            *self.moves.entry(name).or_default() += usize::from(happened);
        }
        self.reads.add(met.lookahead, answer.slots_left as usize);
        if let Some(refilled) = met.comes_to(answer) {
            *self.refills.entry(refilled).or_default() += 1;
        }
    }

    fn add_turn(&mut self, answer: ArbiterAnswer, turn: Option<Turn>) {
        self.add(answer.slot, turn.map_or(Met::default(), |turn| turn.met));
        for arbitrated in turn.map_or(Vec::new(), |turn| turn.comes_to(answer.slot)) {
            *self.turns.entry(arbitrated).or_default() += 1;
        }
    }
}

#[derive(Default)]
pub struct Seen {
    /// Of handed-in states.
    faults: BTreeMap<String, usize>,
    large: usize,
    slots: Answers,
    steps: Answers,
    arbiter_slots: Answers,
    arbiter_steps: Answers,
    /// Of lists, by every kind of call in which the caller asks, and by both in which the arbiter does.
    lists: Answers,
    arbiter_lists: Answers,
    waited: Waited,
    /// Of both.
    calls: BTreeMap<Call, usize>,
}

impl Seen {
    pub fn state(&mut self, large: bool, fault: Option<Fault>) {
        self.large += usize::from(large);
        if let Some(fault) = fault {
            *self.faults.entry(fault.to_string()).or_default() += 1;
        }
    }

    pub fn slot(&mut self, answer: Answer, met: Met) {
        self.call(Call::Slot);
        self.slots.add(answer, met);
    }

    pub fn step(&mut self, answer: Answer, met: Met) {
        self.call(Call::Step);
        self.steps.add(answer, met);
    }

    pub fn arbiter_slot(&mut self, answer: ArbiterAnswer, turn: Option<Turn>) {
        self.call(Call::ArbiterSlot);
        self.arbiter_slots.add_turn(answer, turn);
    }

    pub fn arbiter_step(&mut self, answer: ArbiterAnswer, turn: Option<Turn>) {
        self.call(Call::ArbiterStep);
        self.arbiter_steps.add_turn(answer, turn);
    }

    /// One slot of a list, by whatever call in which the caller asks.
    pub fn listed(&mut self, answer: Answer, met: Met) {
        self.lists.add(answer, met);
    }

    pub fn arbiter_listed(&mut self, answer: ArbiterAnswer, turn: Option<Turn>) {
        self.arbiter_lists.add_turn(answer, turn);
    }

    /// How long the queues of one list had to wait.
    pub fn waited(&mut self, list: Waited) {
        let all = &mut self.waited;
        all.asked += list.asked;
        all.left += list.left;
        all.asked_latest += list.asked_latest;
        all.left_latest += list.left_latest;
        all.asked_latest_of_many += list.asked_latest_of_many;
        all.greatest = all.greatest.max(list.greatest);
    }

    pub fn call(&mut self, call: Call) {
        *self.calls.entry(call).or_default() += 1;
    }

    /// What came too seldom.
    pub fn too_seldom(&self) -> Vec<String> {
        let mut all = Vec::new();
        let mut ask = |what: String, times: Option<&usize>, least: usize| {
            let times = times.copied().unwrap_or(0);
            if times < least {
                all.push(format!("{what} came {times} times, and should have come {least} times or more"));
            }
        };
        let kinds = [
            (OF_SLOTS, &self.slots),
            (OF_STEPS, &self.steps),
            (OF_LISTS, &self.lists),
            (OF_ARBITER_SLOTS, &self.arbiter_slots),
            (OF_ARBITER_STEPS, &self.arbiter_steps),
            (OF_ARBITER_LISTS, &self.arbiter_lists),
        ];
        for (Due { kind, numbers, dropped, refills, turns }, answers) in kinds {
            let stops = numbers.iter().map(|&number| [number, 0, 0]);
            let drops = dropped.iter().map(|&[arrival, request]| [0, arrival, request]);
            for numbers in stops.chain(drops) {
                let what = format!("a {kind} that answers {}", spoken(numbers));
                ask(what, answers.numbers.get(&numbers), LEAST_OF_A_NUMBER);
            }
            for name in MOVES {
                ask(format!("a {kind} that {name}"), answers.moves.get(name), LEAST_OF_A_NUMBER);
            }
            let (both_ends, between) = (answers.reads.both_ends(), answers.reads.between());
            let what = format!("a lookahead at which a {kind} reads with 1 slot left, and one with all");
            ask(what, Some(&both_ends), LEAST_OF_BOTH_ENDS);
            let what = format!("a {kind} that reads with more than 1 slot left, and fewer than all");
            ask(what, Some(&between), LEAST_OF_A_NUMBER);
            for refilled in refills {
                ask(format!("a {kind} that {refilled}"), answers.refills.get(refilled), LEAST_OF_A_NUMBER);
            }
            for turn in turns {
                ask(format!("a {kind} that {turn}"), answers.turns.get(turn), LEAST_OF_A_NUMBER);
            }
        }
        let waited = [
            ("asked", self.waited.asked),
            ("asked as late as can be", self.waited.asked_latest),
            ("delivered", self.waited.left),
            ("delivered as late as can be", self.waited.left_latest),
        ];
        for (what, times) in waited {
            ask(format!("a front byte that was {what}"), Some(&times), LEAST_OF_A_NUMBER);
        }
        ask(
            "a front byte of many queues that was asked as late as can be".to_string(),
            Some(&self.waited.asked_latest_of_many),
            LEAST_OF_A_LONG_WAIT,
        );
        for fault in Fault::all() {
            ask(format!("the fault {fault}"), self.faults.get(&fault.to_string()), LEAST_OF_A_FAULT);
        }
        ask("a large state".to_string(), Some(&self.large), LEAST_OF_A_NUMBER);
        for call in CALLS {
            ask(format!("the call {call:?}"), self.calls.get(&call), LEAST_OF_A_CALL);
        }
        all
    }
}

impl fmt::Display for Seen {
    fn fmt(&self, out: &mut fmt::Formatter) -> fmt::Result {
        writeln!(out, "faults: {}", listed(&self.faults, String::clone))?;
        writeln!(out, "large states: {}", self.large)?;
        writeln!(out, "slots: {}", self.slots)?;
        writeln!(out, "steps: {}", self.steps)?;
        writeln!(out, "slots of lists: {}", self.lists)?;
        writeln!(out, "arbiter's slots: {}", self.arbiter_slots)?;
        writeln!(out, "arbiter's steps: {}", self.arbiter_steps)?;
        writeln!(out, "arbiter's slots of lists: {}", self.arbiter_lists)?;
        writeln!(out, "front bytes in arbiter's slots of lists: {}", self.waited)?;
        write!(out, "calls: {}", listed(&self.calls, |call| format!("{call:?}")))
    }
}

impl fmt::Display for Answers {
    fn fmt(&self, out: &mut fmt::Formatter) -> fmt::Result {
        let numbers = listed(&self.numbers, |&numbers| format!("number {}", spoken(numbers)));
        let moves = listed(&self.moves, |name| name.to_string());
        write!(out, "{numbers}, {moves}, {}, {}", self.reads, listed(&self.refills, Refilled::to_string))?;
        if !self.turns.is_empty() {
            write!(out, ", {}", listed(&self.turns, Arbitrated::to_string))?;
        }
        Ok(())
    }
}

impl fmt::Display for Waited {
    fn fmt(&self, out: &mut fmt::Formatter) -> fmt::Result {
        let Waited { asked, asked_latest, asked_latest_of_many, left, left_latest, greatest } = self;
        write!(out, "asked: {asked}, of these after exactly Q - 1 further slots: {asked_latest}, ")?;
        write!(out, "and of more than {MANY} queues: {asked_latest_of_many}, ")?;
        write!(out, "left: {left}, of these after exactly Q - 1 + L: {left_latest}, ")?;
        write!(out, "greatest wait to be asked: {greatest}")
    }
}

/// The numbers of a slot, of its arrival and of its request: the last two only where a half is dropped.
fn spoken([slot, arrival, request]: Numbers) -> String {
    match [arrival, request] {
        [0, 0] => slot.to_string(),
        [_, 0] => format!("{slot} and {arrival}"),
        [0, _] => format!("{slot} and {request}"),
        [_, _] => format!("{slot}, {arrival} and {request}"),
    }
}

fn listed<K>(times: &BTreeMap<K, usize>, name: impl Fn(&K) -> String) -> String {
    let parts: Vec<String> = times.iter().map(|(kind, times)| format!("{}: {times}", name(kind))).collect();
    parts.join(", ")
}
