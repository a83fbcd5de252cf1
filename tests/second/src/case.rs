//! A closed case of one slot call on a state handed in: what `cases` and `arbiter-cases` print and count.

use std::collections::BTreeMap;

use crate::arbiter::Asker;
use crate::breaks::{Break, ALL};
use crate::buffer::{Answer, Buffer, Numbers};
use crate::lines::{design_word, print_answer, print_call, print_sizes, print_state, print_store};
use crate::random::Random;
use crate::raw::RawState;
use crate::rules::Cell;
use crate::sizes::Design;

/// Everything that goes into one slot call.
#[derive(Clone)]
pub struct Case {
    pub design: Design,
    pub state: RawState,
    pub store: Vec<u8>,
    pub arrival: Option<(usize, u8)>,
    pub asker: Asker,
}

/// A case after its call.
pub struct Outcome {
    state: RawState,
    store: Vec<u8>,
    /// What the caller asks for, or the arbiter if the slot is accepted.
    request: Option<usize>,
    pub answer: Answer,
}

impl Case {
    pub fn run(&self) -> Outcome {
        let mut state = self.state.clone();
        let mut store = self.store.clone();
        let cells = self.design.cells(state.sizes);
        let (answer, request) = match self.asker {
            Asker::Caller(request) => (state.slot(cells, self.arrival, request, &mut store), request),
            Asker::Arbiter => {
                let turn = state.arbiter_slot(cells, self.arrival, &mut store);
                (turn.answer, turn.asked)
            }
        };
        Outcome { state, store, request, answer }
    }
}

/// Prints `count` cases: one in five breaks a rule. The breaks come in turn, so that each is there about as often.
pub fn print_drawn_cases(seed: u64, count: usize, draw: impl Fn(&mut Random, Option<Break>) -> Case) {
    let mut random = Random::new(seed);
    let mut tally = Tally::default();
    let mut next_break = random.below(ALL.len());
    for number in 0..count {
        let broken = random.percent(20);
        next_break += usize::from(broken);
        let case = draw(&mut random, broken.then(|| ALL[next_break % ALL.len()]));
        let outcome = case.run();
        tally.add(&case, &outcome);
        print_case(number, &case, &outcome);
    }
    tally.print();
}

fn print_case(number: usize, case: &Case, outcome: &Outcome) {
    println!("case {number} design {}", design_word(case.design));
    print_sizes(case.state.sizes);
    print_state("", &case.state);
    print_store("", &case.store);
    print_call(case.arrival, outcome.request);
    print_answer(&outcome.answer);
    print_state("after ", &outcome.state);
    print_store("after ", &outcome.store);
    println!();
}

/// What occurred how often, for the summary on standard error.
#[derive(Default)]
struct Tally {
    answers: BTreeMap<Numbers, usize>,
    rules: BTreeMap<String, usize>,
    events: BTreeMap<&'static str, usize>,
}

impl Tally {
    fn add(&mut self, case: &Case, outcome: &Outcome) {
        let answer = &outcome.answer;
        *self.answers.entry(answer.numbers()).or_default() += 1;
        let broken = case.state.broken_rules(case.design.cells(case.state.sizes));
        if !broken.is_empty() {
            *self.rules.entry(broken.join(" + ")).or_default() += 1;
        }
        let wraps = |queue: usize| case.state.rings[queue].first + 1 == case.state.sizes.k;
        let oldest = case.state.cells.first();
        let accepted = answer.number == 0;
        self.event("design fewer", case.design == Design::Fewer);
        self.event("accepted, Held delivered", accepted && matches!(oldest, Some(Cell::Held(..))));
        self.event("accepted, Owed delivered", accepted && matches!(oldest, Some(Cell::Owed(_))));
        self.event("accepted, youngest Held", accepted && matches!(outcome.state.cells.last(), Some(Cell::Held(..))));
        self.event("accepted, youngest Owed", accepted && matches!(outcome.state.cells.last(), Some(Cell::Owed(_))));
        self.event("accepted, block written", answer.written.is_some());
        self.event("accepted, block read", answer.read.is_some());
        self.event("accepted, written and read", answer.written.is_some() && answer.read.is_some());
        self.event("accepted, read from last ring place", answer.read.map_or(false, wraps));
        self.event("accepted, read for the next cell to leave", answer.slots_left == 1);
        let for_new_cell = answer.slots_left == outcome.state.cells.len();
        self.event("accepted, read for the new cell", answer.read.is_some() && for_new_cell);
        if broken.is_empty() {
            self.add_full_queue(case, answer);
        }
        if case.asker == Asker::Arbiter && broken.is_empty() {
            self.add_turn(case, outcome);
        }
    }

    /// What an arrival to a full queue meets, on a state that keeps the rules.
    fn add_full_queue(&mut self, case: &Case, answer: &Answer) {
        let buffer = Buffer::from_raw(&case.state);
        let request = match case.asker {
            Asker::Caller(request) => request,
            Asker::Arbiter => buffer.choice(case.arrival),
        };
        let swaps = buffer.swaps(case.arrival, request);
        let swapped = answer.number == 0 && swaps;
        let dropped = answer.arrival_number == 5;
        let tail_full = buffer.tail_is_full();
        self.event("accepted, swap", swapped);
        self.event("accepted, swap in a full tail", swapped && tail_full);
        self.event("5 in a full tail", dropped && tail_full);
        self.event("5 and a delivery", dropped && answer.delivered.is_some());
        self.event("5 and a block read", dropped && answer.read.is_some());
        let full = case.arrival.is_some_and(|(queue, _)| queue < case.state.sizes.q && buffer.is_full(queue));
        self.event("5 hidden by 6, 8 or 10", answer.number >= 6 && full && !swaps);
    }

    /// An arbiter's slot on a state that keeps the rules.
    fn add_turn(&mut self, case: &Case, outcome: &Outcome) {
        let buffer = Buffer::from_raw(&case.state);
        let without_arrival = buffer.choice(None);
        let accepted = outcome.answer.number == 0;
        let last = case.state.last_asked;
        let asked = outcome.request;
        self.event("arbiter, nothing asked", accepted && asked.is_none());
        self.event("arbiter, a higher queue asked", asked.map_or(false, |queue| queue > last));
        self.event("arbiter, a lower queue asked", asked.map_or(false, |queue| queue < last));
        self.event("arbiter, the same queue asked again", asked == Some(last));
        self.event("arbiter, asked since a byte arrives", asked.is_some() && asked != without_arrival);
        let full = outcome.answer.arrival_number == 5;
        let chosen = buffer.choice(case.arrival);
        let of_arrival = chosen.is_some() && chosen == case.arrival.map(|(queue, _)| queue);
        self.event("arbiter, 5 with nothing chosen", full && chosen.is_none());
        self.event("arbiter, 5 with the full queue chosen", full && of_arrival);
        self.event("arbiter, 5 with another queue chosen", full && chosen.is_some() && !of_arrival);
    }

    fn event(&mut self, name: &'static str, happened: bool) {
        *self.events.entry(name).or_default() += usize::from(happened);
    }

    fn print(&self) {
        for ([slot, arrival, request], count) in &self.answers {
            eprintln!("answer {slot} {arrival} {request}: {count}");
        }
        for (rule, count) in &self.rules {
            eprintln!("broken {rule}: {count}");
        }
        for (event, count) in &self.events {
            eprintln!("{event}: {count}");
        }
    }
}
