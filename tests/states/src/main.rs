//! Every state executed: the library for C on states that are handed in, beside the second program.
//!
//! states [SEED [COUNT]]
//!
//! COUNT states, 20,000 where nothing is said, each with a slot and then steps, with a slot in which the arbiter
//! chooses and then steps, with the same slot judged, and as the start of a run, of idle slots and of two margins; for
//! each twenty of them a list of slots from a fresh state; and sizes. Every array lies against a page that nobody may
//! touch. Prints how often each fault, each answer, each call, each outcome of a full queue that is read and refilled
//! (request 2.1), each outcome of the arbiter's choice and its longest waits (request 2.2), and the fewest and the most
//! slots left at a read (request 2.6) came: with 20,000 states or more too seldom is a failure. The last line is
//! 'N passed, M failed'.

mod arbitrated;
mod difference;
mod expected;
mod faults;
mod fresh;
mod guarded;
mod handed;
mod image;
mod lists;
mod memory;
mod picks;
mod refilled;
mod seen;
mod signals;
mod sizes;
mod states;
mod waits;
mod words;

use std::process::ExitCode;

use second::random::Random;

use guarded::Edge;
use memory::Memory;
use picks::is_large;
use seen::Seen;

/// A list for so many states.
const STATES_TO_A_LIST: usize = 20;

/// No more than so many failures are printed, since one fault may fail thousands of tests.
const PRINTED: usize = 20;

fn main() -> ExitCode {
    let arguments: Vec<String> = std::env::args().skip(1).collect();
    let number = |index: usize, usual: usize| match arguments.get(index) {
        Some(word) => word.parse().expect("SEED and COUNT are whole numbers"),
        None => usual,
    };
    let (seed, count) = (number(0, 1), number(1, seen::USUAL_STATES));

    signals::watch();
    let mut memory = Memory::new();
    let mut seen = Seen::default();
    let mut report = Report::default();
    for place in 0..count {
        let mut random = generator(seed, signals::STATE, place);
        report.test(signals::STATE, place, || {
            let handed = handed::handed(&mut random);
            seen.state(is_large(handed.image.places.sizes()), handed.fault);
            states::check(&handed, Edge::of_turn(place), &mut memory, &mut random, &mut seen)
        });
    }
    for place in 0..count.div_ceil(STATES_TO_A_LIST) {
        let mut random = generator(seed, signals::LIST, place);
        report.test(signals::LIST, place, || {
            lists::check(Edge::of_turn(place), &mut memory, &mut random, &mut seen)
        });
    }
    for (place, (name, test)) in sizes::all().into_iter().enumerate() {
        let mut random = generator(seed, signals::SIZES, place);
        report.test(signals::SIZES, place, || {
            test.check(&mut memory, &mut random).map_err(|what| format!("{name}: {what}"))
        });
    }

    println!("{seen}");
    if count >= seen::USUAL_STATES {
        for what in seen.too_seldom() {
            println!("{what}");
            report.failed += 1;
        }
    }
    println!("{} passed, {} failed", report.passed, report.failed);
    if report.failed == 0 {
        ExitCode::SUCCESS
    } else {
        ExitCode::FAILURE
    }
}

/// Each test has a generator of its own, so that its place and the seed name it, whatever comes before.
fn generator(seed: usize, kind: usize, place: usize) -> Random {
    let mut seeds = Random::new(seed as u64);
    Random::new(seeds.word() ^ (kind as u64) << 32 ^ place as u64)
}

#[derive(Default)]
struct Report {
    passed: usize,
    failed: usize,
}

impl Report {
    fn test(&mut self, kind: usize, place: usize, check: impl FnOnce() -> Result<(), String>) {
        signals::begin(kind, place, self.passed, self.failed);
        match check() {
            Ok(()) => self.passed += 1,
            Err(what) => {
                self.failed += 1;
                if self.failed <= PRINTED {
                    println!("{} {place}: {what}", signals::KINDS[kind]);
                }
            }
        }
    }
}
