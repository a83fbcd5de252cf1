//! Prints how long a slot takes in natural Rust, plain and careful, and in the proved library, over the same lists of
//! calls and in one process, with all answers, stores and high marks compared. `--markdown` prints the table as
//! markdown.

mod table;
mod timing;

use std::process::exit;

use bench::careful::CAREFUL;
use bench::natural::PLAIN;
use bench::traffic::{prelude, ArbiterTraffic, Traffic};
use bench::{by_value, library, Lent, Run, RunThenIdle, Sizes, TABLE_SIZES};
use table::Table;
use timing::best_times;

/// The library's ways to run a list, by the slots that they are given: the checked ones look at the whole state in
/// every slot, and get a short list.
const LISTS: [(usize, [(&str, Run); 2]); 2] = [
    (20_000, [("checked slot, by value", by_value::slots), ("checked slot, lent arrays", library::slots)]),
    (400_000, [("step, lent arrays", library::steps), ("many slots in one run", library::run)]),
];

/// Natural Rust passes idle slots one by one, the library by the count.
const IDLE_WAY: (&str, RunThenIdle) = ("idle slots by the count", library::run_then_idle);
const IDLE_SLOTS: usize = 1_000_000;

/// The arbiter chooses in the slots that are its own, and the others are steps.
const ARBITER_WAY: (&str, Run) = ("arbiter step, lent arrays", library::arbiter_steps);
const ARBITER_SLOTS: usize = 400_000;

const SEED: u64 = 12345;

fn main() {
    let mut markdown = false;
    for word in std::env::args().skip(1) {
        match word.as_str() {
            "--markdown" => markdown = true,
            _ => {
                eprintln!("usage: bench [--markdown]");
                exit(2);
            }
        }
    }

    let table = Table { markdown };
    table.head();
    let models = [PLAIN, CAREFUL].map(|model| (model.name, model.run));
    for sizes in TABLE_SIZES {
        for traffic in Traffic::ALL {
            for (slots, [one, other]) in LISTS {
                let calls = &traffic.calls(sizes, slots, SEED);
                let ways = [models[0], models[1], one, other];
                let times = best_times(ways, &lent(sizes, slots), |run, lent| run(sizes, calls, lent));
                let [plain, careful, first, second] = times;
                table.row(sizes, traffic.name(), one.0, slots, [plain, careful, first]);
                table.row(sizes, traffic.name(), other.0, slots, [plain, careful, second]);
            }
        }
        for traffic in ArbiterTraffic::ALL {
            let calls = &traffic.calls(sizes, ARBITER_SLOTS, SEED);
            let models = [PLAIN, CAREFUL].map(|model| (model.name, model.run_arbiter));
            let ways = [models[0], models[1], ARBITER_WAY];
            let lent = &lent(sizes, ARBITER_SLOTS);
            let times = best_times(ways, lent, |run, lent| run(sizes, calls, lent));
            table.row(sizes, traffic.name(), ARBITER_WAY.0, ARBITER_SLOTS, times);
        }
        let calls = &prelude(sizes);
        let models = [PLAIN, CAREFUL].map(|model| (model.name, model.run_then_idle));
        let ways = [models[0], models[1], IDLE_WAY];
        let run = |run: RunThenIdle, lent: &mut Lent| run(sizes, calls, lent, IDLE_SLOTS);
        let times = best_times(ways, &lent(sizes, calls.len()), run);
        table.row(sizes, Traffic::Idle.name(), IDLE_WAY.0, calls.len() + IDLE_SLOTS, times);
    }

    let sizes = TABLE_SIZES[2];
    let ways = [models[0], models[1], ("run", library::run)];
    let [plain, careful, library] = best_times(ways, &lent(sizes, 0), |run, lent| run(sizes, &[], lent));
    println!("\nEach run makes a fresh state, at the largest sizes in {plain}, {careful} and {library} ns.");
}

/// What a run of so many calls writes to.
fn lent(sizes: Sizes, calls: usize) -> Lent {
    Lent::new(calls, vec![0xa5; sizes.store()])
}
