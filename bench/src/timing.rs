//! Times by turns, of runs that say the same.

use std::process::exit;
use std::time::{Duration, Instant};

use bench::Lent;

/// All are timed by turns, at least so often and for at least so long; the best time of each counts.
const ROUNDS: usize = 7;
const LEAST_TIME: Duration = Duration::from_secs(1);

/// The best time of each way in ns, each run on a copy of `lent`, after all have said in every round what the first
/// one says.
pub fn best_times<Way: Copy, const N: usize>(
    ways: [(&str, Way); N],
    lent: &Lent,
    run: impl Fn(Way, &mut Lent) -> bool,
) -> [f64; N] {
    let mut best = [f64::INFINITY; N];
    let start = Instant::now();
    let mut rounds = 0;
    while rounds < ROUNDS || start.elapsed() < LEAST_TIME {
        rounds += 1;
        let mut first: Option<(&str, Lent)> = None;
        for ((name, way), best) in ways.into_iter().zip(&mut best) {
            let mut said = lent.clone();
            let start = Instant::now();
            let accepted = run(way, &mut said);
            *best = best.min(start.elapsed().as_nanos() as f64);
            assert!(accepted, "{name}: the list is refused");
            said.take_told();
            match &first {
                None => first = Some((name, said)),
                Some(first) => check(first, (name, &said)),
            }
        }
    }
    best
}

/// Ends the process where two runs differ.
fn check((first, one): &(&str, Lent), (second, other): (&str, &Lent)) {
    if one == other {
        return;
    }
    let pairs = one.answers.iter().zip(&other.answers);
    match pairs.enumerate().find(|(_, (one, other))| one != other) {
        Some((slot, (one, other))) => {
            eprintln!("slot {slot}: {first} answers {one:#x}, {second} {other:#x}")
        }
        None if one.store != other.store => {
            eprintln!("the answers agree, the stores of {first} and of {second} differ")
        }
        None if one.marks != other.marks => {
            let [one, other] = [one.marks, other.marks];
            eprintln!("the answers and the stores agree, the high marks differ: {first} {one:?}, {second} {other:?}")
        }
        None => eprintln!("all agrees but for the queues that the arbiter asked, by {first} and by {second}"),
    }
    exit(1);
}
