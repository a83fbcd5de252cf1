//! Lists of many slots.

use std::collections::BTreeMap;

use bench::model::Model;
use bench::natural;
use bench::rough::rough;
use bench::traffic::Traffic;
use bench::words::halves;
use bench::TABLE_SIZES;

use super::*;

/// Long enough for what is asked to come out again.
fn long_enough(sizes: Sizes) -> usize {
    2000 + 4 * sizes.lookahead()
}

fn random_calls(sizes: Sizes, seed: u64) -> Vec<u64> {
    rough(sizes, long_enough(sizes), seed)
}

#[test]
fn at_the_limits() {
    for sizes in LIMITS {
        for seed in 0..2 {
            agree(sizes, &random_calls(sizes, seed), &random_store(sizes.store()));
        }
    }
}

#[test]
fn at_small_sizes() {
    for (seed, sizes) in small_sizes().into_iter().enumerate() {
        agree(sizes, &random_calls(sizes, seed as u64), &random_store(sizes.store() + seed % 3));
    }
}

/// Request 2.1: queues that are full, read and refilled in one slot.
#[test]
fn at_sizes_that_swap() {
    let mut swaps = 0;
    for (seed, sizes) in shallow_sizes().into_iter().enumerate() {
        let calls = random_calls(sizes, seed as u64);
        agree(sizes, &calls, &random_store(sizes.store()));
        swaps += swaps_of(sizes, &calls);
    }
    assert!(swaps > 500, "{swaps} swaps");
}

/// How many slots of a list read and refill a full queue and are taken.
fn swaps_of(sizes: Sizes, calls: &[u64]) -> usize {
    let mut buffer = natural::Buffer::fresh(sizes).expect("these sizes are accepted");
    let mut store = vec![0; sizes.store()];
    let mut taken = 0;
    for &call in calls {
        let (arrival, request) = halves(call);
        let swaps = buffer.swaps(arrival, request);
        taken += usize::from(number(buffer.slot(call, &mut store)) == 0 && swaps);
    }
    taken
}

#[test]
fn no_list_and_a_longer_store() {
    for sizes in LIMITS {
        agree(sizes, &[], &random_store(sizes.store()));
        agree(sizes, &random_calls(sizes, 2), &random_store(sizes.store() + 100));
    }
}

#[test]
fn in_round_robin() {
    for (seed, sizes) in many_sizes() {
        let calls = Traffic::RoundRobin.calls(sizes, long_enough(sizes), seed);
        agree(sizes, &calls, &random_store(sizes.store()));
    }
}

/// The comparison would say little of lists in which nothing happens.
#[test]
fn much_happens_in_the_lists() {
    let mut stops = [0; 11];
    let mut drops = BTreeMap::new();
    let mut swaps = 0;
    // Reads that left one slot, all of the lookahead, and a number between (request 2.6).
    let mut left = [0; 3];
    for (_, sizes) in many_sizes() {
        swaps += swaps_of(sizes, &random_calls(sizes, 0));
        let store = vec![0; sizes.store()];
        let answers = |seed| outcome(PLAIN.run, sizes, &random_calls(sizes, seed), &store).answers;
        let answers = [answers(0), answers(1)].concat();
        for &answer in &answers {
            stops[number(answer) as usize] += 1;
            *drops.entry(dropped(answer)).or_default() += 1;
        }
        for (_, slots_left) in answers.iter().filter_map(|&answer| read(answer)) {
            match slots_left {
                _ if sizes.lookahead() == 1 => assert_eq!(slots_left, 1),
                1 => left[0] += 1,
                all if all == sizes.lookahead() => left[1] += 1,
                _ => left[2] += 1,
            }
        }
        assert!(answers.iter().any(|&answer| delivery(answer).is_some()), "{sizes:?}: no delivery");
        assert!(answers.iter().any(|&answer| written(answer).is_some()), "{sizes:?}: no write");
        assert!(answers.iter().any(|&answer| read(answer).is_some()), "{sizes:?}: no read");
    }
    assert!([4, 6].into_iter().all(|number| stops[number] > 100), "{stops:?}");
    assert!([1, 2, 3, 5, 7, 8, 9, 10].into_iter().all(|number| stops[number] == 0), "{stops:?}");
    assert!([[5, 0], [0, 7], [5, 7]].iter().all(|halves| drops.get(halves) > Some(&100)), "{drops:?}");
    assert!(swaps > 500, "{swaps} swaps");
    assert!(left.iter().all(|&reads| reads > 500), "{left:?}");
}

/// No slot is stopped. Full traffic and round robin have no half dropped, and random traffic has where a queue is full
/// or empty.
#[test]
fn the_traffic_of_the_table() {
    for sizes in TABLE_SIZES {
        for traffic in Traffic::ALL {
            let answers = agree(sizes, &traffic.calls(sizes, 10_000, 1), &random_store(sizes.store()));
            let any_dropped = |half: usize| answers.iter().any(|&answer| dropped(answer)[half] != 0);
            let random = matches!(traffic, Traffic::Random);
            assert_eq!([0, 1].map(any_dropped), [random, random], "{sizes:?}, {}", traffic.name());
            assert!(answers.iter().all(|&answer| number(answer) == 0), "{sizes:?}, {}", traffic.name());
        }
    }
}

/// Each request is of the next queue, from the last one asked and round, that has a byte to ask for.
#[test]
fn round_robin_goes_round() {
    for sizes in TABLE_SIZES {
        let queues = sizes.queues;
        let mut unasked = vec![0; queues];
        let mut last = queues - 1;
        let mut requests = 0;
        for call in Traffic::RoundRobin.calls(sizes, 10_000, 1) {
            let (arrival, request) = halves(call);
            let (arriving, _) = arrival.expect("a byte arrives in every slot");
            unasked[arriving as usize] += 1;
            if let Some(asked) = request {
                let next =
                    (last + 1..=last + queues).map(|queue| queue % queues).find(|&queue| unasked[queue] > 0);
                assert_eq!(Some(asked as usize), next, "{sizes:?}");
                last = asked as usize;
                unasked[last] -= 1;
                requests += 1;
            }
        }
        assert_eq!(requests, 10_000 - sizes.store() / 4, "{sizes:?}: once a quarter of the store is full");
    }
}
