//! What is refused whole, and changes nothing.

use bench::rough::rough;

use super::*;

#[test]
fn a_store_that_is_too_short() {
    // The step is not for such a store: its list is refused whole.
    let checked: Vec<(&str, Run)> = WAYS.into_iter().filter(|&(way, _)| way != "steps").collect();
    for sizes in LIMITS {
        for length in [0, sizes.store() - 1] {
            let calls = &rough(sizes, 100, 3);
            let store = random_store(length);
            let answers = agree_in(&checked, sizes, calls, &store);
            assert!(answers.iter().all(|&answer| answer == 2 << 56));
            let given = Lent::new(calls.len(), store);
            let mut lent = given.clone();
            assert!(!library::steps(sizes, calls, &mut lent), "steps takes a short store");
            assert!(given == lent, "steps refuses a short store and changes something");
        }
    }
}

#[test]
fn sizes_that_are_refused() {
    let refused = [(0, 3, 20), (4, 0, 20), (4, 3, 0), (65, 1, 1), (1, 129, 1), (1, 1, 256), (64, 33, 1)];
    let wrapped = [(260, 3, 20), (4, 259, 20), (4, 3, 276), (4, (1 << 32) + 3, 20), (usize::MAX, 3, 20)];
    for (queues, block, depth) in refused.into_iter().chain(wrapped) {
        let sizes = Sizes::new(queues, block, depth);
        let calls = [arrival(0, 1); 10];
        let given = Lent::new(calls.len(), random_store(1000));
        for (way, run) in WAYS.into_iter().chain([(PLAIN.name, PLAIN.run)]) {
            let mut lent = given.clone();
            assert!(!run(sizes, &calls, &mut lent), "{way} takes {sizes:?}");
            assert!(given == lent, "{way} refuses {sizes:?} and changes something");
        }
    }
}

/// A queue has sixteen bits in a call. In fewer, most of these would be queues that there are.
#[test]
fn queues_that_there_are_not() {
    for (_, sizes) in many_sizes() {
        let queues = sizes.queues as u16;
        for none in [queues, queues + 1, 255, 256, 256 + queues - 1, 1023, 1024, 1 << 15, u16::MAX] {
            let calls = [
                (arrival(none, 1), 4),
                (request(none), 6),
                (call(Some((none, 2)), Some(none)), 4),
                (call(Some((none, 3)), Some(0)), 4),
                (call(Some((0, 4)), Some(none)), 6),
                // Nothing has changed: the queue has room, and its first byte is the one that arrives.
                (call(Some((0, 5)), Some(0)), 0),
            ];
            let answers = agree(sizes, &calls.map(|(call, _)| call), &random_store(sizes.store()));
            for ((call, expected), answer) in calls.into_iter().zip(answers) {
                assert_eq!(number(answer), expected, "{sizes:?}: {call:#x}");
            }
        }
    }
}

/// Bits 42 to 63 of a call, and a value and a queue that it does not have.
#[test]
fn bits_that_are_not_looked_at() {
    let nothing = !(1 << 24 | 1 << 41);
    for (seed, sizes) in many_sizes() {
        let calls = rough(sizes, 1000, seed);
        let random = &mut Random(seed);
        let marked: Vec<u64> = calls
            .iter()
            .map(|&call| if call == IDLE { nothing } else { call | (random.below(1 << 22) as u64) << 42 })
            .collect();
        let store = &random_store(sizes.store());
        assert_eq!(agree(sizes, &calls, store), agree(sizes, &marked, store), "{sizes:?}");
    }
}
