//! Idle slots by the count, beside natural Rust, which passes them one by one.

use bench::rough::rough;
use bench::traffic::prelude;
use bench::RunThenIdle;

use super::*;

/// Of each size two lists that leave work behind.
fn unfinished() -> impl Iterator<Item = (Sizes, Vec<u64>)> {
    many_sizes().flat_map(|(seed, sizes)| {
        [prelude(sizes), rough(sizes, 300 + sizes.lookahead(), seed)].map(|calls| (sizes, calls))
    })
}

#[test]
fn idle_slots_by_count() {
    let ways: [(&str, RunThenIdle); 2] =
        [(CAREFUL.name, CAREFUL.run_then_idle), ("the library", library::run_then_idle)];
    for (sizes, calls) in unfinished() {
        let lookahead = sizes.lookahead();
        for idle_slots in [0, 1, sizes.block - 1, sizes.block, lookahead, 2 * lookahead, 5000] {
            let given = Lent::new(calls.len(), random_store(sizes.store()));
            let mut plain = given.clone();
            assert!((PLAIN.run_then_idle)(sizes, &calls, &mut plain, idle_slots));
            for (way, run_then_idle) in ways {
                let mut lent = given.clone();
                assert!(run_then_idle(sizes, &calls, &mut lent, idle_slots));
                assert_same(&plain, &lent, &format!("{sizes:?}, {idle_slots} idle slots, {way}"));
            }
        }
    }
}

/// Each stretch ends with the first slot that delivers or moves, so that none of these is lost.
#[test]
fn stretches_lose_nothing() {
    for (sizes, calls) in unfinished() {
        let idle_slots = 3 * sizes.lookahead();
        let all = [&calls[..], &vec![IDLE; idle_slots]].concat();
        let mut plain = Lent::new(all.len(), random_store(sizes.store()));
        let mut store = plain.store.clone();
        assert!((PLAIN.run)(sizes, &all, &mut plain));

        let mut buffer = Buffer::open(sizes).expect("these sizes are accepted");
        let mut answers = vec![0; calls.len()];
        assert_eq!(buffer.run(&calls, &mut answers, &mut store), 0);
        while answers.len() < all.len() {
            let stretch = buffer.idle(all.len() - answers.len(), &mut store);
            answers.resize(answers.len() + stretch.passed - 1, 0);
            answers.push(stretch.last.word());
        }
        let proved = Lent { answers, marks: buffer.marks(), ..Lent::new(0, store) };
        assert_same(&plain, &proved, &format!("{sizes:?}, stretches"));
    }
}
