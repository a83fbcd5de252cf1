//! Request 2.7: "A record handed in with a list over 32 (over 31 for the queue of a packet coming in), a listed or coming
//! length outside the range, as many bytes in as the coming length or more, over 9,016 byte requests left, or a queue Q
//! or more breaks the rules and answers 3."

use super::packets::{next, start, Layer};
use super::sizes;
use crate::packet_breaks::{broken_record, ALL};
use crate::packets::{Coming, Record, MOST_BYTES};
use crate::random::Random;
use crate::random_record::random_record;

/// Q 2, with what the record holds.
fn record(lists: [Vec<usize>; 2], coming: Option<(usize, usize, usize)>, asked: usize, left: usize) -> Record {
    Record {
        lists: lists.map(Into::into).into(),
        coming: coming.map(|(queue, length, bytes_in)| Coming { queue, length, bytes_in }),
        asked,
        left,
    }
}

fn none() -> [Vec<usize>; 2] {
    [vec![], vec![]]
}

fn layer(record: Record) -> Layer {
    Layer { record, ..Layer::fresh(2, 2, 3) }
}

/// The ends of each range, outside.
#[test]
fn each_rule_answers_3() {
    let broken = [
        ("list", record([vec![1; 33], vec![]], None, 0, 0)),
        ("list", record([vec![], vec![1; 33]], Some((0, 3, 1)), 0, 0)),
        ("list beside a packet coming in", record([vec![1; 32], vec![]], Some((0, 3, 1)), 0, 0)),
        ("listed length", record([vec![1, 0], vec![]], None, 0, 0)),
        ("listed length", record([vec![], vec![MOST_BYTES + 1, 1]], None, 0, 0)),
        ("coming queue", record(none(), Some((2, 3, 1)), 0, 0)),
        ("coming length", record(none(), Some((0, MOST_BYTES + 1, 1)), 0, 0)),
        ("bytes in", record(none(), Some((0, 3, 3)), 0, 0)),
        ("bytes in", record(none(), Some((1, 1, 1)), 0, 0)),
        ("bytes in", record(none(), Some((0, 3, 4)), 0, 0)),
        ("asked queue", record(none(), None, 2, 1)),
        ("asked queue", record(none(), None, 2, 0)),
        ("left", record(none(), None, 0, MOST_BYTES + 1)),
    ];
    for (rule, record) in broken {
        assert_eq!(record.broken_rules(2), [rule], "{record:?}");
        let mut layer = layer(record);
        layer.check_stopped(None, None, 3);
        layer.check_stopped(start(0, 1, 9), Some(0), 3);
        // 3 comes before 4, 20, 21 and 6, and before 2.
        layer.check_stopped(start(2, 0, 9), Some(2), 3);
        layer.check_stopped(next(9), Some(2), 3);
        layer.store.pop();
        layer.check_stopped(start(2, 0, 9), Some(2), 3);
    }
    let nothing = record(none(), Some((0, 0, 0)), 0, 0);
    assert_eq!(nothing.broken_rules(2), ["coming length", "bytes in"]);
    layer(nothing).check_stopped(None, None, 3);
}

/// The same ends inside. "0 bytes in and 0 left are no fault."
#[test]
fn each_end_of_a_range_is_taken() {
    let kept = [
        record([vec![1; 32], vec![MOST_BYTES; 32]], None, 1, 0),
        record([vec![1; 31], vec![MOST_BYTES; 32]], Some((0, 3, 2)), 0, 0),
        record(none(), Some((1, MOST_BYTES, MOST_BYTES - 1)), 0, 0),
        record(none(), Some((1, 1, 0)), 0, 0),
        record(none(), None, 1, MOST_BYTES),
    ];
    for record in kept {
        assert!(record.keeps_rules(2), "{record:?}");
        assert_eq!(layer(record).slot(None, None).answer.number, 0);
    }
}

/// The list takes its last length, the one for which its place was kept.
#[test]
fn the_last_place_of_a_list_is_kept_for_the_packet_coming_in() {
    let mut layer = layer(record([vec![5; 31], vec![]], Some((0, 3, 2)), 0, 0));
    assert_eq!(layer.slot(next(9), None).numbers(), [0; 4]);
    assert_eq!((layer.record.lists[0].len(), layer.record.lists[0].back()), (32, Some(&3)));
    assert!(layer.record.keeps_rules(2));
}

#[test]
fn a_packet_with_no_byte_in_takes_its_first_as_a_next_byte() {
    let mut layer = layer(record(none(), Some((1, 1, 0)), 0, 0));
    layer.check_stopped(start(0, 1, 9), None, 21);
    assert_eq!(layer.slot(next(9), None).numbers(), [0; 4]);
    assert_eq!(layer.record, record([vec![], vec![1]], None, 0, 0));
}

#[test]
fn a_short_store_answers_2() {
    let mut layer = Layer::fresh(2, 2, 3);
    layer.store.pop();
    layer.check_stopped(start(2, 0, 9), Some(2), 2);
    layer.check_stopped(None, None, 2);
    layer.state.phase = 2;
    layer.check_stopped(start(2, 0, 9), Some(2), 3);
}

/// State and record are judged each by itself: a good one does not make up for the other.
#[test]
fn every_broken_rule_answers_3() {
    let mut random = Random::new(27);
    for which in ALL.into_iter().cycle().take(100 * ALL.len()) {
        let sizes = sizes(random.between(1, 5), random.between(1, 4), random.between(1, 3));
        let good = Layer { record: random_record(&mut random, sizes), ..Layer::fresh(sizes.q, sizes.b, sizes.k) };
        assert_ne!(good.clone().slot(None, None).answer.number, 3, "{good:?}");
        let record = broken_record(&mut random, which, sizes);
        assert_eq!(record.broken_rules(sizes.q), which.rules(), "{which:?}");
        let broken = Layer { record, ..good.clone() };
        broken.check_stopped(None, None, 3);
        broken.check_stopped(start(0, 1, 9), Some(0), 3);
        let mut bad_state = good;
        bad_state.state.phase = sizes.b;
        bad_state.check_stopped(None, None, 3);
    }
}
