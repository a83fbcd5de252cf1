//! The paper's own examples, in every way.

use super::*;

fn example(queues: usize, block: usize, depth: usize, calls: &[u64]) -> Vec<u64> {
    let sizes = Sizes::new(queues, block, depth);
    agree(sizes, calls, &vec![0; sizes.store()])
}

#[test]
fn the_listing() {
    let both = call(Some((0, 0x41)), Some(0));
    let (second, third, fourth) = (arrival(0, 0x42), arrival(0, 0x43), arrival(0, 0x44));
    let calls = [both, second, request(0), request(0), third, fourth, IDLE, request(0), IDLE, IDLE];
    assert_eq!(
        lines(example(1, 2, 2, &calls)),
        ["D 2 0 65", "R 3 7", "D 4 0 66", "M 7 0 2", "D 9 0 67", "E 10"]
    );
}

/// What a script of these slots prints.
fn lines(answers: Vec<u64>) -> Vec<String> {
    let mut lines = Vec::new();
    let mut accepted = 0;
    for answer in answers {
        if let Some((queue, value)) = delivery(answer) {
            lines.push(format!("D {accepted} {queue} {value}"));
        }
        let [of_arrival, of_request] = dropped(answer);
        let numbers = [number(answer), of_arrival, of_request];
        lines.extend(numbers.iter().filter(|&&it| it != 0).map(|it| format!("R {accepted} {it}")));
        if let Some((queue, slots_left)) = read(answer) {
            lines.push(format!("M {accepted} {queue} {slots_left}"));
        }
        accepted += usize::from(number(answer) == 0);
    }
    lines.push(format!("E {accepted}"));
    lines
}

/// Request 2.1: the queue is full and its bytes are in the tail. Without the first slot they are in the store, and the
/// arrival is dropped: its request is for the block's first byte, which leaves two slots later.
#[test]
fn a_swap() {
    let refill = call(Some((0, 67)), Some(0));
    let calls = [IDLE, arrival(0, 65), arrival(0, 66), refill, IDLE, IDLE, IDLE, IDLE];
    assert_eq!(lines(example(1, 2, 1, &calls)), ["D 5 0 65", "E 8"]);
    assert_eq!(lines(example(1, 2, 1, &calls[1..])), ["R 2 5", "M 3 0 1", "D 4 0 65", "E 7"]);
}

/// Request 2.5: slot 7 asks for what arrives at a full queue, all of whose bytes are in the store and owed. 5 drops the
/// arrival, and 7, which is judged without it, the request. The slot runs, and its lines come in their order.
#[test]
fn both_halves_dropped() {
    let fill = [arrival(0, 65), arrival(0, 66), arrival(1, 67), arrival(1, 68)];
    let ask = [request(1), request(0), request(0), call(Some((0, 69)), Some(0)), IDLE, IDLE];
    let answers = example(2, 2, 1, &[fill.as_slice(), &ask].concat());
    let expected = ["M 5 1 2", "D 7 1 67", "R 7 5", "R 7 7", "M 7 0 1", "D 8 0 65", "D 9 0 66", "E 10"];
    assert_eq!(lines(answers), expected);
}

/// A queue that there is not stops the slot, and is its only answer, whatever the other half would meet.
#[test]
fn stopped_with_a_half_to_drop() {
    let fill = [arrival(0, 65), arrival(0, 66)];
    let rest = [call(Some((0, 67)), Some(2)), call(Some((2, 67)), Some(1)), call(Some((0, 67)), Some(1))];
    let answers = example(2, 2, 1, &[fill.as_slice(), &rest].concat());
    assert_eq!(lines(answers), ["R 2 6", "R 2 4", "R 2 5", "R 2 7", "E 3"]);
}

#[test]
fn example_c8() {
    let calls = [arrival(0, 1), arrival(0, 2), arrival(0, 3), request(0), IDLE, arrival(0, 3)];
    let answers = example(1, 2, 1, &calls);
    let numbers: Vec<u64> = answers.iter().map(|&answer| number(answer)).collect();
    let of_arrivals: Vec<u64> = answers.iter().map(|&answer| dropped(answer)[0]).collect();
    assert_eq!(numbers, [0; 6]);
    assert_eq!(of_arrivals, [0, 0, 5, 0, 0, 0]);
}

#[test]
fn example_c9() {
    let answers = example(1, 2, 1, &[request(0), call(Some((0, 9)), Some(0)), IDLE, IDLE]);
    assert_eq!((number(answers[0]), dropped(answers[0])), (0, [0, 7]));
    assert!(is_whole(answers[1]));
    assert_eq!(delivery(answers[3]), Some((0, 9)));
}

#[test]
fn example_c10() {
    let fill = [arrival(0, 1), arrival(0, 2), arrival(1, 3), arrival(1, 4)];
    let ask = [request(1), request(0), IDLE, IDLE, IDLE];
    let answers = example(2, 2, 1, &[&fill[..], &ask[..]].concat());
    let reads: Vec<(u16, usize)> = answers.iter().filter_map(|&answer| read(answer)).collect();
    let deliveries: Vec<_> = answers.iter().filter_map(|&answer| delivery(answer)).collect();
    assert_eq!(reads, [(1, 2), (0, 1)]);
    assert_eq!(deliveries, [(1, 3), (0, 1)]);
}

/// Request 2.6: a block of each queue is stored, and all are asked one after the other. The last read comes in the slot
/// before its byte leaves. A request in the slot of the read itself leaves all of the lookahead.
#[test]
fn slots_left_at_a_read() {
    for (_, Sizes { queues, block, .. }) in many_sizes() {
        let fill = (0..queues * block).map(|slot| arrival((slot / block) as u16, 0));
        let ask = (0..queues * block).map(|slot| if slot < queues { request(slot as u16) } else { IDLE });
        let answers = example(queues, block, 1, &fill.chain(ask).collect::<Vec<_>>());
        let left = answers.iter().filter_map(|&answer| read(answer)).map(|(_, slots_left)| slots_left);
        let expected = (0..queues).rev().map(|others| others * (block - 1) + 1);
        assert!(left.eq(expected), "Q {queues}, b {block}");

        let fill = vec![arrival(0, 0); block];
        let ask = [vec![IDLE; block - 1], vec![request(0)]].concat();
        let answers = example(queues, block, 1, &[fill, ask].concat());
        let lookahead = Sizes::new(queues, block, 1).lookahead();
        assert_eq!(answers.last().and_then(|&answer| read(answer)), Some((0, lookahead)));
    }
}

/// Request 2.8: the tail as an arrival joins it, the head as a block is read.
#[test]
fn the_high_marks() {
    let marks = |sizes: Sizes, calls: &[u64]| {
        agree(sizes, calls, &vec![0; sizes.store()]);
        outcome(library::run, sizes, calls, &vec![0; sizes.store()]).marks
    };
    let small = Sizes::new(1, 2, 2);
    assert_eq!(marks(small, &[]), [0, 0]);
    assert_eq!(
        marks(small, &[call(Some((0, 65)), Some(0))]),
        [1, 0],
        "the tail before the request takes its byte"
    );
    assert_eq!(
        marks(small, &[arrival(0, 65), arrival(0, 66)]),
        [2, 0],
        "the tail before its block is written"
    );
    assert_eq!(
        marks(small, &[arrival(0, 65), arrival(0, 66), arrival(1, 67)]),
        [2, 0],
        "a stopped slot leaves them"
    );
    let stored = [arrival(0, 65), arrival(0, 66), request(0), IDLE, IDLE, IDLE, IDLE];
    assert_eq!(marks(small, &stored[..3]), [2, 0], "the head before the read");
    assert_eq!(marks(small, &stored[..4]), [2, 2], "the head after the read");
    assert_eq!(marks(small, &stored), [2, 2], "they do not fall again");
    let shallow = Sizes::new(1, 2, 1);
    let swap = [IDLE, arrival(0, 65), arrival(0, 66), call(Some((0, 67)), Some(0))];
    assert_eq!(marks(shallow, &swap), [2, 0], "the tail after the request of a swap");
    let full = [IDLE, arrival(0, 65), arrival(0, 66), arrival(0, 67)];
    assert_eq!(marks(shallow, &full), [2, 0], "a dropped arrival does not join the tail");
}
