//! Request 2.3: a capture becomes a script, each captured byte an arrival at the queue of its frame's priority.

use std::collections::{BTreeMap, BTreeSet};

use crate::capture::capture_to_script;
use crate::random::Random;
use crate::random_capture::{capture_case, random_capture, small_capture_case, CaptureCase};
use crate::script::{read_script, Command};
use crate::sizes::Sizes;

const HEADER: [u8; 24] = [0xD4, 0xC3, 0xB2, 0xA1, 2, 0, 4, 0, 0, 0, 0, 0, 0, 0, 0, 0, 0xFF, 0xFF, 0, 0, 1, 0, 0, 0];

/// A frame of so many bytes, with the two bytes of a tag and the byte after them, as far as it reaches.
fn frame(length: usize, tag: [u8; 3]) -> Vec<u8> {
    (0..length).map(|place| if (12..15).contains(&place) { tag[place - 12] } else { 100 + place as u8 }).collect()
}

fn record(frame: &[u8]) -> Vec<u8> {
    let length = (frame.len() as u32).to_le_bytes();
    let mut record = [[1, 0, 0, 0], [2, 0, 0, 0], length, length].concat();
    record.extend(frame);
    record
}

fn capture(frames: &[&[u8]]) -> Vec<u8> {
    let mut capture = HEADER.to_vec();
    frames.iter().for_each(|frame| capture.extend(record(frame)));
    capture
}

/// The script of a capture with Q 8, b 2, K 3 and as much room as it asks for.
fn script(capture: &[u8]) -> Result<Vec<u8>, u8> {
    capture_to_script(8, 2, 3, capture, usize::MAX)
}

/// The queue of a frame that is captured alone.
fn queue(frame: &[u8]) -> u8 {
    let script = script(&capture(&[frame])).expect("a good capture");
    assert_eq!(script.len(), 5 + 3 * frame.len());
    script[5]
}

#[test]
fn a_header_alone_gives_sizes_and_end() {
    assert_eq!(script(&HEADER), Ok(vec![0x10, 8, 2, 3, 0x05]));
    assert_eq!(capture_to_script(64, 32, 255, &HEADER, 5), Ok(vec![0x10, 64, 32, 255, 0x05]));
    assert_eq!(capture_to_script(8, 128, 1, &HEADER, 5), Ok(vec![0x10, 8, 128, 1, 0x05]));
}

#[test]
fn an_empty_frame_gives_no_command() {
    assert_eq!(script(&capture(&[&[], &[]])), script(&HEADER));
    let bytes = [0x10, 8, 2, 3, 0x01, 0, 7, 0x01, 0, 9, 0x05];
    assert_eq!(script(&capture(&[&[7], &[], &[9], &[]])), Ok(bytes.to_vec()));
}

/// Each frame has its own queue, and none of the tag is left out.
#[test]
fn a_script_of_two_frames() {
    let tagged = frame(16, [0x81, 0x00, 0xBF]);
    let script = script(&capture(&[&tagged, &[1, 2]])).expect("a good capture");
    let mut commands = vec![Command::Sizes(Sizes { q: 8, b: 2, k: 3 })];
    commands.extend(tagged.iter().map(|&byte| Command::Arrival { queue: 5, byte }));
    commands.extend([1, 2].map(|byte| Command::Arrival { queue: 0, byte }));
    commands.push(Command::End);
    assert_eq!(read_script(&script), Ok(commands));
}

#[test]
fn a_tag_counts_from_15_bytes_on() {
    assert_eq!(queue(&frame(13, [0x81, 0x00, 0xE0])), 0);
    assert_eq!(queue(&frame(14, [0x81, 0x00, 0xE0])), 0);
    assert_eq!(queue(&frame(15, [0x81, 0x00, 0xE0])), 7);
    assert_eq!(queue(&frame(16, [0x81, 0x00, 0xE0])), 7);
    assert_eq!(queue(&frame(1_500, [0x81, 0x00, 0x60])), 3);
}

/// The record after a frame of 14 bytes lends it no byte 14.
#[test]
fn a_tag_is_not_read_on_in_the_next_record() {
    let mut capture = capture(&[&frame(14, [0x81, 0x00, 0]), &[5]]);
    capture[24 + 16 + 14] = 0xE0;
    let script = script(&capture).expect("a good capture");
    assert!(script[4..script.len() - 1].chunks(3).all(|arrival| arrival[1] == 0));
}

#[test]
fn the_priority_is_the_top_three_bits() {
    for byte in 0..=255 {
        assert_eq!(queue(&frame(15, [0x81, 0x00, byte])), byte / 32, "{byte}");
    }
}

#[test]
fn no_other_two_bytes_are_a_tag() {
    for bytes in 0..=u16::MAX {
        let [first, second] = bytes.to_be_bytes();
        let expected = if bytes == 0x8100 { 7 } else { 0 };
        assert_eq!(queue(&frame(15, [first, second, 0xFF])), expected, "{bytes:x}");
    }
}

#[test]
fn fewer_than_8_queues_answer_19() {
    let good = capture(&[&[1, 2, 3]]);
    for capture in [&[], &HEADER[..23], &HEADER[..], &good] {
        for queues in 1..8 {
            assert_eq!(capture_to_script(queues, 1, 1, capture, 1_000), Err(19));
        }
        assert_eq!(capture_to_script(7, 128, 255, capture, 1_000), Err(19));
        for (queues, block, depth) in [(0, 1, 1), (7, 0, 1), (7, 129, 1), (7, 1, 0), (7, 1, 256)] {
            assert_eq!(capture_to_script(queues, block, depth, capture, 1_000), Err(1));
        }
    }
    assert_eq!(capture_to_script(8, 1, 1, &good, 1_000).map(|script| script.len()), Ok(14));
}

/// Also where the low bytes of the sizes are good.
#[test]
fn refused_sizes_answer_1() {
    let refused = [
        (65, 1, 1),
        (64, 33, 1),
        (16, 128, 1),
        (8, 0, 1),
        (8, 129, 1),
        (8, 1, 0),
        (8, 1, 256),
        (264, 1, 1),
        (8, 257, 1),
        (8, 1, 257),
        (usize::MAX, usize::MAX, usize::MAX),
    ];
    for (queues, block, depth) in refused {
        assert_eq!(capture_to_script(queues, block, depth, &HEADER, 5), Err(1), "{queues} {block} {depth}");
    }
    for (queues, block, depth) in [(64, 32, 255), (63, 33, 1), (15, 128, 1)] {
        assert!(capture_to_script(queues, block, depth, &HEADER, 5).is_ok(), "{queues} {block} {depth}");
    }
}

#[test]
fn a_short_header_answers_17() {
    for length in 0..24 {
        assert_eq!(script(&HEADER[..length]), Err(17));
    }
}

#[test]
fn headers_of_other_captures_answer_17() {
    let with = |place: usize, bytes: &[u8]| {
        let mut capture = HEADER;
        capture[place..place + bytes.len()].copy_from_slice(bytes);
        script(&capture)
    };
    assert_eq!(with(20, &[1, 0, 0, 0]), script(&HEADER));
    assert_eq!(with(20, &[1, 0, 0, 4]), Err(17));
    assert_eq!(with(20, &[0, 0, 0, 1]), Err(17));
    assert_eq!(with(4, &[0, 2, 0, 4]), Err(17));
    assert_eq!(with(4, &[2, 0, 3, 0]), Err(17));
    assert_eq!(with(0, &[0xA1, 0xB2, 0xC3, 0xD4]), Err(17));
    assert_eq!(with(0, &[0x4D, 0x3C, 0xB2, 0xA1]), Err(17));
    assert_eq!(with(0, &[0x0A, 0x0D, 0x0D, 0x0A]), Err(17));
}

/// The time zone, the accuracy and the snap length may be anything, and every other byte is as named.
#[test]
fn which_bytes_of_the_header_are_looked_at() {
    let good = capture(&[&frame(15, [0x81, 0x00, 0xE0])]);
    for place in 0..24 {
        let expected = if (8..20).contains(&place) { script(&good) } else { Err(17) };
        check_other_bytes(&good, place, &expected);
    }
}

/// The times and the original length may be anything, in every record.
#[test]
fn which_bytes_of_a_record_are_not_looked_at() {
    let good = capture(&[&frame(15, [0x81, 0x00, 0xE0]), &[], &[9]]);
    for start in [24, 24 + 16 + 15, 24 + 16 + 15 + 16] {
        for place in (0..8).chain(12..16) {
            check_other_bytes(&good, start + place, &script(&good));
        }
    }
}

/// What the capture answers with each other byte at the place.
fn check_other_bytes(good: &[u8], place: usize, expected: &Result<Vec<u8>, u8>) {
    let mut capture = good.to_vec();
    for byte in (0..=255).filter(|&byte| byte != good[place]) {
        capture[place] = byte;
        assert_eq!(&script(&capture), expected, "{byte} at {place}");
    }
}

#[test]
fn bytes_after_the_header_that_are_no_record_answer_18() {
    for count in 1..16 {
        assert_eq!(script(&[&HEADER[..], &vec![0; count]].concat()), Err(18));
    }
    assert_eq!(script(&[&HEADER[..], &[0; 16]].concat()), script(&HEADER));
}

/// A capture that ends after a record is a good one, with the arrivals of the records that are left.
#[test]
fn a_capture_may_be_cut_between_records_alone() {
    let frames: [&[u8]; 4] = [&frame(15, [0x81, 0x00, 0xE0]), &[], &[1, 2, 3], &frame(20, [0x81, 0x00, 0x40])];
    let whole = capture(&frames);
    let script_of_whole = script(&whole).expect("a good capture");
    let ends: BTreeMap<usize, usize> = (0..=4)
        .map(|count| (capture(&frames[..count]).len(), frames[..count].iter().map(|frame| frame.len()).sum()))
        .collect();
    for length in 0..=whole.len() {
        let expected = match ends.get(&length) {
            Some(&bytes) => Ok([&script_of_whole[..4 + 3 * bytes], &[0x05]].concat()),
            None if length < 24 => Err(17),
            None => Err(18),
        };
        assert_eq!(script(&whole[..length]), expected, "{length}");
    }
}

/// The bytes are there, and at 9,016 their number is still taken.
#[test]
fn frames_of_9_016_bytes_and_of_one_more() {
    let longest = capture(&[&frame_of_any_length(9_016)]);
    assert_eq!(script(&longest).map(|script| script.len()), Ok(5 + 3 * 9_016));
    assert_eq!(script(&longest[..longest.len() - 1]), Err(18));
    assert_eq!(script(&capture(&[&frame_of_any_length(9_017)])), Err(18));
    assert_eq!(script(&capture(&[&[1], &frame_of_any_length(9_017), &[2]])), Err(18));
}

fn frame_of_any_length(length: usize) -> Vec<u8> {
    (0..length).map(|place| place as u8).collect()
}

/// Low byte first, and none of the four left out.
#[test]
fn the_length_has_four_bytes() {
    let good = capture(&[&frame_of_any_length(0x1234)]);
    assert_eq!(good[24 + 8..24 + 12], [0x34, 0x12, 0, 0]);
    assert_eq!(script(&good).map(|script| script.len()), Ok(5 + 3 * 0x1234));
    for place in [24 + 8, 24 + 9, 24 + 10, 24 + 11] {
        for bit in 0..8 {
            let mut capture = good.clone();
            capture[place] |= 1 << bit;
            let expected = if capture == good { script(&good) } else { Err(18) };
            assert_eq!(script(&capture), expected, "bit {bit} at {place}");
        }
    }
    let mut swapped = good;
    swapped[24 + 8..24 + 12].reverse();
    assert_eq!(script(&swapped), Err(18));
}

#[test]
fn an_output_that_is_too_short_answers_16() {
    for length in [0, 1, 15, 300] {
        let capture = capture(&[&frame_of_any_length(length), &[]]);
        let with_room = |room: usize| capture_to_script(8, 2, 3, &capture, room);
        assert_eq!(with_room(5 + 3 * length), script(&capture));
        assert_eq!(with_room(6 + 3 * length), script(&capture));
        assert_eq!(with_room(4 + 3 * length), Err(16));
        assert_eq!(with_room(0), Err(16));
    }
}

/// The numbers in their order, and every choice of them together: the first one that applies is the answer.
#[test]
fn the_order_of_the_numbers() {
    let order = [1, 19, 17, 18, 16];
    for choice in 0..32 {
        let applies = |number: u8| order.iter().position(|&one| one == number).is_some_and(|at| choice >> at & 1 == 1);
        let queues = if applies(19) { 7 } else { 8 };
        let block = if applies(1) { 129 } else { 1 };
        let mut capture = capture(&[&[1, 2, 3]]);
        if applies(17) {
            capture[23] = 4;
        }
        if applies(18) {
            capture.push(0);
        }
        let room = if applies(16) { 13 } else { 14 };
        let expected = order.into_iter().find(|&number| applies(number));
        assert_eq!(capture_to_script(queues, block, 1, &capture, room).err(), expected, "{choice:05b}");
    }
}

/// The whole capture is judged before the room, however little of it the room would take.
#[test]
fn a_later_record_that_is_bad_comes_before_the_room() {
    let mut capture = capture(&[&[1], &[2], &[3]]);
    capture.pop();
    for room in [0, 4, 5, 8, 11, 13, 14] {
        assert_eq!(capture_to_script(8, 1, 1, &capture, room), Err(18));
    }
}

/// A second walk, place by place: the queue and the byte of each arrival, or the number of a bad capture.
fn walk(capture: &[u8]) -> Result<Vec<(u8, u8)>, u8> {
    let number = |place: usize| (0..4).map(|n| usize::from(capture[place + n]) << (8 * n)).sum::<usize>();
    if capture.len() < 24 || number(0) != 0xA1B2_C3D4 || number(4) != 0x0004_0002 || number(20) != 1 {
        return Err(17);
    }
    let mut arrivals = Vec::new();
    let mut place = 24;
    while place != capture.len() {
        if place + 16 > capture.len() || number(place + 8) > 9_016 {
            return Err(18);
        }
        let first = place + 16;
        let end = first + number(place + 8);
        if end > capture.len() {
            return Err(18);
        }
        let tagged = end - first > 14 && capture[first + 12] == 0x81 && capture[first + 13] == 0;
        let queue = if tagged { capture[first + 14] / 32 } else { 0 };
        arrivals.extend((first..end).map(|at| (queue, capture[at])));
        place = end;
    }
    Ok(arrivals)
}

fn expected_number(case: &CaptureCase) -> u8 {
    let sizes = Sizes { q: case.queues, b: case.block, k: case.depth };
    match walk(&case.capture) {
        _ if !sizes.accepted() => 1,
        _ if case.queues < 8 => 19,
        Err(number) => number,
        Ok(arrivals) if case.room < 5 + 3 * arrivals.len() => 16,
        Ok(_) => 0,
    }
}

/// The number of the case and, if it is 0, its script by the second walk.
fn check_case(case: &CaptureCase) -> u8 {
    let expected = expected_number(case);
    match case.run() {
        Err(number) => assert_eq!(number, expected, "{case:?}"),
        Ok(script) => {
            assert_eq!(expected, 0, "{case:?}");
            check_script(case, &script);
        }
    }
    expected
}

fn check_script(case: &CaptureCase, script: &[u8]) {
    let arrivals = walk(&case.capture).expect("a capture that has a script");
    assert_eq!(script.len(), 5 + 3 * arrivals.len(), "{case:?}");
    let commands = read_script(script).expect("a good script");
    let sizes = Sizes { q: case.queues, b: case.block, k: case.depth };
    assert_eq!(commands.len(), arrivals.len() + 2);
    assert_eq!((commands[0], commands[commands.len() - 1]), (Command::Sizes(sizes), Command::End));
    for (&command, &(queue, byte)) in commands[1..].iter().zip(&arrivals) {
        assert_eq!(command, Command::Arrival { queue: usize::from(queue), byte }, "{case:?}");
    }
}

/// So many cases are checked, and each number comes at least so often.
fn check_cases(draw: impl Fn(&mut Random) -> CaptureCase, count: usize, least: usize) {
    let mut random = Random::new(23);
    let mut numbers: BTreeMap<u8, usize> = BTreeMap::new();
    for _ in 0..count {
        *numbers.entry(check_case(&draw(&mut random))).or_default() += 1;
    }
    println!("{numbers:?}");
    assert_eq!(numbers.keys().copied().collect::<Vec<_>>(), [0, 1, 16, 17, 18, 19]);
    assert!(numbers.values().all(|&count| count >= least), "{numbers:?}");
}

#[test]
fn random_cases_are_as_a_second_walk_has_them() {
    check_cases(capture_case, 5_000, 100);
}

#[test]
fn small_random_cases_are_as_a_second_walk_has_them() {
    check_cases(small_capture_case, 5_000, 100);
    let mut random = Random::new(24);
    assert!((0..5_000).all(|_| small_capture_case(&mut random).capture.len() <= 140));
}

/// Undamaged captures are good, their frames are of every queue, and of the lengths about which a tag begins to count.
#[test]
fn random_captures_are_good() {
    let mut random = Random::new(25);
    let mut queues = BTreeSet::new();
    for frames in 0..500 {
        let capture = random_capture(&mut random, frames % 10, 64);
        let arrivals = walk(&capture).expect("a good capture");
        assert_eq!(script(&capture).map(|script| script.len()), Ok(5 + 3 * arrivals.len()));
        queues.extend(arrivals.iter().map(|arrival| arrival.0));
    }
    assert_eq!(queues, (0..8).collect());
    let one = |random: &mut Random| random_capture(random, 1, 9_016).len() - 24 - 16;
    let lengths: BTreeSet<usize> = (0..500).map(|_| one(&mut random)).collect();
    assert!([0, 13, 14, 15, 16, 9_016].iter().all(|length| lengths.contains(length)));
}
