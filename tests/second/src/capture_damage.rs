//! Damage to captures (request 2.3). Some of it leaves a good one, since not every byte is looked at.

use crate::random::Random;

const HEADER_LENGTH: usize = 24;
const RECORD_HEADER_LENGTH: usize = 16;
/// Where the number of captured bytes stands in a record.
const CAPTURED: usize = 8;

/// The most bytes that one damage adds: a record without captured bytes, and one more.
const MOST_ADDED: usize = RECORD_HEADER_LENGTH + 1;

/// Sometimes two at once, so that a bad header comes before bad records.
pub fn damage(random: &mut Random, capture: &mut Vec<u8>) {
    for _ in 0..random.pick(&[1, 1, 2]) {
        damage_once(random, capture);
    }
}

fn damage_once(random: &mut Random, capture: &mut Vec<u8>) {
    match random.below(13) {
        0 => change_byte(random, capture),
        1 => change_header_byte(random, capture),
        2 => cut(random, capture),
        3 => cut_header(random, capture),
        4 => add_bytes(random, capture),
        5 => other_magic(random, capture),
        6 => other_version(random, capture),
        7 => other_link_type(random, capture),
        8 => swap_header_round(random, capture),
        9 => set_high_bit_of_length(random, capture),
        10 => swap_length_round(random, capture),
        11 => longest_length(random, capture),
        _ => length_one_off(random, capture),
    }
}

fn change_byte(random: &mut Random, capture: &mut [u8]) {
    let place = random.below(capture.len());
    change(random, capture, place);
}

/// Few bytes of a long capture are its header, and these have a chance of their own.
fn change_header_byte(random: &mut Random, capture: &mut [u8]) {
    let place = random.below(HEADER_LENGTH);
    change(random, capture, place);
}

fn cut(random: &mut Random, capture: &mut Vec<u8>) {
    capture.truncate(random.below(capture.len()));
}

fn cut_header(random: &mut Random, capture: &mut Vec<u8>) {
    let anywhere = random.below(HEADER_LENGTH);
    capture.truncate(random.pick(&[0, anywhere, HEADER_LENGTH - 1]));
}

/// At the end or anywhere; zeros may be a record without captured bytes.
fn add_bytes(random: &mut Random, capture: &mut Vec<u8>) {
    let few = random.between(1, MOST_ADDED);
    let count = random.pick(&[1, few, RECORD_HEADER_LENGTH - 1, RECORD_HEADER_LENGTH]);
    let added = if random.percent(50) { vec![0; count] } else { random.bytes(count) };
    let anywhere = random.between(0, capture.len());
    let place = random.pick(&[anywhere, capture.len(), capture.len()]);
    capture.splice(place..place, added);
}

/// Big-endian, nanoseconds in both orders, a pcapng file, and a form that writes longer records.
fn other_magic(random: &mut Random, capture: &mut [u8]) {
    let magic = random.pick(&[
        [0xA1, 0xB2, 0xC3, 0xD4],
        [0x4D, 0x3C, 0xB2, 0xA1],
        [0xA1, 0xB2, 0x3C, 0x4D],
        [0x0A, 0x0D, 0x0D, 0x0A],
        [0x34, 0xCD, 0xB2, 0xA1],
    ]);
    put(capture, 0, &magic);
}

fn other_version(random: &mut Random, capture: &mut [u8]) {
    let (major, minor) = random.pick(&[(2, 3), (2, 5), (1, 4), (3, 4), (4, 2), (0, 0), (2, 0x104), (0x102, 4)]);
    put(capture, 4, &u16::to_le_bytes(major));
    put(capture, 6, &u16::to_le_bytes(minor));
}

/// None, raw, wireless, and Ethernet with something in one of the bytes above it.
fn other_link_type(random: &mut Random, capture: &mut [u8]) {
    let link_type = random.pick(&[0, 2, 101, 105, 0x0400_0001, 0x8000_0001, 0x0001_0001, 0x0101]);
    put(capture, 20, &u32::to_le_bytes(link_type));
}

/// Some fields of the header, or all, as a big-endian capture has them.
fn swap_header_round(random: &mut Random, capture: &mut [u8]) {
    let chance = random.pick(&[40, 100]);
    for field in [0..4, 4..6, 6..8, 20..24] {
        if let Some(bytes) = capture.get_mut(field).filter(|_| random.percent(chance)) {
            bytes.reverse();
        }
    }
}

fn set_high_bit_of_length(random: &mut Random, capture: &mut [u8]) {
    let bit = random.between(14, 31);
    change_length(random, capture, |length| length | 1 << bit);
}

fn swap_length_round(random: &mut Random, capture: &mut [u8]) {
    change_length(random, capture, u32::swap_bytes);
}

/// The longest that is taken and the shortest that is not; the bytes are mostly not there.
fn longest_length(random: &mut Random, capture: &mut [u8]) {
    let longest = random.pick(&[9_016, 9_017]);
    change_length(random, capture, |_| longest);
}

fn length_one_off(random: &mut Random, capture: &mut [u8]) {
    let more = random.percent(50);
    change_length(random, capture, |length| if more { length.wrapping_add(1) } else { length.wrapping_sub(1) });
}

/// In one record, if there is any.
fn change_length(random: &mut Random, capture: &mut [u8], new: impl Fn(u32) -> u32) {
    let starts = record_starts(capture);
    if !starts.is_empty() {
        let start = random.pick(&starts);
        let length = new(length_at(capture, start));
        put(capture, start + CAPTURED, &length.to_le_bytes());
    }
}

/// As far as the lengths lead: the capture may have been damaged before.
fn record_starts(capture: &[u8]) -> Vec<usize> {
    let mut starts = Vec::new();
    let mut start = HEADER_LENGTH;
    while start + RECORD_HEADER_LENGTH <= capture.len() {
        starts.push(start);
        start += RECORD_HEADER_LENGTH + length_at(capture, start) as usize;
    }
    starts
}

fn length_at(capture: &[u8], start: usize) -> u32 {
    let bytes = &capture[start + CAPTURED..];
    u32::from_le_bytes([bytes[0], bytes[1], bytes[2], bytes[3]])
}

/// Another byte, where the capture reaches so far.
fn change(random: &mut Random, capture: &mut [u8], place: usize) {
    let difference = random.between(1, 255) as u8;
    if let Some(byte) = capture.get_mut(place) {
        *byte ^= difference;
    }
}

/// Writes as far as there are bytes to write over.
pub(crate) fn put(bytes: &mut [u8], place: usize, new: &[u8]) {
    for (byte, &new) in bytes.iter_mut().skip(place).zip(new) {
        *byte = new;
    }
}
