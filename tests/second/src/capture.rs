//! Scripts from captures (request 2.3): each captured byte of a classic pcap file becomes an arrival.

use crate::sizes::Sizes;

/// The least Q: a priority is one of eight.
const PRIORITIES: usize = 8;
const HEADER_LENGTH: usize = 24;
const RECORD_HEADER_LENGTH: usize = 16;
/// The most bytes that may be captured of one frame.
const MOST_CAPTURED: u32 = 9_016;

/// The whole script, or the number 1, 19, 17, 18 or 16, tried in this order. `room` is the length of the output that
/// the caller lends.
pub fn capture_to_script(
    queues: usize,
    block: usize,
    depth: usize,
    capture: &[u8],
    room: usize,
) -> Result<Vec<u8>, u8> {
    let sizes = Sizes { q: queues, b: block, k: depth };
    if !sizes.accepted() {
        return Err(1);
    }
    if queues < PRIORITIES {
        return Err(19);
    }
    let records = without_header(capture).ok_or(17u8)?;
    let frames = read_frames(records).ok_or(18u8)?;
    let script = write_script(sizes, &frames);
    if room < script.len() {
        return Err(16);
    }
    Ok(script)
}

/// The records, if the header is the one that is read: little-endian, version 2.4, link type 1. Time zone, accuracy
/// and snap length lie between the version and the link type, and may be anything.
pub fn without_header(capture: &[u8]) -> Option<&[u8]> {
    let (header, records) = capture.split_at_checked(HEADER_LENGTH)?;
    let magic_and_version = [0xD4, 0xC3, 0xB2, 0xA1, 2, 0, 4, 0];
    let link_type = [1, 0, 0, 0];
    (header.starts_with(&magic_and_version) && header.ends_with(&link_type)).then_some(records)
}

/// The captured bytes of each record, or none if one is cut short or too long.
pub fn read_frames(mut records: &[u8]) -> Option<Vec<&[u8]>> {
    let mut frames = Vec::new();
    while !records.is_empty() {
        let (frame, rest) = read_frame(records)?;
        frames.push(frame);
        records = rest;
    }
    Some(frames)
}

/// The captured bytes of the first record, and the records after it.
fn read_frame(records: &[u8]) -> Option<(&[u8], &[u8])> {
    let (header, rest) = records.split_at_checked(RECORD_HEADER_LENGTH)?;
    let captured = u32::from_le_bytes([header[8], header[9], header[10], header[11]]);
    if captured > MOST_CAPTURED {
        return None;
    }
    rest.split_at_checked(captured as usize)
}

/// The IEEE 802.1Q priority of a frame that has one, else 0.
pub fn queue_of(frame: &[u8]) -> u8 {
    if frame.len() >= 15 && frame[12..14] == [0x81, 0x00] {
        frame[14] >> 5
    } else {
        0
    }
}

/// Sizes, an arrival for each captured byte, end. Accepted sizes are bytes.
fn write_script(sizes: Sizes, frames: &[&[u8]]) -> Vec<u8> {
    let mut script = vec![0x10, sizes.q as u8, sizes.b as u8, sizes.k as u8];
    for &frame in frames {
        let queue = queue_of(frame);
        script.extend(frame.iter().flat_map(|&byte| [0x01, queue, byte]));
    }
    script.push(0x05);
    script
}
