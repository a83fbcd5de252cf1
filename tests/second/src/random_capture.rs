//! Random captures, good and damaged, and what a caller gives with them (request 2.3).

use crate::capture::capture_to_script;
use crate::capture_damage::{damage, put};
use crate::random::Random;

/// The most bytes that may be captured of one frame.
pub const MOST_CAPTURED: usize = 9_016;

/// A small capture has no more bytes before its damage, which adds a few.
const SMALL: usize = 104;

/// Everything that goes into one script.
#[derive(Clone, Debug, PartialEq, Eq)]
pub struct CaptureCase {
    pub queues: usize,
    pub block: usize,
    pub depth: usize,
    pub capture: Vec<u8>,
    /// The length of the output that the caller lends.
    pub room: usize,
}

impl CaptureCase {
    pub fn run(&self) -> Result<Vec<u8>, u8> {
        capture_to_script(self.queues, self.block, self.depth, &self.capture, self.room)
    }
}

/// A case of up to some kilobytes. The four things are drawn each for itself, so that several numbers apply at once.
pub fn capture_case(random: &mut Random) -> CaptureCase {
    let capture = if random.percent(3) {
        let longest = random.pick(&[MOST_CAPTURED, MOST_CAPTURED, MOST_CAPTURED + 1]);
        let frames = random.between(1, 3);
        random_capture(random, frames, longest)
    } else {
        let longest = random.pick(&[16, 20, 64, 200]);
        let frames = random.between(0, 10);
        random_capture(random, frames, longest)
    };
    case_of(random, capture)
}

/// A case whose capture has at most about 120 bytes.
pub fn small_capture_case(random: &mut Random) -> CaptureCase {
    loop {
        let longest = random.pick(&[16, 20, 64]);
        let frames = random.between(0, 4);
        let capture = random_capture(random, frames, longest);
        if capture.len() <= SMALL {
            return case_of(random, capture);
        }
    }
}

fn case_of(random: &mut Random, mut capture: Vec<u8>) -> CaptureCase {
    if random.percent(40) {
        damage(random, &mut capture);
    }
    let (queues, block, depth) = random_sizes(random);
    let room = random_room(random, &capture);
    CaptureCase { queues, block, depth, capture, room }
}

/// A good capture, if `longest` is at most 9,016: so many frames, each of at most `longest` bytes.
pub fn random_capture(random: &mut Random, frames: usize, longest: usize) -> Vec<u8> {
    let mut capture = random_header(random);
    for _ in 0..frames {
        let frame = random_frame(random, longest);
        capture.extend(random_record(random, &frame));
    }
    capture
}

/// Time zone, accuracy and snap length are free, and the snap length may well be less than what was captured.
fn random_header(random: &mut Random) -> Vec<u8> {
    let mut header = vec![0xD4, 0xC3, 0xB2, 0xA1, 2, 0, 4, 0];
    header.extend(free_field(random));
    header.extend(free_field(random));
    header.extend(free_field(random));
    header.extend([1, 0, 0, 0]);
    header
}

/// The times and the original length are free. Mostly the frame was as long as what was captured of it.
fn random_record(random: &mut Random, frame: &[u8]) -> Vec<u8> {
    let captured = (frame.len() as u32).to_le_bytes();
    let other = free_field(random);
    let original = random.pick(&[captured, captured, other]);
    let mut record = [free_field(random), free_field(random), captured, original].concat();
    record.extend(frame);
    record
}

/// A small number, or any.
fn free_field(random: &mut Random) -> [u8; 4] {
    let any = random.word() as u32;
    random.pick(&[0, 1, any % 20, 65_535, any, any]).to_le_bytes()
}

/// Its byte 14 is any byte, so that a frame with a tag has any of the eight priorities, and any of the bits below.
fn random_frame(random: &mut Random, longest: usize) -> Vec<u8> {
    let length = random_length(random, longest);
    let mut frame = random.bytes(length);
    let (place, tag) = random_tag(random);
    put(&mut frame, place, &tag);
    frame
}

/// Mostly about the first length at which a tag counts.
fn random_length(random: &mut Random, longest: usize) -> usize {
    let any = random.between(0, longest);
    let length = random.pick(&[0, 1, 12, 13, 14, 14, 15, 15, 16, 16, 17, any, any, any, longest]);
    length.min(longest)
}

/// Half of the tags are good where the frame is long enough. The others miss by a bit, by a byte or by their place, or
/// name something else: a service tag, an IPv4 frame.
fn random_tag(random: &mut Random) -> (usize, [u8; 2]) {
    let near = random.pick(&[
        (12, [0x81, 0x01]),
        (12, [0x80, 0x00]),
        (12, [0x81, 0x80]),
        (12, [0x01, 0x00]),
        (12, [0x00, 0x81]),
        (11, [0x81, 0x00]),
        (13, [0x81, 0x00]),
        (12, [0x88, 0xA8]),
        (12, [0x08, 0x00]),
    ]);
    random.pick(&[(12, [0x81, 0x00]), near])
}

/// Mostly Q of 8 or more, else accepted with fewer, else refused.
fn random_sizes(random: &mut Random) -> (usize, usize, usize) {
    match random.below(20) {
        0..=13 => enough_queues(random),
        14..=16 => too_few_queues(random),
        _ => refused_sizes(random),
    }
}

fn enough_queues(random: &mut Random) -> (usize, usize, usize) {
    let queues = random.between(8, 64);
    let block = random.between(1, (2016 / queues + 1).min(128));
    let any = (queues, block, random.between(1, 255));
    random.pick(&[
        any,
        any,
        (8, 1, 1),
        (8, 4, 2),
        (8, 128, 255),
        (15, 128, 1),
        (63, 33, 1),
        (64, 1, 1),
        (64, 1, 255),
        (64, 32, 255),
    ])
}

fn too_few_queues(random: &mut Random) -> (usize, usize, usize) {
    let any = (random.between(1, 7), random.between(1, 128), random.between(1, 255));
    random.pick(&[any, (7, 1, 1), (7, 128, 255), (1, 1, 1)])
}

/// Each size below and above its limits, with Q below 8 as well, and some that a byte would take for good ones.
fn refused_sizes(random: &mut Random) -> (usize, usize, usize) {
    random.pick(&[
        (0, 1, 1),
        (7, 0, 1),
        (7, 1, 0),
        (7, 129, 1),
        (7, 1, 256),
        (8, 0, 1),
        (8, 1, 0),
        (8, 129, 1),
        (8, 1, 256),
        (65, 1, 1),
        (64, 33, 1),
        (16, 128, 1),
        (256 + 8, 1, 1),
        (8, 256 + 1, 1),
        (8, 1, 256 + 1),
        (usize::MAX, 2, 1),
        (8, usize::MAX, 1),
        (8, 1, usize::MAX),
    ])
}

/// Exactly enough or more, one byte less, or much less. What is enough only guides the choice: for a capture that is
/// refused it is a guess.
fn random_room(random: &mut Random, capture: &[u8]) -> usize {
    let enough = capture_to_script(8, 1, 1, capture, usize::MAX).map_or(capture.len(), |script| script.len());
    let less = random.below(enough);
    let few = random.pick(&[0, 1, 4, 5, less]);
    let one_less = enough.saturating_sub(1);
    random.pick(&[enough, enough, enough, enough + 1, 2 * enough + 1_000, one_less, few])
}
