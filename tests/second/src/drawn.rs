//! The README's table of nine slots, computed again from examples/drawn.hex, and what the README's programs print.

use std::fs;

use crate::buffer::{Answer, Buffer};
use crate::program::run_script;
use crate::raw::RawState;
use crate::rules::Cell;
use crate::script::{read_script, Command};
use crate::sizes::{Design, Sizes};

/// The header of the table. Phase is as the slot begins, and from `tail` on all is as it ends.
const HEADER: &str =
    "| slot | phase | arrives | asked | leaves | written | read | tail | store | head | oldest | next | youngest |";

/// One slot: its call, the phase that it finds, what it answers and what it leaves.
struct Row {
    arrival: Option<(usize, u8)>,
    request: Option<usize>,
    phase: usize,
    answer: Answer,
    state: RawState,
    store: Vec<u8>,
}

fn file(name: &str) -> String {
    let path = format!("{}/../../{name}", env!("CARGO_MANIFEST_DIR"));
    fs::read_to_string(&path).unwrap_or_else(|why| panic!("{path}: {why}"))
}

/// The bytes of a hex listing; what follows a '#' on a line is a comment.
fn script(name: &str) -> Vec<u8> {
    file(name)
        .lines()
        .flat_map(|line| line.split('#').next().unwrap_or("").split_whitespace())
        .map(|byte| u8::from_str_radix(byte, 16).expect("a byte in hex"))
        .collect()
}

fn rows(sizes: Sizes, calls: &[(Option<(usize, u8)>, Option<usize>)]) -> Vec<Row> {
    let cells = Design::Full.cells(sizes);
    let mut buffer = Buffer::fresh(sizes, cells).ok().expect("accepted sizes");
    let mut store = vec![0; sizes.store_size()];
    calls
        .iter()
        .map(|&(arrival, request)| {
            let phase = buffer.to_raw().phase;
            let answer = buffer.slot(cells, arrival, request, &mut store);
            assert_eq!(answer.numbers(), [0; 3], "a slot of the table is refused, or a half of it");
            Row { arrival, request, phase, answer, state: buffer.to_raw(), store: store.clone() }
        })
        .collect()
}

fn drawn() -> Vec<Row> {
    let commands = read_script(&script("examples/drawn.hex")).ok().expect("a good script");
    let Command::Sizes(sizes) = commands[0] else { panic!("a script starts with its sizes") };
    let mut calls = Vec::new();
    for &command in &commands[1..] {
        match command {
            Command::Idle => calls.push((None, None)),
            Command::Arrival { queue, byte } => calls.push((Some((queue, byte)), None)),
            Command::Request { queue } => calls.push((None, Some(queue))),
            Command::Both { arrival_queue, byte, request_queue } => {
                calls.push((Some((arrival_queue, byte)), Some(request_queue)))
            }
            Command::IdleCount(count) => (0..count).for_each(|_| calls.push((None, None))),
            Command::Sizes(_) | Command::End => {}
        }
    }
    rows(sizes, &calls)
}

/// A byte as the table has it: its queue and its letter.
fn byte((queue, value): (usize, u8)) -> String {
    format!("{queue}{}", char::from(value))
}

fn bytes(all: &[(usize, u8)]) -> String {
    all.iter().map(|&one| byte(one)).collect::<Vec<_>>().join(" ")
}

/// The bytes of the blocks that are stored, queue by queue, oldest first.
fn stored(state: &RawState, store: &[u8]) -> Vec<(usize, u8)> {
    let sizes = state.sizes;
    let block = |queue: usize, place: usize| {
        let start = sizes.block_start(queue, place % sizes.k);
        store[start..start + sizes.b].iter().map(move |&value| (queue, value))
    };
    state
        .rings
        .iter()
        .enumerate()
        .flat_map(|(queue, ring)| (0..ring.count).flat_map(move |n| block(queue, ring.first + n)))
        .collect()
}

fn cell(cell: Cell) -> String {
    match cell {
        Cell::Empty => String::new(),
        Cell::Held(queue, value) => format!("Held {}", byte((queue, value))),
        Cell::Owed(queue) => format!("Owed {queue}"),
    }
}

fn line(slot: usize, row: &Row) -> String {
    let queue = |queue: Option<usize>| queue.map_or(String::new(), |queue| queue.to_string());
    let mut words = vec![
        slot.to_string(),
        row.phase.to_string(),
        row.arrival.map_or(String::new(), byte),
        queue(row.request),
        row.answer.delivered.map_or(String::new(), byte),
        queue(row.answer.written),
        queue(row.answer.read),
        bytes(&row.state.tail),
        bytes(&stored(&row.state, &row.store)),
        bytes(&row.state.head),
    ];
    words.extend(row.state.cells.iter().map(|&one| cell(one)));
    words.iter().fold(String::from("|"), |line, word| match word.as_str() {
        "" => line + " |",
        word => line + " " + word + " |",
    })
}

#[test]
fn the_readme_table_is_what_the_slots_do() {
    let readme = file("README.md");
    let table: Vec<String> = readme
        .lines()
        .skip_while(|&line| line != HEADER)
        .skip(2)
        .take_while(|line| line.starts_with('|'))
        .map(|line| line.replace("**", ""))
        .collect();
    let computed: Vec<String> = drawn().iter().enumerate().map(|(slot, row)| line(slot, row)).collect();
    assert_eq!(computed.len(), 9);
    assert_eq!(table, computed, "README.md has other rows; they are\n{}", computed.join("\n"));
}

#[test]
fn the_examples_print_their_text() {
    for name in ["drawn", "listing", "swap"] {
        let mut output = Vec::new();
        run_script(&script(&format!("examples/{name}.hex")), &mut output).expect("a vector takes all");
        let text = String::from_utf8(output).expect("plain text");
        assert_eq!(text, file(&format!("examples/{name}.txt")), "{name}");
    }
}

#[test]
fn the_readme_programs_print_what_the_slots_move() {
    let mut text = String::new();
    for (slot, row) in drawn().iter().enumerate() {
        if let Some((queue, value)) = row.answer.delivered {
            text += &format!("slot {slot} delivers byte {value} of queue {queue}\n");
        }
        if let Some(queue) = row.answer.written {
            text += &format!("slot {slot} writes a block of queue {queue}\n");
        }
        if let Some(queue) = row.answer.read {
            text += &format!("slot {slot} reads a block of queue {queue}\n");
        }
    }
    assert_eq!(text, file("crates/example_slots/stdout"));
    assert_eq!(text, file("crates/example_steps/stdout"));
}
