//! The line format of `cases` and `lists`, and of the same with the arbiter.

use std::fmt::Display;

use crate::arbiter::Asker;
use crate::buffer::Answer;
use crate::raw::RawState;
use crate::rules::Cell;
use crate::sizes::{Design, Sizes};

pub fn design_word(design: Design) -> &'static str {
    match design {
        Design::Full => "full",
        Design::Fewer => "fewer",
    }
}

pub fn print_sizes(sizes: Sizes) {
    println!("sizes {} {} {}", sizes.q, sizes.b, sizes.k);
}

/// Every item but the sizes; `prefix` is "" or "after ".
pub fn print_state(prefix: &str, state: &RawState) {
    println!("{prefix}phase {}", state.phase);
    print_list(prefix, "tail", state.tail.iter().map(pair));
    print_list(prefix, "head", state.head.iter().map(pair));
    print_list(prefix, "cells", state.cells.iter().map(cell_word));
    print_list(prefix, "rings", state.rings.iter().map(|ring| format!("{}:{}", ring.first, ring.count)));
    println!("{prefix}marks {} {}", state.tail_mark, state.head_mark);
    println!("{prefix}last {}", state.last_asked);
}

pub fn print_store(prefix: &str, store: &[u8]) {
    print_list(prefix, "store", store.iter());
}

pub fn print_call(arrival: Option<(usize, u8)>, request: Option<usize>) {
    println!("{}", call_line(arrival, request));
}

/// The last word tells who asked.
pub fn print_call_of(asker: Asker, arrival: Option<(usize, u8)>, request: Option<usize>) {
    let word = match asker {
        Asker::Caller(_) => "caller",
        Asker::Arbiter => "arbiter",
    };
    println!("{} {word}", call_line(arrival, request));
}

fn call_line(arrival: Option<(usize, u8)>, request: Option<usize>) -> String {
    format!("call arrival {} request {}", or_none(arrival.as_ref().map(pair)), or_none(request))
}

/// The slot's number, then the arrival's and the request's (request 2.5); last the slots left (request 2.6).
pub fn print_answer(answer: &Answer) {
    println!(
        "answer {} {} {} delivered {} written {} read {} left {}",
        answer.number,
        answer.arrival_number,
        answer.request_number,
        or_none(answer.delivered.as_ref().map(pair)),
        or_none(answer.written),
        or_none(answer.read),
        answer.slots_left,
    );
}

fn print_list(prefix: &str, name: &str, items: impl Iterator<Item = impl Display>) {
    let mut line = format!("{prefix}{name}");
    for item in items {
        line.push_str(&format!(" {item}"));
    }
    println!("{line}");
}

fn pair(item: &(usize, u8)) -> String {
    format!("{}:{}", item.0, item.1)
}

fn cell_word(cell: &Cell) -> String {
    match cell {
        Cell::Empty => "E".to_string(),
        Cell::Held(queue, byte) => format!("H:{queue}:{byte}"),
        Cell::Owed(queue) => format!("O:{queue}"),
    }
}

fn or_none(value: Option<impl Display>) -> String {
    value.map_or("none".to_string(), |value| value.to_string())
}
