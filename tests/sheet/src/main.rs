//! The README's sheet of sizes, by the proved sizing rule.
//!
//! sheet
//! sheet check README
//!
//! The first prints the sheet's rows. The second compares them with the file's, and its last line is
//! 'N passed, M failed'.

mod library;

use std::fs;
use std::process::ExitCode;

/// The header of the sheet in the README.
const HEADER: &str = "| line | memory cycle | b | queues | L | tail | head | store | delay |";

/// K, the blocks to a queue in every row.
const DEPTH: usize = 8;

/// The most queues that any sizes may have.
const MOST_QUEUES: usize = 64;

/// The queues of a row: so many, or the most that the limits take at its block.
#[derive(Clone, Copy)]
enum Queues {
    Just(usize),
    Most,
}

/// The rows: rate in Gb/s, memory grade, queues.
const ROWS: [(usize, usize, Queues); 8] = [
    (1, 9, Queues::Most),
    (10, 0, Queues::Most),
    (10, 3, Queues::Just(8)),
    (10, 9, Queues::Just(8)),
    (10, 9, Queues::Most),
    (40, 0, Queues::Just(8)),
    (40, 0, Queues::Most),
    (100, 0, Queues::Most),
];

fn main() -> ExitCode {
    let arguments: Vec<String> = std::env::args().skip(1).collect();
    let words: Vec<&str> = arguments.iter().map(String::as_str).collect();
    match words[..] {
        [] => {
            rows().iter().for_each(|row| println!("{row}"));
            ExitCode::SUCCESS
        }
        ["check", readme] => check(readme),
        _ => {
            eprintln!("usage: sheet [check README]");
            ExitCode::from(2)
        }
    }
}

fn rows() -> Vec<String> {
    ROWS.iter().map(|&(rate, grade, queues)| row(rate, grade, queues)).collect()
}

fn row(rate: usize, grade: usize, queues: Queues) -> String {
    let block = library::block(rate, grade).expect("the rule has a block for each row");
    let (queues, most) = match queues {
        Queues::Just(queues) => (queues, ""),
        Queues::Most => (most_queues(block), " (most)"),
    };
    let memories = library::memories(queues, block, DEPTH).expect("the limits take each row's sizes");
    format!(
        "| {rate} Gb/s | {} ns (grade {grade}) | {block} | {queues}{most} | {} | {} | {} | {} | {} µs |",
        cycle_time(grade),
        thousands(memories.lookahead),
        thousands(memories.tail),
        thousands(memories.head),
        thousands(memories.store),
        microseconds(memories.lookahead, rate),
    )
}

/// At 4 Gb/s a block has as many bytes as a memory cycle has ns: b is R × T / 4.
fn cycle_time(grade: usize) -> usize {
    library::block(4, grade).expect("every grade has a block at 4 Gb/s")
}

fn most_queues(block: usize) -> usize {
    (1..=MOST_QUEUES)
        .rev()
        .find(|&queues| library::memories(queues, block, DEPTH).is_some())
        .expect("one queue is within the limits")
}

/// So many bytes at a rate in Gb/s, in µs to two places: a byte is 8 bits, and a bit takes 1 / rate ns.
fn microseconds(bytes: usize, rate: usize) -> String {
    let hundredths = (bytes * 8 + 5 * rate) / (10 * rate);
    format!("{}.{:02}", hundredths / 100, hundredths % 100)
}

fn thousands(number: usize) -> String {
    match number / 1_000 {
        0 => number.to_string(),
        more => format!("{more},{:03}", number % 1_000),
    }
}

/// Each row is one test, and that the README has no other is one more.
fn check(readme: &str) -> ExitCode {
    let text = fs::read_to_string(readme).unwrap_or_else(|why| panic!("{readme}: {why}"));
    let found: Vec<&str> = text
        .lines()
        .skip_while(|&line| line != HEADER)
        .skip(2)
        .take_while(|line| line.starts_with('|'))
        .collect();
    let rows = rows();
    let mut failed = 0;
    for (place, row) in rows.iter().enumerate() {
        if found.get(place) != Some(&row.as_str()) {
            println!(
                "{readme}: row {place} of the sheet is\n  {}\nand should be\n  {row}",
                found.get(place).unwrap_or(&"")
            );
            failed += 1;
        }
    }
    if found.len() != rows.len() {
        println!("{readme}: the sheet has {} rows, and should have {}", found.len(), rows.len());
        failed += 1;
    }
    println!("{} passed, {failed} failed", rows.len() + 1 - failed);
    if failed == 0 {
        ExitCode::SUCCESS
    } else {
        ExitCode::FAILURE
    }
}
