//! The second program's commands.
//!
//! second [slots]                    runs a script from standard input
//! second sizing R G                 prints b, or 11
//! second capture Q B K ROOM         prints the number and the script of a capture from standard input
//! second cases SEED COUNT           prints random cases of one slot
//! second lists SEED COUNT           prints random lists of slots
//! second arbiter-cases SEED COUNT   prints random cases of one slot, in which the arbiter asks
//! second arbiter-lists SEED COUNT   prints random lists of slots, in some of which the arbiter asks
//! second captures SEED COUNT        prints random small captures and their scripts

use std::io::{self, BufWriter, Read, Write};
use std::process::ExitCode;

use second::capture::capture_to_script;
use second::{arbiter_cases, arbiter_lists, captures, cases, lists, program, sizing};

const USAGE: &str = "usage: second [slots | sizing R G | capture Q B K ROOM | COMMAND SEED COUNT]
COMMAND: cases, lists, arbiter-cases, arbiter-lists or captures";

fn main() -> ExitCode {
    let arguments: Vec<String> = std::env::args().skip(1).collect();
    let words: Vec<&str> = arguments.iter().map(String::as_str).collect();
    match words[..] {
        [] | ["slots"] => match slots() {
            Ok(()) => ExitCode::SUCCESS,
            Err(error) => fail(&error.to_string()),
        },
        ["sizing", rate, grade] => match (rate.parse(), grade.parse()) {
            (Ok(rate), Ok(grade)) => {
                match sizing::block_size(rate, grade) {
                    Ok(block) => println!("{block}"),
                    Err(number) => println!("{number}"),
                }
                ExitCode::SUCCESS
            }
            _ => fail("R and G are whole numbers"),
        },
        ["capture", queues, block, depth, room] => script_of_capture([queues, block, depth, room]),
        ["cases", seed, count] => generate(seed, count, cases::print_cases),
        ["lists", seed, count] => generate(seed, count, lists::print_lists),
        ["arbiter-cases", seed, count] => generate(seed, count, arbiter_cases::print_arbiter_cases),
        ["arbiter-lists", seed, count] => generate(seed, count, arbiter_lists::print_arbiter_lists),
        ["captures", seed, count] => generate(seed, count, captures::print_captures),
        _ => fail(USAGE),
    }
}

fn slots() -> io::Result<()> {
    // One byte over the limit is enough to know that the input is too long.
    let mut input = Vec::new();
    io::stdin().lock().take(program::SCRIPT_LIMIT as u64 + 1).read_to_end(&mut input)?;
    let mut output = BufWriter::new(io::stdout().lock());
    program::run_script(&input, &mut output)?;
    output.flush()
}

fn script_of_capture(sizes_and_room: [&str; 4]) -> ExitCode {
    let [Ok(queues), Ok(block), Ok(depth), Ok(room)] = sizes_and_room.map(str::parse) else {
        return fail("Q, B, K and ROOM are whole numbers");
    };
    let mut input = Vec::new();
    if let Err(error) = io::stdin().lock().read_to_end(&mut input) {
        return fail(&error.to_string());
    }
    captures::print_script(&capture_to_script(queues, block, depth, &input, room));
    ExitCode::SUCCESS
}

fn generate(seed: &str, count: &str, print: fn(u64, usize)) -> ExitCode {
    match (seed.parse(), count.parse()) {
        (Ok(seed), Ok(count)) => {
            print(seed, count);
            ExitCode::SUCCESS
        }
        _ => fail("SEED and COUNT are whole numbers"),
    }
}

fn fail(message: &str) -> ExitCode {
    eprintln!("{message}");
    ExitCode::from(2)
}
