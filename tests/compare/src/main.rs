//! Compares the proved program with the second one on scripts from a seeded generator.
//!
//! compare [SEED [COUNT [PROGRAM]]]
//! compare program PROGRAM
//! compare captures [SEED [COUNT]]
//! compare speed
//!
//! Each script is judged, read command by command, written back and run by both, in just as much output as is asked for
//! it and, of the proved runner alone, in one byte less. PROGRAM is the program `slots`: every hundredth script, and
//! those at the edges of the format and the worked cases, also go through it. Numbers that are no command go to the
//! writer. Prints how often each line and each refusal occurred, how often a slot had which lines, how many slots
//! swapped, and how often the fewest and the most slots were left at a read; a line or a refusal that never occurred is
//! a failure, and so are lines of a slot that are out of order, and too few slots of a kind, swaps, or sizes with both
//! the fewest and the most in 4,000 scripts or more. `compare program` tests the program alone, on inputs that
//! come in parts and on inputs and outputs that fail. `compare captures` has both make scripts of the captures in
//! tests/captures and of COUNT random ones; it prints how often each answer came, and one that came too seldom in 4,000
//! captures or more is a failure. The last line is 'N passed, M failed'.

mod captures;
mod commands;
mod program;
mod scripts;
mod seen;
mod speed;
mod texts;

use std::process::ExitCode;

use second::random::Random;

use seen::Seen;

fn main() -> ExitCode {
    let arguments: Vec<String> = std::env::args().skip(1).collect();
    if arguments.first().is_some_and(|word| word == "speed") {
        speed::measure();
        return ExitCode::SUCCESS;
    }
    if let [word, program] = arguments.as_slice() {
        if word == "program" {
            return test_program(program);
        }
    }
    let number = |index: usize, usual: u64| match arguments.get(index) {
        Some(word) => word.parse().expect("SEED and COUNT are whole numbers"),
        None => usual,
    };
    if arguments.first().is_some_and(|word| word == "captures") {
        let (tests, failed) = captures::compare(number(1, 1), number(2, captures::USUAL_CASES));
        return close(tests, failed);
    }
    let (seed, count) = (number(0, 1), number(1, seen::USUAL_SCRIPTS));
    let program = arguments.get(2).map(String::as_str);

    let mut random = Random::new(seed);
    let mut all = scripts::edges();
    let edges = all.len();
    all.extend(scripts::reads());
    all.extend(scripts::long(&mut random));
    all.extend((0..count).map(|_| scripts::script(&mut random)));

    let mut seen = Seen::default();
    let mut failed = 0;
    for (place, script) in all.iter().enumerate() {
        let through = program.filter(|_| place < edges || place % 100 == 0);
        if let Err(what) = compare(script, through, &mut seen) {
            println!("script {place} of seed {seed}, {} bytes: {what}", script.len());
            failed += 1;
        }
    }
    for (script, text) in scripts::WORKED {
        let found = compare(script, program, &mut seen);
        if let Err(what) = found.and_then(|found| program::same("the text", &found, text.as_bytes())) {
            println!("the worked case of {text:?}: {what}");
            failed += 1;
        }
    }
    let numbers = commands::refused_numbers();
    for what in numbers.iter().filter_map(|result| result.as_ref().err()) {
        println!("{what}");
        failed += 1;
    }
    println!("{seen}");
    for kind in seen.never() {
        println!("{kind} never occurred");
        failed += 1;
    }
    for lines in seen.out_of_order() {
        println!("a slot has the lines [{lines}]");
        failed += 1;
    }
    if count >= seen::USUAL_SCRIPTS {
        for what in seen.too_seldom() {
            println!("[{what}] came too seldom");
            failed += 1;
        }
    }
    let tests = all.len() + scripts::WORKED.len() + numbers.len();
    close(tests, failed)
}

/// The last line, and how the program ends.
fn close(tests: usize, failed: usize) -> ExitCode {
    println!("{} passed, {failed} failed", tests - failed.min(tests));
    if failed == 0 {
        ExitCode::SUCCESS
    } else {
        ExitCode::FAILURE
    }
}

/// The text that all have of a script.
fn compare(script: &[u8], program: Option<&str>, seen: &mut Seen) -> Result<Vec<u8>, String> {
    commands::compare(script)?;
    let (text, swaps) = texts::compare(script)?;
    texts::too_short(script)?;
    seen.add(script, &text, swaps);
    if let Some(path) = program {
        program::from_pipe(path, script, &text)?;
        program::in_chunks(path, script, script.len() / 5 + 1, &text)?;
    }
    Ok(text)
}

fn test_program(path: &str) -> ExitCode {
    let tests = program::tests(path);
    let mut failed = 0;
    for (name, result) in &tests {
        match result {
            Ok(()) => println!("ok {name}"),
            Err(what) => {
                println!("FAILED {name}: {what}");
                failed += 1;
            }
        }
    }
    close(tests.len(), failed)
}
