//! `second capture`: the script of one capture. `second captures`: small captures and their scripts, a line each.

use std::collections::BTreeMap;
use std::fmt::Display;

use crate::random::Random;
use crate::random_capture::small_capture_case;

/// The number, and the bytes of the script in hex if there is one.
pub fn print_script(outcome: &Result<Vec<u8>, u8>) {
    println!("number {}", number(outcome));
    if let Ok(script) = outcome {
        println!("{}", words(script.iter().map(|byte| format!("{byte:02x}"))));
    }
}

/// Q b K room | capture | number | script
pub fn print_captures(seed: u64, count: usize) {
    let mut random = Random::new(seed);
    let mut numbers: BTreeMap<u8, usize> = BTreeMap::new();
    for _ in 0..count {
        let case = small_capture_case(&mut random);
        let outcome = case.run();
        *numbers.entry(number(&outcome)).or_default() += 1;
        println!(
            "{} {} {} {} | {} | {} | {}",
            case.queues,
            case.block,
            case.depth,
            case.room,
            words(case.capture.iter()),
            number(&outcome),
            words(outcome.iter().flatten()),
        );
    }
    for (number, count) in &numbers {
        eprintln!("answer {number}: {count}");
    }
}

/// 0 where there is a script.
fn number(outcome: &Result<Vec<u8>, u8>) -> u8 {
    outcome.as_ref().err().copied().unwrap_or(0)
}

fn words(items: impl Iterator<Item = impl Display>) -> String {
    items.map(|item| item.to_string()).collect::<Vec<_>>().join(" ")
}
