//! How long scripts take, and how long a capture takes to become one, beside the second program in the same process.

use std::time::{Duration, Instant};

use gelwynnar::script as library;
use second::capture::capture_to_script;
use second::program::run_script;
use second::random::Random;
use second::random_capture::random_capture;

use crate::scripts;
use crate::texts::STORE_LENGTH;

/// Rounds of each, by turns; the best counts. One of a capture takes half a millisecond.
const ROUNDS: usize = 9;
const CAPTURE_ROUNDS: usize = 99;

/// The most bytes of the capture, and the lengths of its frames.
const MEGABYTE: usize = 1_048_576;
const FRAME_LENGTHS: (usize, usize) = (64, 1_514);

/// Prints a table of scripts that are run, and one of captures.
pub fn measure() {
    measure_scripts();
    println!();
    measure_captures();
}

/// A row for each script; the second program does not run those in which it would count idle slots for minutes.
fn measure_scripts() {
    println!("| script | slots | second ms | proved ms | ratio |");
    println!("|---|--:|--:|--:|--:|");
    let mut random = Random::new(1);
    for (q, b, k) in [(4, 3, 20), (16, 8, 64), (63, 33, 31)] {
        let script = scripts::full_traffic(&mut random, q, b, k);
        row(&format!("full traffic, Q {q}, b {b}, K {k}"), &script, true);
    }
    row("21,843 counts of 65,535 idle slots", &scripts::idle_counts(), false);
    row("7,200 requests set apart by idle counts, Q 63, b 33", &scripts::requests_apart(), false);
}

fn row(name: &str, script: &[u8], beside: bool) {
    let mut output = vec![0; library::output_asked(script.len())];
    let mut proved = Duration::MAX;
    let mut second = Duration::MAX;
    let mut printed = 0;
    for _ in 0..ROUNDS {
        let mut store = vec![0; STORE_LENGTH];
        let start = Instant::now();
        printed = library::run(script, &mut store, &mut output).expect("the output is long enough");
        proved = proved.min(start.elapsed());
        if beside {
            let mut text = Vec::with_capacity(output.len());
            let start = Instant::now();
            run_script(script, &mut text).expect("a vector takes all that is written");
            second = second.min(start.elapsed());
            assert_eq!(text, output[..printed]);
        }
    }
    let text = String::from_utf8_lossy(&output[..printed]);
    let slots = text.lines().last().and_then(|line| line.strip_prefix("E ")).unwrap_or("none");
    if beside {
        let ratio = ms(proved) / ms(second);
        println!("| {name} | {slots} | {:.2} | {:.2} | {ratio:.2} |", ms(second), ms(proved));
    } else {
        println!("| {name} | {slots} | | {:.1} | |", ms(proved));
    }
}

/// The second program's conversion is natural Rust. It allocates its script; the proved one is lent the output.
fn measure_captures() {
    println!("| capture | bytes | script bytes | natural ms | proved ms | proved MB/s | ratio |");
    println!("|---|--:|--:|--:|--:|--:|--:|");
    let capture = megabyte(&mut Random::new(1));
    let (queues, block, depth) = (8, 4, 64);
    let mut output = vec![0; 3 * capture.len()];
    let mut proved = Duration::MAX;
    let mut natural = Duration::MAX;
    let mut written = 0;
    for _ in 0..CAPTURE_ROUNDS {
        let start = Instant::now();
        let length = library::from_capture(queues, block, depth, &capture, &mut output);
        proved = proved.min(start.elapsed());
        let start = Instant::now();
        let script = capture_to_script(queues, block, depth, &capture, output.len());
        natural = natural.min(start.elapsed());
        written = length.expect("the capture is good");
        assert_eq!(script.as_deref(), Ok(&output[..written]));
        output.fill(0);
    }
    let ((least, most), bytes) = (FRAME_LENGTHS, capture.len());
    let name = format!("frames of {least} to {most} bytes, half of them tagged");
    let rate = bytes as f64 / 1e6 / proved.as_secs_f64();
    let (natural, proved) = (ms(natural), ms(proved));
    let ratio = proved / natural;
    println!("| {name} | {bytes} | {written} | {natural:.2} | {proved:.2} | {rate:.0} | {ratio:.2} |");
}

/// A capture that one frame more would make longer than a megabyte.
fn megabyte(random: &mut Random) -> Vec<u8> {
    let mut capture = random_capture(random, 0, 0);
    loop {
        let length = random.between(FRAME_LENGTHS.0, FRAME_LENGTHS.1);
        let mut frame = random.bytes(length);
        let (tag, other_type) = ([0x81, 0x00], [0x08, 0x00]);
        frame[12..14].copy_from_slice(&random.pick(&[tag, other_type]));
        let captured = (length as u32).to_le_bytes();
        let record = [&[0; 8], &captured[..], &captured[..], &frame[..]].concat();
        if MEGABYTE < capture.len() + record.len() {
            return capture;
        }
        capture.extend(record);
    }
}

fn ms(time: Duration) -> f64 {
    time.as_secs_f64() * 1e3
}
