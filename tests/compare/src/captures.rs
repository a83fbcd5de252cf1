//! Captures made scripts (request 2.3), beside the second program's: the captures of tests/captures, whose scripts are
//! known, and random ones, good and damaged.

use std::collections::BTreeMap;
use std::fmt;
use std::fs;
use std::io::{self, Write};
use std::path::{Path, PathBuf};
use std::process::{self, Stdio};

use gelwynnar::script as library;
use second::capture::{queue_of, read_frames, without_header};
use second::program::SCRIPT_LIMIT;
use second::random::Random;
use second::random_capture::{capture_case, CaptureCase};
use second::script::Command;
use second::sizes::Sizes;

use crate::commands;
use crate::texts::{self, STORE_LENGTH};

/// All that a conversion answers: 0 and a script, or a refusal.
const ANSWERS: [u8; 6] = [0, 1, 16, 17, 18, 19];

/// As many random cases as the least count below is meant for.
pub const USUAL_CASES: u64 = 4_000;

const LEAST_OF_AN_ANSWER: usize = 100;

/// The captures of which the folder has the whole script as a listing, at these sizes.
const LISTED: [&str; 4] = ["empty_frames", "no_frames", "tag_cut_14", "tag_cut_15"];
const LISTED_SIZES: [usize; 3] = [8, 2, 4];

/// The bytes of a script without arrivals, and of an arrival.
const SIZES_AND_END: usize = 5;
const ARRIVAL: usize = 3;

/// A script, or a refusal's number.
type Outcome = Result<Vec<u8>, u8>;

/// How many tests there were, and how many failed. Prints what failed, and how often each answer came to the random
/// cases; an answer that came too seldom is a failure more.
pub fn compare(seed: u64, count: u64) -> (usize, usize) {
    let mut tests = stored();
    let mut random = Random::new(seed);
    let mut seen = Seen::default();
    for place in 0..count {
        let case = capture_case(&mut random);
        let CaptureCase { queues, block, depth, capture, room } = &case;
        let bytes = capture.len();
        let name = format!(
            "case {place} of seed {seed}, Q {queues}, b {block}, K {depth}, {bytes} bytes, room {room}"
        );
        tests.push((name, random_case(&case, &mut seen)));
    }
    let mut failed = 0;
    for (name, what) in tests.iter().filter_map(|(name, result)| Some((name, result.as_ref().err()?))) {
        println!("{name}: {what}");
        failed += 1;
    }
    println!("{seen}");
    if count >= USUAL_CASES {
        for answer in seen.too_seldom() {
            println!("{answer} came too seldom");
            failed += 1;
        }
    }
    (tests.len(), failed)
}

// ---- One case

/// What both make of a case. The library's output came with a byte at each place, and has it still behind the script,
/// or everywhere on a refusal.
fn convert(case: &CaptureCase) -> Result<Outcome, String> {
    let outcome = case.run();
    let mut output = as_it_came(case.room);
    let found = library::from_capture(case.queues, case.block, case.depth, &case.capture, &mut output);
    let expected = outcome.as_ref().map(Vec::len).map_err(|&number| number);
    if found != expected {
        return Err(format!("answers {found:?} with room {}, expected {expected:?}", case.room));
    }
    let mut left = as_it_came(case.room);
    if let Ok(script) = &outcome {
        left[..script.len()].copy_from_slice(script);
    }
    same_bytes(&format!("the output, with room {} and answer {found:?},", case.room), &output, &left)?;
    Ok(outcome)
}

/// Bytes are the same, or which are the first that are not.
fn same_bytes(what: &str, found: &[u8], expected: &[u8]) -> Result<(), String> {
    if found == expected {
        return Ok(());
    }
    let at = found.iter().zip(expected).take_while(|(one, other)| one == other).count();
    Err(format!("byte {at} of {what} is {:?}, expected {:?}", found.get(at), expected.get(at)))
}

/// An output before the call. A byte varies with its place, so that one which is moved does not go unseen.
fn as_it_came(length: usize) -> Vec<u8> {
    (0..length).map(|place| (place % 251) as u8).collect()
}

/// The same with another length of the output.
fn convert_in(room: usize, case: &CaptureCase) -> Result<Outcome, String> {
    convert(&CaptureCase { room, ..case.clone() })
}

/// A case as drawn; without any room, where 16 says that all else is good; and with three times the capture's bytes,
/// which are never too few.
fn random_case(case: &CaptureCase, seen: &mut Seen) -> Result<(), String> {
    seen.answer(&convert(case)?);
    let without_room = convert_in(0, case)?.err();
    let outcome = convert_in(3 * case.capture.len(), case)?;
    if outcome == Err(16) {
        return Err("three times the capture's bytes are too short".to_string());
    }
    if without_room != Some(outcome.as_ref().err().copied().unwrap_or(16)) {
        return Err(format!("answers {without_room:?} without room"));
    }
    let Ok(script) = outcome else { return Ok(()) };
    reads_back(case, &script)?;
    if script.len() <= SCRIPT_LIMIT {
        runs(case, &script, seen)?;
    }
    Ok(())
}

/// A script is judged good, and is read as the sizes, an arrival for each byte of the second program's frames, and the
/// end.
fn reads_back(case: &CaptureCase, script: &[u8]) -> Result<(), String> {
    if let Some((number, offset)) = library::judge(script) {
        return Err(format!("its script is judged {number} at {offset}"));
    }
    let frames = without_header(&case.capture).and_then(read_frames);
    let mut commands = vec![Command::Sizes(sizes_of(case))];
    for frame in frames.ok_or("the second program finds no frames")? {
        let queue = queue_of(frame).into();
        commands.extend(frame.iter().map(|&byte| Command::Arrival { queue, byte }));
    }
    commands.push(Command::End);
    commands::reads_back(script, &commands)
}

fn sizes_of(case: &CaptureCase) -> Sizes {
    Sizes { q: case.queues, b: case.block, k: case.depth }
}

/// Both print the same text of a script. All that is dropped is for a full queue, and every slot is accepted, one for
/// each captured byte; or the store is too short for the sizes, and none is.
fn runs(case: &CaptureCase, script: &[u8], seen: &mut Seen) -> Result<(), String> {
    let (text, _) = texts::compare(script)?;
    let store_is_short = STORE_LENGTH < sizes_of(case).store_size();
    let accepted = if store_is_short { 0 } else { (script.len() - SIZES_AND_END) / ARRIVAL };
    seen.runs += 1;
    for line in String::from_utf8_lossy(&text).lines() {
        match line.split(' ').collect::<Vec<_>>()[..] {
            ["R", _, "2"] if store_is_short => seen.short_stores += 1,
            ["R", _, "5"] if !store_is_short => seen.full_queues += 1,
            ["E", count] if count == accepted.to_string() => {}
            _ => return Err(format!("its script prints '{line}'")),
        }
    }
    Ok(())
}

/// How often each answer came, and what the scripts printed.
#[derive(Default)]
struct Seen {
    answers: BTreeMap<u8, usize>,
    runs: usize,
    short_stores: usize,
    full_queues: usize,
}

impl Seen {
    fn answer(&mut self, outcome: &Outcome) {
        let number = outcome.as_ref().err().copied().unwrap_or(0);
        *self.answers.entry(number).or_default() += 1;
    }

    fn times(&self, answer: u8) -> usize {
        self.answers.get(&answer).copied().unwrap_or(0)
    }

    fn too_seldom(&self) -> Vec<u8> {
        ANSWERS.into_iter().filter(|&answer| self.times(answer) < LEAST_OF_AN_ANSWER).collect()
    }
}

impl fmt::Display for Seen {
    fn fmt(&self, out: &mut fmt::Formatter) -> fmt::Result {
        let answers = ANSWERS.map(|answer| format!("{answer}: {}", self.times(answer))).join(", ");
        let Seen { runs, short_stores, full_queues, .. } = self;
        write!(out, "{answers}, scripts run: {runs}, R 2: {short_stores}, R 5: {full_queues}")
    }
}

// ---- The captures of tests/captures

/// A test for each line of what is expected there, one for each listing, and one that there are no others.
fn stored() -> Vec<(String, Result<(), String>)> {
    let text = fs::read_to_string(folder().join("expected.txt")).expect("the captures have expected.txt");
    let mut tests: Vec<_> = text.lines().map(|line| (line.to_string(), as_expected(line))).collect();
    tests.extend(LISTED.map(|name| (format!("{name}.hex"), as_listed(name))));
    tests.push(("tests/captures".to_string(), none_is_left_out(&text)));
    tests
}

fn folder() -> PathBuf {
    Path::new(env!("CARGO_MANIFEST_DIR")).join("../captures")
}

fn read(file: &str) -> Result<Vec<u8>, String> {
    fs::read(folder().join(file)).map_err(|error| format!("{file}: {error}"))
}

/// FILE Q b K number length sum: in just as much room as that and in more there is a script of that length and sum, and
/// in one byte less 16; or a refusal, with no room too.
fn as_expected(line: &str) -> Result<(), String> {
    let words: Vec<&str> = line.split(' ').collect();
    let [file, sizes_and_answer @ .., sum] = &words[..] else { return Err("no line of words".to_string()) };
    let numbers: Result<Vec<usize>, _> = sizes_and_answer.iter().map(|word| word.parse()).collect();
    let Ok([queues, block, depth, number, length]) = numbers.as_deref() else {
        return Err("there are not five numbers".to_string());
    };
    let capture = read(file)?;
    let room = 3 * capture.len();
    let case = CaptureCase { queues: *queues, block: *block, depth: *depth, capture, room };
    if *number != 0 {
        return [0, room].into_iter().try_for_each(|room| refuses(room, &case, *number));
    }
    for room in [*length, room] {
        let script = convert_in(room, &case)?.map_err(|found| format!("answers {found} with room {room}"))?;
        let found = sum_of(&script).map_err(|error| format!("sha256sum: {error}"))?;
        if script.len() != *length || found != *sum {
            return Err(format!("has a script of {} bytes, sum {found}", script.len()));
        }
    }
    [0, length - 1].into_iter().try_for_each(|room| refuses(room, &case, 16))
}

fn refuses(room: usize, case: &CaptureCase, number: usize) -> Result<(), String> {
    match convert_in(room, case)? {
        Err(found) if usize::from(found) == number => Ok(()),
        found => Err(format!("answers {:?} with room {room}, expected {number}", found.map(|it| it.len()))),
    }
}

/// The sha256 sum of bytes, by the tool of that name: a sum of our own would need tests of its own.
fn sum_of(bytes: &[u8]) -> io::Result<String> {
    let mut tool = process::Command::new("sha256sum").stdin(Stdio::piped()).stdout(Stdio::piped()).spawn()?;
    tool.stdin.take().expect("its input is a pipe").write_all(bytes)?;
    let said = String::from_utf8_lossy(&tool.wait_with_output()?.stdout).into_owned();
    Ok(said.split(' ').next().unwrap_or_default().to_string())
}

/// No capture there is without a line, and no listing without a test.
fn none_is_left_out(expected: &str) -> Result<(), String> {
    let has_line = |name: &str| expected.lines().any(|line| line.split(' ').next() == Some(name));
    for entry in fs::read_dir(folder()).map_err(|error| error.to_string())? {
        let name = entry.map_err(|error| error.to_string())?.file_name().to_string_lossy().into_owned();
        let is_tested = match name.strip_suffix(".hex") {
            Some(capture) => LISTED.contains(&capture),
            None => !name.contains(".pcap") || has_line(&name),
        };
        if !is_tested {
            return Err(format!("{name} is left out"));
        }
    }
    Ok(())
}

/// The script of a capture is what its listing has.
fn as_listed(name: &str) -> Result<(), String> {
    let text = String::from_utf8(read(&format!("{name}.hex"))?).map_err(|error| error.to_string())?;
    let listed = bytes_of(&text)?;
    let [queues, block, depth] = LISTED_SIZES;
    let capture = read(&format!("{name}.pcap"))?;
    let case = CaptureCase { queues, block, depth, capture, room: listed.len() };
    let script = convert(&case)?.map_err(|number| format!("the capture answers {number}"))?;
    same_bytes("the script", &script, &listed)
}

/// The bytes of a listing, as examples/bytes reads it: in hex, with comments after '#'.
fn bytes_of(listing: &str) -> Result<Vec<u8>, String> {
    let words = listing.lines().flat_map(|line| line.split('#').take(1).flat_map(str::split_whitespace));
    words.map(|word| u8::from_str_radix(word, 16).map_err(|_| format!("'{word}' is no byte"))).collect()
}
