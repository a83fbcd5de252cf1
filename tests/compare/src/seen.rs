//! How often each line and each refusal occurred, how often a slot had which lines, how many slots swapped, and which
//! slots were left at a read.

use std::collections::BTreeMap;
use std::fmt;

use second::reads::Reads;
use second::sizes::{Design, Sizes};

/// All that a script can print: its lines, and the numbers of R and S lines. 3, 8, 9 and 10 never come in a run from a
/// fresh state, 11 and 16 are of other calls.
const KINDS: [&str; 15] =
    ["D", "R", "M", "E", "S", "R 1", "R 2", "R 4", "R 5", "R 6", "R 7", "S 12", "S 13", "S 14", "S 15"];

/// All lines that a slot can have, in their order (requests 2.5 and 2.6): what it delivers, that its arrival was
/// dropped, that its request was, what it reads. A slot that is stopped has one line, and it is of no slot.
const OF_A_SLOT: [&str; 4] = ["D", "R 5", "R 7", "M"];
const STOPPED: &str = "stopped";

/// As many scripts as the least counts below are meant for.
pub const USUAL_SCRIPTS: u64 = 4_000;

const LEAST_SWAPS: usize = 1_000;
const LEAST_OF_A_SLOT: usize = 500;
/// A read seldom comes with a dropped request: blocks are in store where there is much to ask for.
const LEAST_OF_A_READ_AND_7: usize = 10;
const LEAST_OF_BOTH_ENDS: usize = 10;

#[derive(Default)]
pub struct Seen {
    times: BTreeMap<String, usize>,
    /// Slots by the lines that they have, and stopped ones.
    slots: BTreeMap<String, usize>,
    /// Slots of all scripts that read and refilled a full queue (request 2.1).
    swaps: usize,
    reads: Reads,
}

impl Seen {
    pub fn add(&mut self, script: &[u8], text: &[u8], swaps: usize) {
        self.swaps += swaps;
        let text = String::from_utf8_lossy(text);
        for line in text.lines() {
            let words: Vec<&str> = line.split(' ').collect();
            match words[..] {
                ["R", _, number] | ["S", number, _] => {
                    one_more(&mut self.times, words[0].to_string());
                    one_more(&mut self.times, format!("{} {number}", words[0]));
                }
                ["M", _, _, slots_left] => {
                    one_more(&mut self.times, "M".to_string());
                    self.reads.add(lookahead(script), slots_left.parse().expect("a number of slots"));
                }
                _ => one_more(&mut self.times, words[0].to_string()),
            }
        }
        for lines in slots_of(&text) {
            one_more(&mut self.slots, lines);
        }
    }

    /// The kinds of lines that never occurred.
    pub fn never(&self) -> Vec<&'static str> {
        KINDS.into_iter().filter(|&kind| !self.times.contains_key(kind)).collect()
    }

    /// Slots whose lines are others, or come in another order, than any slot's can.
    pub fn out_of_order(&self) -> Vec<&str> {
        let known = kinds_of_slots();
        self.slots.keys().filter(|lines| !known.contains(lines)).map(String::as_str).collect()
    }

    /// What slots had too seldom, of as many scripts as usual.
    pub fn too_seldom(&self) -> Vec<String> {
        let read_and_7 = |lines: &str| lines.ends_with("R 7, M");
        let least = |lines: &str| if read_and_7(lines) { LEAST_OF_A_READ_AND_7 } else { LEAST_OF_A_SLOT };
        let rare = |lines: &String| self.slots.get(lines).map_or(true, |&times| times < least(lines));
        let mut all: Vec<String> = kinds_of_slots().into_iter().filter(rare).collect();
        if self.swaps < LEAST_SWAPS {
            all.push("a swap".to_string());
        }
        if self.reads.both_ends() < LEAST_OF_BOTH_ENDS {
            all.push("a lookahead with one slot left at a read, and with all".to_string());
        }
        if self.reads.between() < LEAST_OF_A_SLOT {
            all.push("a number of slots between, left at a read".to_string());
        }
        all
    }
}

/// How many cells the buffer of a script has that reads well.
fn lookahead(script: &[u8]) -> usize {
    let [q, b, k] = [1, 2, 3].map(|place| usize::from(script[place]));
    Design::Full.cells(Sizes { q, b, k })
}

/// Every choice of lines that a slot can have, one or more, and a stopped one.
fn kinds_of_slots() -> Vec<String> {
    let choices = 1..1 << OF_A_SLOT.len();
    let lines = choices.map(|choice: usize| {
        let chosen = OF_A_SLOT.into_iter().enumerate().filter(|(place, _)| choice >> place & 1 == 1);
        chosen.map(|(_, line)| line).collect::<Vec<_>>().join(", ")
    });
    lines.chain([STOPPED.to_string()]).collect()
}

fn one_more(times: &mut BTreeMap<String, usize>, kind: String) {
    *times.entry(kind).or_default() += 1;
}

/// The lines of each slot that has one, without their numbers. The line of a stopped slot has the number of the slot
/// that would have run, so that behind a line of that slot it is out of order. 1 and 2 are of a script that does not
/// start, and of no slot.
fn slots_of(text: &str) -> Vec<String> {
    let mut all: Vec<String> = Vec::new();
    let mut last = None;
    for line in text.lines() {
        let (slot, kind) = match line.split(' ').collect::<Vec<_>>()[..] {
            ["R", _, "1" | "2"] => continue,
            ["D" | "M", slot, ..] => (slot, line[..1].to_string()),
            ["R", slot, number] => (slot, format!("R {number}")),
            _ => continue,
        };
        let of_a_slot = OF_A_SLOT.contains(&kind.as_str());
        match all.last_mut() {
            Some(lines) if last == Some(slot) => *lines += &format!(", {kind}"),
            _ if of_a_slot => all.push(kind),
            _ => all.push(STOPPED.to_string()),
        }
        last = Some(slot).filter(|_| of_a_slot);
    }
    all
}

impl fmt::Display for Seen {
    fn fmt(&self, out: &mut fmt::Formatter) -> fmt::Result {
        writeln!(out, "lines: {}", listed(&self.times))?;
        let slots: BTreeMap<String, usize> =
            self.slots.iter().map(|(lines, &times)| (format!("[{lines}]"), times)).collect();
        write!(out, "slots: {}, swaps: {}, {}", listed(&slots), self.swaps, self.reads)
    }
}

fn listed(times: &BTreeMap<String, usize>) -> String {
    times.iter().map(|(kind, times)| format!("{kind}: {times}")).collect::<Vec<_>>().join(", ")
}
