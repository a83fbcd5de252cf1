//! The program `slots`: runs a script and prints its D, R, M, E and S lines.

use std::io::{self, Write};

use crate::buffer::Buffer;
use crate::script::{read_script, Command};
use crate::sizes::{Design, Sizes};

/// The most bytes a script may have.
pub const SCRIPT_LIMIT: usize = 65_536;
/// The bytes of the store that the program lends.
const STORE_LENGTH: usize = 65_536;

/// `input` may be cut after SCRIPT_LIMIT + 1 bytes; more tells nothing new. Gives how many of its slots swapped
/// (request 2.1), which no line tells.
pub fn run_script(input: &[u8], output: &mut impl Write) -> io::Result<usize> {
    if input.len() > SCRIPT_LIMIT {
        writeln!(output, "S 15 {SCRIPT_LIMIT}")?;
        return Ok(0);
    }
    let commands = match read_script(input) {
        Ok(commands) => commands,
        Err(fault) => {
            writeln!(output, "S {} {}", fault.number, fault.offset)?;
            return Ok(0);
        }
    };
    let sizes = match commands[0] {
        Command::Sizes(sizes) => sizes,
        _ => unreachable!("a script that reads well starts with its sizes"),
    };
    match Run::start(sizes) {
        Ok(run) => run.finish(&commands[1..], output),
        Err(number) => {
            writeln!(output, "R 0 {number}\nE 0")?;
            Ok(0)
        }
    }
}

struct Run {
    buffer: Buffer,
    cells: usize,
    store: Vec<u8>,
    accepted: u64,
    swaps: usize,
}

impl Run {
    fn start(sizes: Sizes) -> Result<Run, u8> {
        let cells = Design::Full.cells(sizes);
        let buffer = Buffer::fresh(sizes, cells)?;
        if STORE_LENGTH < sizes.store_size() {
            return Err(2);
        }
        Ok(Run { buffer, cells, store: vec![0; STORE_LENGTH], accepted: 0, swaps: 0 })
    }

    /// How many slots swapped.
    fn finish(mut self, commands: &[Command], output: &mut impl Write) -> io::Result<usize> {
        for &command in commands {
            match command {
                Command::Idle => self.slot(None, None, output)?,
                Command::Arrival { queue, byte } => self.slot(Some((queue, byte)), None, output)?,
                Command::Request { queue } => self.slot(None, Some(queue), output)?,
                Command::Both { arrival_queue, byte, request_queue } => {
                    self.slot(Some((arrival_queue, byte)), Some(request_queue), output)?
                }
                Command::IdleCount(count) => {
                    for _ in 0..count {
                        self.slot(None, None, output)?;
                    }
                }
                Command::Sizes(_) | Command::End => {}
            }
        }
        writeln!(output, "E {}", self.accepted)?;
        Ok(self.swaps)
    }

    /// A slot with a dropped half is accepted, and its R lines carry its own number. The R line of a stopped one has
    /// the number of the slot that would have run.
    fn slot(
        &mut self,
        arrival: Option<(usize, u8)>,
        request: Option<usize>,
        output: &mut impl Write,
    ) -> io::Result<()> {
        let slot_number = self.accepted;
        let swaps = self.buffer.swaps(arrival, request);
        let answer = self.buffer.slot(self.cells, arrival, request, &mut self.store);
        if answer.number != 0 {
            return writeln!(output, "R {slot_number} {}", answer.number);
        }
        self.accepted += 1;
        self.swaps += usize::from(swaps);
        // Request 2.5: "A slot's D line comes before its R lines, 5 before 7."
        if let Some((queue, byte)) = answer.delivered {
            writeln!(output, "D {slot_number} {queue} {byte}")?;
        }
        for half_number in [answer.arrival_number, answer.request_number] {
            if half_number != 0 {
                writeln!(output, "R {slot_number} {half_number}")?;
            }
        }
        // Request 2.6: "a line `M t q n` for each read (slot, queue, slots left), after that slot's D and R lines".
        if let Some(queue) = answer.read {
            writeln!(output, "M {slot_number} {queue} {}", answer.slots_left)?;
        }
        Ok(())
    }
}
