//! Judging, reading and writing, beside the second program's.

use gelwynnar::script::{self as library, Numbers};
use second::script::{read_script, Command, Fault};

/// A byte that no writer is to touch.
const UNTOUCHED: u8 = 0xA5;

/// A script judged, read command by command, and written back.
pub fn compare(script: &[u8]) -> Result<(), String> {
    let expected = read_script(script);
    let judged = library::judge(script);
    match &expected {
        Ok(commands) if judged.is_none() => reads_back(script, commands),
        Err(Fault { number, offset }) if judged == Some((*number, *offset)) => {
            stops_at(script, *number, *offset)
        }
        _ => Err(format!("judged {judged:?}, expected {:?}", expected.map(|commands| commands.len()))),
    }
}

/// The reader has the commands of a good script one after the other, and the writer their bytes.
pub fn reads_back(script: &[u8], commands: &[Command]) -> Result<(), String> {
    let mut offset = 0;
    for &command in commands {
        let (found, length) = library::read(&script[offset..], offset == 0)
            .map_err(|number| format!("read {number} at {offset}, expected {command:?}"))?;
        if found != numbers(command) {
            return Err(format!("read {found:?} at {offset}, expected {command:?}"));
        }
        writes(found, &script[offset..offset + length])?;
        offset += length;
    }
    if offset == script.len() {
        Ok(())
    } else {
        Err(format!("read up to {offset} of {} bytes", script.len()))
    }
}

/// Up to the fault the reader has a command, and there it has the fault's number, unless that is of bytes after the end.
fn stops_at(script: &[u8], number: u8, place: usize) -> Result<(), String> {
    let mut offset = 0;
    while offset < place {
        match library::read(&script[offset..], offset == 0) {
            Ok((_, length)) => offset += length,
            Err(found) => return Err(format!("read {found} at {offset}, expected a command")),
        }
    }
    let behind_the_end = number == 15 && place < script.len();
    match library::read(&script[offset..], offset == 0) {
        _ if offset != place => Err(format!("read over the fault at {place}")),
        _ if behind_the_end => Ok(()),
        Err(found) if found == number => Ok(()),
        found => Err(format!("read {found:?} at {place}, expected {number}")),
    }
}

/// A command written has these bytes and changes no other; one byte less of room is 16, and nothing is touched.
fn writes(command: Numbers, bytes: &[u8]) -> Result<(), String> {
    let mut output = [UNTOUCHED; 8];
    let mut expected = output;
    expected[..bytes.len()].copy_from_slice(bytes);
    if library::write(command, &mut output) != Ok(bytes.len()) || output != expected {
        return Err(format!("wrote {output:?} for {command:?}, expected {bytes:?}"));
    }
    let mut output = [UNTOUCHED; 8];
    if library::write(command, &mut output[..bytes.len() - 1]) != Err(16) || output != [UNTOUCHED; 8] {
        return Err(format!("wrote {output:?} for {command:?} without room"));
    }
    Ok(())
}

/// A command of the second program as the boundary has it.
fn numbers(command: Command) -> Numbers {
    let narrow = |number: usize| u16::try_from(number).expect("an operand has two bytes at most");
    let (code, operands) = match command {
        Command::Sizes(sizes) => (16, [sizes.q, sizes.b, sizes.k]),
        Command::Idle => (0, [0; 3]),
        Command::Arrival { queue, byte } => (1, [queue, byte.into(), 0]),
        Command::Request { queue } => (2, [queue, 0, 0]),
        Command::Both { arrival_queue, byte, request_queue } => {
            (3, [arrival_queue, byte.into(), request_queue])
        }
        Command::IdleCount(count) => (4, [count as usize, 0, 0]),
        Command::End => (5, [0; 3]),
    };
    Numbers { code, operands: operands.map(narrow) }
}

/// How many operands each command has, by its code, and how wide they are: below 256, but for the count.
const OPERANDS: [(u16, usize, u16); 7] =
    [(16, 3, 255), (0, 0, 0), (1, 2, 255), (2, 1, 255), (3, 3, 255), (4, 1, u16::MAX), (5, 0, 0)];

/// Numbers that are no command are refused, and nothing is touched: 12 for a code of none, 16 for an operand that is too
/// wide or that the command does not have. One test for each code: all small ones, and some of the others.
pub fn refused_numbers() -> Vec<Result<(), String>> {
    let codes = (0..=600).chain((601..=u16::MAX).step_by(97)).chain([u16::MAX]);
    codes.map(operands_at_the_edges).collect()
}

fn operands_at_the_edges(code: u16) -> Result<(), String> {
    let row = OPERANDS.iter().find(|row| row.0 == code);
    for place in 0..3 {
        for value in [0, 1, 255, 256, 257, u16::MAX] {
            let mut operands = [0; 3];
            operands[place] = value;
            let most = row.map(|&(_, count, most)| if place < count { most } else { 0 });
            let expected = match most {
                None => Some(12),
                Some(most) if value > most => Some(16),
                Some(_) => None,
            };
            refuses(Numbers { code, operands }, expected)?;
        }
    }
    Ok(())
}

fn refuses(command: Numbers, expected: Option<u8>) -> Result<(), String> {
    let mut output = [UNTOUCHED; 8];
    match (library::write(command, &mut output), expected) {
        (Err(number), Some(expected)) if number == expected && output == [UNTOUCHED; 8] => Ok(()),
        (Ok(length), None) => match library::read(&output[..length], command.code == 16) {
            Ok((found, read)) if found == command && read == length => Ok(()),
            found => Err(format!("{command:?} reads back as {found:?}")),
        },
        (found, _) => Err(format!("{command:?}: {found:?}, {output:?}, expected {expected:?}")),
    }
}
