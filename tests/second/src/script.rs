//! Scripts: reading one command, judging a whole script.

use crate::sizes::Sizes;

#[derive(Clone, Copy, Debug, PartialEq, Eq)]
pub enum Command {
    Sizes(Sizes),
    Idle,
    Arrival { queue: usize, byte: u8 },
    Request { queue: usize },
    Both { arrival_queue: usize, byte: u8, request_queue: usize },
    IdleCount(u32),
    End,
}

/// How many operand bytes a command byte asks for; none if it is unknown.
fn operand_count(command: u8) -> Option<usize> {
    match command {
        0x10 => Some(3),
        0x00 => Some(0),
        0x01 => Some(2),
        0x02 => Some(1),
        0x03 => Some(3),
        0x04 => Some(2),
        0x05 => Some(0),
        _ => None,
    }
}

/// Reads the command at `offset`: the command and the offset after it, or the
/// number 12, 13 or 15. Whether sizes stand in their place is judged elsewhere.
pub fn read_command(script: &[u8], offset: usize) -> Result<(Command, usize), u8> {
    let command = *script.get(offset).ok_or(15u8)?;
    let after = offset + 1 + operand_count(command).ok_or(12u8)?;
    let operands = script.get(offset + 1..after).ok_or(13u8)?;
    let number = |index: usize| usize::from(operands[index]);
    let value = match command {
        0x10 => Command::Sizes(Sizes { q: number(0), b: number(1), k: number(2) }),
        0x00 => Command::Idle,
        0x01 => Command::Arrival { queue: number(0), byte: operands[1] },
        0x02 => Command::Request { queue: number(0) },
        0x03 => Command::Both { arrival_queue: number(0), byte: operands[1], request_queue: number(2) },
        0x04 => Command::IdleCount(u32::from(operands[0]) + 256 * u32::from(operands[1])),
        _ => Command::End,
    };
    Ok((value, after))
}

/// Why a script is refused, and where.
#[derive(Clone, Copy, Debug, PartialEq, Eq)]
pub struct Fault {
    pub number: u8,
    pub offset: usize,
}

/// Judges the whole script, left to right; gives its commands if it is good.
pub fn read_script(script: &[u8]) -> Result<Vec<Command>, Fault> {
    let mut commands = Vec::new();
    let mut offset = 0;
    loop {
        let fault = |number| Fault { number, offset };
        let byte = *script.get(offset).ok_or(fault(15))?;
        if operand_count(byte).is_none() {
            return Err(fault(12));
        }
        // Sizes come first and only first; judged before cut operands.
        if (byte == 0x10) != commands.is_empty() {
            return Err(fault(14));
        }
        let (command, after) = read_command(script, offset).map_err(fault)?;
        commands.push(command);
        offset = after;
        if command == Command::End {
            break;
        }
    }
    if offset < script.len() {
        return Err(Fault { number: 15, offset });
    }
    Ok(commands)
}
