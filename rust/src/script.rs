//! Scripts: judged, read and written command by command, run, and made of captures.

use crate::raw;

/// A command as numbers: its code and its operands, 0 for those that it does not have.
#[repr(C)]
#[derive(Clone, Copy, Debug, Default, PartialEq, Eq)]
pub struct Numbers {
    pub code: u16,
    pub operands: [u16; 3],
}

// What the library answers, as C has it: 0 and the rest, or a refusal's number.

#[repr(C)]
pub(crate) struct Fault {
    offset: usize,
    number: u8,
}

#[repr(C)]
pub(crate) struct Reading {
    length: usize,
    command: Numbers,
    number: u8,
}

#[repr(C)]
pub(crate) struct Writing {
    length: usize,
    number: u8,
}

impl Writing {
    fn told(self) -> Result<usize, u8> {
        if self.number == 0 {
            return Ok(self.length);
        }
        assert!(self.length == 0, "a refusal tells of bytes");
        Err(self.number)
    }
}

/// The number of a script's first fault and the offset of its place, or none.
pub fn judge(script: &[u8]) -> Option<(u8, usize)> {
    // Safe: each pointer goes with the length of its own slice; the library stays within and keeps none. So below.
    let fault = unsafe { raw::gel_script_judge(script.as_ptr(), script.len()) };
    (fault.number != 0).then_some((fault.number, fault.offset))
}

/// The command at the front of what is left of a script and how many bytes it has, or the refusal's number.
pub fn read(rest: &[u8], first: bool) -> Result<(Numbers, usize), u8> {
    let Reading { length, command, number } =
        unsafe { raw::gel_script_read(rest.as_ptr(), rest.len(), first.into()) };
    if number == 0 {
        return Ok((command, length));
    }
    // The caller is told the number alone, so that nobody else would see it.
    assert!(length == 0 && command == Numbers::default(), "a refusal tells of a command");
    Err(number)
}

/// Writes a command at the front of the output; how many bytes it has, or the refusal's number.
pub fn write(command: Numbers, output: &mut [u8]) -> Result<usize, u8> {
    unsafe { raw::gel_script_write(command, output.as_mut_ptr(), output.len()) }.told()
}

/// How many bytes of output `run` asks for a script of so many bytes.
pub fn output_asked(script_bytes: usize) -> usize {
    // Safe: numbers alone.
    unsafe { raw::gel_script_output(script_bytes) }
}

/// Runs a script on a store; how many bytes it printed, or none where the output is shorter than `output_asked`.
pub fn run(script: &[u8], store: &mut [u8], output: &mut [u8]) -> Option<usize> {
    let (read, kept, printed) = (script.as_ptr(), store.as_mut_ptr(), output.as_mut_ptr());
    let bytes = unsafe { raw::gel_script_run(read, script.len(), kept, store.len(), printed, output.len()) };
    (bytes != 0).then_some(bytes)
}

/// Writes the script of a capture at the front of the output; how many bytes it has, or 1, 19, 17, 18 or 16. Three
/// times the capture's bytes always have room.
pub fn from_capture(
    queues: usize,
    block: usize,
    depth: usize,
    capture: &[u8],
    output: &mut [u8],
) -> Result<usize, u8> {
    let (read, written) = (capture.as_ptr(), output.as_mut_ptr());
    unsafe { raw::gel_capture_to_script(queues, block, depth, read, capture.len(), written, output.len()) }
        .told()
}
