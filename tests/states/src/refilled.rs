//! What slots meet; and of those that read and refill one full queue (request 2.1), what comes of them.

use std::fmt;

use gelwynnar::Answer;
use second::buffer::{Numbers, Refill};

use crate::words;

/// What a slot meets.
#[derive(Clone, Copy, Default)]
pub struct Met {
    /// None where the slot does not read and refill one full queue, or the state breaks a rule.
    pub refill: Option<Refill>,
    pub tail_full: bool,
    /// How many cells there are, or 0 where the state breaks a rule.
    pub lookahead: usize,
}

/// What comes of it.
#[derive(Clone, Copy, Debug, PartialEq, Eq, PartialOrd, Ord)]
pub enum Refilled {
    Swaps,
    /// 9 looks at the tail after the request.
    SwapsInFullTail,
    /// The slot would swap, and is stopped by 8 or 10.
    Misses,
    CannotRead,
    /// The arrival is dropped with 5, since the request would be Owed; or both halves are dropped, since the tail has
    /// no byte of the queue, and 7 is judged without the arrival.
    WouldBeOwed,
    HasNoTailByte,
}

impl Refilled {
    pub const ALL: [Refilled; 6] = [
        Refilled::Swaps,
        Refilled::SwapsInFullTail,
        Refilled::Misses,
        Refilled::CannotRead,
        Refilled::WouldBeOwed,
        Refilled::HasNoTailByte,
    ];

    /// The numbers of the slot, of its arrival and of its request.
    pub fn numbers(self) -> Numbers {
        match self {
            Refilled::Swaps | Refilled::SwapsInFullTail => [0, 0, 0],
            Refilled::Misses => [8, 0, 0],
            Refilled::CannotRead => [10, 0, 0],
            Refilled::WouldBeOwed => [0, 5, 0],
            Refilled::HasNoTailByte => [0, 5, 7],
        }
    }
}

impl Met {
    /// None where something else stops the slot.
    pub fn comes_to(self, answer: Answer) -> Option<Refilled> {
        let refilled = match (self.refill?, answer.number) {
            (Refill::Swap, 0) if self.tail_full => Refilled::SwapsInFullTail,
            (Refill::Swap, 0) => Refilled::Swaps,
            (Refill::Swap, 8) => Refilled::Misses,
            (Refill::Swap, 10) => Refilled::CannotRead,
            (Refill::Owed, 0) => Refilled::WouldBeOwed,
            (Refill::NoTailByte, 0) => Refilled::HasNoTailByte,
            _ => return None,
        };
        (words::numbers(answer) == refilled.numbers()).then_some(refilled)
    }
}

/// What the slot does, for a sentence that begins with it.
impl fmt::Display for Refilled {
    fn fmt(&self, out: &mut fmt::Formatter) -> fmt::Result {
        out.write_str(match self {
            Refilled::Swaps => "swaps",
            Refilled::SwapsInFullTail => "swaps in a full tail",
            Refilled::Misses => "would swap but for 8",
            Refilled::CannotRead => "would swap but for 10",
            Refilled::WouldBeOwed => "does not swap since it would be Owed",
            Refilled::HasNoTailByte => "does not swap since it has no tail byte",
        })
    }
}
