//! Where two things differ that should be the same, as a sentence.

use std::fmt::Debug;

use gelwynnar::ArbiterAnswer;
use second::raw::RawState;

use crate::image::{Counts, Places};
use crate::words::{Arrival, REQUEST_DROPPED};

/// No difference, or the first one as an error.
pub fn same(difference: Option<String>) -> Result<(), String> {
    match difference {
        Some(what) => Err(what),
        None => Ok(()),
    }
}

/// An arbiter's slot with this arrival answers as expected, and with no number that can be of a caller's request only:
/// the arbiter asks for no unknown queue, and for none without a byte.
pub fn arbiter_answers(
    arrival: Arrival,
    found: ArbiterAnswer,
    expected: ArbiterAnswer,
) -> Result<(), String> {
    if found != expected {
        return Err(format!("arrival {arrival:?} answers {found:?}, expected {expected:?}"));
    }
    if found.slot.number == 6 || found.slot.dropped & REQUEST_DROPPED != 0 {
        return Err(format!("arrival {arrival:?} answers {found:?}, and 6 and 7 never come"));
    }
    Ok(())
}

/// Where an array differs.
pub fn array<T: PartialEq + Debug>(name: &str, found: &[T], expected: &[T]) -> Option<String> {
    if found == expected {
        return None;
    }
    let place = found.iter().zip(expected).position(|(found, expected)| found != expected);
    Some(match place {
        Some(place) => format!("{name}[{place}] is {:?}, expected {:?}", found[place], expected[place]),
        None => format!("{name} has {} places, expected {}", found.len(), expected.len()),
    })
}

/// Where the registers and the arrays of a state differ, all places past a fill included.
pub fn places(found: &Places, expected: &Places) -> Option<String> {
    array("regs", &found.regs, &expected.regs)
        .or_else(|| array("tail", &found.tail, &expected.tail))
        .or_else(|| array("head", &found.head, &expected.head))
        .or_else(|| array("cells", &found.cells, &expected.cells))
        .or_else(|| array("firsts", &found.firsts, &expected.firsts))
        .or_else(|| array("stored", &found.stored, &expected.stored))
}

pub fn counts(found: &Counts, expected: &Counts) -> Option<String> {
    array("tails", &found.tails, &expected.tails)
        .or_else(|| array("heads", &found.heads, &expected.heads))
        .or_else(|| array("owing", &found.owing, &expected.owing))
}

/// Where two states differ.
pub fn states(found: &RawState, expected: &RawState) -> Option<String> {
    let numbers = |state: &RawState| {
        let sizes = state.sizes;
        [sizes.q, sizes.b, sizes.k, state.phase, state.tail_mark, state.head_mark, state.last_asked]
    };
    array("Q, b, K, phase, marks and last asked", &numbers(found), &numbers(expected))
        .or_else(|| array("tail bytes", &found.tail, &expected.tail))
        .or_else(|| array("head bytes", &found.head, &expected.head))
        .or_else(|| array("cells", &found.cells, &expected.cells))
        .or_else(|| array("rings", &found.rings, &expected.rings))
}
