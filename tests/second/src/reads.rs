//! Which slots left at a read (request 2.6) a test has seen.

use std::collections::BTreeMap;
use std::fmt;

/// How often one slot was left, a number between, and all of the lookahead.
#[derive(Clone, Copy, Debug, Default)]
struct Times {
    one: usize,
    between: usize,
    all: usize,
}

/// By the lookahead, of more than one cell: with one there is nothing to tell apart.
#[derive(Debug, Default)]
pub struct Reads(BTreeMap<usize, Times>);

impl Reads {
    /// A slot with this answer; 0 is one without a read.
    pub fn add(&mut self, lookahead: usize, slots_left: usize) {
        if lookahead == 1 || slots_left == 0 {
            return;
        }
        let times = self.0.entry(lookahead).or_default();
        match slots_left {
            1 => times.one += 1,
            all if all == lookahead => times.all += 1,
            _ => times.between += 1,
        }
    }

    /// At how many lookaheads both one slot and all were left, the least and the greatest number.
    pub fn both_ends(&self) -> usize {
        self.0.values().filter(|times| times.one > 0 && times.all > 0).count()
    }

    pub fn between(&self) -> usize {
        self.0.values().map(|times| times.between).sum()
    }
}

impl fmt::Display for Reads {
    fn fmt(&self, out: &mut fmt::Formatter) -> fmt::Result {
        let one: usize = self.0.values().map(|times| times.one).sum();
        let all: usize = self.0.values().map(|times| times.all).sum();
        write!(out, "slots left: 1: {one}, between: {}, all: {all}, ", self.between())?;
        write!(out, "1 and all at {} of {} lookaheads", self.both_ends(), self.0.len())
    }
}
