//! Slots in which the round robin arbiter chooses (request 2.2): what they meet, and what comes of them.

use std::fmt;

use gelwynnar::Answer;

use crate::refilled::Met;
use crate::words::ARRIVAL_DROPPED;

/// What an arbiter's slot meets, in a state that keeps the rules.
#[derive(Clone, Copy)]
pub struct Turn {
    pub queues: usize,
    pub last_asked: usize,
    pub chosen: Option<usize>,
    /// What it would choose without the arrival.
    pub waiting: Option<usize>,
    /// What the slot meets with the chosen request.
    pub met: Met,
}

/// What comes of it; more than one at a time. Of one queue there is nothing to tell.
#[derive(Clone, Copy, Debug, PartialEq, Eq, PartialOrd, Ord)]
pub enum Arbitrated {
    AsksNone,
    AsksTheNext,
    /// Queues without a byte lie between the last one asked and this one.
    PassesOver,
    /// .. and these are all others.
    AsksAgain,
    /// The last one asked is Q - 1, so that the count begins with 0.
    BeginsWith0,
    /// It is lower, and the count comes to 0 by passing over all up to Q - 1.
    Wraps,
    /// Asks for a queue which the arrival alone has brought to its turn.
    AsksTheArriving,
    /// The arrival is dropped with 5 and does not count, and no queue has a byte, or another one is asked. From a fresh
    /// state the first does not come: blocks are read as fast as their bytes are asked for.
    FullAndAsksNone,
    FullAndAsksAnother,
}

impl Arbitrated {
    pub const ALL: [Arbitrated; 9] = [
        Arbitrated::AsksNone,
        Arbitrated::AsksTheNext,
        Arbitrated::PassesOver,
        Arbitrated::AsksAgain,
        Arbitrated::BeginsWith0,
        Arbitrated::Wraps,
        Arbitrated::AsksTheArriving,
        Arbitrated::FullAndAsksNone,
        Arbitrated::FullAndAsksAnother,
    ];

    pub fn is_of_a_full_queue(self) -> bool {
        matches!(self, Arbitrated::FullAndAsksNone | Arbitrated::FullAndAsksAnother)
    }
}

impl Turn {
    /// Nothing where the slot is stopped.
    pub fn comes_to(&self, answer: Answer) -> Vec<Arbitrated> {
        let mut all = Vec::new();
        if answer.number != 0 {
            return all;
        }
        let dropped = answer.dropped & ARRIVAL_DROPPED != 0;
        match self.chosen {
            None => {
                all.push(Arbitrated::AsksNone);
                if dropped {
                    all.push(Arbitrated::FullAndAsksNone);
                }
            }
            Some(queue) => {
                if self.queues > 1 {
                    all.extend(self.way_to(queue));
                }
                if self.chosen != self.waiting {
                    all.push(Arbitrated::AsksTheArriving);
                }
                // Not so where the arrival's own queue is asked and does not swap: that is of `Refilled`.
                if dropped && self.met.refill.is_none() {
                    all.push(Arbitrated::FullAndAsksAnother);
                }
            }
        }
        all
    }

    /// How the count came to this queue, of two or more.
    fn way_to(&self, queue: usize) -> Vec<Arbitrated> {
        let last_queue = self.queues - 1;
        let passed_over = (queue + last_queue - self.last_asked) % self.queues;
        let mut all = vec![match passed_over {
            0 => Arbitrated::AsksTheNext,
            _ if queue == self.last_asked => Arbitrated::AsksAgain,
            _ => Arbitrated::PassesOver,
        }];
        if self.last_asked == last_queue {
            all.push(Arbitrated::BeginsWith0);
        } else if queue <= self.last_asked {
            all.push(Arbitrated::Wraps);
        }
        all
    }
}

/// What the slot does, for a sentence that begins with it.
impl fmt::Display for Arbitrated {
    fn fmt(&self, out: &mut fmt::Formatter) -> fmt::Result {
        out.write_str(match self {
            Arbitrated::AsksNone => "asks none",
            Arbitrated::AsksTheNext => "asks the next queue",
            Arbitrated::PassesOver => "passes over queues",
            Arbitrated::AsksAgain => "asks the same queue again",
            Arbitrated::BeginsWith0 => "begins with queue 0",
            Arbitrated::Wraps => "wraps",
            Arbitrated::AsksTheArriving => "asks for what arrives",
            Arbitrated::FullAndAsksNone => "has an arrival to a full queue and nothing to ask",
            Arbitrated::FullAndAsksAnother => "has an arrival to a full queue and asks another",
        })
    }
}
