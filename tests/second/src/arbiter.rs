//! Request 2.2: the round robin arbiter, which chooses the request of a slot.

use crate::buffer::{Answer, Buffer};
use crate::raw::RawState;

/// Who makes the request of a slot.
#[derive(Clone, Copy, Debug, PartialEq, Eq)]
pub enum Asker {
    /// The caller, for a queue or for none.
    Caller(Option<usize>),
    Arbiter,
}

/// What an arbiter's slot hands back, and the queue that it asked for. A stopped slot asked for none.
#[derive(Clone, Copy, Debug, PartialEq, Eq)]
pub struct ArbiterAnswer {
    pub answer: Answer,
    pub asked: Option<usize>,
}

impl ArbiterAnswer {
    pub fn stopped(number: u8) -> ArbiterAnswer {
        ArbiterAnswer { answer: Answer::stopped(number), asked: None }
    }
}

impl Buffer {
    /// "After the arrival of the slot, it asks for the next queue, counting up from the last one asked and wrapping,
    /// that has an unrequested byte. If none has, the slot has no request." For a state that keeps the rules.
    pub fn choice(&self, arrival: Option<(usize, u8)>) -> Option<usize> {
        let queues = self.sizes.q;
        (1..=queues)
            .map(|steps| (self.last_asked + steps) % queues)
            .find(|&queue| self.unrequested(queue) > 0 || self.arrival_counts(arrival, queue))
    }

    /// "An arrival to a full queue does not count in the choice." Such a queue can still be chosen for its older bytes,
    /// and 7 never comes: what is chosen has a byte without an arrival that 5 drops.
    fn arrival_counts(&self, arrival: Option<(usize, u8)>, queue: usize) -> bool {
        let arrives_now = matches!(arrival, Some((arriving, _)) if arriving == queue);
        arrives_now && !self.is_full(queue)
    }

    /// One slot, in which the arbiter asks. The last one asked moves here alone, where the slot is accepted, with its
    /// arrival dropped or not, and has a request: "A refused slot or a caller's own request leaves it unchanged."
    pub fn arbiter_slot(
        &mut self,
        expected_cells: usize,
        arrival: Option<(usize, u8)>,
        store: &mut [u8],
    ) -> ArbiterAnswer {
        // Nothing can be chosen from a state that breaks a rule.
        if let Some(number) = self.refusal_of_state(expected_cells, store.len()) {
            return ArbiterAnswer::stopped(number);
        }
        let request = self.choice(arrival);
        let answer = self.slot(expected_cells, arrival, request, store);
        if answer.number != 0 {
            return ArbiterAnswer::stopped(answer.number);
        }
        if let Some(queue) = request {
            self.last_asked = queue;
        }
        ArbiterAnswer { answer, asked: request }
    }
}

impl RawState {
    /// One slot on a state that may break any rule, in which the arbiter asks.
    pub fn arbiter_slot(
        &mut self,
        expected_cells: usize,
        arrival: Option<(usize, u8)>,
        store: &mut [u8],
    ) -> ArbiterAnswer {
        self.in_queues(expected_cells, |buffer| buffer.arbiter_slot(expected_cells, arrival, store))
            .unwrap_or(ArbiterAnswer::stopped(3))
    }
}
