//! A state as it is handed in: plain lists in the paper's order, any content.

use crate::buffer::{Answer, Buffer};
use crate::rules::{broken_rules, Cell, Fields, Ring};
use crate::sizes::Sizes;

#[derive(Clone, Debug, PartialEq, Eq)]
pub struct RawState {
    pub sizes: Sizes,
    pub phase: usize,
    /// Queue and byte, oldest first; the head likewise.
    pub tail: Vec<(usize, u8)>,
    pub head: Vec<(usize, u8)>,
    /// Oldest first.
    pub cells: Vec<Cell>,
    pub rings: Vec<Ring>,
    pub tail_mark: usize,
    pub head_mark: usize,
    /// The queue that the arbiter asked for last (request 2.2).
    pub last_asked: usize,
}

impl RawState {
    pub fn broken_rules(&self, expected_cells: usize) -> Vec<&'static str> {
        broken_rules(
            &Fields {
                sizes: self.sizes,
                expected_cells,
                phase: self.phase,
                rings: &self.rings,
                tail_mark: self.tail_mark,
                head_mark: self.head_mark,
                last_asked: self.last_asked,
            },
            self.tail.iter().map(|&(queue, _)| queue),
            self.head.iter().map(|&(queue, _)| queue),
            self.cells.iter().copied(),
        )
    }

    /// One slot on a state that may break any rule, in which the caller asks.
    pub fn slot(
        &mut self,
        expected_cells: usize,
        arrival: Option<(usize, u8)>,
        request: Option<usize>,
        store: &mut [u8],
    ) -> Answer {
        self.in_queues(expected_cells, |buffer| buffer.slot(expected_cells, arrival, request, store))
            .unwrap_or(Answer::stopped(3))
    }

    /// Refusal 3 is judged here, on the lists, since only a state that keeps
    /// the rules can be sorted into queues: none where it breaks one.
    pub(crate) fn in_queues<T>(&mut self, expected_cells: usize, run: impl FnOnce(&mut Buffer) -> T) -> Option<T> {
        if !self.broken_rules(expected_cells).is_empty() {
            return None;
        }
        let mut buffer = Buffer::from_raw(self);
        let answer = run(&mut buffer);
        *self = buffer.to_raw();
        Some(answer)
    }
}
