//! What is to come of a call, by the second program, slot by slot.

use gelwynnar::{Answer, ArbiterAnswer, Stretch};
use second::arbiter;
use second::buffer::{self, Buffer, Refill};
use second::random::Random;
use second::raw::RawState;
use second::sizes::{Design, Sizes};

use crate::arbitrated::Turn;
use crate::difference;
use crate::image::Image;
use crate::refilled::Met;
use crate::words::{self, Arrival, Call, IDLE};

/// A state and a store that slots happen to.
#[derive(Clone)]
pub struct Expected {
    sizes: Sizes,
    /// None where the state breaks a rule: every slot is stopped then, and nothing changes.
    buffer: Option<Buffer>,
    store: Vec<u8>,
    /// How many slots were accepted, with a dropped half or without.
    accepted: usize,
    /// The queue that the arbiter asked last.
    last_asked: usize,
}

impl Expected {
    pub fn new(state: &RawState, store: &[u8]) -> Expected {
        let sizes = state.sizes;
        let keeps = state.broken_rules(Design::Full.cells(sizes)).is_empty();
        let buffer = keeps.then(|| Buffer::from_raw(state));
        Expected { sizes, buffer, store: store.to_vec(), accepted: 0, last_asked: state.last_asked }
    }

    /// A fresh state of accepted sizes.
    pub fn fresh(sizes: Sizes, store: &[u8]) -> Expected {
        let buffer = Buffer::fresh(sizes, Design::Full.cells(sizes)).ok();
        Expected { sizes, buffer, store: store.to_vec(), accepted: 0, last_asked: sizes.q - 1 }
    }

    /// What the slot of this call meets.
    pub fn meets(&self, (arrival, request): Call) -> Met {
        let Some(buffer) = &self.buffer else { return Met::default() };
        Met {
            refill: buffer.refill(arrival, request),
            tail_full: buffer.tail_is_full(),
            lookahead: Design::Full.cells(self.sizes),
        }
    }

    /// What the slot of this arrival meets, in which the arbiter chooses; none where the state breaks a rule.
    pub fn turn(&self, arrival: Arrival) -> Option<Turn> {
        let buffer = self.buffer.as_ref()?;
        let chosen = buffer.choice(arrival);
        Some(Turn {
            queues: self.sizes.q,
            last_asked: self.last_asked,
            chosen,
            waiting: buffer.choice(None),
            met: self.meets((arrival, chosen)),
        })
    }

    /// A call that reads and refills a full queue and meets this, where there is one.
    pub fn some_refill(&self, random: &mut Random, sought: Refill) -> Option<Call> {
        let first = random.below(self.sizes.q);
        let byte = random.byte();
        let mut calls = (first..self.sizes.q).chain(0..first).map(|queue| (Some((queue, byte)), Some(queue)));
        calls.find(|&call| self.meets(call).refill == Some(sought))
    }

    pub fn slot(&mut self, call: Call) -> Answer {
        self.slot_in(call, self.store.len())
    }

    /// A slot that is lent only so many bytes of the store.
    pub fn slot_in(&mut self, (arrival, request): Call, store_bytes: usize) -> Answer {
        let answer = match &mut self.buffer {
            Some(buffer) => {
                let cells = Design::Full.cells(self.sizes);
                buffer.slot(cells, arrival, request, &mut self.store[..store_bytes])
            }
            None => buffer::Answer::stopped(3),
        };
        self.accepted += usize::from(answer.number == 0);
        words::answer(answer)
    }

    /// A slot in which the arbiter chooses.
    pub fn arbiter_slot(&mut self, arrival: Arrival) -> ArbiterAnswer {
        self.arbiter_slot_in(arrival, self.store.len())
    }

    pub fn arbiter_slot_in(&mut self, arrival: Arrival, store_bytes: usize) -> ArbiterAnswer {
        let found = match &mut self.buffer {
            Some(buffer) => {
                let cells = Design::Full.cells(self.sizes);
                buffer.arbiter_slot(cells, arrival, &mut self.store[..store_bytes])
            }
            None => arbiter::ArbiterAnswer::stopped(3),
        };
        self.accepted += usize::from(found.answer.number == 0);
        self.last_asked = found.asked.unwrap_or(self.last_asked);
        words::arbiter_answer(found)
    }

    /// 3 or 2, which every slot with so many bytes of the store answers, or 0.
    pub fn refuses_all(&self, store_bytes: usize) -> u8 {
        match self.buffer {
            None => 3,
            Some(_) if store_bytes < self.sizes.store_size() => 2,
            Some(_) => 0,
        }
    }

    /// Idle slots up to the first that is not quiet, at most so many.
    pub fn idle_in(&mut self, most: usize, store_bytes: usize) -> Stretch {
        let mut stretch = Stretch::default();
        while stretch.passed < most {
            stretch.last = self.slot_in(IDLE, store_bytes);
            stretch.passed += 1;
            if stretch.last != Answer::default() {
                break;
            }
            if stretch.passed == Design::Full.cells(self.sizes) + self.sizes.b {
                // So many quiet slots have emptied every cell and met every phase. From here on none is anything but
                // quiet, and all that still changes is the phase, which comes round each b slots.
                for _ in 0..(most - stretch.passed) % self.sizes.b {
                    self.slot_in(IDLE, store_bytes);
                }
                stretch.passed = most;
            }
        }
        stretch
    }

    pub fn store(&self) -> &[u8] {
        &self.store
    }

    /// The second program's buffer; none where the state breaks a rule.
    pub fn buffer(&self) -> Option<&Buffer> {
        self.buffer.as_ref()
    }

    /// The state now; none where it breaks a rule.
    pub fn state(&self) -> Option<RawState> {
        self.buffer.as_ref().map(Buffer::to_raw)
    }

    /// The state and the store that a call left. Where it accepted no slot, every byte is as it came, also those past
    /// a fill; else these are no part of the state.
    pub fn agrees(&self, before: &Image, after: &Image) -> Result<(), String> {
        let state = match self.state() {
            Some(expected) if self.accepted > 0 => difference::states(&after.places.state(), &expected),
            _ => difference::places(&after.places, &before.places),
        };
        difference::same(state.or_else(|| difference::array("store", &after.store, &self.store)))
    }

    /// The counts that a call left: right where the state keeps the rules, else as they came.
    pub fn counts_agree(&self, before: &Image, after: &Image) -> Result<(), String> {
        let expected = match self.buffer {
            Some(_) => after.places.recount(),
            None => before.counts.clone(),
        };
        difference::same(difference::counts(&after.counts, &expected))
    }
}
