//! What the two natural models have in common: how a list of slots goes through one. The slot itself each has for
//! itself, so that they check each other.

use std::hint::black_box;

use crate::words::{halves, is_arbiters, stopped, Arrival, Request};
use crate::{Lent, Run, RunThenIdle, Sizes};

/// A buffer in natural Rust.
pub trait Model: Sized {
    /// A fresh buffer, or none where the sizes are refused.
    fn fresh(sizes: Sizes) -> Option<Self>;

    /// One slot: its answer word; or the number that stops it, and then nothing has changed.
    fn try_slot(&mut self, arrival: Arrival, request: Request, store: &mut [u8]) -> Result<u64, u8>;

    /// One slot in which the arbiter chooses (request 2.2): its answer word and the queue asked; or the number that
    /// stops it, and then nothing has changed.
    fn try_arbiter_slot(&mut self, arrival: Arrival, store: &mut [u8]) -> Result<(u64, Request), u8>;

    /// The queue that the arbiter asked last.
    fn last_asked(&self) -> usize;

    /// The most bytes that the tail and the head cache have held: the tail as an arrival joins it, the head as a
    /// block is read.
    fn marks(&self) -> [usize; 2];

    /// The slot of a call, with an answer word also where it is stopped.
    fn slot(&mut self, call: u64, store: &mut [u8]) -> u64 {
        let (arrival, request) = halves(call);
        self.try_slot(arrival, request, store).unwrap_or_else(stopped)
    }

    /// The same where the arbiter chooses, with the queue asked.
    fn arbiter_slot(&mut self, call: u64, store: &mut [u8]) -> (u64, Request) {
        let (arrival, _) = halves(call);
        self.try_arbiter_slot(arrival, store).unwrap_or_else(|number| (stopped(number), None))
    }

    /// The slot of a call, the caller's own or the arbiter's.
    fn turn(&mut self, call: u64, store: &mut [u8]) -> (u64, Request) {
        if is_arbiters(call) {
            self.arbiter_slot(call, store)
        } else {
            (self.slot(call, store), None)
        }
    }
}

/// The lists through a natural model. Each model has a static of it, so that they are compiled here and not where they
/// are called, and its slot may become part of them. The parts of a slot are inlined always: the caller's slot and the
/// arbiter's are each compiled as if there were no other.
#[derive(Clone, Copy)]
pub struct Natural {
    pub name: &'static str,
    pub run: Run,
    /// The idle slots one by one.
    pub run_then_idle: RunThenIdle,
    /// A list in which the arbiter chooses where a call says so.
    pub run_arbiter: Run,
}

impl Natural {
    /// By two models: of lists that are all the caller's, and of those in which the arbiter has slots.
    pub const fn of<M: Model, A: Model>(name: &'static str) -> Natural {
        Natural { name, run: run::<M>, run_then_idle: run_then_idle::<M>, run_arbiter: run_arbiter::<A> }
    }
}

fn run<M: Model>(sizes: Sizes, calls: &[u64], lent: &mut Lent) -> bool {
    run_then_idle::<M>(sizes, calls, lent, 0)
}

fn run_then_idle<M: Model>(sizes: Sizes, calls: &[u64], lent: &mut Lent, idle_slots: usize) -> bool {
    let Some(mut buffer) = M::fresh(sizes) else { return false };
    for (&call, answer) in calls.iter().zip(&mut lent.answers) {
        *answer = buffer.slot(call, &mut lent.store);
    }
    for _ in 0..idle_slots {
        black_box(buffer.slot(0, &mut lent.store));
    }
    lent.marks = buffer.marks();
    true
}

fn run_arbiter<M: Model>(sizes: Sizes, calls: &[u64], lent: &mut Lent) -> bool {
    let Some(mut buffer) = M::fresh(sizes) else { return false };
    for ((&call, answer), asked) in calls.iter().zip(&mut lent.answers).zip(&mut lent.asked) {
        (*answer, *asked) = buffer.turn(call, &mut lent.store);
    }
    lent.marks = buffer.marks();
    lent.last_asked = buffer.last_asked();
    true
}
