//! The functions of include/gelwynnar.h as C has them. The other files make them safe to call.

use crate::script::{Fault, Numbers, Reading, Writing};
use crate::sizes::Memories;
use crate::{Answer, ArbiterAnswer, Blocks, Cells, Counts, Head, Judgement, Lent, Regs, Stretch, Tail};

extern "C" {
    pub fn gel_version() -> u32;

    pub fn gel_judge(
        regs: &Regs,
        tail: &Tail,
        head: &Head,
        cells: &Cells,
        firsts: &Blocks,
        stored: &Blocks,
        call: u64,
        store_bytes: usize,
    ) -> Judgement;
    pub fn gel_margin(regs: &Regs, head: &Head, cells: &Cells, queue: u16) -> i32;

    pub fn gel_memory_sizes(queues: usize, block: usize, depth: usize) -> Memories;
    pub fn gel_block_size(rate: usize, grade: usize) -> usize;

    pub fn gel_script_judge(script: *const u8, script_bytes: usize) -> Fault;
    pub fn gel_script_read(rest: *const u8, rest_bytes: usize, first: u8) -> Reading;
    pub fn gel_script_write(command: Numbers, output: *mut u8, output_bytes: usize) -> Writing;
    pub fn gel_script_output(script_bytes: usize) -> usize;
    pub fn gel_script_run(
        script: *const u8,
        script_bytes: usize,
        store: *mut u8,
        store_bytes: usize,
        output: *mut u8,
        output_bytes: usize,
    ) -> usize;

    pub fn gel_capture_to_script(
        queues: usize,
        block: usize,
        depth: usize,
        capture: *const u8,
        capture_bytes: usize,
        output: *mut u8,
        output_bytes: usize,
    ) -> Writing;
}

/// Declares functions that write the nine arrays of a buffer, each by what comes before them; what comes after; and
/// beside each one of the same name that takes the arrays as one, so that their order is said here alone.
macro_rules! over_a_buffer {
    ($(fn $name:ident($($before:ident: $is:ty),*; $($after:ident: $are:ty),*) -> $answer:ty;)*) => {
        mod apart {
            use super::*;

            extern "C" {
                $(pub fn $name(
                    $($before: $is,)*
                    regs: &mut Regs,
                    tail: &mut Tail,
                    head: &mut Head,
                    cells: &mut Cells,
                    firsts: &mut Blocks,
                    stored: &mut Blocks,
                    tails: &mut Counts,
                    heads: &mut Counts,
                    owing: &mut Counts,
                    $($after: $are),*
                ) -> $answer;)*
            }
        }

        $(#[inline]
        pub unsafe fn $name($($before: $is,)* lent: Lent, $($after: $are),*) -> $answer {
            let Lent { regs, tail, head, cells, firsts, stored, tails, heads, owing } = lent;
            apart::$name(
                $($before,)* regs, tail, head, cells, firsts, stored, tails, heads, owing, $($after),*
            )
        })*
    };
}

over_a_buffer! {
    fn gel_open(queues: usize, block: usize, depth: usize;) -> u8;
    fn gel_slot(; call: u64, store: *mut u8, store_bytes: usize) -> Answer;
    fn gel_step(; call: u64, store: *mut u8, store_bytes: usize) -> Answer;
    fn gel_arbiter_slot(; call: u64, store: *mut u8, store_bytes: usize) -> ArbiterAnswer;
    fn gel_arbiter_step(; call: u64, store: *mut u8, store_bytes: usize) -> ArbiterAnswer;
    fn gel_run(; calls: *const u64, calls_count: usize, answers: *mut u64, answers_count: usize,
               store: *mut u8, store_bytes: usize) -> u8;
    fn gel_idle(; slots: usize, store: *mut u8, store_bytes: usize) -> Stretch;
}
