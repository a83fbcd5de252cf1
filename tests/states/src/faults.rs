//! States with one fault: a rule of the paper is broken, or a register is far beyond its range.

use std::fmt;

use gelwynnar::{reg, HEAD_PLACES, REGS, TAIL_PLACES};
use second::breaks::{self, broken_state, Break};
use second::random::Random;
use second::random_state::{random_state, Lean};
use second::sizes::Design;

use crate::image::Image;
use crate::picks::{sizes_at_the_limits, some_sizes, FAR};

/// The registers as a fault's name has them, by their place.
const REGISTERS: [&str; REGS] =
    ["Queues", "Block", "Depth", "Phase", "TailFill", "HeadFill", "TailMark", "HeadMark", "LastAsked"];

#[derive(Clone, Copy)]
pub enum Fault {
    /// One rule is broken, most often just so.
    Rule(Break),
    /// One register, by its place, is far beyond all that it may be.
    Register(usize),
}

impl Fault {
    pub fn all() -> Vec<Fault> {
        // These cannot be: the arrays always have L cells and Q rings.
        let none = [Break::CellTooFew, Break::CellTooMany, Break::RingTooFew, Break::RingTooMany];
        let rules = breaks::ALL.into_iter().filter(|which| !none.contains(which)).map(Fault::Rule);
        rules.chain((0..REGS).map(Fault::Register)).collect()
    }

    /// A state with this fault.
    pub fn image(self, random: &mut Random) -> Image {
        match self {
            Fault::Rule(which) => rule_broken(random, which),
            Fault::Register(place) => register_far(random, place),
        }
    }
}

impl fmt::Display for Fault {
    fn fmt(&self, out: &mut fmt::Formatter) -> fmt::Result {
        match self {
            Fault::Rule(which) => write!(out, "{which:?}"),
            Fault::Register(place) => write!(out, "{}Far", REGISTERS[*place]),
        }
    }
}

fn rule_broken(random: &mut Random, which: Break) -> Image {
    loop {
        // At the limits a byte more than a cache may have is the last that its array has a place for.
        let sizes = if random.percent(10) { sizes_at_the_limits } else { some_sizes };
        let state = broken_state(random, which, Design::Full, sizes);
        let image = Image::of_state(random, &state);
        // A ring number over 255 has become another one.
        let found = image.places.state();
        if found.broken_rules(Design::Full.cells(found.sizes)) == which.rules() {
            return image;
        }
    }
}

fn register_far(random: &mut Random, place: usize) -> Image {
    let sizes = some_sizes(random);
    let lean = Lean::random(random);
    let state = random_state(random, sizes, Design::Full.cells(sizes), lean);
    let mut image = Image::of_state(random, &state);
    let kept = image.places.regs[place];
    image.places.regs[place] = match random.below(6) {
        0 if place == reg::TAIL_FILL => TAIL_PLACES + 1,
        0 if place == reg::HEAD_FILL => HEAD_PLACES + 1,
        // What it was, but for a bit that a narrower register does not have.
        0 | 1 => kept + (1 << 16),
        2 => kept + (1 << 32),
        3 => kept + (1 << 63),
        _ => random.pick(&FAR),
    };
    image
}
