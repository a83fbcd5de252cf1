//! Random states that keep the rules, reachable or not.

use crate::buffer::Numbers;
use crate::random::Random;
use crate::raw::RawState;
use crate::rules::{Cell, Ring};
use crate::sizes::Sizes;

/// How full something shall be.
#[derive(Clone, Copy)]
pub enum Amount {
    Empty,
    Any,
    /// Half of the time full to the last place, else one or two below.
    Full,
}

/// What a random state leans to, so that rare refusals come up often.
#[derive(Clone, Copy)]
pub struct Lean {
    pub tail: Amount,
    pub head: Amount,
    pub blocks: Amount,
    /// Chance in percent of an Owed cell, and of a Held one.
    pub owed: usize,
    pub held: usize,
    /// At most so many bytes in a cache, to keep the lists small.
    pub most_bytes: usize,
}

impl Amount {
    pub fn random(random: &mut Random) -> Amount {
        random.pick(&[Amount::Empty, Amount::Any, Amount::Any, Amount::Any, Amount::Full])
    }

    fn choose(self, random: &mut Random, most: usize) -> usize {
        match self {
            Amount::Empty => 0,
            Amount::Any => random.between(0, most),
            Amount::Full if random.percent(50) => most,
            Amount::Full => most.saturating_sub(random.between(1, 2)),
        }
    }
}

impl Lean {
    pub fn random(random: &mut Random) -> Lean {
        let owed = random.pick(&[0, 20, 50, 80, 100]);
        Lean {
            tail: Amount::random(random),
            head: Amount::random(random),
            blocks: Amount::random(random),
            owed,
            held: random.below(101 - owed),
            most_bytes: usize::MAX,
        }
    }

    /// Leans towards the numbers of an answer, so that states give them often.
    pub fn towards(random: &mut Random, goal: Numbers) -> Lean {
        let mut lean = Lean::random(random);
        for number in goal {
            lean.turn_towards(random, number);
        }
        lean
    }

    fn turn_towards(&mut self, random: &mut Random, number: u8) {
        match number {
            5 => self.blocks = Amount::Full,
            7 => self.tail = Amount::Empty,
            8 => {
                self.head = random.pick(&[Amount::Empty, Amount::Any]);
                self.owed = 80;
            }
            9 => {
                self.tail = Amount::Full;
                self.blocks = random.pick(&[Amount::Empty, Amount::Any]);
            }
            10 => {
                self.head = Amount::Full;
                self.blocks = random.pick(&[Amount::Any, Amount::Full]);
                self.owed = 80;
            }
            _ => {}
        }
    }
}

/// A state that keeps the rules if the sizes are accepted. With other sizes
/// it keeps what can be kept of them.
pub fn random_state(random: &mut Random, sizes: Sizes, cell_count: usize, lean: Lean) -> RawState {
    // One queue is chosen more often, so that some row gets long.
    let favourite = random.below(sizes.q);

    let mut rings = Vec::new();
    for _ in 0..sizes.q {
        let first = random.below(sizes.k);
        rings.push(Ring { first, count: lean.blocks.choose(random, sizes.k) });
    }

    let mut tail_of = vec![0; sizes.q];
    let mut tail = Vec::new();
    for _ in 0..lean.tail.choose(random, sizes.tail_size()).min(lean.most_bytes) {
        let roomy = |queue: usize| tail_of[queue] + sizes.b * rings[queue].count < sizes.k * sizes.b;
        let Some(queue) = choose_queue(random, sizes.q, favourite, roomy) else { break };
        tail_of[queue] += 1;
        tail.push((queue, random.byte()));
    }

    let mut head_of = vec![0; sizes.q];
    let mut head = Vec::new();
    let head_favourite = random.below(sizes.q);
    for _ in 0..lean.head.choose(random, sizes.head_size()).min(lean.most_bytes) {
        let Some(queue) = choose_queue(random, sizes.q, head_favourite, |_| true) else { break };
        head_of[queue] += 1;
        head.push((queue, random.byte()));
    }

    let mut owed_of = vec![0; sizes.q];
    let mut cells = Vec::new();
    for _ in 0..cell_count {
        let roll = random.below(100);
        let payable = |queue: usize| owed_of[queue] < head_of[queue] + sizes.b * rings[queue].count;
        let owed_queue = choose_queue(random, sizes.q, favourite, payable);
        cells.push(match owed_queue {
            Some(queue) if roll < lean.owed => {
                owed_of[queue] += 1;
                Cell::Owed(queue)
            }
            _ if roll < lean.owed + lean.held && sizes.q > 0 => Cell::Held(random.below(sizes.q), random.byte()),
            _ => Cell::Empty,
        });
    }

    let last_phase = sizes.b.saturating_sub(1);
    RawState {
        sizes,
        // Most slots shall move blocks.
        phase: if random.percent(60) { last_phase } else { random.below(sizes.b) },
        tail_mark: random_mark(random, tail.len(), sizes.tail_size()),
        head_mark: random_mark(random, head.len(), sizes.head_size()),
        last_asked: random_last_asked(random, sizes),
        tail,
        head,
        cells,
        rings,
    }
}

/// Often the last queue or queue 0, where the count of the arbiter wraps or has just wrapped.
fn random_last_asked(random: &mut Random, sizes: Sizes) -> usize {
    let any = random.below(sizes.q);
    random.pick(&[0, sizes.q.saturating_sub(1), any, any])
}

/// A random queue that fits, the favourite more often; none if none fits.
fn choose_queue(
    random: &mut Random,
    queue_number: usize,
    favourite: usize,
    fits: impl Fn(usize) -> bool,
) -> Option<usize> {
    if favourite < queue_number && fits(favourite) && random.percent(40) {
        return Some(favourite);
    }
    let fitting: Vec<usize> = (0..queue_number).filter(|&queue| fits(queue)).collect();
    if fitting.is_empty() {
        return None;
    }
    Some(random.pick(&fitting))
}

/// Between fill and size, often at one of the two.
pub(crate) fn random_mark(random: &mut Random, fill: usize, size: usize) -> usize {
    match random.below(3) {
        0 => fill,
        1 => size,
        _ => random.between(fill, size.max(fill)),
    }
}
