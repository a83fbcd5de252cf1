//! The sizes Q, b, K, their limits, and what follows from them.

/// The three sizes, under the paper's names. They may be any numbers:
/// a state handed in can carry sizes that are not accepted.
#[derive(Clone, Copy, Debug, PartialEq, Eq)]
pub struct Sizes {
    pub q: usize,
    pub b: usize,
    pub k: usize,
}

impl Sizes {
    /// The limits of the section "Sizes".
    pub fn accepted(self) -> bool {
        (1..=64).contains(&self.q)
            && (1..=128).contains(&self.b)
            && (1..=255).contains(&self.k)
            && self.spread() <= 2016
    }

    /// Q(b - 1). Saturating, since it is also asked of sizes not accepted.
    fn spread(self) -> usize {
        self.q.saturating_mul(self.b.saturating_sub(1))
    }

    pub fn tail_size(self) -> usize {
        self.spread().saturating_add(self.b)
    }

    pub fn head_size(self) -> usize {
        self.spread().saturating_mul(2).saturating_add(1)
    }

    /// Q x K x b, the least length of a store.
    pub fn store_size(self) -> usize {
        self.q.saturating_mul(self.k).saturating_mul(self.b)
    }

    /// Where block `place` of `queue` starts in the store.
    pub fn block_start(self, queue: usize, place: usize) -> usize {
        (queue * self.k + place) * self.b
    }
}

/// How many lookahead cells a design has.
#[derive(Clone, Copy, Debug, PartialEq, Eq)]
pub enum Design {
    /// L = Q(b - 1) + 1, the paper's buffer.
    Full,
    /// Q(b - 1), the design that misses.
    Fewer,
}

impl Design {
    pub fn cells(self, sizes: Sizes) -> usize {
        match self {
            Design::Full => sizes.spread().saturating_add(1),
            Design::Fewer => sizes.spread(),
        }
    }
}
