//! Sizes: which of them are taken, the rule that finds them, the memories that they need; and what the header defines.

use gelwynnar::sizes::{block_size, memory_sizes, Memories};
use second::random::Random;
use second::sizes::{Design, Sizes};
use second::sizing;

use crate::fresh;
use crate::guarded::Edge;
use crate::memory::Memory;
use crate::picks::{AT_THE_LIMITS, FAR};

/// One step over a limit.
const JUST_REFUSED: [(usize, usize, usize); 8] =
    [(0, 3, 20), (4, 0, 20), (4, 3, 0), (65, 1, 1), (1, 129, 1), (1, 1, 256), (64, 33, 1), (0, 0, 0)];

/// K in the rows of `memories`.
const DEPTHS: [usize; 5] = [0, 1, 2, 255, 256];

/// The tests here, each with its name.
pub fn all() -> Vec<(String, Test)> {
    let mut tests: Vec<(String, Test)> = vec![
        ("version".to_string(), Test::Version),
        ("header".to_string(), Test::Header),
        ("open".to_string(), Test::OpenAccepted),
        ("open, refused".to_string(), Test::OpenRefused),
        ("block sizes far out".to_string(), Test::BlocksFar),
        ("memories far out".to_string(), Test::MemoriesFar),
    ];
    tests.extend((0..=101).map(|rate| (format!("block sizes at {rate} Gb/s"), Test::Blocks(rate))));
    tests.extend((0..=66).map(|queues| (format!("memories of {queues} queues"), Test::Memories(queues))));
    tests
}

#[derive(Clone, Copy)]
pub enum Test {
    Version,
    Header,
    OpenAccepted,
    OpenRefused,
    BlocksFar,
    MemoriesFar,
    /// A row of one rate, with every grade.
    Blocks(usize),
    /// Rows of so many queues, with every block.
    Memories(usize),
}

impl Test {
    pub fn check(self, memory: &mut Memory, random: &mut Random) -> Result<(), String> {
        match self {
            Test::Version => same("version", gelwynnar::version(), gelwynnar::VERSION),
            Test::Header => header(),
            Test::OpenAccepted => open_accepted(memory, random),
            Test::OpenRefused => open_refused(memory, random),
            Test::BlocksFar => {
                for far in FAR {
                    (0..=16).try_for_each(|near| block(far, near).and_then(|()| block(near, far)))?;
                    FAR.into_iter().try_for_each(|grade| block(far, grade))?;
                }
                Ok(())
            }
            Test::MemoriesFar => far_sizes().into_iter().try_for_each(memories),
            Test::Blocks(rate) => (0..=16).try_for_each(|grade| block(rate, grade)),
            Test::Memories(q) => {
                let rows = (0..=130).flat_map(|b| DEPTHS.map(|k| Sizes { q, b, k }));
                rows.into_iter().try_for_each(memories)
            }
        }
    }
}

fn same<T: PartialEq + std::fmt::Debug>(what: &str, found: T, expected: T) -> Result<(), String> {
    if found == expected {
        return Ok(());
    }
    Err(format!("{what}: {found:?}, expected {expected:?}"))
}

fn block(rate: usize, grade: usize) -> Result<(), String> {
    let expected = sizing::block_size(rate as u64, grade as u64).unwrap_or(0);
    same(&format!("{rate} Gb/s, grade {grade}"), block_size(rate, grade), expected as usize)
}

fn memories(sizes: Sizes) -> Result<(), String> {
    let expected = if sizes.accepted() {
        Memories {
            lookahead: Design::Full.cells(sizes),
            tail: sizes.tail_size(),
            head: sizes.head_size(),
            store: sizes.store_size(),
        }
    } else {
        Memories::default()
    };
    same(&format!("{sizes:?}"), memory_sizes(sizes.q, sizes.b, sizes.k), expected)
}

/// One, two or all three of the sizes far out.
fn far_sizes() -> Vec<Sizes> {
    let some = || [1, 2, 64].into_iter().chain(FAR);
    let all = some().flat_map(|q| some().flat_map(move |b| some().map(move |k| Sizes { q, b, k })));
    all.filter(|sizes| !sizes.accepted()).collect()
}

fn open_accepted(memory: &mut Memory, random: &mut Random) -> Result<(), String> {
    for (turn, &(q, b)) in AT_THE_LIMITS.iter().enumerate() {
        for k in [1, 2, 255] {
            let sizes = Sizes { q, b, k };
            let made = fresh::open(sizes, Vec::new(), Edge::of_turn(turn), memory, random);
            made.map_err(|what| format!("{sizes:?}: {what}"))?;
        }
    }
    Ok(())
}

fn open_refused(memory: &mut Memory, random: &mut Random) -> Result<(), String> {
    let near = JUST_REFUSED.map(|(q, b, k)| Sizes { q, b, k });
    for (turn, sizes) in near.into_iter().chain(far_sizes()).enumerate() {
        let refused = fresh::refuse(sizes, Edge::of_turn(turn), memory, random);
        refused.map_err(|what| format!("{sizes:?}: {what}"))?;
    }
    Ok(())
}

/// What the header defines is what rust/src/lib.rs goes by.
fn header() -> Result<(), String> {
    let text = include_str!("../../../include/gelwynnar.h");
    let defined = |name: &str| {
        let mut lines = text.lines().filter_map(|line| line.strip_prefix("#define "));
        lines.find_map(|line| line.strip_prefix(name)?.trim().parse().ok())
    };
    same("GEL_VERSION", defined("GEL_VERSION "), Some(gelwynnar::VERSION as usize))?;
    same("GEL_REGS", defined("GEL_REGS "), Some(gelwynnar::REGS))?;
    same("GEL_TAIL_PLACES", defined("GEL_TAIL_PLACES "), Some(gelwynnar::TAIL_PLACES))?;
    same("GEL_HEAD_PLACES", defined("GEL_HEAD_PLACES "), Some(gelwynnar::HEAD_PLACES))?;
    same("GEL_CELL_PLACES", defined("GEL_CELL_PLACES "), Some(gelwynnar::CELL_PLACES))?;
    same("GEL_QUEUE_PLACES", defined("GEL_QUEUE_PLACES "), Some(gelwynnar::QUEUE_PLACES))
}
