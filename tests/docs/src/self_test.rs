//! The check of the check: a small repository whose documents are right, and one wrong word at a time, each refused.

use crate::check::{check, Report};
use crate::tree::{Files, Tree};

const REPOSITORY: [(&str, &str); 11] = [
    ("crates.txt", "# 1. Below.\nlow:\n\n# 2. Above.\nhigh_up: low\n"),
    (
        "crates/low/specs/Says.antt",
        "-- gone : never\nabbrev pub sum : ℕ → ℕ\nsum n = n + lost : nothing\n\n\
         pub record Said (n : ℕ) : Type 0 where\n  pub number-is : n ≡ 0\n  pub left : ℕ\n\n\
         pub record Long (n : ℕ) : Type 0\n  where\n    pub behind : ℕ\n\n\
         pub data Kind : Type 0 where\n  round : Kind\n\nmodule _ (n : ℕ) where\n  pub inside : ℕ\n",
    ),
    ("crates/low/proofs/Laws.antt", "pub sum-zero : sum 0 ≡ 0\nsum-zero = refl\n"),
    ("crates/low/proofs/add_up/Proof.antt", "it : ℕ\n"),
    ("crates/low/src/lib.rt", "pub struct Pair {\n    pub left: u8,\n}\n\nimpl Pair {\n    pub fn swap(self) -> u8 {\n    }\n}\n\npub fn add_up(n: usize) -> usize {\n    let local = n;\n}\n"),
    ("crates/high_up/src/lib.rt", "pub enum Shape {\n    Square(u8),\n}\n\npub const MOST: usize = 3;\n"),
    (
        "include/low.h",
        "/* An old_name (gone). */\n#define LOW_MOST 3\nenum low_reg {\n    LOW_FIRST,\n};\n\ntypedef struct low_pair {\n    \
         uint8_t low_left[LOW_MOST]; /* one */\n} low_pair;\n\nuint8_t low_add(uint8_t low_other,\n                \
         uint8_t low_more);\nstatic inline uint8_t low_one(void) { return low_add(1, 0); }\n",
    ),
    ("crates/low/must-fail/one_more.edit", "One is added.\nfile: src/lib.rt\n"),
    (
        "README.md",
        "# A title\n\n`sum`, `Long` .behind and `Said` .number-is, .left in crates/low/specs/Says.antt; `sum-zero` (low/proofs/{Laws, add_up}),\n\
         `low::add_up`, `Pair::swap`, `Shape::Square`, `inside`, `round`. low: one_more, and high_up is above.\n\
         \"crates/gone and an old_name\" are quoted; `let local = ..;` is code, `D t 0` a line, `rt must-fail low` a command.\n\
         Of include/low.h: LOW_MOST, LOW_FIRST, `low_pair`, low_left, `low_add` and low_one.\n\n    \
         rt ci high_up      # in docs/PROMISES.md\n",
    ),
    (
        "docs/ARCHITECTURE.md",
        "| crate | what |\n|---|---|\n| low | a |\n| high_up | b |\n",
    ),
    (
        "docs/PROMISES.md",
        "| sentence | statement | file |\n|---|---|---|\n| \"a\" | `Said` .number-is | low/specs/Says |\n\
         | | `low::add_up`, `sum-zero` | low/proofs/add_up, low/proofs/Laws |\n\n\
         | edit | what it breaks | refused by |\n|---|---|---|\n| low: one_more | One is added | `low::add_up` |\n",
    ),
];

/// A document, what stands in it, what is put there, and what the check must then say.
const WRONG: [(&str, &str, &str, &str); 38] = [
    ("README.md", "`Long` .behind", "`Said` .behind", "no such field: .behind of Said"),
    ("README.md", "`sum`", "`sums`", "README.md:3: no such name: sums"),
    ("README.md", "`sum`", "`gone`", "README.md:3: no such name: gone"),
    ("README.md", "`sum`", "`lost`", "README.md:3: no such name: lost"),
    ("README.md", "`sum`", "`local`", "README.md:3: no such name: local"),
    ("README.md", "`sum`", "`sum-zero`", "README.md:3: sum-zero is not in crates/low/specs/Says.antt"),
    ("README.md", "`Said` .number-is", "`Pair` .number-is", "no such field: .number-is of Pair"),
    ("README.md", ".left in", ".right in", "no such field: .right of Said"),
    ("README.md", "Says.antt", "Said.antt", "no such path: crates/low/specs/Said.antt"),
    ("README.md", "{Laws, add_up}", "{Laws, add}", "no such path: crates/low/proofs/add"),
    ("README.md", "{Laws, add_up}", "add_up", "sum-zero is not in crates/low/proofs/add_up"),
    ("README.md", "(low/proofs", "(lower/proofs", "no such path: crates/lower/proofs/Laws"),
    ("README.md", "(low/proofs/{Laws, add_up})", "(proofs/Laws)", "no such path: proofs/Laws"),
    ("README.md", "`low::add_up`", "`high_up::add_up`", "README.md:4: no such name: add_up of high_up"),
    ("README.md", "`low::add_up`", "`low::sum`", "no such name: sum of low"),
    ("README.md", "`Pair::swap`", "`Shape::swap`", "no such name: swap of Shape"),
    ("README.md", "`Pair::swap`", "low::swaps", "no such name: swaps of low"),
    ("README.md", "low: one_more", "low: one_less", "no such edit: low: one_less"),
    ("README.md", "low: one_more", "high_up: one_more", "no such edit: high_up: one_more"),
    ("README.md", "low: one_more", "gone: one_more", "no such edit: gone: one_more"),
    ("README.md", "high_up is", "high_down is", "no such name: high_down"),
    ("README.md", "`let local = ..;`", "`let other = ..;`", "README.md:5: in no source: let other ="),
    ("README.md", "`rt must-fail low`", "`rt must-fail lower`", "no such crate: lower"),
    ("README.md", "rt ci high_up", "rt ci higher", "README.md:8: no such crate: higher"),
    ("README.md", "in docs/PROMISES.md", "in docs/PROMISE.md", "no such path: docs/PROMISE.md"),
    ("README.md", "Of include/low.h", "Of include/gone.h", "no such path: include/gone.h"),
    ("README.md", "`low_add`", "`low_other`", "README.md:6: no such name: low_other"),
    ("README.md", "`low_add`", "`low_more`", "no such name: low_more"),
    ("README.md", "LOW_FIRST", "old_name", "no such name: old_name"),
    ("docs/ARCHITECTURE.md", "| high_up | b |\n", "", "no row for the crate high_up"),
    ("docs/ARCHITECTURE.md", "| high_up |", "| high |", "docs/ARCHITECTURE.md:4: no such crate: high"),
    ("docs/ARCHITECTURE.md", "| low | a |\n| high_up | b |", "| high_up | b |\n| low | a |", "in that order"),
    (
        "docs/PROMISES.md",
        "low/specs/Says",
        "low/proofs/Laws",
        "PROMISES.md:3: Said is not in crates/low/proofs/Laws",
    ),
    ("docs/PROMISES.md", "low/proofs/add_up, low", "low", "add_up is not in crates/low/proofs/Laws"),
    (
        "docs/PROMISES.md",
        "| low: one_more | One is added | `low::add_up` |\n",
        "",
        "0 rows for the edit low: one_more",
    ),
    ("docs/PROMISES.md", "One is added", "Two are added", "low: one_more says: One is added"),
    ("docs/PROMISES.md", "| `low::add_up` |\n", "| nothing |\n", "names nothing that refuses it"),
    ("docs/PROMISES.md", "\"a\"", LONG, "a row of 2"),
];

const LONG: &str = "aaaaaaaaaaaaaaaaaaaaaaaaaaaaaaaaaaaaaaaaaaaaaaaaaaaaaaaaaaaaaaaaaaaaaaaaaaaaaaaaaaaaaaaaaaaaaaaaaaaa\
    aaaaaaaaaaaaaaaaaaaaaaaaaaaaaaaaaaaaaaaaaaaaaaaaaaaaaaaaaaaaaaaaaaaaaaaaaaaaaaaaaaaaaaaaaaaaaaaaaaaaaaaaaaaaaaaaaaa";

pub fn run() -> Report {
    let mut report = Report::default();
    let right: Files = REPOSITORY.iter().map(|(path, text)| (path.to_string(), text.to_string())).collect();
    let faults = check(&Tree::new(right.clone())).faults;
    tell(&mut report, faults.is_empty(), || format!("documents that are right are refused: {faults:?}"));
    for (document, old, new, fault) in WRONG {
        let mut files = right.clone();
        let text = files.get_mut(document).expect("a document of the small repository");
        let there = text.contains(old);
        *text = text.replacen(old, new, 1);
        let faults = check(&Tree::new(files)).faults;
        let found = there && faults.iter().any(|it| it.contains(fault));
        tell(&mut report, found, || {
            format!("{document} with {new} for {old} does not say {fault}: {faults:?}")
        });
    }
    report
}

fn tell(report: &mut Report, holds: bool, fault: impl Fn() -> String) {
    if holds {
        report.passed += 1;
    } else {
        report.faults.push(format!("the check of the check: {}", fault()));
    }
}
