//! The check of the check: a small header and a small source that are one, and one thing wrong at a time, each refused;
//! then the same for every word of the header itself.

use crate::check::{check, dues_of, Report, HEADER};
use crate::header::Header;
use crate::source::LIBRARY;
use crate::words::{words, Word};
use crate::{read, report_of, Files};

const LAYOUT_RT: &str = "crates/layout/src/lib.rt";
const LIBRARY_RT: &str = "crates/gelwynnar/src/lib.rt";
const MODULE_RT: &str = "crates/gelwynnar/src/lists.rt";
const PAIRS_RT: &str = "crates/pairs/src/lib.rt";

const SMALL: [(&str, &str); 6] = [
    (
        HEADER,
        r#"/* Not part of it: void gel_lost(void); */
#ifndef SMALL_H
#define SMALL_H
#include <stdint.h>
#ifdef __cplusplus
extern "C" {
#endif
#define GEL_VERSION 3
uint32_t gel_version(void);
#define GEL_REGS 2
#define GEL_TAIL_PLACES 20
#define GEL_QUEUE_PLACES 4
enum gel_reg { GEL_QUEUES, GEL_TAIL_FILL };
typedef struct gel_buffer {
    size_t regs[GEL_REGS]; /* its own comment */
    uint16_t tail[GEL_TAIL_PLACES];
    uint16_t heads[GEL_QUEUE_PLACES];
    uint16_t tails[GEL_QUEUE_PLACES];
} gel_buffer;
static inline uint64_t gel_ask(uint16_t queue) { return (uint64_t)1 << 41 | (uint64_t)queue << 25; }
typedef struct gel_answer {
    uint8_t number;
    uint8_t value;
    uint16_t queue;
} gel_answer;
typedef struct gel_stretch {
    size_t passed;
    gel_answer last;
} gel_stretch;
typedef struct gel_command {
    uint16_t code;
    uint16_t operand;
} gel_command;
void gel_clear(uint16_t *tail);
gel_answer gel_step(size_t *regs, uint16_t *tail, uint16_t *heads, uint16_t *tails, uint64_t call,
                    uint8_t *store, size_t store_bytes);
gel_stretch gel_idle(size_t *regs, size_t slots);
int32_t gel_margin(const size_t *regs, const uint16_t *tail, uint16_t queue);
size_t gel_write(gel_command command, const uint64_t *calls, size_t calls_count, uint8_t first);
static inline gel_answer gel_buffer_step(gel_buffer *g, uint64_t call, uint8_t *store, size_t bytes) {
    return gel_step(g->regs, g->tail, g->heads, g->tails, call, store, bytes);
}
#ifdef __cplusplus
}
#endif
#endif
"#,
    ),
    (
        LAYOUT_RT,
        "// pub const LOST_PLACES: usize = 1;\npub const EMPTY: u32 = 0;\npub const TAIL_PLACES: usize = 20;\n\
         pub const QUEUE_PLACES: usize = 4;\npub type TailArray = [u16; TAIL_PLACES];\n\
         pub type CountArray = [u16; QUEUE_PLACES];\npub struct Regs {\n    pub queues: usize,\n    \
         pub tail_fill: usize,\n}\n",
    ),
    (
        LIBRARY_RT,
        r#"ghost use Rattle.std.specs.Prelude.{◌≡◌};
use layout::CountArray;
use layout::TailArray;

pub mod lists;

pub const VERSION: u32 = 3;

// What a slot answers.
#[repr(C)]
pub struct Answer {
    pub number: u8,
    pub value: u8,
    pub queue: u16,
}

struct Inner {
    wide: bool,
}

#[unsafe(no_mangle)]
pub extern "C" fn gel_version() -> u32
    ensures { result ≡ 3 }
{
    VERSION
}

#[unsafe(no_mangle)]
pub extern "C" fn gel_clear(tail: &mut TailArray) {
    let brace = b'{';
}

fn helper(wide: bool) -> Inner {
    Inner { wide: wide }
}

#[unsafe(no_mangle)]
pub extern "C" fn gel_step(
    regs: &mut [usize; 2],
    tail: &mut TailArray,
    heads: &mut CountArray,
    tails: &mut layout::CountArray,
    call: u64,
    store: &mut [u8],
) -> Answer
    requires { Ready { regs.old } }
    ensures { Says result regs.new }
{
    helper()
}

#[unsafe(no_mangle)]
pub extern "C" fn gel_margin<'a>(regs: &'a [usize; 2], tail: &'a TailArray, queue: u16) -> i32 {
    0
}
"#,
    ),
    (
        MODULE_RT,
        r#"use crate::Answer;
use pairs::CommandNumbers;

#[repr(C)]
pub struct Stretched {
    pub passed: usize,
    pub last: Answer,
}

#[unsafe(no_mangle)]
pub extern "C" fn gel_idle(regs: &mut [usize; 2], slots: usize) -> Stretched {
    stretched()
}

#[unsafe(no_mangle)]
pub extern "C" fn gel_write(command: CommandNumbers, calls: &[u64], first: u8) -> usize {
    0
}
"#,
    ),
    (
        PAIRS_RT,
        "#[repr(C)]\npub struct CommandNumbers {\n    pub code: u16,\n    pub operand: u16,\n}\n\n\
         #[unsafe(no_mangle)]\npub extern \"C\" fn not_in_the_archive() {}\n",
    ),
    (
        "crates/another/src/lib.rt",
        "#[repr(C)]\npub struct CommandNumbers {\n    pub code: u64,\n}\n\npub type TailArray = [u8; 3];\n",
    ),
];

/// A file, what stands in it, and what may stand there as well.
const RIGHT: [(&str, &str, &str); 13] = [
    (HEADER, "size_t store_bytes", "size_t n"),
    (HEADER, "its own comment", "/* size_t other[3]; "),
    (HEADER, "tail[GEL_TAIL_PLACES]", "tail[20]"),
    (LIBRARY_RT, "    VERSION\n", "    3\n"),
    (LIBRARY_RT, "    VERSION\n", "    crate::VERSION\n"),
    (LIBRARY_RT, "tail: &'a TailArray", "tail: &'a [u16; layout::TAIL_PLACES]"),
    (MODULE_RT, "command: CommandNumbers", "command: pairs::CommandNumbers"),
    (MODULE_RT, "use crate::Answer;", "use crate::slots::Answer;"),
    (LIBRARY_RT, "pub const VERSION: u32 = 3;", "pub const VERSION: u32 = 3u32;"),
    (LIBRARY_RT, "regs: &'a [usize; 2]", "regs: &[usize; 2]"),
    (
        LIBRARY_RT,
        "    ensures { Says result",
        "    ensures bounded { result.number < 30 }\n    ensures says { Says result",
    ),
    (MODULE_RT, "use pairs::CommandNumbers;", "use pairs::{Command, CommandNumbers, specs::Other};"),
    (PAIRS_RT, "#[repr(C)]\n", "// A command.\n#[repr(C)]\n"),
];

/// A file, what stands in it, what is put there, and what the check must then say.
const WRONG: [(&str, &str, &str, &str); 62] = [
    // Functions.
    (
        HEADER,
        "int32_t gel_margin(const size_t *regs, const uint16_t *tail, uint16_t queue);\n",
        "",
        "lib.rt:53: gel_margin is exported, and include/gelwynnar.h does not have it",
    ),
    (HEADER, "int32_t gel_margin", "int32_t gel_margins", "gelwynnar.h:38: gel_margins is not exported"),
    (HEADER, "uint64_t call,", "uint64_t word,", "gel_step has 'uint64_t word', and 'uint64_t call' is due"),
    (HEADER, "uint64_t call,", "uint32_t call,", "'uint32_t call', and 'uint64_t call' is due"),
    (
        HEADER,
        "uint16_t *heads, uint16_t *tails",
        "uint16_t *tails, uint16_t *heads",
        "'uint16_t *heads' is due",
    ),
    (HEADER, "const uint16_t *tail,", "uint16_t *tail,", "'const uint16_t *tail' is due"),
    (HEADER, "gel_clear(uint16_t *tail)", "gel_clear(const uint16_t *tail)", "'uint16_t *tail' is due"),
    (HEADER, "gel_clear(uint16_t *tail)", "gel_clear(uint16_t tail)", "'uint16_t *tail' is due"),
    (HEADER, "gel_clear(uint16_t *tail)", "gel_clear(void)", "gel_clear has 0 parameters, and 1 are due"),
    (HEADER, ", size_t store_bytes", "", "gel_step has 6 parameters, and 7 are due"),
    (HEADER, "size_t store_bytes", "uint32_t store_bytes", "'size_t store_bytes' is due"),
    (HEADER, "const uint64_t *calls", "uint64_t *calls", "'const uint64_t *calls' is due"),
    (HEADER, "uint8_t first", "uint8_t *first", "'uint8_t first' is due"),
    (HEADER, "int32_t gel_margin", "uint32_t gel_margin", "gel_margin has 'uint32_t', and 'int32_t' is due"),
    (HEADER, "void gel_clear", "uint8_t gel_clear", "gel_clear has 'uint8_t', and 'void' is due"),
    (HEADER, "uint32_t gel_version", "void gel_version", "gel_version has 'void', and 'uint32_t' is due"),
    (HEADER, "gel_command command", "gel_command *command", "'gel_command *command', and"),
    (HEADER, "gel_command command", "gel_commands command", "'gel_commands command', and"),
    (HEADER, "gel_command command", "gel_answer command", "'CommandNumbers command' is due"),
    (HEADER, "gel_stretch gel_idle", "gel_answer gel_idle", "gel_idle has 'gel_answer', and"),
    (HEADER, "gel_answer gel_step", "gel_stretch gel_step", "'Stretched' is due"),
    (
        LIBRARY_RT,
        "#[unsafe(no_mangle)]\npub extern \"C\" fn gel_clear",
        "pub fn gel_clear",
        "gel_clear is not exported",
    ),
    (LIBRARY_RT, "pub extern \"C\" fn gel_clear", "pub fn gel_clear", "gel_clear is not exported"),
    (LIBRARY_RT, "fn helper", "#[unsafe(no_mangle)]\npub extern \"C\" fn helper", "helper is exported, and"),
    (LIBRARY_RT, "call: u64", "call: u32", "'uint64_t call', and 'uint32_t call' is due"),
    (LIBRARY_RT, "store: &mut [u8]", "store: &[u8]", "'uint8_t *store', and 'const uint8_t *store' is due"),
    (LIBRARY_RT, "store: &mut [u8]", "store: &mut [u16]", "'uint16_t *store' is due"),
    (
        LIBRARY_RT,
        "queue: u16) -> i32",
        "queue: bool) -> i32",
        "gel_margin: 'bool' is no type that C is handed",
    ),
    (LIBRARY_RT, "tail: &'a TailArray", "tail: &'a Tail", "'&Tail' is no type that C is handed"),
    (LIBRARY_RT, "tail: &'a TailArray", "tail: &'a u16", "'&u16' is no type that C is handed"),
    (MODULE_RT, "command: CommandNumbers", "command: another", "'another' is no type that C is handed"),
    (
        MODULE_RT,
        "use pairs::CommandNumbers",
        "use another::CommandNumbers",
        "gel_command has 2 fields, and 1",
    ),
    (
        MODULE_RT,
        "command: CommandNumbers",
        "command: another::CommandNumbers",
        "gel_command has 2 fields, and 1",
    ),
    // Structs.
    (
        HEADER,
        "uint8_t number;\n    uint8_t value;",
        "uint8_t value;\n    uint8_t number;",
        "gelwynnar.h:22: gel_answer has 'uint8_t value', and 'uint8_t number' is due",
    ),
    (HEADER, "uint16_t queue;", "uint32_t queue;", "'uint32_t queue', and 'uint16_t queue' is due"),
    (HEADER, "uint16_t queue;", "uint16_t *queue;", "'uint16_t *queue', and 'uint16_t queue' is due"),
    (HEADER, "uint16_t queue;", "uint16_t queue[2];", "gel_answer has an array queue"),
    (HEADER, "    uint16_t queue;\n", "", "gel_answer has 2 fields, and 3 are due"),
    (HEADER, "gel_answer last;", "gel_command last;", "gel_stretch has 'gel_command last', and"),
    (HEADER, "} gel_answer;", "} gel_answers;", "the struct gel_answer has another name as a type"),
    (
        HEADER,
        "enum gel_reg {",
        "typedef struct gel_more {\n size_t more;\n} gel_more;\nenum gel_reg {",
        "gel_more is no",
    ),
    (LIBRARY_RT, "#[repr(C)]\n", "", "'Answer' is no type that C is handed"),
    (PAIRS_RT, "#[repr(C)]\n", "", "'CommandNumbers' is no type that C is handed"),
    (
        LIBRARY_RT,
        "struct Inner {\n    wide: bool",
        "#[repr(C)]\nstruct Inner {\n    wide: u8",
        "no struct for Inner",
    ),
    (LIBRARY_RT, "pub value: u8", "pub value: [u8; 2]", "Answer: '[u8; 2]' is no type that C is handed"),
    (PAIRS_RT, "pub operand: u16", "pub operand: u32", "'uint16_t operand', and 'uint32_t operand' is due"),
    // The buffer.
    (
        HEADER,
        "heads[GEL_QUEUE_PLACES]",
        "heads[GEL_TAIL_PLACES]",
        "(20), and gel_step is lent 'uint16_t heads[4]'",
    ),
    (HEADER, "uint16_t heads[", "uint8_t heads[", "gel_buffer has 'uint8_t heads[GEL_QUEUE_PLACES]'"),
    (HEADER, "    uint16_t tails[GEL_QUEUE_PLACES];\n", "", "gel_buffer has 3 arrays, and 4 are due"),
    (HEADER, "uint16_t tails[", "uint16_t more[", "gel_buffer has no array tails, which gel_step is lent"),
    (
        HEADER,
        "g->heads, g->tails",
        "g->tails, g->heads",
        "gel_buffer_step calls gel_step with tails for heads",
    ),
    (LIBRARY_RT, "regs: &'a [usize; 2]", "regs: &'a [usize; 3]", "and gel_margin is lent 'size_t regs[3]'"),
    // Numbers and registers.
    (HEADER, "GEL_QUEUES, GEL_TAIL_FILL", "GEL_TAIL_FILL, GEL_QUEUES", "and GEL_QUEUES GEL_TAIL_FILL is due"),
    (HEADER, "GEL_TAIL_FILL }", "GEL_TAIL_FILL = 3 }", "'=' stands where ',' or '}' is due"),
    (HEADER, "GEL_TAIL_PLACES 20", "GEL_TAIL_PLACES 21", "GEL_TAIL_PLACES is 21, and 20 is due"),
    (HEADER, "GEL_REGS 2", "GEL_REGS 3", "GEL_REGS is 3, and 2 is due"),
    (HEADER, "GEL_VERSION 3", "GEL_VERSION 4", "GEL_VERSION is 4, and 3 is due"),
    (LIBRARY_RT, "    VERSION\n", "    VERSION + 1\n", "GEL_VERSION is 3, and no number is due"),
    (LIBRARY_RT, "    VERSION\n", "    3 + 1\n", "GEL_VERSION is 3, and no number is due"),
    (HEADER, "#define GEL_REGS 2", "#define GEL_REGS 2\n#define GEL_MORE 2", "GEL_MORE is held to nothing"),
    (LAYOUT_RT, "TAIL_PLACES: usize = 20", "TAIL_PLACES: usize = 19", "GEL_TAIL_PLACES is 20, and 19 is due"),
    (LAYOUT_RT, "    pub tail_fill: usize,\n", "", "GEL_REGS is 2, and 1 is due"),
];

pub fn run() -> Report {
    let mut report = Report::default();
    let small: Files = SMALL.iter().map(|(path, text)| (path.to_string(), text.to_string())).collect();
    let mut accepted = |files: &Files, what: &str| {
        let faults = report_of(files).faults;
        report.hold(faults.is_empty(), || format!("the check of the check: {what} is refused: {faults:?}"));
    };
    accepted(&small, "a header that is right");
    for (file, old, new) in RIGHT {
        accepted(&edited(&small, file, old, new), &format!("{file} with '{new}' for '{old}'"));
    }
    for (file, old, new, fault) in WRONG {
        let faults = report_of(&edited(&small, file, old, new)).faults;
        report.hold(faults.iter().any(|it| it.contains(fault)), || {
            format!(
                "the check of the check: {file} with '{new}' for '{old}' does not say {fault}: {faults:?}"
            )
        });
    }
    report
}

fn edited(files: &Files, file: &str, old: &str, new: &str) -> Files {
    let mut files = files.clone();
    let text = files.get_mut(file).expect("a file of the small repository");
    assert!(text.contains(old), "{file} of the small repository does not have '{old}'");
    *text = text.replacen(old, new, 1);
    files
}

/// Of a header that is right: each declaration is refused with any one of its names or numbers changed, or a `const` or
/// a star gone, but for the names that are free. One test for each declaration.
pub fn each_word_is_held(files: &Files) -> Report {
    let mut report = Report::default();
    let Ok((header, source)) = read(files) else { return report };
    let text = &files[HEADER];
    let all = words(text);
    let mut free = Vec::new();
    for function in source.functions() {
        let dues = function.parameters.iter().filter_map(|it| dues_of(&source, LIBRARY, it).ok()).flatten();
        let found = header.prototypes.iter().filter(|it| it.name == function.name);
        let pairs = found.flat_map(|it| &it.parameters).zip(dues);
        free.extend(pairs.filter(|(_, due)| due.name.is_none()).map(|(found, _)| found.at));
    }
    for (name, range) in &header.declared {
        let unheld: Vec<&str> = range
            .clone()
            .filter(|at| !free.contains(at))
            .filter_map(|at| Some((at, other(&all[at])?)))
            .filter(|(at, other)| {
                let (from, to) = (all[*at].place, all[*at].place + all[*at].text.len());
                let changed = Header::new(&format!("{}{other}{}", &text[..from], &text[to..]));
                changed.is_ok_and(|it| check(&it, &source).0.faults.is_empty())
            })
            .map(|(at, _)| all[at].text.as_str())
            .collect();
        report.hold(unheld.is_empty(), || {
            format!("the check of the check: {name} may have another word for {}", unheld.join(", "))
        });
    }
    report
}

/// What a word is changed to.
fn other(word: &Word) -> Option<String> {
    match word.text.as_str() {
        "const" | "*" => Some(String::new()),
        text if word.is_name() => Some(format!("{text}_x")),
        text if word.is_number() => Some(format!("1{text}")),
        _ => None,
    }
}
