//! What a compiler must find in the header, as a C file: the layout of each struct by the rules of `#[repr(C)]`, the
//! registers, and each function declared once more, which a compiler takes only where it is the same.

use crate::check::{answer_of, buffer_arrays, check, dues_of, registers, BUFFER};
use crate::header::Header;
use crate::source::{Passed, Source, Type, LIBRARY};

const BEGINS: &str = r#"/* Made by tests/header from the Rattle source: it compiles, as C11 and as C++11, where a compiler finds the same in
 * include/gelwynnar.h. */
#include "gelwynnar.h"

#ifdef __cplusplus
#define HOLDS(what) static_assert(what, #what)
extern "C" {
#else
#define HOLDS(what) _Static_assert(what, #what)
#endif

/* An answer goes back in two registers. */
HOLDS(sizeof(gel_answer) == 16);
"#;

const ENDS: &str = r#"
#ifdef __cplusplus
}
#endif
"#;

pub fn assertions(header: &Header, source: &Source) -> Result<String, String> {
    let (report, pairs) = check(header, source);
    if let Some(fault) = report.faults.first() {
        return Err(format!("the header is not that of the source: {fault}"));
    }
    let mut text = BEGINS.to_string();
    for (of, name) in &pairs.all {
        text.push('\n');
        let mut layout = Layout::default();
        for field in &of.fields {
            let (bytes, alignment) = bytes_of(source, &of.home, &field.of)?;
            let at = layout.put(bytes, alignment);
            text.push_str(&field_asserted(name, &field.name, at, bytes));
        }
        text.push_str(&holds(&format!("sizeof({name})"), layout.bytes()));
    }
    text.push('\n');
    let mut layout = Layout::default();
    for (name, element, length) in buffer_arrays(source) {
        let bytes = element.bytes * length;
        let at = layout.put(bytes, element.bytes);
        text.push_str(&field_asserted(BUFFER, name, at, bytes));
    }
    text.push_str(&holds(&format!("sizeof({BUFFER})"), layout.bytes()));
    text.push('\n');
    for (place, name) in registers(source).iter().enumerate() {
        text.push_str(&holds(name, place));
    }
    text.push('\n');
    for function in source.functions() {
        let answer = match &function.result {
            Some(of) => answer_of(source, LIBRARY, of)?.of.before("", &pairs),
            None => "void".to_string(),
        };
        let mut parameters = Vec::new();
        for item in &function.parameters {
            for due in dues_of(source, LIBRARY, item)? {
                parameters.push(due.of.before("", &pairs));
            }
        }
        if parameters.is_empty() {
            parameters.push("void".to_string());
        }
        text.push_str(&format!("{answer} {}({});\n", function.name, parameters.join(", ")));
    }
    text.push_str(ENDS);
    Ok(text)
}

fn holds(what: &str, number: usize) -> String {
    format!("HOLDS({what} == {number});\n")
}

fn field_asserted(of: &str, field: &str, at: usize, bytes: usize) -> String {
    let offset = holds(&format!("offsetof({of}, {field})"), at);
    offset + &holds(&format!("sizeof((({of} *)0)->{field})"), bytes)
}

/// Fields one behind the other, each at a multiple of its alignment.
struct Layout {
    end: usize,
    alignment: usize,
}

impl Default for Layout {
    fn default() -> Layout {
        Layout { end: 0, alignment: 1 }
    }
}

impl Layout {
    /// Where a field comes to lie.
    fn put(&mut self, bytes: usize, alignment: usize) -> usize {
        let at = self.end.next_multiple_of(alignment);
        self.end = at + bytes;
        self.alignment = self.alignment.max(alignment);
        at
    }

    fn bytes(&self) -> usize {
        self.end.next_multiple_of(self.alignment)
    }
}

/// The bytes of a field, and its alignment.
fn bytes_of(source: &Source, home: &str, of: &Type) -> Result<(usize, usize), String> {
    match source.passed(home, of)? {
        Passed::Number(it) => Ok((it.bytes, it.bytes)),
        Passed::Struct(it) => {
            let mut layout = Layout::default();
            for field in &it.fields {
                let (bytes, alignment) = bytes_of(source, &it.home, &field.of)?;
                layout.put(bytes, alignment);
            }
            Ok((layout.bytes(), layout.alignment))
        }
        _ => Err("a struct holds a reference".to_string()),
    }
}
