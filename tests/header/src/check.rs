//! Holds the header to the source. Each thing compared counts one.
//!
//! - Each exported function of the library has a prototype and each prototype a function, with the same parameters by
//!   type and name, and the same answer. A slice is a pointer and the number behind it, whose name is free.
//! - Which struct of the header a struct of the source is, the functions tell, and the fields of structs: the first that
//!   meet are one, in either direction. Their fields have the same names and types in the same order.
//! - The arrays of `gel_buffer` are those that `gel_step` is lent, and no function is lent another length or element.
//! - Lengths, registers and the version are those of the source.
//! - Where an inline function calls one of them, each argument has its parameter's name.

use crate::header::{CItem, CStruct, CType, Header, Prototype};
use crate::source::{Function, Item, Number, Passed, Source, Struct, Type, LIBRARY};

pub const HEADER: &str = "include/gelwynnar.h";

/// The struct that has all arrays of a buffer, and the function that is lent all of them.
pub const BUFFER: &str = "gel_buffer";
const LENT_ALL: &str = "gel_step";

/// The crate of the registers and of the arrays' lengths; the registers there, in the header, and as an array.
const LAYOUT: &str = "layout";
const REGS: &str = "Regs";
const REGS_ENUM: &str = "gel_reg";
const REGS_ARRAY: &str = "regs";

/// A number of the source has this before its name in C. Lengths end in the other.
const PREFIX: &str = "GEL_";
const LENGTHS_END: &str = "_PLACES";
const REGS_LENGTH: &str = "GEL_REGS";

const VERSION: &str = "GEL_VERSION";
const VERSION_TOLD_BY: &str = "gel_version";

#[derive(Default)]
pub struct Report {
    pub passed: usize,
    pub faults: Vec<String>,
}

impl Report {
    pub fn hold(&mut self, holds: bool, fault: impl FnOnce() -> String) {
        if holds {
            self.passed += 1;
        } else {
            self.faults.push(fault());
        }
    }

    pub fn add(&mut self, other: Report) {
        self.passed += other.passed;
        self.faults.extend(other.faults);
    }
}

/// Structs of the source, each with its name in the header.
#[derive(Default)]
pub struct Pairs<'a> {
    pub all: Vec<(&'a Struct, String)>,
}

impl<'a> Pairs<'a> {
    /// The name in the header of a struct of the source.
    pub fn in_c(&self, of: &Struct) -> Option<&str> {
        self.all.iter().find(|it| std::ptr::eq(it.0, of)).map(|it| it.1.as_str())
    }

    /// Whether the two are one, which their first meeting decides.
    fn are_one(&mut self, of: &'a Struct, c: &str) -> bool {
        if self.in_c(of).is_none() && !self.all.iter().any(|it| it.1 == c) {
            self.all.push((of, c.to_string()));
        }
        self.in_c(of) == Some(c)
    }
}

/// What the source makes of a parameter, a field or an answer in C.
pub struct Due<'a> {
    /// None where it is free.
    pub name: Option<&'a str>,
    pub of: DueType<'a>,
}

pub enum DueType<'a> {
    Numbers(CType),
    Struct(&'a Struct),
}

impl DueType<'_> {
    /// As it stands before a name. Of a struct that no function has told yet, the name in the source.
    pub fn before(&self, name: &str, pairs: &Pairs) -> String {
        match self {
            DueType::Numbers(of) => of.before(name),
            DueType::Struct(of) => {
                format!("{} {name}", pairs.in_c(of).unwrap_or(&of.name)).trim_end().to_string()
            }
        }
    }
}

/// One parameter, but two of a slice.
pub fn dues_of<'a>(source: &'a Source, home: &'a str, item: &'a Item) -> Result<Vec<Due<'a>>, String> {
    let name = Some(item.name.as_str());
    Ok(match source.passed(home, &item.of)? {
        Passed::Slice { is_mut, element } => vec![
            Due { name, of: DueType::Numbers(CType::lent(is_mut, element.c)) },
            Due { name: None, of: DueType::Numbers(CType::plain("size_t")) },
        ],
        Passed::Array { is_mut, element, .. } => {
            vec![Due { name, of: DueType::Numbers(CType::lent(is_mut, element.c)) }]
        }
        Passed::Number(it) => vec![Due { name, of: DueType::Numbers(CType::plain(it.c)) }],
        Passed::Struct(it) => vec![Due { name, of: DueType::Struct(it) }],
    })
}

/// An answer is one number or one struct.
pub fn answer_of<'a>(source: &'a Source, home: &'a str, of: &Type) -> Result<Due<'a>, String> {
    let of = match source.passed(home, of)? {
        Passed::Number(it) => DueType::Numbers(CType::plain(it.c)),
        Passed::Struct(it) => DueType::Struct(it),
        _ => return Err("it answers a reference".to_string()),
    };
    Ok(Due { name: None, of })
}

/// The arrays that a function is lent, with their elements and lengths.
pub fn arrays_of<'a>(source: &Source, function: &'a Function) -> Vec<(&'a str, &'static Number, usize)> {
    let arrays = function.parameters.iter().filter_map(|item| match source.passed(LIBRARY, &item.of) {
        Ok(Passed::Array { element, length, .. }) => Some((item.name.as_str(), element, length)),
        _ => None,
    });
    arrays.collect()
}

/// The arrays of a buffer, as the source has them.
pub fn buffer_arrays(source: &Source) -> Vec<(&str, &'static Number, usize)> {
    let lent_all = source.functions().iter().find(|it| it.name == LENT_ALL);
    lent_all.map_or(Vec::new(), |it| arrays_of(source, it))
}

/// The registers in C, in the order of the source.
pub fn registers(source: &Source) -> Vec<String> {
    let regs = source.crates.get(LAYOUT).and_then(|it| it.struct_of(REGS));
    regs.map_or(Vec::new(), |it| it.fields.iter().map(|it| in_capitals(&it.name)).collect())
}

fn in_capitals(name: &str) -> String {
    format!("{PREFIX}{}", name.to_uppercase())
}

pub fn check<'a>(header: &'a Header, source: &'a Source) -> (Report, Pairs<'a>) {
    let mut checker = Checker { header, source, pairs: Pairs::default(), report: Report::default() };
    checker.functions();
    checker.structs();
    checker.arrays();
    checker.registers();
    checker.numbers();
    checker.calls();
    (checker.report, checker.pairs)
}

struct Checker<'a> {
    header: &'a Header,
    source: &'a Source,
    pairs: Pairs<'a>,
    report: Report,
}

impl<'a> Checker<'a> {
    fn hold(&mut self, holds: bool, line: usize, fault: impl FnOnce() -> String) {
        self.report.hold(holds, || format!("{HEADER}:{line}: {}", fault()));
    }

    fn functions(&mut self) {
        let (header, functions) = (self.header, self.source.functions());
        self.report.hold(!functions.is_empty(), || format!("crates/{LIBRARY}/src exports nothing"));
        for function in functions {
            let prototype = header.prototypes.iter().find(|it| it.name == function.name);
            self.report.hold(prototype.is_some(), || {
                format!("{}: {} is exported, and {HEADER} does not have it", function.place, function.name)
            });
            if let Some(prototype) = prototype {
                if let Err(fault) = self.function(function, prototype) {
                    self.report.faults.push(format!("{}: {}: {fault}", function.place, function.name));
                }
            }
        }
        for it in &header.prototypes {
            let is_exported = functions.iter().any(|function| function.name == it.name);
            self.hold(is_exported, it.line, || {
                format!("{} is not exported by crates/{LIBRARY}/src", it.name)
            });
        }
    }

    fn function(&mut self, function: &'a Function, prototype: &'a Prototype) -> Result<(), String> {
        let (name, line) = (&prototype.name, prototype.line);
        let mut dues = Vec::new();
        for item in &function.parameters {
            dues.extend(dues_of(self.source, LIBRARY, item)?);
        }
        let (found, due) = (prototype.parameters.len(), dues.len());
        self.hold(found == due, line, || format!("{name} has {found} parameters, and {due} are due"));
        for (found, due) in prototype.parameters.iter().zip(&dues) {
            self.same(name, found.line, &found.name, &found.of, due);
        }
        match &function.result {
            Some(of) => {
                let due = answer_of(self.source, LIBRARY, of)?;
                self.same(name, line, "", &prototype.result, &due);
            }
            None => {
                let found = prototype.result.before("");
                self.hold(found == "void", line, || format!("{name} has '{found}', and 'void' is due"));
            }
        }
        Ok(())
    }

    /// A parameter, a field or an answer of the header is what is due.
    fn same(&mut self, of: &str, line: usize, name: &str, found: &CType, due: &Due<'a>) {
        let same_name = due.name.is_none_or(|it| it == name);
        let same_type = match &due.of {
            DueType::Numbers(due) => found == due,
            DueType::Struct(due) => {
                *found == CType::plain(&found.base)
                    && self.header.structs.iter().any(|it| it.name == found.base)
                    && self.pairs.are_one(due, &found.base)
            }
        };
        let wanted = due.of.before(due.name.unwrap_or(name), &self.pairs);
        self.hold(same_name && same_type, line, || {
            format!("{of} has '{}', and '{wanted}' is due", found.before(name))
        });
    }

    fn structs(&mut self) {
        // Fields tell of further pairs on the way.
        let mut place = 0;
        while let Some((of, c)) = self.pairs.all.get(place).cloned() {
            if let Some(found) = self.header.structs.iter().find(|it| it.name == c) {
                if let Err(fault) = self.structure(of, found) {
                    self.report.faults.push(format!("{}: {}: {fault}", of.place, of.name));
                }
            }
            place += 1;
        }
        for it in self.header.structs.iter().filter(|it| it.name != BUFFER) {
            let is_one = self.pairs.all.iter().any(|pair| pair.1 == it.name);
            self.hold(is_one, it.line, || format!("{} is no struct of the source", it.name));
        }
        let own = self.source.crates.get(LIBRARY).map_or(&[][..], |it| &it.structs);
        for it in own.iter().filter(|it| it.is_c) {
            let is_one = self.pairs.in_c(it).is_some();
            self.report.hold(is_one, || format!("{}: {HEADER} has no struct for {}", it.place, it.name));
        }
    }

    fn structure(&mut self, of: &'a Struct, found: &'a CStruct) -> Result<(), String> {
        let (fields, due) = (found.fields.len(), of.fields.len());
        let name = &found.name;
        self.hold(fields == due, found.line, || format!("{name} has {fields} fields, and {due} are due"));
        for (field, due) in found.fields.iter().zip(&of.fields) {
            let dues = dues_of(self.source, &of.home, due)?;
            let [due] = &dues[..] else { return Err(format!("{} is a reference", due.name)) };
            self.same(name, field.line, &field.name, &field.of, due);
            self.hold(field.length.is_none(), field.line, || format!("{name} has an array {}", field.name));
        }
        Ok(())
    }

    fn arrays(&mut self) {
        let Some(buffer) = self.header.structs.iter().find(|it| it.name == BUFFER) else {
            return self.hold(false, 1, || format!("there is no struct {BUFFER}"));
        };
        let dues = buffer_arrays(self.source);
        let (fields, due) = (buffer.fields.len(), dues.len());
        self.hold(fields == due, buffer.line, || {
            format!("{BUFFER} has {fields} arrays, and {due} are due: as many as {LENT_ALL} is lent")
        });
        for (field, due) in buffer.fields.iter().zip(dues) {
            self.array(field, due, LENT_ALL);
        }
        for function in self.source.functions() {
            for due in arrays_of(self.source, function) {
                match buffer.fields.iter().find(|it| it.name == due.0) {
                    Some(field) => self.array(field, due, &function.name),
                    None => self.hold(false, buffer.line, || {
                        format!("{BUFFER} has no array {}, which {} is lent", due.0, function.name)
                    }),
                }
            }
        }
    }

    fn array(&mut self, field: &CItem, (name, element, length): (&str, &Number, usize), lent_to: &str) {
        let found = self.header.number(field.length.as_deref().unwrap_or(""));
        let holds = field.name == name && field.of == CType::plain(element.c) && found == Some(length);
        self.hold(holds, field.line, || {
            let long = field.length.as_deref().unwrap_or("");
            let found = found.map_or(String::new(), |it| format!(" ({it})"));
            format!(
                "{BUFFER} has '{}[{long}]'{found}, and {lent_to} is lent '{} {name}[{length}]'",
                field.of.before(&field.name),
                element.c
            )
        });
    }

    fn registers(&mut self) {
        let dues = registers(self.source);
        self.report.hold(!dues.is_empty(), || format!("crates/{LAYOUT}/src has no struct {REGS}"));
        match self.header.enums.iter().find(|it| it.name == REGS_ENUM) {
            None => self.hold(false, 1, || format!("there is no enum {REGS_ENUM}")),
            Some(found) => self.hold(found.values == dues, found.line, || {
                format!("{REGS_ENUM} is {}, and {} is due", found.values.join(" "), dues.join(" "))
            }),
        }
        for it in self.header.enums.iter().filter(|it| it.name != REGS_ENUM) {
            self.hold(false, it.line, || format!("{} is held to nothing", it.name));
        }
        let length = buffer_arrays(self.source).iter().find(|it| it.0 == REGS_ARRAY).map(|it| it.2);
        self.report.hold(length == Some(dues.len()), || {
            format!("the array {REGS_ARRAY} has not as many places as the struct {REGS} has fields")
        });
    }

    /// Each number that the header has by name, and each length of the source.
    fn numbers(&mut self) {
        let layout = self.source.crates.get(LAYOUT);
        let lengths = layout.into_iter().flat_map(|it| it.constants.keys());
        let mut dues: Vec<(String, Option<usize>)> = lengths
            .filter(|name| name.ends_with(LENGTHS_END))
            .map(|name| (in_capitals(name), self.source.constant(LAYOUT, name)))
            .collect();
        dues.push((REGS_LENGTH.to_string(), Some(registers(self.source).len())));
        dues.push((VERSION.to_string(), self.source.told_by(VERSION_TOLD_BY)));
        for (name, due) in &dues {
            let found = self.header.defines.iter().find(|it| it.name == *name);
            let line = found.map_or(1, |it| it.line);
            let said = |it: Option<usize>| it.map_or("no number".to_string(), |it| it.to_string());
            let found = found.map(|it| it.value);
            self.hold(found.is_some() && found == *due, line, || {
                format!("{name} is {}, and {} is due", said(found), said(*due))
            });
        }
        for it in &self.header.defines {
            let is_due = dues.iter().any(|due| due.0 == it.name);
            self.hold(is_due, it.line, || format!("{} is held to nothing", it.name));
        }
    }

    /// Arrays of one type may change places with no word of a compiler.
    fn calls(&mut self) {
        let header = self.header;
        for call in &header.calls {
            let Some(function) = self.source.functions().iter().find(|it| it.name == call.name) else {
                continue;
            };
            let dues = function.parameters.iter().filter_map(|it| dues_of(self.source, LIBRARY, it).ok());
            let dues: Vec<Due> = dues.flatten().collect();
            for (argument, due) in call.arguments.iter().zip(&dues) {
                let name = due.name.unwrap_or(&argument.text);
                self.hold(argument.text == name, argument.line, || {
                    format!("{} calls {} with {} for {name}", call.inside, call.name, argument.text)
                });
            }
        }
    }
}
