//! The Rattle source, as far as C sees it: exported functions up to their contracts, structs, constants and aliases of
//! types, crate by crate.

use std::collections::BTreeMap;

use crate::words::{value, words, Cursor, Fault};
use crate::Files;

/// The library whose functions C calls. Those of the crates below it are not in its archive.
pub const LIBRARY: &str = "gelwynnar";

#[derive(Clone)]
pub enum Type {
    /// By its path.
    Named(String),
    Array(Box<Type>, String),
    Slice(Box<Type>),
    Lent {
        is_mut: bool,
        to: Box<Type>,
    },
}

/// A parameter of a function or a field of a struct.
pub struct Item {
    pub name: String,
    pub of: Type,
}

pub struct Function {
    pub name: String,
    pub place: String,
    pub parameters: Vec<Item>,
    pub result: Option<Type>,
    pub body: Vec<String>,
}

pub struct Struct {
    pub name: String,
    pub home: String,
    pub place: String,
    /// Laid out as in C: `#[repr(C)]`.
    pub is_c: bool,
    pub fields: Vec<Item>,
}

#[derive(Default)]
pub struct Crate {
    pub functions: Vec<Function>,
    pub structs: Vec<Struct>,
    pub constants: BTreeMap<String, String>,
    aliases: BTreeMap<String, Type>,
    /// The crate that a name is taken from.
    uses: BTreeMap<String, String>,
}

/// A number as Rattle and C name it, with its bytes, which are also its alignment.
pub struct Number {
    pub rattle: &'static str,
    pub c: &'static str,
    pub bytes: usize,
}

const NUMBERS: [Number; 6] = [
    Number { rattle: "u8", c: "uint8_t", bytes: 1 },
    Number { rattle: "u16", c: "uint16_t", bytes: 2 },
    Number { rattle: "u32", c: "uint32_t", bytes: 4 },
    Number { rattle: "u64", c: "uint64_t", bytes: 8 },
    Number { rattle: "usize", c: "size_t", bytes: 8 },
    Number { rattle: "i32", c: "int32_t", bytes: 4 },
];

/// A type that C can be handed, with aliases and constants put in.
pub enum Passed<'a> {
    Number(&'static Number),
    Struct(&'a Struct),
    Array { is_mut: bool, element: &'static Number, length: usize },
    Slice { is_mut: bool, element: &'static Number },
}

pub struct Source {
    pub crates: BTreeMap<String, Crate>,
}

impl Source {
    /// Of every crate of the repository.
    pub fn new(files: &Files) -> Result<Source, String> {
        let mut crates: BTreeMap<String, Crate> = BTreeMap::new();
        for (path, text) in files.iter().filter(|(path, _)| path.ends_with(".rt")) {
            let parts: Vec<&str> = path.split('/').collect();
            if let ["crates", name, "src", ..] = parts[..] {
                let found = crates.entry(name.to_string()).or_default();
                found.read(name, path, text).map_err(|(line, fault)| format!("{path}:{line}: {fault}"))?;
            }
        }
        Ok(Source { crates })
    }

    /// Those that the library exports.
    pub fn functions(&self) -> &[Function] {
        self.crates.get(LIBRARY).map_or(&[], |it| &it.functions)
    }

    /// The one number or constant that a function's body is.
    pub fn told_by(&self, function: &str) -> Option<usize> {
        let body = &self.functions().iter().find(|it| it.name == function)?.body;
        self.constant(LIBRARY, &body.concat())
    }

    /// What a name stands for in a crate, and the crate that has it: the one before the name, its own, the one that it
    /// takes the name from, or the only one that there is.
    fn find<'a, T>(
        &'a self,
        home: &str,
        path: &str,
        of: impl Fn(&'a Crate, &str) -> Option<T>,
    ) -> Option<(&'a str, T)> {
        let (before, name) = path.rsplit_once("::").unwrap_or(("", path));
        let used = self.crates.get(home).and_then(|it| it.uses.get(name)).map_or("", |it| it);
        let near = [before, home, used].into_iter().filter_map(|it| self.crates.get_key_value(it));
        let in_crate = |(crate_name, it): (&'a String, &'a Crate)| Some((crate_name.as_str(), of(it, name)?));
        near.into_iter().find_map(in_crate).or_else(|| {
            let mut all = self.crates.iter().filter_map(in_crate);
            let only = all.next();
            only.filter(|_| all.next().is_none())
        })
    }

    /// The value of a number or of a constant.
    pub fn constant(&self, home: &str, path: &str) -> Option<usize> {
        let constant = || self.find(home, path, |it, name| it.constants.get(name));
        value(path).or_else(|| constant().and_then(|(_, it)| value(it)))
    }

    pub fn passed(&self, home: &str, of: &Type) -> Result<Passed<'_>, String> {
        let refused = || format!("'{}' is no type that C is handed", said(of));
        match of {
            Type::Named(path) => match (number(of), self.find(home, path, Crate::struct_of)) {
                (Some(it), _) => Ok(Passed::Number(it)),
                (None, Some((_, it))) if it.is_c => Ok(Passed::Struct(it)),
                _ => Err(refused()),
            },
            Type::Lent { is_mut, to } => {
                let (home, to) = self.unnamed(home, to);
                match to {
                    Type::Array(element, length) => {
                        let element = number(element).ok_or_else(refused)?;
                        let length = self.constant(home, length).ok_or_else(refused)?;
                        Ok(Passed::Array { is_mut: *is_mut, element, length })
                    }
                    Type::Slice(element) => {
                        Ok(Passed::Slice { is_mut: *is_mut, element: number(element).ok_or_else(refused)? })
                    }
                    _ => Err(refused()),
                }
            }
            _ => Err(refused()),
        }
    }

    /// What an alias stands for, and in which crate; any other type is itself.
    fn unnamed<'a>(&'a self, home: &'a str, of: &'a Type) -> (&'a str, &'a Type) {
        match of {
            Type::Named(path) => self.find(home, path, |it, name| it.aliases.get(name)).unwrap_or((home, of)),
            _ => (home, of),
        }
    }
}

fn number(of: &Type) -> Option<&'static Number> {
    match of {
        Type::Named(name) => NUMBERS.iter().find(|it| it.rattle == name),
        _ => None,
    }
}

fn said(of: &Type) -> String {
    match of {
        Type::Named(name) => name.clone(),
        Type::Array(element, length) => format!("[{}; {length}]", said(element)),
        Type::Slice(element) => format!("[{}]", said(element)),
        Type::Lent { is_mut, to } => format!("&{}{}", if *is_mut { "mut " } else { "" }, said(to)),
    }
}

impl Crate {
    pub fn struct_of(&self, name: &str) -> Option<&Struct> {
        self.structs.iter().find(|it| it.name == name)
    }

    fn read(&mut self, home: &str, path: &str, text: &str) -> Result<(), Fault> {
        let words = words(text);
        let mut cursor = Cursor::new(&words);
        // What stands before an item: its attributes, each as one text, and `extern`.
        let mut before: Vec<String> = Vec::new();
        while !cursor.is_done() {
            let place = format!("{path}:{}", cursor.line());
            match cursor.next() {
                "#" if cursor.take("[") => {
                    before.push(cursor.up_to_close().iter().map(|word| word.text.as_str()).collect());
                    continue;
                }
                "extern" => {
                    before.push("extern".to_string());
                    cursor.take("\"C\"");
                    continue;
                }
                "pub" => {
                    if cursor.take("(") {
                        cursor.up_to_close();
                    }
                    continue;
                }
                "fn" if ["unsafe(no_mangle)", "extern"]
                    .iter()
                    .all(|it| before.iter().any(|word| word == it)) =>
                {
                    self.functions.push(function(&mut cursor, place)?);
                }
                "struct" => {
                    let is_c = before.iter().any(|word| word == "repr(C)");
                    let name = cursor.name()?;
                    if cursor.take("{") {
                        let fields = items(&mut cursor, "}");
                        match fields {
                            Ok(fields) => self.structs.push(Struct {
                                name,
                                home: home.to_string(),
                                place,
                                is_c,
                                fields,
                            }),
                            Err(fault) if is_c => return Err(fault),
                            Err(_) => {}
                        }
                    } else if is_c {
                        return Err(cursor.fault("'{'"));
                    }
                }
                "const" => {
                    let name = cursor.name().unwrap_or_default();
                    while !cursor.is_done() && !["=", ";", "{"].contains(&cursor.peek()) {
                        cursor.next();
                    }
                    if cursor.take("=") {
                        self.constants.insert(name, cursor.next().to_string());
                    }
                }
                "type" => {
                    let name = cursor.name().unwrap_or_default();
                    if cursor.take("=") {
                        if let Ok(of) = type_of(&mut cursor) {
                            self.aliases.insert(name, of);
                        }
                    }
                }
                "use" => {
                    let from = cursor.next().to_string();
                    let mut last = from.clone();
                    while cursor.take("::") {
                        last = cursor.next().to_string();
                    }
                    if last == "{" {
                        // Of each path in the braces the last name.
                        for names in cursor.up_to_close().split(|word| word.text == ",") {
                            self.uses.extend(names.last().map(|it| (it.text.clone(), from.clone())));
                        }
                    } else {
                        self.uses.insert(last, from);
                    }
                }
                _ => {}
            }
            before.clear();
        }
        Ok(())
    }
}

/// Behind `fn`: the signature, and past the contract the body.
fn function(cursor: &mut Cursor, place: String) -> Result<Function, Fault> {
    let name = cursor.name()?;
    if cursor.take("<") {
        while !cursor.is_done() && !cursor.take(">") {
            cursor.next();
        }
    }
    cursor.due("(")?;
    let parameters = items(cursor, ")")?;
    let result = if cursor.take("->") { Some(type_of(cursor)?) } else { None };
    // `requires` and `ensures`, each with a name or without.
    while ["requires", "ensures"].contains(&cursor.peek()) {
        while !cursor.is_done() && !cursor.take("{") {
            cursor.next();
        }
        cursor.up_to_close();
    }
    cursor.due("{")?;
    let body = cursor.up_to_close().iter().map(|word| word.text.clone()).collect();
    Ok(Function { name, place, parameters, result, body })
}

/// `name: type` one after the other, up to the closing bracket.
fn items(cursor: &mut Cursor, close: &str) -> Result<Vec<Item>, Fault> {
    let mut items = Vec::new();
    while !cursor.take(close) {
        while cursor.take("pub") || cursor.take("mut") {}
        let name = cursor.name()?;
        cursor.due(":")?;
        items.push(Item { name, of: type_of(cursor)? });
        if !cursor.take(",") && cursor.peek() != close {
            return Err(cursor.fault(&format!("',' or '{close}'")));
        }
    }
    Ok(items)
}

fn type_of(cursor: &mut Cursor) -> Result<Type, Fault> {
    if cursor.take("&") {
        if cursor.peek().starts_with('\'') {
            cursor.next();
        }
        let is_mut = cursor.take("mut");
        return Ok(Type::Lent { is_mut, to: Box::new(type_of(cursor)?) });
    }
    if cursor.take("[") {
        let element = Box::new(type_of(cursor)?);
        if cursor.take("]") {
            return Ok(Type::Slice(element));
        }
        cursor.due(";")?;
        let length = path_of(cursor);
        cursor.due("]")?;
        return Ok(Type::Array(element, length));
    }
    let path = path_of(cursor);
    if path.starts_with(|c: char| c.is_alphabetic()) {
        return Ok(Type::Named(path));
    }
    cursor.at -= 1;
    Err(cursor.fault("a type"))
}

/// A name, with what stands before it: `layout::TailArray`.
fn path_of(cursor: &mut Cursor) -> String {
    let mut path = cursor.next().to_string();
    while cursor.take("::") {
        path = format!("{path}::{}", cursor.next());
    }
    path
}
