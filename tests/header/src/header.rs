//! The header, as C sees it: numbers by name, the registers' order, structs, prototypes, and the calls that inline
//! functions make. What is for C++ alone is passed over.

use std::ops::Range;

use crate::words::{value, words, Cursor, Fault, Word};

#[derive(Clone, PartialEq)]
pub struct CType {
    pub is_const: bool,
    pub base: String,
    pub is_pointer: bool,
}

impl CType {
    pub fn plain(base: &str) -> CType {
        CType { is_const: false, base: base.to_string(), is_pointer: false }
    }

    pub fn lent(is_mut: bool, base: &str) -> CType {
        CType { is_const: !is_mut, base: base.to_string(), is_pointer: true }
    }

    /// As it stands before a name.
    pub fn before(&self, name: &str) -> String {
        let CType { is_const, base, is_pointer } = self;
        let (is_const, star) = (if *is_const { "const " } else { "" }, if *is_pointer { "*" } else { "" });
        format!("{is_const}{base} {star}{name}").trim_end().to_string()
    }
}

/// A parameter of a function or a field of a struct.
pub struct CItem {
    pub name: String,
    pub of: CType,
    /// The length of an array.
    pub length: Option<String>,
    pub line: usize,
    /// Of its name among the words.
    pub at: usize,
}

pub struct CStruct {
    pub name: String,
    pub fields: Vec<CItem>,
    pub line: usize,
}

pub struct Prototype {
    pub name: String,
    pub result: CType,
    pub parameters: Vec<CItem>,
    pub line: usize,
}

/// A call in an inline function, with the last word of each argument.
pub struct Call {
    pub inside: String,
    pub name: String,
    pub arguments: Vec<Word>,
}

/// A number by name.
pub struct Define {
    pub name: String,
    pub value: usize,
    pub line: usize,
}

pub struct Enum {
    pub name: String,
    pub values: Vec<String>,
    pub line: usize,
}

#[derive(Default)]
pub struct Header {
    pub defines: Vec<Define>,
    pub enums: Vec<Enum>,
    pub structs: Vec<CStruct>,
    pub prototypes: Vec<Prototype>,
    pub calls: Vec<Call>,
    /// What each of these declarations is, and where among the words.
    pub declared: Vec<(String, Range<usize>)>,
}

impl Header {
    pub fn new(text: &str) -> Result<Header, Fault> {
        let words = words(text);
        let mut header = Header::default();
        let mut cursor = Cursor::new(&words);
        while !cursor.is_done() {
            let from = cursor.at;
            let line = cursor.line();
            let said = match cursor.peek() {
                "#" => header.directive(&mut cursor, &words)?,
                "enum" => header.enumeration(&mut cursor)?,
                "typedef" => header.structure(&mut cursor)?,
                "static" => header.inline(&mut cursor, &words)?,
                _ => header.prototype(&mut cursor, line)?,
            };
            if let Some(said) = said {
                header.declared.push((said, from..cursor.at));
            }
        }
        Ok(header)
    }

    /// The value of a number, written out or by name.
    pub fn number(&self, text: &str) -> Option<usize> {
        value(text).or_else(|| self.defines.iter().find(|it| it.name == text).map(|it| it.value))
    }

    /// A line that begins with '#': a number by name, or what is for C++ alone, passed over up to its end.
    fn directive(&mut self, cursor: &mut Cursor, words: &[Word]) -> Result<Option<String>, Fault> {
        let line = cursor.line();
        let rest: Vec<&str> = words[cursor.at..]
            .iter()
            .take_while(|word| word.line == line)
            .map(|it| it.text.as_str())
            .collect();
        cursor.at += rest.len();
        match rest[..] {
            ["#", "define", name, number] => {
                let value = value(number).ok_or((line, format!("{name} is no number: {number}")))?;
                self.defines.push(Define { name: name.to_string(), value, line });
                return Ok(Some(name.to_string()));
            }
            ["#", "ifdef", "__cplusplus"] => {
                while !(cursor.is_done() || cursor.take("#") && cursor.take("endif")) {
                    cursor.next();
                }
            }
            ["#", "define", _] | ["#", "ifndef" | "endif" | "include" | "error", ..] => {}
            // The one condition that may end in an error.
            ["#", "if", "SIZE_MAX", ..] => {}
            _ => return Err((line, format!("'{}' is not understood", rest.join(" ")))),
        }
        Ok(None)
    }

    fn enumeration(&mut self, cursor: &mut Cursor) -> Result<Option<String>, Fault> {
        let line = cursor.line();
        cursor.due("enum")?;
        let name = cursor.name()?;
        cursor.due("{")?;
        let mut values = Vec::new();
        while !cursor.take("}") {
            values.push(cursor.name()?);
            if !cursor.take(",") && cursor.peek() != "}" {
                return Err(cursor.fault("',' or '}'"));
            }
        }
        cursor.due(";")?;
        self.enums.push(Enum { name: name.clone(), values, line });
        Ok(Some(name))
    }

    fn structure(&mut self, cursor: &mut Cursor) -> Result<Option<String>, Fault> {
        let line = cursor.line();
        cursor.due("typedef")?;
        cursor.due("struct")?;
        let tag = cursor.name()?;
        cursor.due("{")?;
        let mut fields = Vec::new();
        while !cursor.take("}") {
            let mut field = item(cursor)?;
            if cursor.take("[") {
                field.length = Some(cursor.next().to_string());
                cursor.due("]")?;
            }
            cursor.due(";")?;
            fields.push(field);
        }
        let name = cursor.name()?;
        cursor.due(";")?;
        if name != tag {
            return Err((line, format!("the struct {tag} has another name as a type: {name}")));
        }
        self.structs.push(CStruct { name: name.clone(), fields, line });
        Ok(Some(name))
    }

    fn prototype(&mut self, cursor: &mut Cursor, line: usize) -> Result<Option<String>, Fault> {
        let result = item(cursor)?;
        cursor.due("(")?;
        let parameters = parameters(cursor)?;
        cursor.due(";")?;
        let name = result.name;
        self.prototypes.push(Prototype { name: name.clone(), result: result.of, parameters, line });
        Ok(Some(name))
    }

    fn inline(&mut self, cursor: &mut Cursor, words: &[Word]) -> Result<Option<String>, Fault> {
        cursor.due("static")?;
        cursor.due("inline")?;
        let inside = item(cursor)?.name;
        cursor.due("(")?;
        parameters(cursor)?;
        cursor.due("{")?;
        let from = cursor.at;
        let body = cursor.up_to_close();
        for place in 0..body.len() {
            let is_call = body[place].is_name() && body.get(place + 1).is_some_and(|it| it.text == "(");
            if is_call {
                let mut behind = Cursor::new(words);
                behind.at = from + place + 2;
                let name = body[place].text.clone();
                let arguments = last_words(behind.up_to_close());
                self.calls.push(Call { inside: inside.clone(), name, arguments });
            }
        }
        Ok(None)
    }
}

/// `const type *name`, the first and the star where they stand.
fn item(cursor: &mut Cursor) -> Result<CItem, Fault> {
    let is_const = cursor.take("const");
    let base = cursor.name()?;
    let is_pointer = cursor.take("*");
    let (line, at) = (cursor.line(), cursor.at);
    let name = cursor.name()?;
    Ok(CItem { name, of: CType { is_const, base, is_pointer }, length: None, line, at })
}

fn parameters(cursor: &mut Cursor) -> Result<Vec<CItem>, Fault> {
    let mut parameters = Vec::new();
    if cursor.take("void") {
        cursor.due(")")?;
        return Ok(parameters);
    }
    loop {
        parameters.push(item(cursor)?);
        if !cursor.take(",") {
            cursor.due(")")?;
            return Ok(parameters);
        }
    }
}

fn last_words(arguments: &[Word]) -> Vec<Word> {
    let mut last = Vec::new();
    let mut depth = 0;
    for (place, word) in arguments.iter().enumerate() {
        match word.text.as_str() {
            "(" | "[" => depth += 1,
            ")" | "]" => depth -= 1,
            _ => {}
        }
        let ends = arguments.get(place + 1).is_none_or(|next| next.text == ",");
        if ends && depth == 0 && word.text != "," {
            last.push(word.clone());
        }
    }
    last
}
