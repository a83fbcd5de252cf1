//! Holds the documents to the tree. Each thing checked counts one.
//!
//! - A path exists; a list in braces stands for a path each. In short a path of crates/ may begin with its crate.
//! - A name in backquotes is defined in the tree, is a crate or an edit; `a::b` is b of the crate, the type or the
//!   module a. A name before a path, as `name` (path) or `name` in path, is defined there. A word behind a name that
//!   begins with a dot is a field of it.
//! - Anything else in backquotes stands word for word in a source, but for what two dots leave out, or is a command or
//!   a printed line.
//! - A word with an underscore is a name, in backquotes or not; without them also of a folder. `crate: edit` is an edit
//!   of that crate.
//! - Between quotation marks are the words of others and names that are gone: only what is in backquotes is looked at.
//! - Tables: a statement is in the file of its row; a table of crates names crates, and docs/ARCHITECTURE.md has every one in
//!   the order of crates.txt; docs/PROMISES.md has every edit once, in its own words, and no row that is too long.

use crate::document::{blocks, tokens, Block, Kind, Token};
use crate::tree::{Definition, Tree};

/// What a name in backquotes may be without being ours: words of the languages and of their libraries.
const LANGUAGE: [&str; 14] = [
    "requires", "ensures", "break", "none", "Option", "VecDeque", "memcpy", "memmove", "u8", "u16", "u32",
    "u64", "usize", "rt",
];

/// The longest row of docs/PROMISES.md, in characters.
const LONGEST_ROW: usize = 220;

const PROMISES: &str = "docs/PROMISES.md";
const ARCHITECTURE: &str = "docs/ARCHITECTURE.md";
const README: &str = "README.md";
/// They say what things were called and what is gone, so that they name much that is not there.
const HISTORIES: [&str; 2] = ["docs/PORT.md", "docs/DESIGN-PASS.md"];

#[derive(Default)]
pub struct Report {
    pub passed: usize,
    pub faults: Vec<String>,
}

impl Report {
    fn hold(&mut self, holds: bool, document: &str, line: usize, fault: impl Fn() -> String) {
        if holds {
            self.passed += 1;
        } else {
            self.faults.push(format!("{document}:{line}: {}", fault()));
        }
    }
}

pub fn check(tree: &Tree) -> Report {
    let mut report = Report::default();
    for document in [README, ARCHITECTURE, PROMISES] {
        report.hold(tree.files.contains_key(document), document, 1, || "is not there".to_string());
    }
    for (path, text) in &tree.files {
        if path == README || (path.starts_with("docs/") && path.ends_with(".md") && !HISTORIES.contains(&path.as_str())) {
            Checker { tree, document: path, report: &mut report }.document(text);
        }
    }
    report
}

struct Checker<'a> {
    tree: &'a Tree,
    document: &'a str,
    report: &'a mut Report,
}

impl Checker<'_> {
    fn hold(&mut self, holds: bool, line: usize, fault: impl Fn() -> String) {
        self.report.hold(holds, self.document, line, fault);
    }

    fn document(&mut self, text: &str) {
        let blocks = blocks(text);
        for block in &blocks {
            let is_code = matches!(block.kind, Kind::Code);
            let is_edit = matches!(&block.kind, Kind::Row { head, .. } if head[0] == "edit");
            match &block.kind {
                // The table of edits says what each breaks in the edit's own words.
                Kind::Row { cells, .. } if is_edit && self.document == PROMISES => {
                    self.tokens(&tokens(cells.last().map_or("", |cell| cell), block.line, false), false);
                }
                _ => self.tokens(&tokens(&block.text, block.line, is_code), is_code),
            }
        }
        self.tables(&blocks);
    }

    fn tokens(&mut self, tokens: &[Token], is_code: bool) {
        let mut place = 0;
        while place < tokens.len() {
            let token = &tokens[place];
            if token.is_span {
                self.span(token);
            } else if !token.is_quoted {
                if token.text.starts_with('.') && !token.text.contains('/') {
                    self.field(tokens, place);
                } else if let Some(edits) = self.edits(tokens, place) {
                    place += edits;
                } else {
                    self.word(token);
                }
            }
            if is_code || token.is_span {
                self.command_at(tokens, place);
            }
            place += 1;
        }
        self.names_in_files(tokens);
    }

    /// A word outside of backquotes: a path, `a::b`, or a name with an underscore.
    fn word(&mut self, token: &Token) {
        let (word, line) = (&token.text, token.line);
        if word.contains("::") {
            self.qualified(word, line);
        } else if word.contains('/') {
            for path in paths_of(self.tree, word) {
                self.hold(self.tree.has_path(&path), line, || format!("no such path: {path}"));
            }
        } else if word.contains('_') && word.chars().all(|c| c.is_alphanumeric() || c == '_') {
            if self.tree.has_folder_named(word) {
                self.hold(true, line, String::new);
            } else {
                self.name(word, line);
            }
        }
    }

    /// What stands in backquotes.
    fn span(&mut self, token: &Token) {
        let (span, line) = (token.text.trim(), token.line);
        let words: Vec<&str> = span.split_whitespace().collect();
        let is_plain = |c: char| c.is_alphanumeric() || "_-′?".contains(c);
        if is_printed(&words) || is_command(&words) || span.chars().all(|c| c.is_ascii_digit() || c == ',') {
            return;
        }
        if words.len() == 1 && span.contains("::") && span.chars().all(|c| is_plain(c) || c == ':') {
            self.qualified(span, line);
        } else if words.len() == 1
            && span.contains('/')
            && span.chars().all(|c| is_plain(c) || "/.".contains(c))
        {
            let paths = paths_of(self.tree, span);
            self.hold(!paths.is_empty(), line, || format!("not the path of a file of ours: {span}"));
            for path in paths {
                self.hold(self.tree.has_path(&path), line, || format!("no such path: {path}"));
            }
        } else if words.len() == 1 && span.contains('.') && self.tree.has_file_named(span) {
            self.hold(true, line, String::new);
        } else if words.len() == 1 && span.starts_with('.') && span[1..].chars().all(is_plain) {
            let is_field = self.tree.defined(&span[1..]).iter().any(|it| it.owner.is_some());
            let holds = is_field || self.tree.has_ending(span);
            self.hold(holds, line, || format!("neither a field nor an ending of a file: {span}"));
        } else if words.len() == 1 && span.chars().all(is_plain) && !span.starts_with('-') {
            self.name(span, line);
        } else {
            let pieces = span.split("..").map(str::trim).filter(|piece| piece.len() > 1);
            let missing = pieces.into_iter().find(|piece| !self.tree.has_text(piece));
            self.hold(missing.is_none(), line, || format!("in no source: {}", missing.unwrap_or("")));
        }
    }

    fn name(&mut self, name: &str, line: usize) {
        let known = !self.tree.defined(name).is_empty()
            || self.tree.has_crate(name)
            || self.tree.is_edit(name)
            || self.tree.files.contains_key(name)
            || LANGUAGE.contains(&name);
        self.hold(known, line, || format!("no such name: {name}"));
    }

    fn qualified(&mut self, name: &str, line: usize) {
        let parts: Vec<&str> = name.split("::").collect();
        for pair in parts.windows(2) {
            let found = !self.named_in(pair[0], pair[1]).is_empty();
            self.hold(found, line, || format!("no such name: {} of {}", pair[1], pair[0]));
        }
    }

    /// The definitions of `name` in the code of a crate or a module, or of a type.
    fn named_in(&self, of: &str, name: &str) -> Vec<&Definition> {
        let code = format!("crates/{of}/src/");
        let module = format!("/{of}.rs");
        let is_there = |it: &&Definition| {
            it.file.starts_with(&code) || it.file.ends_with(&module) || it.owner.as_deref() == Some(of)
        };
        self.tree.defined(name).iter().filter(is_there).collect()
    }

    /// `.field`, or several, behind a name in backquotes.
    fn field(&mut self, tokens: &[Token], place: usize) {
        let token = &tokens[place];
        let field = &token.text[1..];
        if !field.starts_with(char::is_alphabetic) {
            return;
        }
        let before = tokens[..place].iter().rev().find(|it| !it.text.starts_with('.'));
        let owner = before.filter(|it| it.is_span).map_or("", |it| &it.text);
        let found = self.tree.defined(field).iter().any(|it| it.owner.as_deref() == Some(owner));
        self.hold(found, token.line, || format!("no such field: .{field} of {owner}"));
    }

    /// `crate: edit, edit`: how many edits, where it is such a list.
    fn edits(&mut self, tokens: &[Token], place: usize) -> Option<usize> {
        let in_crate = &tokens[place].text;
        let mut count = 0;
        while let Some(token) = tokens.get(place + 1 + count) {
            let goes_on = token.gap == if count == 0 { ": " } else { ", " };
            let is_edit = token.text.contains('_') && !token.is_span && !token.text.contains(['/', ':']);
            if !goes_on || !is_edit {
                break;
            }
            if !self.tree.has_crate(in_crate) && !self.tree.is_edit(&token.text) {
                break;
            }
            let found = self.tree.has_edit(in_crate, &token.text);
            self.hold(found, token.line, || format!("no such edit: {in_crate}: {}", token.text));
            count += 1;
        }
        (count > 0).then_some(count)
    }

    /// `rt must-fail NAME` and the like, in code or in backquotes: the crate exists, and so do paths.
    fn command_at(&mut self, tokens: &[Token], place: usize) {
        let line = tokens[place].line;
        let words: Vec<&str> = if tokens[place].is_span {
            tokens[place].text.split_whitespace().collect()
        } else {
            tokens[place..].iter().take_while(|it| it.line == line).map(|it| it.text.as_str()).collect()
        };
        if let ["rt", "ci" | "must-fail", name, ..] = words[..] {
            self.hold(self.tree.has_crate(name), line, || format!("no such crate: {name}"));
        }
        if tokens[place].is_span && is_command(&words) {
            for path in words.iter().flat_map(|word| paths_of(self.tree, word)) {
                self.hold(self.tree.has_path(&path), line, || format!("no such path: {path}"));
            }
        }
    }

    /// `name` (path) and `name` in path, or several names joined by commas: each is defined there.
    fn names_in_files(&mut self, tokens: &[Token]) {
        for (place, token) in tokens.iter().enumerate() {
            let opens = [" (", " in ", "\n(", "\nin ", " in\n"].contains(&token.gap.as_str());
            let is_word = |word: &str, it: &Token| !it.is_span && it.text == word;
            let behind_in = place > 0 && is_word("in", &tokens[place - 1]) && token.gap.trim().is_empty();
            if token.is_span || token.is_quoted || !(opens || behind_in) {
                continue;
            }
            let mut paths = paths_of(self.tree, &token.text);
            for (before, next) in tokens[place..].iter().zip(&tokens[place + 1..]) {
                let joined = [", ", "; ", ",\n", ";\n"].contains(&next.gap.as_str());
                if before.is_span || next.is_span || !joined {
                    break;
                }
                paths.extend(paths_of(self.tree, &next.text));
            }
            if paths.is_empty() {
                continue;
            }
            let mut names = Vec::new();
            for it in tokens[..place - behind_in as usize].iter().rev() {
                if it.is_span {
                    names.push(it);
                } else if !(it.text.starts_with('.') || is_word("and", it)) {
                    break;
                }
                if !["", " ", ", ", ",\n", "\n"].contains(&it.gap.as_str()) {
                    break;
                }
            }
            for name in names {
                self.name_in(&name.text, name.line, &paths);
            }
        }
    }

    /// A name is defined in one of these files or folders, or one of them is the proof of that function.
    fn name_in(&mut self, name: &str, line: usize, paths: &[String]) {
        if name.contains(|c: char| !(c.is_alphanumeric() || "_-′?:".contains(c))) || LANGUAGE.contains(&name)
        {
            return;
        }
        let (of, last) = name.rsplit_once("::").unwrap_or(("", name));
        let found = if of.is_empty() {
            self.tree.defined(last).iter().collect()
        } else {
            self.named_in(of.rsplit("::").next().unwrap_or(of), last)
        };
        let holds = paths.iter().any(|path| found.iter().any(|it| is_at(it, last, path)));
        self.hold(holds, line, || format!("{name} is not in {}", paths.join(", ")));
    }

    fn tables(&mut self, blocks: &[Block]) {
        let mut crates = Vec::new();
        let mut edits = Vec::new();
        for block in blocks {
            let Kind::Row { head, cells } = &block.kind else { continue };
            let line = block.line;
            if self.document == PROMISES {
                let length = block.text.chars().count();
                self.hold(length <= LONGEST_ROW, line, || format!("a row of {length} characters"));
            }
            self.hold(cells.len() == head.len(), line, || {
                "a row with more or fewer cells than its head".into()
            });
            if cells.len() != head.len() {
                continue;
            }
            match (head[0].as_str(), head[head.len() - 1].as_str()) {
                ("crate", _) if cells[0] != "all" => {
                    let name = cells[0].trim_matches('`').to_string();
                    self.hold(self.tree.has_crate(&name), line, || format!("no such crate: {name}"));
                    crates.push(name);
                }
                ("edit", _) if self.document == PROMISES => {
                    self.edit_row(cells, line);
                    edits.push(cells[0].clone());
                }
                (_, "file") if head.len() > 1 => {
                    self.statement_row(&cells[cells.len() - 2], &cells[cells.len() - 1], line)
                }
                _ => {}
            }
        }
        if self.document == ARCHITECTURE {
            let holds = crates == self.tree.crates;
            self.hold(holds, 1, || {
                "its tables of crates do not have those of crates.txt, in that order".to_string()
            });
            for name in &self.tree.crates {
                self.hold(crates.contains(name), 1, || format!("no row for the crate {name}"));
            }
        }
        if self.document == PROMISES {
            let all: Vec<String> =
                self.tree.edits.iter().map(|it| format!("{}: {}", it.in_crate, it.name)).collect();
            for edit in &all {
                let count = edits.iter().filter(|it| *it == edit).count();
                self.hold(count == 1, 1, || format!("{count} rows for the edit {edit}"));
            }
            self.hold(edits == all, 1, || {
                "its table of edits is not in the order of crates.txt and of names".to_string()
            });
        }
    }

    /// The statement of a row is in the row's file.
    fn statement_row(&mut self, statement: &str, file: &str, line: usize) {
        let files = tokens(file, line, false);
        let paths: Vec<String> = files.iter().flat_map(|it| paths_of(self.tree, &it.text)).collect();
        for token in tokens(statement, line, false).iter().filter(|it| it.is_span) {
            self.name_in(&token.text, line, &paths);
        }
    }

    /// `crate: edit`, what it breaks in its own words, and what refuses it.
    fn edit_row(&mut self, cells: &[String], line: usize) {
        let (in_crate, name) = cells[0].split_once(": ").unwrap_or(("", &cells[0]));
        let found = self.tree.edits.iter().find(|it| it.in_crate == in_crate && it.name == name);
        self.hold(found.is_some(), line, || format!("no such edit: {}", cells[0]));
        if let Some(edit) = found {
            self.hold(cells[1] == edit.breaks, line, || format!("{} says: {}", cells[0], edit.breaks));
        }
        let refused_by =
            tokens(cells.last().map_or("", |cell| cell), line, false).iter().any(|it| it.is_span);
        self.hold(refused_by, line, || format!("{} names nothing that refuses it", cells[0]));
    }
}

/// Whether a definition stands at a path, or the path is the proof of the function that it is.
fn is_at(it: &Definition, name: &str, path: &str) -> bool {
    let file = it.file.as_str();
    let at_path = file == path || file == format!("{path}.antt") || file.starts_with(&format!("{path}/"));
    let proof = match file.split_once("/src/") {
        Some((folder, _)) => match &it.owner {
            Some(owner) => format!("{folder}/proofs/{owner}/{name}"),
            None => format!("{folder}/proofs/{name}"),
        },
        None => return at_path,
    };
    at_path || path == proof || proof.starts_with(&format!("{path}/"))
}

/// A line that the program prints: a letter, then numbers or what they are.
fn is_printed(words: &[&str]) -> bool {
    let is_part = |word: &&str| word.chars().all(|c| c.is_ascii_lowercase() || c.is_ascii_digit());
    words.len() > 1 && ["D", "R", "E", "S", "M"].contains(&words[0]) && words[1..].iter().all(is_part)
}

fn is_command(words: &[&str]) -> bool {
    let is_first = |word: &str| ["rt", "cargo", "cd", "second"].contains(&word) || word.starts_with("./");
    words.first().is_some_and(|word| is_first(word) && (words.len() > 1 || word.starts_with("./")))
}

/// The paths that a word is: of the folders of the repository, of a crate by its name alone, or none.
fn paths_of(tree: &Tree, word: &str) -> Vec<String> {
    let word = word.trim_start_matches("./").trim_end_matches('.');
    if let Some((folder, list)) = word.split_once('{') {
        let names = list.trim_end_matches('}').split(',');
        return names.flat_map(|name| paths_of(tree, &format!("{folder}{}", name.trim()))).collect();
    }
    let parts: Vec<&str> = word.split('/').collect();
    let inner = ["specs", "proofs", "src", "must-fail"];
    match parts[..] {
        // What a build leaves is not of the tree.
        ["target", ..] | ["crates", _, "out", ..] => Vec::new(),
        ["crates" | "docs" | "tests" | "examples" | "include" | "rust" | "bench" | "tools" | ".ci", _, ..] => {
            vec![word.to_string()]
        }
        [first, second, ..] if tree.has_crate(first) || inner.contains(&second) => {
            vec![format!("crates/{word}")]
        }
        // Of which crate?
        [first, _, ..] if inner.contains(&first) => vec![word.to_string()],
        _ => Vec::new(),
    }
}
