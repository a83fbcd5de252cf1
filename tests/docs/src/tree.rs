//! What the repository has: its files, crates, must-fail edits, and where each name is defined.

use std::collections::{BTreeMap, BTreeSet};

/// The path of every text file, from the root of the repository, with its text.
pub type Files = BTreeMap<String, String>;

/// A definition, declaration, constructor, variant, field or function; the last three with what they belong to.
pub struct Definition {
    pub owner: Option<String>,
    pub file: String,
}

pub struct Edit {
    pub in_crate: String,
    pub name: String,
    /// The first line of its file, which says what the edit breaks.
    pub breaks: String,
}

pub struct Tree {
    pub files: Files,
    folders: BTreeSet<String>,
    /// In the order of crates.txt.
    pub crates: Vec<String>,
    /// By crate in that order, and by name.
    pub edits: Vec<Edit>,
    definitions: BTreeMap<String, Vec<Definition>>,
    /// Every source with its blanks made one.
    sources: Vec<String>,
}

impl Tree {
    pub fn new(files: Files) -> Tree {
        let mut tree = Tree {
            folders: folders_of(&files),
            crates: crates_of(&files),
            edits: Vec::new(),
            definitions: BTreeMap::new(),
            sources: Vec::new(),
            files: BTreeMap::new(),
        };
        for in_crate in &tree.crates {
            let folder = format!("crates/{in_crate}/must-fail/");
            for (path, text) in files.iter().filter(|(path, _)| path.starts_with(&folder)) {
                let name = path[folder.len()..].trim_end_matches(".edit").to_string();
                let breaks = text.lines().next().unwrap_or("").trim_end_matches('.').to_string();
                tree.edits.push(Edit { in_crate: in_crate.clone(), name, breaks });
            }
        }
        for (path, text) in &files {
            // What checks the documents is no source of theirs: its tests of itself name what is not there. So do those
            // of the header.
            if path.starts_with("tests/docs/") || path == "tests/header/src/self_test.rs" {
                continue;
            }
            let found = match path.rsplit_once('.') {
                Some((_, "antt")) => statements(text),
                Some((_, "rt" | "rs")) => items(text),
                Some((_, "h" | "c")) => declarations(text),
                _ if text.starts_with("#!") => functions(text),
                _ => continue,
            };
            for (name, owner) in found {
                let definition = Definition { owner, file: path.clone() };
                tree.definitions.entry(name).or_default().push(definition);
            }
            tree.sources.push(one_blank(text));
        }
        tree.files = files;
        tree
    }

    pub fn defined(&self, name: &str) -> &[Definition] {
        self.definitions.get(name).map_or(&[], |found| found)
    }

    pub fn has_crate(&self, name: &str) -> bool {
        self.crates.iter().any(|it| it == name)
    }

    pub fn has_edit(&self, in_crate: &str, name: &str) -> bool {
        self.edits.iter().any(|edit| edit.in_crate == in_crate && edit.name == name)
    }

    pub fn is_edit(&self, name: &str) -> bool {
        self.edits.iter().any(|edit| edit.name == name)
    }

    /// A file or a folder; a file of statements also without its ending; the proof of a function, of which rt finds some
    /// with no file of ours.
    pub fn has_path(&self, path: &str) -> bool {
        let path = path.trim_end_matches('/');
        self.files.contains_key(path)
            || self.folders.contains(path)
            || self.files.contains_key(&format!("{path}.antt"))
            || self.is_proof(path)
    }

    /// Whether a path is crates/CRATE/proofs/NAME or proofs/TYPE/NAME, of a function of that crate.
    fn is_proof(&self, path: &str) -> bool {
        let Some((of, function)) = path.split_once("/proofs/") else { return false };
        let (owner, name) = match function.split_once('/') {
            Some((owner, name)) => (Some(owner), name),
            None => (None, function),
        };
        let code = format!("{of}/src/");
        self.defined(name).iter().any(|it| it.file.starts_with(&code) && it.owner.as_deref() == owner)
    }

    /// A file of this name in some folder.
    pub fn has_file_named(&self, name: &str) -> bool {
        self.files.keys().any(|path| path.rsplit('/').next() == Some(name))
    }

    pub fn has_folder_named(&self, name: &str) -> bool {
        self.folders.iter().any(|path| path.rsplit('/').next() == Some(name))
    }

    pub fn has_ending(&self, ending: &str) -> bool {
        self.files.keys().any(|path| path.ends_with(ending))
    }

    /// Whether some source has this text word for word.
    pub fn has_text(&self, text: &str) -> bool {
        let text = one_blank(text);
        self.sources.iter().any(|source| source.contains(&text))
    }
}

pub fn one_blank(text: &str) -> String {
    text.split_whitespace().collect::<Vec<_>>().join(" ")
}

fn folders_of(files: &Files) -> BTreeSet<String> {
    let mut folders = BTreeSet::new();
    for path in files.keys() {
        for (place, _) in path.match_indices('/') {
            folders.insert(path[..place].to_string());
        }
    }
    folders
}

fn crates_of(files: &Files) -> Vec<String> {
    let lines = files.get("crates.txt").map_or("", |text| text).lines();
    let names = lines.filter(|line| !line.starts_with('#')).filter_map(|line| line.split_once(':'));
    // A static library has that word behind its name.
    names.filter_map(|(name, _)| name.split_whitespace().next()).map(str::to_string).collect()
}

type Found = Vec<(String, Option<String>)>;

fn is_name(word: &str) -> bool {
    word.starts_with(|c: char| c.is_alphabetic() || c == '_')
        && !word.contains(['(', '{', '=', ',', ';', '"'])
}

/// Of a file of definitions or proofs: what is declared, records with their fields, data with their constructors.
fn statements(text: &str) -> Found {
    let mut found = Vec::new();
    // What is open: its indentation, and its name where it is a record or data.
    let mut open: Vec<(usize, Option<String>)> = Vec::new();
    for line in text.lines() {
        let content = line.trim_start();
        if content.is_empty() || content.starts_with("--") {
            continue;
        }
        let indent = line.len() - content.len();
        while open.last().is_some_and(|(outer, _)| indent <= *outer) {
            open.pop();
        }
        if indent != open.last().map_or(0, |(outer, _)| outer + 2) {
            continue;
        }
        let owner = open.last().and_then(|(_, name)| name.clone());
        // A head of two lines: what is declared under its `where` is the record's, a step further in.
        if content == "where" {
            open.push((indent, owner));
            continue;
        }
        let mut words = content.split_whitespace().peekable();
        while words.next_if(|word| ["abbrev", "unfoldable", "pub"].contains(word)).is_some() {}
        match words.peek() {
            Some(&"module") => open.push((indent, None)),
            Some(&("record" | "data")) => {
                let name = words.nth(1).unwrap_or("").to_string();
                found.push((name.clone(), owner));
                open.push((indent, Some(name)));
            }
            _ => {
                let names: Vec<&str> = words.by_ref().take_while(|word| *word != ":").collect();
                let declares = content.split_whitespace().any(|word| word == ":");
                if declares && names.iter().all(|name| is_name(name)) {
                    found.extend(names.iter().map(|name| (name.to_string(), owner.clone())));
                }
            }
        }
    }
    found
}

/// Of a file of code: functions, types with their fields or variants, constants, modules; methods with their type.
fn items(text: &str) -> Found {
    let mut found = Vec::new();
    // The type whose body or methods these lines are: the indentation at which it ends, its name, whether a body.
    let mut open: Option<(usize, String, bool)> = None;
    for line in text.lines() {
        let content = line.trim_start();
        let indent = line.len() - content.len();
        if content.is_empty() || content.starts_with("//") || content.starts_with("#[") {
            continue;
        }
        if open.as_ref().is_some_and(|(outer, _, _)| indent <= *outer) {
            open = None;
        }
        let mut words =
            content.split(|c: char| !(c.is_alphanumeric() || c == '_')).filter(|word| !word.is_empty());
        let mut word = words.next().unwrap_or("");
        while ["pub", "unsafe", "extern", "C", "crate", "ghost"].contains(&word) {
            word = words.next().unwrap_or("");
        }
        let mut next = words.next().unwrap_or("");
        if word == "const" && next == "fn" {
            word = next;
            next = words.next().unwrap_or("");
        }
        match (word, &open) {
            ("fn" | "const" | "static" | "type" | "mod" | "trait", _) => {
                let owner = open.as_ref().filter(|(_, _, body)| !body).map(|(_, name, _)| name.clone());
                found.push((next.to_string(), owner));
            }
            ("struct" | "enum", _) => {
                found.push((next.to_string(), None));
                if content.ends_with('{') {
                    open = Some((indent, next.to_string(), true));
                }
            }
            ("impl", _) => {
                let head = content.trim_end_matches('{').trim_end();
                let name = head.rsplit(' ').next().unwrap_or("").split('<').next().unwrap_or("");
                open = Some((indent, name.to_string(), false));
            }
            (_, Some((outer, name, true))) if indent == outer + 4 && !word.is_empty() => {
                found.push((word.to_string(), Some(name.clone())));
            }
            _ => {}
        }
    }
    found
}

/// Of a file of C: functions, numbers by name, structs with their fields, enums with what they name.
fn declarations(text: &str) -> Found {
    let mut found = Vec::new();
    // The struct or the enum whose body these lines are.
    let mut open: Option<String> = None;
    for line in text.lines() {
        let content = line.trim_start();
        let in_name = |c: char| c.is_alphanumeric() || c == '_';
        let mut words = content.split(|c| !in_name(c)).filter(|word| !word.is_empty());
        if content.is_empty() || content.starts_with("/*") || line.starts_with(" *") {
            continue;
        }
        if let Some(owner) = &open {
            if line.starts_with('}') {
                open = None;
            } else if let Some(name) =
                content.split(['[', ';', ',']).next().and_then(|it| it.split(' ').last())
            {
                found.push((name.to_string(), Some(owner.clone())));
            }
        } else if line.starts_with("#define ") {
            found.extend(words.nth(1).map(|name| (name.to_string(), None)));
        } else if (line.starts_with("typedef struct ") || line.starts_with("enum ")) && line.ends_with('{') {
            open = words.last().map(str::to_string);
            found.extend(open.iter().map(|name| (name.clone(), None)));
        } else if let Some((before, _)) = content.split_once('(').filter(|_| line == content) {
            let name = before.rsplit(|c| !in_name(c)).next().unwrap_or("");
            found.push((name.to_string(), None));
        }
    }
    found
}

/// Of a script: its functions.
fn functions(text: &str) -> Found {
    let names = text.lines().filter_map(|line| line.split_once("() {"));
    names.map(|(name, _)| (name.trim().to_string(), None)).collect()
}
