//! Holds README.md and docs/ to the tree: every path, name, statement and must-fail edit that they cite exists.
//!
//! docs         checks itself and then the documents of the repository in the current folder
//! docs edits   prints the table of edits of docs/PROMISES.md from the tree, with what the table says refuses each

mod check;
mod document;
mod self_test;
mod tree;

use std::fs;
use std::io;
use std::path::Path;
use std::process::ExitCode;

use document::{blocks, Kind};
use tree::{Files, Tree};

fn main() -> ExitCode {
    let mut files = Files::new();
    if let Err(error) = collect(Path::new("."), "", &mut files) {
        eprintln!("docs: {error}");
        return ExitCode::FAILURE;
    }
    let tree = Tree::new(files);
    let words: Vec<String> = std::env::args().skip(1).collect();
    match words.iter().map(String::as_str).collect::<Vec<_>>()[..] {
        [] => {}
        ["edits"] => {
            print_edits(&tree);
            return ExitCode::SUCCESS;
        }
        _ => {
            eprintln!("usage: docs [edits]");
            return ExitCode::FAILURE;
        }
    }
    let mut report = self_test::run();
    let documents = check::check(&tree);
    report.passed += documents.passed;
    report.faults.extend(documents.faults);
    for fault in &report.faults {
        println!("{fault}");
    }
    println!("{} passed, {} failed", report.passed, report.faults.len());
    if report.faults.is_empty() {
        ExitCode::SUCCESS
    } else {
        ExitCode::FAILURE
    }
}

/// Every text file but those of git and of builds.
fn collect(folder: &Path, prefix: &str, files: &mut Files) -> io::Result<()> {
    for entry in fs::read_dir(folder)? {
        let entry = entry?;
        let name = entry.file_name().to_string_lossy().into_owned();
        let path = format!("{prefix}{name}");
        if entry.file_type()?.is_dir() {
            let is_made = path.starts_with("crates/") && path.ends_with("/out");
            if name != ".git" && name != "target" && !is_made {
                collect(&entry.path(), &format!("{path}/"), files)?;
            }
        } else {
            let bytes = fs::read(entry.path())?;
            files.insert(path, String::from_utf8_lossy(&bytes).into_owned());
        }
    }
    Ok(())
}

fn print_edits(tree: &Tree) {
    let promises = tree.files.get("docs/PROMISES.md").map_or("", |text| text);
    let rows: Vec<Vec<String>> = blocks(promises)
        .into_iter()
        .filter_map(|block| match block.kind {
            Kind::Row { head, cells } if head[0] == "edit" => Some(cells),
            _ => None,
        })
        .collect();
    println!("| edit | what it breaks | refused by |\n|---|---|---|");
    for edit in &tree.edits {
        let name = format!("{}: {}", edit.in_crate, edit.name);
        let row = rows.iter().find(|cells| cells[0] == name);
        let refused_by = row.and_then(|cells| cells.last()).map_or("", |cell| cell);
        println!("| {name} | {} | {refused_by} |", edit.breaks);
    }
}
