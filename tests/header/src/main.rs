//! Holds include/gelwynnar.h to the Rattle source: its functions, structs, lengths and registers are those of the proved
//! library. Nothing else ties the two, since the prover does not read C.
//!
//! header              checks itself and then the header of the repository in the current folder
//! header assertions   prints a C file that compiles where a compiler finds what the source has in the header

mod assertions;
mod check;
mod header;
mod self_test;
mod source;
mod words;

use std::collections::BTreeMap;
use std::fs;
use std::io;
use std::path::Path;
use std::process::ExitCode;

use check::{check, Report, HEADER};
use header::Header;
use source::Source;

/// The path of the header and of every Rattle source, from the root of the repository, with its text.
pub type Files = BTreeMap<String, String>;

fn main() -> ExitCode {
    let mut files = Files::new();
    if let Err(error) = collect(Path::new("."), "", &mut files) {
        eprintln!("header: {error}");
        return ExitCode::FAILURE;
    }
    let words: Vec<String> = std::env::args().skip(1).collect();
    match words.iter().map(String::as_str).collect::<Vec<_>>()[..] {
        [] => {}
        ["assertions"] => return print_assertions(&files),
        _ => {
            eprintln!("usage: header [assertions]");
            return ExitCode::FAILURE;
        }
    }
    let mut report = self_test::run();
    let header = report_of(&files);
    let is_right = header.faults.is_empty();
    report.add(header);
    if is_right {
        report.add(self_test::each_word_is_held(&files));
    }
    for fault in &report.faults {
        println!("{fault}");
    }
    println!("{} passed, {} failed", report.passed, report.faults.len());
    if report.faults.is_empty() {
        ExitCode::SUCCESS
    } else {
        ExitCode::FAILURE
    }
}

fn print_assertions(files: &Files) -> ExitCode {
    match read(files).and_then(|(header, source)| assertions::assertions(&header, &source)) {
        Ok(text) => {
            print!("{text}");
            ExitCode::SUCCESS
        }
        Err(fault) => {
            eprintln!("header: {fault}");
            ExitCode::FAILURE
        }
    }
}

/// What the check says of these files.
fn report_of(files: &Files) -> Report {
    match read(files) {
        Ok((header, source)) => check(&header, &source).0,
        Err(fault) => Report { passed: 0, faults: vec![fault] },
    }
}

/// The header and the source of these files, or why they cannot be read.
fn read(files: &Files) -> Result<(Header, Source), String> {
    let text = files.get(HEADER).ok_or_else(|| format!("{HEADER} is not there"))?;
    let header = Header::new(text).map_err(|(line, fault)| format!("{HEADER}:{line}: {fault}"))?;
    Ok((header, Source::new(files)?))
}

fn collect(folder: &Path, prefix: &str, files: &mut Files) -> io::Result<()> {
    for entry in fs::read_dir(folder)? {
        let entry = entry?;
        let path = format!("{prefix}{}", entry.file_name().to_string_lossy());
        if entry.file_type()?.is_dir() {
            // What rt makes of a crate is no source.
            let is_made = path.starts_with("crates/") && path.ends_with("/out");
            if ["include", "crates"].contains(&path.as_str()) || !prefix.is_empty() && !is_made {
                collect(&entry.path(), &format!("{path}/"), files)?;
            }
        } else if path == HEADER || path.ends_with(".rt") {
            files.insert(path, fs::read_to_string(entry.path())?);
        }
    }
    Ok(())
}
