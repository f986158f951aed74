//! What a reader has to believe, by name: docs/trust.md beside the files of the tree.
//!
//!     trust ROOT                    # tests the tree at ROOT
//!     trust --print ROOT            # docs/trust.md's list of files as it should be, and counts
//!     trust --names ROOT            # every name of the closure, and what cites it
//!     trust --planted ROOT FOLDER   # plants faults in a copy of the tree, made in FOLDER
//!
//! The closure begins with the contracts of the calls and the statements of the theorems that
//! docs/trust.md lists, and goes on through every definition that is named. The last line is 'N
//! passed, M failed', but for `--print` and `--names`.

mod antt;
mod checks;
mod closure;
mod code;
mod edits;
mod layout;
mod names;
mod page;
mod planted;
mod text;
mod tree;
mod trial;

use checks::{read, Report, Trust};
use std::collections::BTreeMap;
use std::env;
use std::path::Path;
use std::process::ExitCode;

fn main() -> ExitCode {
    let arguments: Vec<String> = env::args().skip(1).collect();
    let words: Vec<&str> = arguments.iter().map(String::as_str).collect();
    match words.as_slice() {
        ["--print", root] => {
            print_files(Path::new(root));
            ExitCode::SUCCESS
        }
        ["--names", root] => {
            print_names(Path::new(root));
            ExitCode::SUCCESS
        }
        ["--planted", root, folder] => {
            finish(&planted::try_all(Path::new(root), Path::new(folder)))
        }
        [root] if !root.starts_with('-') => finish(&read(Path::new(root)).check()),
        _ => {
            eprintln!("usage: trust [--print | --names] ROOT, or trust --planted ROOT FOLDER");
            ExitCode::FAILURE
        }
    }
}

/// Prints a report, and the count as the last line.
fn finish(report: &Report) -> ExitCode {
    for line in &report.passed {
        println!("ok: {line}");
    }
    for line in &report.failed {
        println!("fail: {line}");
    }
    let (passed, failed) = (report.passed.len(), report.failed.len());
    println!("{passed} passed, {failed} failed");
    if report.failed.is_empty() {
        ExitCode::SUCCESS
    } else {
        ExitCode::FAILURE
    }
}

/// The longest line of the printed list.
const WIDTH: usize = 120;

/// Prints the closure's files as bullets, and counts.
fn print_files(root: &Path) {
    let trust = read(root);
    let files = trust.files();
    let mut folders: BTreeMap<&str, Vec<&str>> = BTreeMap::new();
    for path in &files {
        if let Some((folder, name)) = path.rsplit_once('/') {
            folders
                .entry(folder)
                .or_default()
                .push(name.trim_end_matches(".antt"));
        }
    }
    for (folder, names) in &folders {
        print_bullet(&format!("- `{folder}`: {}", names.join(", ")));
    }
    print_counts(&trust, files.len());
}

fn print_counts(trust: &Trust, files: usize) {
    let libraries: Vec<&str> = trust.closure.libraries.iter().map(String::as_str).collect();
    let definitions = trust.definitions();
    let lengths = definitions.iter().map(|(_, declared)| declared.length);
    let lines: usize = lengths.sum();
    let count = definitions.len();
    println!();
    println!("{count} definitions, {lines} lines of definitions, {files} files");
    println!("of the toolchain's libraries: {}", libraries.join(", "));
}

/// Prints each name that is reached, and the first that was found to cite it.
fn print_names(root: &Path) {
    let trust = read(root);
    for (place, citer) in &trust.closure.reached {
        if let Some((_, declared)) = trust.tree.declaration(place) {
            println!(
                "{}:{}: {}, cited by {} of {}",
                place.path, declared.line, declared.name, citer.name, citer.path
            );
        }
    }
}

/// Prints a bullet on lines that are not too long.
fn print_bullet(text: &str) {
    let mut line = String::new();
    for word in text.split(' ') {
        if !line.is_empty() && line.chars().count() + 1 + word.chars().count() > WIDTH {
            println!("{line}");
            line = " ".to_string();
        }
        if !line.is_empty() {
            line.push(' ');
        }
        line.push_str(word);
    }
    println!("{line}");
}
