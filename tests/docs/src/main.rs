//! Checks README.md and docs/ against the repository, and all files for traces
//! of a machine. Then plants one of each fault in a copy: it must be reported.
//!
//!     docs ROOT COPY
//!
//! ROOT is the repository, COPY an empty folder. The last line is 'N passed,
//! M failed'.

mod checks;
mod faults;
mod names;
mod page;
mod traces;
mod tree;

use checks::{Seen, CHECKS};
use faults::{Change, Fault};
use std::collections::BTreeSet;
use std::env;
use std::fs;
use std::io;
use std::path::{Path, PathBuf};
use std::process::ExitCode;
use tree::Tree;

/// Every report of every check, as check and report.
type Reports = BTreeSet<(&'static str, String)>;

fn reports(seen: &Seen) -> Reports {
    let of_check = |(name, check): &(&'static str, checks::Check)| {
        let name = *name;
        check(seen).into_iter().map(move |report| (name, report))
    };
    CHECKS.iter().flat_map(of_check).collect()
}

/// The file with the fault in it, or none if it is taken away. A text that
/// stands nowhere is an error.
fn changed(fault: &Fault, text: &str) -> Result<Option<String>, String> {
    let (old, new) = match &fault.change {
        Change::Gone => return Ok(None),
        Change::Behind(old, more) => (*old, format!("{old}{more}")),
        Change::Instead(old, new) => (*old, new.to_string()),
    };
    if !text.contains(old) {
        return Err(format!("{} has no {old:?} to plant at", fault.file));
    }
    Ok(Some(text.replacen(old, &new, 1)))
}

/// The copy, and what the checks report of it.
struct Copy {
    root: PathBuf,
    tree: Tree,
    reports: Reports,
}

impl Copy {
    fn new(tree: &Tree, root: &Path) -> io::Result<Copy> {
        for (path, file) in &tree.files {
            let copy = root.join(path);
            fs::create_dir_all(copy.parent().expect("a file in a folder"))?;
            fs::write(copy, &file.bytes)?;
        }
        let tree = Tree::read(root)?;
        Ok(Copy {
            root: root.to_path_buf(),
            reports: reports(&Seen::new(tree.clone())),
            tree,
        })
    }

    /// Plants a fault, looks whether it is reported, and takes it out.
    fn try_fault(&self, fault: &Fault) -> Result<(), String> {
        let Some(file) = self.tree.files.get(fault.file) else {
            return Err(format!("there is no {} to plant in", fault.file));
        };
        let place = self.root.join(fault.file);
        let planted = match changed(fault, &file.text())? {
            Some(text) => fs::write(&place, text),
            None => fs::remove_file(&place),
        };
        planted.map_err(|error| format!("{}: {error}", fault.file))?;
        let mut tree = self.tree.clone();
        tree.read_again(&self.root, fault.file);
        let after = reports(&Seen::new(tree));
        fs::write(&place, &file.bytes).map_err(|error| format!("{}: {error}", fault.file))?;
        let mut new = after.difference(&self.reports);
        let told = |report: &str| report.contains(fault.report);
        if new.any(|(check, report)| *check == fault.check && told(report)) {
            Ok(())
        } else {
            Err(format!("not reported by the check of {}", fault.check))
        }
    }
}

fn run(root: &Path, to: &Path) -> io::Result<(usize, usize)> {
    let (mut passed, mut failed) = (0, 0);
    let seen = Seen::new(Tree::read(root)?);
    let found = reports(&seen);
    for (name, _) in CHECKS {
        let of_check: Vec<_> = found.iter().filter(|(check, _)| *check == name).collect();
        for (_, report) in &of_check {
            println!("{report}");
        }
        if of_check.is_empty() {
            passed += 1;
        } else {
            println!("failed: {name}");
            failed += 1;
        }
    }
    let copy = Copy::new(&seen.tree, to)?;
    if copy.reports != found {
        println!("failed: the copy differs from the repository");
        failed += 1;
    }
    for fault in faults::all() {
        match copy.try_fault(&fault) {
            Ok(()) => passed += 1,
            Err(why) => {
                println!("failed: planted {}: {why}", fault.name);
                failed += 1;
            }
        }
    }
    Ok((passed, failed))
}

fn main() -> ExitCode {
    let folders: Vec<PathBuf> = env::args_os().skip(1).map(PathBuf::from).collect();
    let [root, copy] = folders.as_slice() else {
        println!("usage: docs ROOT COPY");
        println!("0 passed, 1 failed");
        return ExitCode::FAILURE;
    };
    let (passed, failed) = run(root, copy).unwrap_or_else(|error| {
        println!("{error}");
        (0, 1)
    });
    println!("{passed} passed, {failed} failed");
    if failed == 0 {
        ExitCode::SUCCESS
    } else {
        ExitCode::FAILURE
    }
}
