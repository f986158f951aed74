//! A copy of the tree in which things are planted, one after another, and what the program reports
//! of each.

use crate::edits::{read, Edits};
use crate::page;
use std::collections::BTreeSet;
use std::fs;
use std::path::Path;
use std::process::Command;

/// Something to plant.
pub struct Plant {
    pub name: &'static str,
    pub edits: Edits,
    /// What one new fault must say, all of it; nothing for what is fine.
    pub wanted: Vec<String>,
}

impl Plant {
    pub fn fault(name: &'static str, edits: Edits, wanted: &[&str]) -> Self {
        let wanted = wanted.iter().map(|words| words.to_string()).collect();
        Plant {
            name,
            edits,
            wanted,
        }
    }

    pub fn fine(name: &'static str, edits: Edits) -> Self {
        Plant {
            name,
            edits,
            wanted: Vec::new(),
        }
    }

    pub fn is_fault(&self) -> bool {
        !self.wanted.is_empty()
    }
}

/// The copy, and the faults that are reported of it as it is.
pub struct Trial<'a> {
    root: &'a Path,
    before: BTreeSet<String>,
}

impl<'a> Trial<'a> {
    /// Makes the copy in a folder. The program must report the same of the copy as of the tree.
    pub fn new(tree: &Path, root: &'a Path) -> Result<Self, String> {
        copy_tree(tree, root)?;
        let before = faults(root)?;
        if before != faults(tree)? {
            return Err("the copy is not reported on as the tree is".to_string());
        }
        Ok(Trial { root, before })
    }

    /// Plants one thing, looks at what is reported, and takes it out again.
    pub fn try_one(&self, plant: &Plant) -> Result<(), String> {
        let edits = plant.edits.as_ref();
        let edits = edits.map_err(|why| format!("could not be planted: {why}"))?;
        let old: Vec<_> = edits
            .iter()
            .map(|(path, _)| (path, read(self.root, path)))
            .collect();
        for (path, text) in edits {
            write(self.root, path, text)?;
        }
        let after = faults(self.root);
        for (path, text) in old {
            match text {
                Ok(text) => write(self.root, path, &text)?,
                Err(_) => remove(self.root, path)?,
            }
        }
        self.judge(&after?, plant)
    }

    /// A fault is reported in a line that says all that is wanted; what is fine in none.
    fn judge(&self, after: &BTreeSet<String>, plant: &Plant) -> Result<(), String> {
        let mut new = after.difference(&self.before);
        if !plant.is_fault() {
            return new
                .next()
                .map_or(Ok(()), |fault| Err(format!("was reported: {fault}")));
        }
        let says_all = |fault: &String| plant.wanted.iter().all(|words| fault.contains(words));
        if new.any(says_all) {
            return Ok(());
        }
        Err(format!("was not reported: {}", plant.wanted.join(" .. ")))
    }
}

/// Runs the program on a tree and gives the faults that it prints. Its count and its exit status
/// must fit them.
fn faults(root: &Path) -> Result<BTreeSet<String>, String> {
    let program = std::env::current_exe().map_err(|why| why.to_string())?;
    let output = Command::new(program)
        .arg(root)
        .output()
        .map_err(|why| why.to_string())?;
    let text = String::from_utf8_lossy(&output.stdout);
    let found: Vec<&str> = text
        .lines()
        .filter_map(|line| line.strip_prefix("fail: "))
        .collect();
    let count = format!(" passed, {} failed", found.len());
    let is_counted = text
        .lines()
        .last()
        .is_some_and(|line| line.ends_with(&count));
    if !is_counted || output.status.success() != found.is_empty() {
        return Err("the report's count or exit status does not fit its lines".to_string());
    }
    Ok(found.into_iter().map(str::to_string).collect())
}

/// Copies what the program reads: the page, and the code, definitions and proofs of each crate.
fn copy_tree(tree: &Path, root: &Path) -> Result<(), String> {
    copy(tree, root, page::PATH)?;
    for name in entries(&tree.join("crates"))? {
        for part in ["src", "specs", "proofs"] {
            let path = format!("crates/{name}/{part}");
            if tree.join(&path).is_dir() {
                copy(tree, root, &path)?;
            }
        }
    }
    Ok(())
}

/// Copies a file, or a folder with all in it.
fn copy(tree: &Path, root: &Path, path: &str) -> Result<(), String> {
    if !tree.join(path).is_dir() {
        return write(root, path, &read(tree, path)?);
    }
    for name in entries(&tree.join(path))? {
        copy(tree, root, &format!("{path}/{name}"))?;
    }
    Ok(())
}

fn entries(folder: &Path) -> Result<Vec<String>, String> {
    let list = fs::read_dir(folder).map_err(|why| format!("{}: {why}", folder.display()))?;
    let names = list
        .flatten()
        .map(|entry| entry.file_name().to_string_lossy().into_owned());
    Ok(names.collect())
}

fn write(root: &Path, path: &str, text: &str) -> Result<(), String> {
    let file = root.join(path);
    let folder = file.parent().unwrap_or(root);
    let written = fs::create_dir_all(folder).and_then(|()| fs::write(&file, text));
    written.map_err(|why| format!("{path}: {why}"))
}

fn remove(root: &Path, path: &str) -> Result<(), String> {
    fs::remove_file(root.join(path)).map_err(|why| format!("{path}: {why}"))
}
