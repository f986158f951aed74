//! The files of a repository: those that git tracks or would track. Where
//! there is no git, all files outside the folders `.git` and `target`.

use crate::{names, traces};
use std::collections::{BTreeMap, BTreeSet};
use std::fs;
use std::io;
use std::path::Path;
use std::process::Command;
use std::rc::Rc;

/// A file, with what the checks ask of it alone.
pub struct File {
    pub bytes: Vec<u8>,
    /// The names that it declares.
    pub names: BTreeSet<String>,
    /// The lines with a path of a machine, and those of a build log.
    pub machines: Vec<usize>,
    pub logs: Vec<usize>,
}

#[derive(Clone)]
pub struct Tree {
    pub files: BTreeMap<String, Rc<File>>,
    folders: BTreeSet<String>,
}

/// What git lists below a folder, if it is a repository.
fn tracked(root: &Path) -> Option<Vec<String>> {
    if !root.join(".git").exists() {
        return None;
    }
    let mut git = Command::new("git");
    git.arg("-C").arg(root);
    git.args(["ls-files", "-z", "--cached", "--others"]);
    let output = git.arg("--exclude-standard").output().ok()?;
    let text = String::from_utf8(output.stdout).ok()?;
    let paths = text.split('\0').filter(|path| !path.is_empty());
    let paths: Vec<String> = paths.map(str::to_string).collect();
    (output.status.success() && !paths.is_empty()).then_some(paths)
}

/// All files below a folder; `inside` is its path from the root.
fn walked(folder: &Path, inside: &str, paths: &mut Vec<String>) -> io::Result<()> {
    for item in fs::read_dir(folder)? {
        let item = item?;
        let name = item.file_name().to_string_lossy().into_owned();
        let path = format!("{inside}{name}");
        if item.file_type()?.is_dir() {
            if name != ".git" && name != "target" {
                walked(&item.path(), &format!("{path}/"), paths)?;
            }
        } else {
            paths.push(path);
        }
    }
    Ok(())
}

/// Does a name fit a pattern in which `*` stands for any letters?
fn fits(name: &str, pattern: &str) -> bool {
    match pattern.split_once('*') {
        None => name == pattern,
        Some((before, after)) => name.strip_prefix(before).is_some_and(|rest| {
            (0..=rest.len()).any(|at| rest.get(at..).is_some_and(|rest| fits(rest, after)))
        }),
    }
}

impl File {
    fn new(path: &str, bytes: Vec<u8>) -> File {
        File {
            names: names::declared(path, &String::from_utf8_lossy(&bytes)),
            machines: traces::machines(&bytes),
            logs: traces::logs(&bytes),
            bytes,
        }
    }

    pub fn text(&self) -> String {
        String::from_utf8_lossy(&self.bytes).into_owned()
    }
}

impl Tree {
    pub fn read(root: &Path) -> io::Result<Tree> {
        let paths = match tracked(root) {
            Some(paths) => paths,
            None => {
                let mut paths = Vec::new();
                walked(root, "", &mut paths)?;
                paths
            }
        };
        let mut tree = Tree {
            files: BTreeMap::new(),
            folders: BTreeSet::new(),
        };
        for path in paths {
            tree.read_again(root, &path);
        }
        Ok(tree)
    }

    /// Reads one file again. One that was removed is no file, even if git
    /// still lists it.
    pub fn read_again(&mut self, root: &Path, path: &str) {
        match fs::read(root.join(path)) {
            Ok(bytes) => {
                let ends = path.match_indices('/').map(|(at, _)| at);
                self.folders.extend(ends.map(|at| path[..at].to_string()));
                let file = Rc::new(File::new(path, bytes));
                self.files.insert(path.to_string(), file);
            }
            Err(_) => drop(self.files.remove(path)),
        }
    }

    /// The text of a file, empty if there is none.
    pub fn text(&self, path: &str) -> String {
        self.files
            .get(path)
            .map_or(String::new(), |file| file.text())
    }

    /// Is there such a file or folder? In each part of the path `*` stands for
    /// any letters.
    pub fn has(&self, path: &str) -> bool {
        let path = path.strip_prefix("./").unwrap_or(path);
        let path = path.strip_suffix('/').unwrap_or(path);
        if !path.contains('*') {
            return self.files.contains_key(path) || self.folders.contains(path);
        }
        let parts: Vec<&str> = path.split('/').collect();
        let alike = |known: &String| {
            let known: Vec<&str> = known.split('/').collect();
            known.len() == parts.len() && known.iter().zip(&parts).all(|(k, p)| fits(k, p))
        };
        self.files.keys().any(alike) || self.folders.iter().any(alike)
    }
}
