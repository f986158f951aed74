//! The names that the repository declares.

use crate::tree::Tree;
use std::collections::{BTreeMap, BTreeSet, HashSet};

type Set = BTreeSet<String>;

pub struct Names {
    tree: Tree,
    all: HashSet<String>,
    /// The crates with what each lists, as crates.txt has them.
    pub crates: BTreeMap<String, Vec<String>>,
}

/// A file's name without folders and ending.
fn stem(path: &str) -> &str {
    let name = path.rsplit('/').next().unwrap_or(path);
    name.split('.').next().unwrap_or(name)
}

/// Definitions, records, fields, cases and laws: what stands before a colon
/// and a type, or behind `record`, `data` or `mod`.
fn logic_names(text: &str, names: &mut Set) {
    for line in text.lines() {
        let mut line = line.trim_start();
        let mut words = line.split_whitespace();
        while let Some(word @ ("pub" | "abbrev" | "unfoldable")) = words.next() {
            line = line[word.len()..].trim_start();
            words = line.split_whitespace();
        }
        let mut words = line.split_whitespace();
        match words.next() {
            None | Some("use" | "let" | "unfolding" | "module") => continue,
            Some("record" | "data" | "mod") => {
                let name = words.next().filter(|word| word.chars().all(is_letter));
                names.extend(name.map(str::to_string));
                continue;
            }
            Some(_) => (),
        }
        let before = line.split_once(" : ").map(|(before, _)| before);
        let Some(before) = before.or(line.strip_suffix(" :")) else {
            continue;
        };
        if before.chars().all(|c| c == ' ' || is_letter(c)) {
            names.extend(before.split_whitespace().map(str::to_string));
        }
    }
}

/// A letter of a name of the logic.
fn is_letter(c: char) -> bool {
    !c.is_whitespace() && !"(){}[],;|.:=\"".contains(c)
}

fn identifiers(line: &str) -> impl Iterator<Item = &str> {
    let parts = line.split(|c: char| !c.is_alphanumeric() && c != '_');
    parts.filter(|word| !word.is_empty())
}

/// What the code declares: what stands behind `fn`, `struct` and the like, and
/// the first word of each line of a struct or an enum.
fn code_names(text: &str, names: &mut Set) {
    let mut inside = false;
    for line in text.lines() {
        let code = line.trim();
        if code.starts_with("//") {
            continue;
        }
        let words: Vec<&str> = identifiers(code).collect();
        for pair in words.windows(2) {
            if matches!(pair[0], "fn" | "struct" | "enum" | "const" | "mod" | "type") {
                names.insert(pair[1].to_string());
            }
        }
        if inside {
            let first = words.iter().find(|word| **word != "pub");
            names.extend(first.map(|word| word.to_string()));
            inside = !code.starts_with('}');
        } else {
            let holds = words.contains(&"struct") || words.contains(&"enum");
            inside = holds && code.ends_with('{');
        }
    }
}

/// What a header of C offers: all of it begins with `hall_` or `HALL_`.
fn header_names(text: &str, names: &mut Set) {
    let offered = |word: &&str| word.to_lowercase().starts_with("hall_");
    let words = text.lines().flat_map(identifiers).filter(offered);
    names.extend(words.map(str::to_string));
}

/// The names that a file declares.
pub fn declared(path: &str, text: &str) -> Set {
    let mut names = Set::new();
    let homes = ["crates/", "include/", "tests/", "bench/"];
    if homes.iter().any(|home| path.starts_with(home)) {
        match path.rsplit('.').next() {
            Some("antt") => logic_names(text, &mut names),
            Some("rt" | "rs") => code_names(text, &mut names),
            Some("h") => header_names(text, &mut names),
            _ => (),
        }
    }
    names
}

impl Names {
    pub fn read(tree: &Tree) -> Names {
        let mut all = HashSet::new();
        for (path, file) in &tree.files {
            all.extend(file.names.iter().cloned());
            if path.ends_with(".antt") || path.ends_with(".edit") {
                all.insert(stem(path).to_string());
            }
        }
        let list = tree.text("crates.txt");
        let lines = list.lines().filter(|line| !line.starts_with('#'));
        let lines = lines.filter_map(|line| line.split_once(':'));
        // A library for C has the word `staticlib` after its name.
        let of_crate = |(head, below): (&str, &str)| {
            let name = head.split_whitespace().next().unwrap_or(head);
            let below = below.split_whitespace().map(str::to_string);
            (name.to_string(), below.collect())
        };
        Names {
            tree: tree.clone(),
            all,
            crates: lines.map(of_crate).collect(),
        }
    }

    pub fn has(&self, name: &str) -> bool {
        self.all.contains(name) || self.crates.contains_key(name)
    }

    /// Is a name declared in the code of a crate?
    pub fn in_code(&self, krate: &str, name: &str) -> bool {
        let folder = format!("crates/{krate}/src/");
        let files = self.tree.files.range(folder.clone()..);
        let mut files = files.take_while(|(path, _)| path.starts_with(&folder));
        files.any(|(_, file)| file.names.contains(name))
    }

    /// Is `parts` a file of a crate's specs/ or proofs/, perhaps with a name
    /// that it declares?
    pub fn in_logic(&self, krate: &str, parts: &[&str]) -> bool {
        let file = |folder: &str, parts: &[&str]| {
            let path = format!("crates/{krate}/{folder}/{}.antt", parts.join("/"));
            self.tree.files.get(&path)
        };
        let (name, modules) = parts.split_last().expect("split gives a part");
        ["specs", "proofs"].iter().any(|folder| {
            let declares = || file(folder, modules).is_some_and(|f| f.names.contains(*name));
            file(folder, parts).is_some() || declares()
        })
    }
}
