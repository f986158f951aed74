//! The checks. Each gives its reports, none if all is well.
//!
//! In backticks stand
//! - a path from the root of the repository: what has a slash or one of
//!   `ENDINGS`. `*` stands for any letters of a part. What is built has one of
//!   two forms, `target/bin/CRATE` and `target/staticlib/libCRATE.a`;
//! - `crate.File.name`, a name that crates/crate/specs/File.antt or
//!   crates/crate/proofs/File.antt declares, or `crate.File` alone;
//! - `crate::name`, a name that the code of a crate declares;
//! - any other single word: a name that crates/, include/, tests/ or bench/
//!   declare, a file of the logic or an edit, a crate, or a word of words.txt;
//! - several words: those with a slash are paths, and a word that is called,
//!   or has `_` or `::`, is a name.
//!
//! Outside backticks a word that begins with one of `HOMES` is a path too.

use crate::names::Names;
use crate::page::{Block, Page};
use crate::tree::{File, Tree};
use std::collections::{BTreeMap, BTreeSet};

/// All that the checks read.
pub struct Seen {
    pub tree: Tree,
    names: Names,
    pages: Vec<Page>,
    /// The words that no file declares, each with its reason.
    words: BTreeMap<String, String>,
}

pub type Check = fn(&Seen) -> Vec<String>;

pub const CHECKS: [(&str, Check); 8] = [
    ("paths", paths),
    ("names", names),
    ("backticks", backticks),
    ("links", links),
    ("words", words),
    ("layers", layers),
    ("machines", machines),
    ("logs", logs),
];

const ENDINGS: [&str; 15] = [
    ".antt", ".rt", ".edit", ".md", ".txt", ".rs", ".toml", ".lock", ".c", ".h", ".a", ".run",
    ".in", ".out", ".listing",
];

const HOMES: [&str; 8] = [
    ".ci/",
    "bench/",
    "crates/",
    "docs/",
    "examples/",
    "include/",
    "target/",
    "tests/",
];

/// The pages that speak of the past.
const PAST: [&str; 4] = [
    "docs/changes.md",
    "docs/PORT.md",
    "docs/DESIGN-PASS.md",
    "docs/LOOK-BACK.md",
];

/// The pages that are read: all but those that speak of the past.
fn is_page(path: &str) -> bool {
    let in_docs = path.starts_with("docs/") && path.ends_with(".md");
    path == "README.md" || in_docs && !PAST.contains(&path)
}

impl Seen {
    pub fn new(tree: Tree) -> Seen {
        let names = Names::read(&tree);
        let paths = tree.files.keys().filter(|path| is_page(path));
        let pages = paths.map(|path| Page::read(path, &tree.text(path)));
        let pages = pages.collect();
        let list = tree.text("tests/docs/words.txt");
        let lines = list
            .lines()
            .filter(|line| !line.starts_with('#') && !line.is_empty());
        let word = |line: &str| {
            let (word, reason) = line.split_once(' ').unwrap_or((line, ""));
            (word.to_string(), reason.trim().to_string())
        };
        let words = lines.map(word).collect();
        Seen {
            tree,
            names,
            pages,
            words,
        }
    }

    fn has_path(&self, path: &str) -> bool {
        let built = path.strip_prefix("target/").map(|built| {
            let program = built.strip_prefix("bin/");
            let library = built.strip_prefix("staticlib/lib");
            program.or(library.and_then(|name| name.strip_suffix(".a")))
        });
        match built {
            Some(Some(name)) => self.names.crates.contains_key(name),
            Some(None) => false,
            None => self.tree.has(path),
        }
    }

    fn has_name(&self, word: &str) -> bool {
        if self.words.contains_key(word) {
            return true;
        }
        let (word, _) = word.split_once('(').unwrap_or((word, ""));
        if word.contains("::") {
            let parts: Vec<&str> = word.split("::").collect();
            return if self.names.crates.contains_key(parts[0]) {
                parts[1..]
                    .iter()
                    .all(|part| self.names.in_code(parts[0], part))
            } else {
                parts.iter().all(|part| self.names.has(part))
            };
        }
        if let Some((krate, parts)) = self.in_logic(word) {
            return self.names.in_logic(krate, &parts);
        }
        self.names.has(word)
    }

    /// The crate and the parts of `crate.File.name`.
    fn in_logic<'a>(&self, word: &'a str) -> Option<(&'a str, Vec<&'a str>)> {
        let (krate, rest) = word.split_once('.')?;
        let is_file = rest.starts_with(|c: char| c.is_uppercase());
        let known = self.names.crates.contains_key(krate);
        (known && is_file && !word.contains('/')).then(|| (krate, rest.split('.').collect()))
    }

    fn is_path(&self, word: &str) -> bool {
        if self.words.contains_key(word) || self.in_logic(word).is_some() {
            return false;
        }
        let slash = word.contains('/') && word.len() > 1;
        slash || ENDINGS.iter().any(|ending| word.ends_with(ending))
    }
}

/// The words in backticks, each with its line, and whether it stands alone.
fn spanned(page: &Page) -> impl Iterator<Item = (usize, &str, bool)> {
    page.spans.iter().flat_map(|span| {
        let alone = span.text.split_whitespace().count() == 1;
        let words = span.text.split_whitespace();
        words.map(move |word| (span.line, word, alone))
    })
}

fn paths(seen: &Seen) -> Vec<String> {
    let mut reports = Vec::new();
    for page in &seen.pages {
        let spanned = spanned(page).map(|(line, word, _)| (line, word));
        let spanned = spanned.filter(|(_, word)| seen.is_path(word));
        let bare = page.words.iter().map(|word| {
            let text = word.text.trim_start_matches(|c| "<(\"'|".contains(c));
            (
                word.line,
                text.trim_end_matches(|c| ".,:;)\"'|".contains(c)),
            )
        });
        let bare = bare.filter(|(_, word)| HOMES.iter().any(|home| word.starts_with(home)));
        for (line, word) in spanned.chain(bare) {
            if !seen.has_path(word) {
                reports.push(format!("{}:{line}: {word}: no such file", page.path));
            }
        }
    }
    reports
}

/// What is surely a name in a word of several, as `lookup` in `q.lookup(p)`.
fn called(word: &str) -> Option<&str> {
    let name = word.split(['(', ')', ',', ';']).next()?;
    let name = name.rsplit('.').next()?;
    let sure = word.contains('(') || name.contains('_') || name.contains("::");
    (sure && name.starts_with(|c: char| c.is_alphabetic())).then_some(name)
}

fn names(seen: &Seen) -> Vec<String> {
    let mut reports = Vec::new();
    for page in &seen.pages {
        for (line, word, alone) in spanned(page) {
            let asked = if alone { Some(word) } else { called(word) };
            let asked = asked.filter(|word| !seen.is_path(word));
            let wrong = asked.filter(|word| !seen.has_name(word));
            reports.extend(wrong.map(|word| format!("{}:{line}: {word}: no such name", page.path)));
        }
    }
    reports
}

fn backticks(seen: &Seen) -> Vec<String> {
    let lines = |page: &Page| {
        let path = page.path.clone();
        let lines = page.unclosed.clone().into_iter();
        lines.map(move |line| format!("{path}:{line}: a backtick that is not closed"))
    };
    seen.pages.iter().flat_map(lines).collect()
}

/// A link goes to a file or folder, seen from the page, or to a heading.
fn links(seen: &Seen) -> Vec<String> {
    let mut reports = Vec::new();
    for page in &seen.pages {
        let folder = page.path.rsplit_once('/').map_or("", |(folder, _)| folder);
        for link in &page.links {
            if link.text.starts_with("https://") {
                continue;
            }
            let (file, heading) = link.text.split_once('#').unwrap_or((&link.text, ""));
            let mut parts: Vec<&str> = folder.split('/').filter(|part| !part.is_empty()).collect();
            for part in file.split('/') {
                match part {
                    "" | "." => (),
                    ".." => drop(parts.pop()),
                    _ => parts.push(part),
                }
            }
            let path = if file.is_empty() {
                page.path.clone()
            } else {
                parts.join("/")
            };
            let known = seen.tree.has(&path);
            let target = seen.pages.iter().find(|page| page.path == path);
            let heading = heading.is_empty()
                || target.is_some_and(|page| page.anchors.iter().any(|anchor| anchor == heading));
            if !known || !heading {
                reports.push(format!(
                    "{}:{}: {}: leads nowhere",
                    page.path, link.line, link.text
                ));
            }
        }
    }
    reports
}

/// The list of words is short: each has a reason, is used and is not declared.
fn words(seen: &Seen) -> Vec<String> {
    let used: BTreeSet<&str> = seen
        .pages
        .iter()
        .flat_map(spanned)
        .map(|(_, word, _)| word)
        .collect();
    let mut reports = Vec::new();
    for (word, reason) in &seen.words {
        let mut report = |what: &str| reports.push(format!("tests/docs/words.txt: {word}: {what}"));
        if reason.is_empty() {
            report("no reason");
        }
        if !used.contains(word.as_str()) {
            report("no page uses it");
        }
        if seen.names.has(word) {
            report("declared, so that the list need not have it");
        }
    }
    reports
}

type Edges = BTreeMap<String, BTreeSet<String>>;

/// The edges of crates.txt without those that others imply.
fn reduced(crates: &BTreeMap<String, Vec<String>>) -> Edges {
    fn reaches(crates: &BTreeMap<String, Vec<String>>, from: &str, to: &str) -> bool {
        let below = crates.get(from).into_iter().flatten();
        below
            .into_iter()
            .any(|next| next == to || reaches(crates, next, to))
    }
    let direct = |name: &String, below: &Vec<String>| {
        let own = below.iter().filter(|other| crates.contains_key(*other));
        let implied = |other: &&String| below.iter().any(|next| reaches(crates, next, other));
        let own = own.filter(|other| !implied(other)).cloned();
        (name.clone(), own.collect())
    };
    crates
        .iter()
        .map(|(name, below)| direct(name, below))
        .collect()
}

/// How many crates stand below one another under a crate, with itself.
fn height(edges: &Edges, name: &str) -> usize {
    let below = edges.get(name).into_iter().flatten();
    1 + below.map(|other| height(edges, other)).max().unwrap_or(0)
}

/// The crates that a picture shows: `12 a: b c  d: e` on each line, the layer
/// first.
fn drawn(block: &Block) -> (Edges, BTreeMap<String, usize>) {
    let mut edges = Edges::new();
    let mut layers = BTreeMap::new();
    for line in block.text.lines() {
        let mut words = line.split_whitespace();
        let layer = words.next().and_then(|word| word.parse().ok());
        let mut name = String::new();
        for word in words {
            if let Some(word) = word.strip_suffix(':') {
                name = word.to_string();
                edges.entry(name.clone()).or_default();
                layers.insert(name.clone(), layer.unwrap_or(0));
            } else {
                edges
                    .entry(name.clone())
                    .or_default()
                    .insert(word.to_string());
            }
        }
    }
    (edges, layers)
}

/// The picture of docs/architecture.md, a block marked `layers`, is that of
/// crates.txt.
fn layers(seen: &Seen) -> Vec<String> {
    let blocks = seen.pages.iter().flat_map(|page| &page.blocks);
    let mut pictures = blocks.filter(|block| block.info == "layers");
    let Some(block) = pictures.next() else {
        return vec!["docs/architecture.md: no picture of the layers".to_string()];
    };
    let wanted = reduced(&seen.names.crates);
    let (edges, layers) = drawn(block);
    let mut reports = Vec::new();
    let place = format!("docs/architecture.md:{}", block.line);
    let crates: BTreeSet<&String> = wanted.keys().chain(edges.keys()).collect();
    for name in crates {
        match (wanted.get(name), edges.get(name)) {
            (Some(wanted), Some(shown)) if wanted != shown => {
                reports.push(format!("{place}: {name} stands on {wanted:?}"));
            }
            (Some(_), Some(_)) if layers[name] != height(&wanted, name) => {
                let height = height(&wanted, name);
                reports.push(format!("{place}: {name} is in layer {height}"));
            }
            (Some(_), None) => reports.push(format!("{place}: {name} is missing")),
            (None, _) => reports.push(format!("{place}: {name} is no crate")),
            _ => (),
        }
    }
    reports
}

/// One report for each line of each file that has such a trace.
fn traced(seen: &Seen, what: &str, lines: fn(&File) -> &[usize]) -> Vec<String> {
    let files = seen.tree.files.iter();
    let reports = files.flat_map(|(path, file)| {
        let lines = lines(file).iter();
        lines.map(move |line| format!("{path}:{line}: {what}"))
    });
    reports.collect()
}

fn machines(seen: &Seen) -> Vec<String> {
    traced(seen, "a path of a machine", |file| &file.machines)
}

fn logs(seen: &Seen) -> Vec<String> {
    traced(seen, "a line of a build log", |file| &file.logs)
}
