//! docs/trust.md, read as far as its lists: the calls, the inner functions, the theorems and the
//! files.
//!
//!     ## The calls            rows: | crate `function`, `Type::method` | .. |
//!     ## Inner functions      bullets: - crate `function`, `function`: reason
//!     ## The theorems         rows: | `name`, `name` | `crates/NAME/proofs/File.antt` | .. |
//!     ## The files            bullets: - `crates/NAME/specs`: File, File
//!
//! A bullet may go on over indented lines. Other text in a section is for the reader.

use std::collections::BTreeSet;
use std::fmt;

/// Where the page stands.
pub const PATH: &str = "docs/trust.md";

const CALLS: &str = "## The calls";
const INNER: &str = "## Inner functions";
const THEOREMS: &str = "## The theorems";
const FILES: &str = "## The files";

/// A function that the page lists.
#[derive(Debug)]
pub struct Listed {
    pub crate_name: String,
    pub name: String,
}

impl fmt::Display for Listed {
    fn fmt(&self, out: &mut fmt::Formatter) -> fmt::Result {
        write!(out, "{}::{}", self.crate_name, self.name)
    }
}

#[derive(Debug)]
pub struct Theorem {
    pub name: String,
    pub path: String,
}

#[derive(Default, Debug)]
pub struct Page {
    pub calls: Vec<Listed>,
    pub inner: Vec<Listed>,
    pub theorems: Vec<Theorem>,
    pub files: BTreeSet<String>,
    /// What could not be read.
    pub faults: Vec<String>,
}

pub fn read(text: &str) -> Page {
    let mut faults = Vec::new();
    let mut page = Page {
        calls: entries(rows(&section(text, CALLS, &mut faults)), calls, &mut faults),
        inner: entries(
            bullets(&section(text, INNER, &mut faults)),
            inner,
            &mut faults,
        ),
        theorems: entries(
            rows(&section(text, THEOREMS, &mut faults)),
            theorems,
            &mut faults,
        ),
        files: entries(
            bullets(&section(text, FILES, &mut faults)),
            files,
            &mut faults,
        ),
        faults,
    };
    page.note_empty(page.calls.is_empty(), CALLS);
    page.note_empty(page.theorems.is_empty(), THEOREMS);
    page
}

impl Page {
    /// Is a function listed, as a call or as an inner one?
    pub fn lists(&self, crate_name: &str, name: &str) -> bool {
        let mut all = self.calls.iter().chain(&self.inner);
        all.any(|listed| listed.crate_name == crate_name && listed.name == name)
    }

    /// Is a name of a file listed as a theorem?
    pub fn states(&self, name: &str, path: &str) -> bool {
        let is_it = |theorem: &Theorem| theorem.name == name && theorem.path == path;
        self.theorems.iter().any(is_it)
    }

    fn note_empty(&mut self, is_empty: bool, heading: &str) {
        if is_empty {
            self.faults
                .push(format!("{PATH}: '{heading}' lists nothing"));
        }
    }
}

/// The lines of a section, up to the next one. A section that is not there is a fault.
fn section<'a>(text: &'a str, heading: &str, faults: &mut Vec<String>) -> Vec<&'a str> {
    let mut lines = text.lines().skip_while(|line| line.trim_end() != heading);
    if lines.next().is_none() {
        faults.push(format!("{PATH}: has no section '{heading}'"));
    }
    lines.take_while(|line| !line.starts_with("## ")).collect()
}

/// What lines list. A line of another form is a fault.
fn entries<T, All: FromIterator<T>>(
    lines: Vec<String>,
    read: impl Fn(&str) -> Option<Vec<T>>,
    faults: &mut Vec<String>,
) -> All {
    let mut all = Vec::new();
    for line in lines {
        match read(&line) {
            Some(entries) => all.extend(entries),
            None => faults.push(format!("{PATH}: cannot be read: {line}")),
        }
    }
    all.into_iter().collect()
}

/// The rows of the tables, heads left out, each without its outer bars.
fn rows(lines: &[&str]) -> Vec<String> {
    let mut rows = Vec::new();
    let mut in_body = false;
    for line in lines {
        match line.trim().strip_prefix('|') {
            None => in_body = false,
            Some(row) if row.trim_start().starts_with(['-', ':']) => in_body = true,
            Some(row) if in_body => rows.push(row.trim_end_matches('|').to_string()),
            Some(_) => {}
        }
    }
    rows
}

/// The bullets, each as one line without its dash.
fn bullets(lines: &[&str]) -> Vec<String> {
    let mut bullets: Vec<String> = Vec::new();
    let mut is_open = false;
    for line in lines {
        if let Some(bullet) = line.strip_prefix("- ") {
            bullets.push(bullet.trim().to_string());
            is_open = true;
        } else if is_open && line.starts_with(' ') {
            if let Some(bullet) = bullets.last_mut() {
                bullet.push(' ');
                bullet.push_str(line.trim());
            }
        } else {
            is_open = false;
        }
    }
    bullets
}

/// A row of calls: "runfile `write`, `Reader::next` | what they promise".
fn calls(row: &str) -> Option<Vec<Listed>> {
    functions(row.split('|').next()?.trim())
}

/// A bullet of inner functions: "step `step_hall`: reason".
fn inner(bullet: &str) -> Option<Vec<Listed>> {
    functions(before_reason(bullet))
}

/// A crate and its functions: "runfile `write`, `Reader::next`".
fn functions(text: &str) -> Option<Vec<Listed>> {
    let (crate_name, names) = text.split_once(' ')?;
    let is_letter = |c: char| c.is_ascii_alphanumeric() || c == '_';
    if !crate_name.chars().all(is_letter) {
        return None;
    }
    let list = |name| Listed {
        crate_name: crate_name.to_string(),
        name,
    };
    Some(quoted(names)?.into_iter().map(list).collect())
}

/// A bullet up to the colon that ends its names; the colons of `Type::method` stand in backticks.
fn before_reason(bullet: &str) -> &str {
    let mut is_quoted = false;
    for (at, c) in bullet.char_indices() {
        match c {
            '`' => is_quoted = !is_quoted,
            ':' if !is_quoted => return &bullet[..at],
            _ => {}
        }
    }
    bullet
}

/// A row of theorems: their names, and their file.
fn theorems(row: &str) -> Option<Vec<Theorem>> {
    let mut cells = row.split('|');
    let names = quoted(cells.next()?)?;
    let path = one(quoted(cells.next()?)?)?;
    let theorem = |name| Theorem {
        name,
        path: path.clone(),
    };
    Some(names.into_iter().map(theorem).collect())
}

/// A bullet of files: "`crates/model/specs`: Actions, Agreed".
fn files(bullet: &str) -> Option<Vec<String>> {
    let (folder, names) = bullet.split_once(':')?;
    let folder = one(quoted(folder)?)?;
    let file = |name: &str| {
        let name = name.trim();
        let is_plain = !name.is_empty() && name.chars().all(char::is_alphanumeric);
        is_plain.then(|| format!("{folder}/{name}.antt"))
    };
    names
        .trim()
        .trim_end_matches('.')
        .split(',')
        .map(file)
        .collect()
}

/// Words in backticks with commas between them, and nothing else.
fn quoted(text: &str) -> Option<Vec<String>> {
    let unquote = |word: &str| {
        let inner = word.trim().strip_prefix('`')?.strip_suffix('`')?;
        (!inner.is_empty() && !inner.contains('`')).then(|| inner.to_string())
    };
    text.split(',').map(unquote).collect()
}

fn one(words: Vec<String>) -> Option<String> {
    let mut words = words.into_iter();
    let word = words.next();
    word.filter(|_| words.next().is_none())
}
