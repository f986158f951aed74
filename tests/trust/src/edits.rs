//! Changes of files of a tree. A text to change that is not found is an error, so that nothing is
//! planted unseen.

use std::fs;
use std::path::Path;

/// A file, by its path from the root, and the text that it gets.
pub type Edit = (String, String);

/// Files to change, or why they cannot be changed.
pub type Edits = Result<Vec<Edit>, String>;

/// The text of a file.
pub fn read(root: &Path, path: &str) -> Result<String, String> {
    fs::read_to_string(root.join(path)).map_err(|why| format!("{path}: {why}"))
}

/// A tree whose files are to be changed.
#[derive(Clone, Copy)]
pub struct Texts<'a> {
    pub root: &'a Path,
}

impl Texts<'_> {
    /// A file with a text changed: the first such text from where a line begins with `start`. A
    /// text with letters, digits or `_` just before or after it is another one.
    pub fn replace(self, path: &str, start: &str, old: &str, new: &str) -> Edits {
        let text = format!("\n{}", read(self.root, path)?);
        let begin = text.find(&format!("\n{start}"));
        let begin = begin.ok_or(format!("{path} has no line that begins with '{start}'"))?;
        let is_whole = |at: &usize| {
            let (before, after) = (&text[..*at], &text[at + old.len()..]);
            let is_part = |c: char| c.is_alphanumeric() || c == '_';
            !before.ends_with(is_part) && !after.starts_with(is_part)
        };
        let mut places = text[begin..].match_indices(old).map(|(at, _)| begin + at);
        let at = places.find(is_whole);
        let at = at.ok_or(format!("{path} has no '{old}' from '{start}' on"))?;
        let changed = format!("{}{new}{}", &text[1..at], &text[at + old.len()..]);
        Ok(vec![(path.to_string(), changed)])
    }

    /// A file with more at its end.
    pub fn append(self, path: &str, more: &str) -> Edits {
        let text = read(self.root, path)?;
        Ok(vec![(path.to_string(), format!("{text}\n{more}"))])
    }

    /// A file with one more line, before the line of a number.
    pub fn insert(self, path: &str, number: usize, line: &str) -> Edits {
        let text = read(self.root, path)?;
        let mut lines: Vec<&str> = text.lines().collect();
        lines.insert(number - 1, line);
        Ok(vec![(path.to_string(), lines.join("\n"))])
    }

    /// A file without the lines from one number to another, and those lines.
    pub fn cut(self, path: &str, first: usize, last: usize) -> Result<(Edit, String), String> {
        let text = read(self.root, path)?;
        let lines: Vec<&str> = text.lines().collect();
        let rest = [&lines[..first - 1], &lines[last..]].concat();
        let part = &lines[first - 1..last];
        Ok(((path.to_string(), rest.join("\n")), part.join("\n")))
    }
}
