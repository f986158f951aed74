//! The numbers of the stored form: each stands in one file of the definitions and in one of the
//! code, and no other file has it as a literal.

use crate::text::{self, Token};
use std::collections::BTreeMap;

/// The files that say the numbers, of the definitions and of the code.
pub const DEFINED: &str = "crates/store/specs/Layout.antt";
const CODED: &str = "crates/store/src/layout.rt";

/// The file of the limits, from which the numbers are computed.
const LIMITS: &str = "crates/model/specs/Hall.antt";

/// A number up to this one has other meanings as well.
const SMALL: u64 = 128;

/// The types that a number of the code may end with.
const TYPES: [&str; 5] = ["usize", "u8", "u32", "u64", "i64"];

/// A file: its path from the root, and its text.
pub type File = (String, String);

/// The right side of an equation, with its parameter if it has one.
struct Equation {
    parameter: Option<String>,
    tokens: Vec<Token>,
}

/// The names of the layout with their values, and what cannot be computed.
pub struct Layout {
    pub values: BTreeMap<String, u64>,
    faults: Vec<String>,
}

impl Layout {
    /// Computes the numbers from the files that define them.
    pub fn of(files: &[File]) -> Self {
        let limits = equations(files, LIMITS);
        let defined = equations(files, DEFINED);
        let names: Vec<String> = defined.keys().cloned().collect();
        let mut all = limits;
        all.extend(defined);
        let mut layout = Layout {
            values: BTreeMap::new(),
            faults: Vec::new(),
        };
        if names.is_empty() {
            layout.faults.push(format!("{DEFINED}: has no number"));
        }
        for name in names.iter().filter(|name| all[*name].parameter.is_none()) {
            match of_name(name, &all) {
                Some(value) => {
                    layout.values.insert(name.clone(), value);
                }
                None => layout
                    .faults
                    .push(format!("{DEFINED}: `{name}` cannot be computed")),
            }
        }
        layout
    }

    /// The name of a number of the layout that means nothing else.
    fn name(&self, number: u64) -> Option<&str> {
        let mut names = self.values.iter().filter(|(_, value)| **value == number);
        let (name, _) = names.next()?;
        (number > SMALL).then_some(name)
    }

    /// The literals of other files that are numbers of the layout.
    pub fn faults(&self, files: &[File]) -> Vec<String> {
        let mut faults = self.faults.clone();
        for (path, content) in files.iter().filter(|(path, _)| !is_source(path)) {
            for token in text::tokens(&text::lines(content, comment(path))) {
                if let Some(name) = number(&token.text).and_then(|number| self.name(number)) {
                    let (line, literal) = (token.line, &token.text);
                    faults.push(format!("{path}:{line}: {literal} is `{name}` of {DEFINED}"));
                }
            }
        }
        faults
    }
}

fn is_source(path: &str) -> bool {
    path == DEFINED || path == CODED
}

fn comment(path: &str) -> &'static str {
    if path.ends_with(".rt") {
        "//"
    } else {
        "--"
    }
}

/// The number that a token is.
fn number(text: &str) -> Option<u64> {
    let bare = TYPES.iter().find_map(|name| text.strip_suffix(name));
    let digits: String = bare.unwrap_or(text).replace('_', "");
    digits.parse().ok()
}

/// The equations of a file, by the name that each defines.
fn equations(files: &[File], path: &str) -> BTreeMap<String, Equation> {
    let mut all = BTreeMap::new();
    let found = files.iter().find(|(name, _)| name == path);
    let content = found.map_or("", |(_, content)| content.as_str());
    for line in text::lines(content, comment(path)) {
        let mut left = line.tokens;
        let Some(at) = left.iter().position(|token| token.text == "=") else {
            continue;
        };
        let tokens = left.split_off(at + 1);
        let parameter = (at == 2).then(|| left[1].text.clone());
        all.insert(left[0].text.clone(), Equation { parameter, tokens });
    }
    all
}

fn of_name(name: &str, all: &BTreeMap<String, Equation>) -> Option<u64> {
    let equation = all.get(name)?;
    Sum {
        all,
        tokens: &equation.tokens,
        bound: None,
    }
    .whole()
}

/// Sums and products of numbers and names, read from the left.
struct Sum<'a> {
    all: &'a BTreeMap<String, Equation>,
    tokens: &'a [Token],
    bound: Option<(&'a str, u64)>,
}

impl Sum<'_> {
    fn whole(mut self) -> Option<u64> {
        let value = self.sum()?;
        self.tokens.is_empty().then_some(value)
    }

    fn sum(&mut self) -> Option<u64> {
        let mut value = self.product()?;
        while self.takes("+") {
            value += self.product()?;
        }
        Some(value)
    }

    fn product(&mut self) -> Option<u64> {
        let mut value = self.atom()?;
        while self.takes("*") {
            value *= self.atom()?;
        }
        Some(value)
    }

    fn atom(&mut self) -> Option<u64> {
        if self.takes("(") {
            let value = self.sum()?;
            return self.takes(")").then_some(value);
        }
        let (first, rest) = self.tokens.split_first()?;
        self.tokens = rest;
        let name = first.text.as_str();
        if let Some(value) = number(name) {
            return Some(value);
        }
        if let Some((bound, value)) = self.bound {
            if bound == name {
                return Some(value);
            }
        }
        let equation = self.all.get(name)?;
        let Some(parameter) = &equation.parameter else {
            return of_name(name, self.all);
        };
        let value = self.atom()?;
        Sum {
            all: self.all,
            tokens: &equation.tokens,
            bound: Some((parameter, value)),
        }
        .whole()
    }

    fn takes(&mut self, text: &str) -> bool {
        match self.tokens.split_first() {
            Some((first, rest)) if first.text == text => {
                self.tokens = rest;
                true
            }
            _ => false,
        }
    }
}
