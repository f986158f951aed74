//! A file of code (.rt), read as far as its functions' contracts and the names that its `ghost use`
//! lines bring in.

use crate::antt::{read_import, Import};
use crate::text::{after_group, is_close, is_open, lines, tokens, Line, Token};
use std::collections::HashMap;

/// A clause of a contract: `requires { .. }`, or `ensures NAME { .. }`.
#[derive(Debug)]
pub struct Promise {
    pub is_requires: bool,
    pub line: usize,
    pub tokens: Vec<Token>,
}

#[derive(Debug)]
pub struct Function {
    /// `write` for a function, `Reader::next` for a method.
    pub name: String,
    pub public: bool,
    pub line: usize,
    pub parameters: Vec<String>,
    pub contract: Vec<Promise>,
}

impl Function {
    /// The first and the last line of its contract.
    pub fn contract_lines(&self) -> Option<(usize, usize)> {
        let first = self.contract.first()?.line;
        let last = self.contract.last()?.tokens.last()?.line;
        Some((first, last))
    }
}

#[derive(Debug)]
pub struct Code {
    pub imports: Vec<Import>,
    pub functions: Vec<Function>,
    /// The lines of `pub use`, which make public what stands elsewhere.
    pub exports: Vec<usize>,
}

pub fn read(text: &str) -> Code {
    let lines = lines(text, "//");
    let all = tokens(&lines);
    Code {
        imports: imports(&all),
        functions: functions(&all, &owners(&lines)),
        exports: pairs(&all, "pub", "use").map(|at| all[at].line).collect(),
    }
}

/// The places where one token stands just before another.
fn pairs<'a>(
    all: &'a [Token],
    first: &'a str,
    second: &'a str,
) -> impl Iterator<Item = usize> + 'a {
    let places = 0..all.len().saturating_sub(1);
    places.filter(move |&at| all[at].text == first && all[at + 1].text == second)
}

fn imports(all: &[Token]) -> Vec<Import> {
    pairs(all, "ghost", "use")
        .map(|at| {
            let rest = &all[at + 2..];
            let end = rest.iter().position(|token| token.text == ";");
            read_import(&rest[..end.unwrap_or(rest.len())])
        })
        .collect()
}

/// The lines inside an `impl`, each with the type that it is for.
fn owners(lines: &[Line]) -> HashMap<usize, String> {
    let mut owners = HashMap::new();
    let mut owner = None;
    for line in lines {
        if line.indent == 0 {
            owner = owner_of(&line.tokens);
        }
        if let Some(name) = &owner {
            owners.insert(line.number, name.clone());
        }
    }
    owners
}

/// `Reader` of `impl<'a> Reader<'a> {` and of `impl Trait for Reader {`; none for other lines.
fn owner_of(tokens: &[Token]) -> Option<String> {
    let words: Vec<&str> = tokens.iter().map(|token| token.text.as_str()).collect();
    let line = without_generics(&words.join(" "));
    let mut names = line.split_whitespace();
    if names.next() != Some("impl") {
        return None;
    }
    let name = line
        .split_whitespace()
        .skip_while(|&word| word != "for")
        .nth(1);
    name.or_else(|| names.next()).map(str::to_string)
}

/// A text without what stands in `<` and `>`.
fn without_generics(text: &str) -> String {
    let mut depth = 0;
    let mut kept = String::new();
    for c in text.chars() {
        match c {
            '<' => depth += 1,
            '>' => depth -= 1,
            _ if depth == 0 => kept.push(c),
            _ => {}
        }
    }
    kept
}

fn functions(all: &[Token], owners: &HashMap<usize, String>) -> Vec<Function> {
    let is_function = |at: usize| all[at].text == "fn" && all.get(at + 1).is_some_and(is_name);
    (0..all.len())
        .filter(|&at| is_function(at))
        .map(|at| {
            let mut function = read_function(&all[at + 1..], is_public(&all[..at]));
            if let Some(owner) = owners.get(&function.line) {
                if let Some(promise) = given(&all[..at], &function.name) {
                    function.public = true;
                    function.contract.push(promise);
                }
                function.name = format!("{owner}::{}", function.name);
            }
            function
        })
        .collect()
}

/// What a method of a trait of the library promises in an `impl`: `ghost NAME_gives = { .. };` before it. It is as public as the
/// type.
fn given(before: &[Token], name: &str) -> Option<Promise> {
    let member = format!("{name}_gives");
    let is_item = |at: usize| {
        let starts = at == 0 || matches!(before[at - 1].text.as_str(), "}" | ";" | "]");
        starts && without_generics(&before[at].text) == "impl"
    };
    let start = (0..before.len()).rev().find(|&at| is_item(at))?;
    let inside = &before[start..];
    let at = pairs(inside, "ghost", &member).next()?;
    let open = at + inside[at..].iter().position(|token| token.text == "{")?;
    Some(Promise {
        is_requires: false,
        line: inside[at].line,
        tokens: inside[open..after_group(inside, open)].to_vec(),
    })
}

fn is_name(token: &Token) -> bool {
    !is_open(&token.text) && !is_close(&token.text)
}

/// Is a function public, by the words before `fn`? One for C is, and one that is `pub(crate)` is
/// not.
fn is_public(before: &[Token]) -> bool {
    for token in before.iter().rev() {
        match token.text.as_str() {
            "pub" | "extern" => return true,
            "\"C\"" | "unsafe" | "const" | "ghost" => {}
            _ => return false,
        }
    }
    false
}

/// Reads a function from its name on.
fn read_function(tokens: &[Token], public: bool) -> Function {
    let open = tokens
        .iter()
        .position(|token| token.text == "(")
        .unwrap_or(tokens.len());
    let end = after_group(tokens, open);
    let name: Vec<&str> = tokens[..open]
        .iter()
        .map(|token| token.text.as_str())
        .collect();
    Function {
        name: without_generics(&name.join(" ")),
        public,
        line: tokens[0].line,
        parameters: parameters(&tokens[open..end]),
        contract: read_contract(&tokens[end..]),
    }
}

/// The names that a clause may use: `b` of a parameter `b: &[u8]`, `self` and `result`.
fn parameters(tokens: &[Token]) -> Vec<String> {
    let named = tokens
        .iter()
        .filter_map(|token| token.text.strip_suffix(':'));
    let all = named.chain(["self", "result"]);
    all.map(str::to_string).collect()
}

/// The clauses between the parameters and the body.
fn read_contract(tokens: &[Token]) -> Vec<Promise> {
    let mut contract = Vec::new();
    let mut at = 0;
    while at < tokens.len() && tokens[at].text != "{" && tokens[at].text != ";" {
        at = match tokens[at].text.as_str() {
            word @ ("requires" | "ensures") => {
                let length = tokens[at..].iter().position(|token| token.text == "{");
                let open = length.map_or(tokens.len(), |length| at + length);
                let end = after_group(tokens, open);
                contract.push(Promise {
                    is_requires: word == "requires",
                    line: tokens[at].line,
                    tokens: tokens[open..end].to_vec(),
                });
                end
            }
            "(" | "[" => after_group(tokens, at),
            _ => at + 1,
        };
    }
    contract
}
