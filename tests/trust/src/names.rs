//! The free names of a declaration: those that are bound neither by a parameter, a pattern, a `λ`
//! or a `let`, nor by the declaration's own `where`. Projections (`x.field`) are no names here: the
//! record is named by some signature on the way to x, and so is reached without them.

use crate::antt::{Clause, Declaration, Kind};
use crate::text::{after_group, is_close, is_open, Token};

/// What the file says of a name: is it a constructor, and so no variable where it stands in a
/// pattern?
pub trait Constructors {
    fn is_constructor(&self, name: &str) -> bool;
}

/// A walk over tokens that knows which names are bound where it stands, and collects the others.
pub struct Walk<'a> {
    constructors: &'a dyn Constructors,
    bound: Vec<String>,
    free: Vec<Token>,
}

/// The free names of a whole declaration.
pub fn of_declaration(declaration: &Declaration, constructors: &dyn Constructors) -> Vec<Token> {
    let mut walk = Walk::new(constructors, Vec::new());
    walk.declaration(declaration);
    walk.free
}

/// The free names of what a declaration states: its modules' parameters and its type.
pub fn of_statement(declaration: &Declaration, constructors: &dyn Constructors) -> Vec<Token> {
    let mut walk = Walk::new(constructors, Vec::new());
    walk.expression(&declaration.parameters);
    walk.expression(&declaration.signature);
    walk.free
}

/// The free names of an expression with some variables.
pub fn of_expression(
    tokens: &[Token],
    variables: Vec<String>,
    constructors: &dyn Constructors,
) -> Vec<Token> {
    let mut walk = Walk::new(constructors, variables);
    walk.expression(tokens);
    walk.free
}

/// A bracket that is open: where the names bound in it begin, the variables that it binds for what
/// follows it, and the `let`s in it whose `in` has not come.
struct Bracket {
    begin: usize,
    binds: Vec<String>,
    lets: Vec<Vec<String>>,
    /// A `λ`'s variables, up to its dot.
    lambda: bool,
    /// Names at its start, or after `;`, that are followed by `=` are labels: `record { a = x; b =
    /// y }`, `{A = ℕ}`.
    labels: bool,
}

impl<'a> Walk<'a> {
    fn new(constructors: &'a dyn Constructors, bound: Vec<String>) -> Self {
        Walk {
            constructors,
            bound,
            free: Vec::new(),
        }
    }

    fn declaration(&mut self, declaration: &Declaration) {
        let outside = self.bound.len();
        self.expression(&declaration.parameters);
        let inside = self.bound.len();
        self.expression(&declaration.signature);
        if declaration.kind == Kind::Record || declaration.kind == Kind::Data {
            self.members(declaration);
        }
        self.bound.truncate(inside);
        for clause in &declaration.clauses {
            self.clause(clause, &declaration.name);
        }
        self.bound.truncate(outside);
    }

    /// Fields and constructors. A record's later fields may speak of the earlier ones.
    fn members(&mut self, declaration: &Declaration) {
        for member in &declaration.members {
            let begin = self.bound.len();
            self.expression(&member.signature);
            self.bound.truncate(begin);
            if declaration.kind == Kind::Record {
                self.bound.push(member.name.clone());
            }
        }
    }

    fn clause(&mut self, clause: &Clause, name: &str) {
        let begin = self.bound.len();
        self.pattern(&clause.left, Some(name));
        for local in &clause.locals {
            self.bound.push(local.name.clone());
        }
        let inside = self.bound.len();
        self.expression(&clause.right);
        self.bound.truncate(inside);
        for local in &clause.locals {
            self.declaration(local);
        }
        self.bound.truncate(begin);
    }

    /// Binds a pattern's variables and collects its constructors. `function` is the name that a
    /// clause defines.
    fn pattern(&mut self, tokens: &[Token], function: Option<&str>) {
        for (at, token) in tokens.iter().enumerate() {
            let text = token.text.as_str();
            let is_label = tokens.get(at + 1).is_some_and(|next| next.text == "=");
            let is_function = function.is_some_and(|name| is_part_of(text, name));
            if is_sign(text) || is_label || is_function {
                continue;
            }
            if self.constructors.is_constructor(text) || text.contains('.') {
                self.free.push(token.clone());
            } else {
                self.bound.push(text.to_string());
            }
        }
    }

    /// Collects an expression's names. What it binds outside of its brackets stays bound after it,
    /// as the parameters of a module do for what stands in the module.
    fn expression(&mut self, tokens: &[Token]) {
        let mut open = vec![Bracket::new(self.bound.len(), false)];
        let mut at = 0;
        while at < tokens.len() {
            at = self.step(tokens, at, &mut open);
        }
    }

    /// Takes the token at a place, or some tokens from there, and gives the place after them.
    fn step(&mut self, tokens: &[Token], at: usize, open: &mut Vec<Bracket>) -> usize {
        let text = tokens[at].text.as_str();
        if is_open(text) {
            return self.open(tokens, at, open);
        }
        if is_close(text) {
            self.close(open);
            return at + 1;
        }
        let Some(bracket) = open.last_mut() else {
            return at + 1;
        };
        match text {
            "λ" => bracket.lambda = true,
            "." => bracket.lambda = false,
            "let" => {
                let end = after_let(tokens, at);
                bracket.lets.push(self.let_names(&tokens[at + 1..end]));
                return end;
            }
            "in" => self.bound.extend(bracket.lets.pop().unwrap_or_default()),
            "," | ";" => {
                self.bound.truncate(bracket.begin);
                return at + 1 + label_length(bracket.labels, tokens, at + 1);
            }
            "|" => {
                self.bound.truncate(bracket.begin);
                return self.branch(tokens, at + 1);
            }
            _ if is_sign(text) || text.starts_with('.') || is_number(text) => {}
            _ if bracket.lambda => self.bound.push(text.to_string()),
            _ if self.is_bound(text) => {}
            _ => self.free.push(tokens[at].clone()),
        }
        at + 1
    }

    /// Is it a variable, or a projection of one?
    fn is_bound(&self, text: &str) -> bool {
        let (variable, _) = text.split_once('.').unwrap_or((text, ""));
        self.bound.iter().any(|name| name == variable)
    }

    /// The variables of a `let`: a name, or those of `(x, y)`.
    fn let_names(&mut self, tokens: &[Token]) -> Vec<String> {
        let begin = self.bound.len();
        self.pattern(tokens, None);
        self.bound.split_off(begin)
    }

    /// An opening bracket: of typed variables, of the branches of an `elim`, of labelled parts, or
    /// of an expression.
    fn open(&mut self, tokens: &[Token], at: usize, open: &mut Vec<Bracket>) -> usize {
        let in_lambda = open.last().is_some_and(|bracket| bracket.lambda);
        if tokens[at].text == "[" {
            open.push(Bracket::new(self.bound.len(), false));
            return self.branch(tokens, at + 1);
        }
        let names = typed_variables(tokens, at + 1);
        if names > 0 && (in_lambda || is_telescope(tokens, at)) {
            let mut bracket = Bracket::new(self.bound.len(), false);
            bracket.binds = texts(&tokens[at + 1..at + 1 + names]);
            open.push(bracket);
            return at + 2 + names;
        }
        if in_lambda {
            let end = after_group(tokens, at);
            self.pattern(&tokens[at..end], None);
            return end;
        }
        let labels = tokens[at].text == "{";
        open.push(Bracket::new(self.bound.len(), labels));
        at + 1 + label_length(labels, tokens, at + 1)
    }

    fn close(&mut self, open: &mut Vec<Bracket>) {
        if let Some(bracket) = open.pop() {
            self.bound.truncate(bracket.begin);
            self.bound.extend(bracket.binds);
        }
    }

    /// The pattern of a branch, up to its `↦`; nothing where no branch begins.
    fn branch(&mut self, tokens: &[Token], at: usize) -> usize {
        let stop = |token: &Token| token.text == "↦" || token.text == "|" || token.text == "]";
        let length = tokens[at..].iter().position(stop).unwrap_or(0);
        if tokens
            .get(at + length)
            .is_none_or(|token| token.text != "↦")
        {
            return at;
        }
        self.pattern(&tokens[at..at + length], None);
        at + length + 1
    }
}

impl Bracket {
    fn new(begin: usize, labels: bool) -> Self {
        Bracket {
            begin,
            binds: Vec::new(),
            lets: Vec::new(),
            lambda: false,
            labels,
        }
    }
}

/// How many variables stand before a `:` from a place on: `(x y : A)` has two, an expression none.
fn typed_variables(tokens: &[Token], at: usize) -> usize {
    let is_name = |token: &Token| token.text == "_" || !is_sign(&token.text);
    let length = tokens[at..]
        .iter()
        .take_while(|token| is_name(token))
        .count();
    let colon = tokens
        .get(at + length)
        .is_some_and(|token| token.text == ":");
    if colon {
        length
    } else {
        0
    }
}

/// Do the brackets from a place on stand before `→`, `×`, `:`, `=` or the end, as those of
/// parameters do? Other brackets with a `:` hold an expression and its type.
fn is_telescope(tokens: &[Token], at: usize) -> bool {
    let mut end = at;
    while tokens.get(end).is_some_and(|token| is_open(&token.text)) {
        end = after_group(tokens, end);
    }
    let follows = tokens.get(end).map(|token| token.text.as_str());
    matches!(follows, None | Some("→" | "×" | ":" | "="))
}

/// 2 where a label and its `=` stand, 0 elsewhere.
fn label_length(labels: bool, tokens: &[Token], at: usize) -> usize {
    let is_label = labels && tokens.get(at + 1).is_some_and(|token| token.text == "=");
    if is_label {
        2
    } else {
        0
    }
}

/// The place after what a `let` binds: a name, or `(x, y)`. The variables of `(x : A)` are bound as
/// elsewhere.
fn after_let(tokens: &[Token], at: usize) -> usize {
    match tokens.get(at + 1) {
        Some(_) if typed_variables(tokens, at + 2) > 0 => at + 1,
        Some(token) if is_open(&token.text) => after_group(tokens, at + 1),
        Some(_) => at + 2,
        None => at + 1,
    }
}

fn texts(tokens: &[Token]) -> Vec<String> {
    tokens.iter().map(|token| token.text.clone()).collect()
}

/// Is a token the name, or a part of it that stands between its arguments, as `⨾` of `◌⨾◌`?
fn is_part_of(token: &str, name: &str) -> bool {
    token == name || name.contains('◌') && name.split('◌').any(|part| part == token)
}

/// Signs and words of the language that are no names.
fn is_sign(text: &str) -> bool {
    is_open(text)
        || is_close(text)
        || matches!(
            text,
            "," | ";"
                | ":"
                | "="
                | "→"
                | "↦"
                | "|"
                | "."
                | "_"
                | "λ"
                | "let"
                | "in"
                | "record"
                | "elim"
                | "as"
        )
}

fn is_number(text: &str) -> bool {
    text.chars().all(|c| c.is_ascii_digit())
}
