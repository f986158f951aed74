//! A file of definitions, laws and proofs (.antt), read as far as its declarations: what each is
//! called, what kind of declaration it is, and the tokens of its parts. The layout gives the parts:
//! a line that is not indented further than the block it stands in begins a new item.

use crate::text::{find_outside, is_close, is_open, lines, tokens, Line, Token};

#[derive(Clone, Copy, Debug, PartialEq)]
pub enum Kind {
    /// A name marked `abbrev` or `unfoldable`.
    Function,
    Record,
    Data,
    /// Every other name.
    Law,
}

impl Kind {
    pub fn is_definition(self) -> bool {
        self != Kind::Law
    }
}

/// A field of a record or a constructor of a data type.
#[derive(Clone, Debug)]
pub struct Member {
    pub name: String,
    pub signature: Vec<Token>,
}

/// One equation of a function, with what its `where` declares.
#[derive(Clone, Debug)]
pub struct Clause {
    pub left: Vec<Token>,
    pub right: Vec<Token>,
    pub locals: Vec<Declaration>,
}

#[derive(Clone, Debug)]
pub struct Declaration {
    pub name: String,
    pub kind: Kind,
    /// The number of its first line, and how many lines it has: comments, blank lines and
    /// `unfolding` do not count.
    pub line: usize,
    pub length: usize,
    /// The number of its last line.
    pub end: usize,
    /// The parameters of the modules that it stands in.
    pub parameters: Vec<Token>,
    /// Its type; of a record or data type the parameters too.
    pub signature: Vec<Token>,
    pub members: Vec<Member>,
    pub clauses: Vec<Clause>,
}

/// `use PATH.{NAME, NAME as LOCAL}`, `use PATH as ALIAS`, or `use PATH`.
#[derive(Clone, Debug)]
pub struct Import {
    pub path: String,
    pub names: Vec<Imported>,
    pub alias: Option<String>,
}

#[derive(Clone, Debug)]
pub struct Imported {
    pub name: String,
    pub local: String,
}

#[derive(Default, Debug)]
pub struct Module {
    pub imports: Vec<Import>,
    pub declarations: Vec<Declaration>,
}

/// Reads a file's text.
pub fn read(text: &str) -> Result<Module, String> {
    let mut module = Module::default();
    read_block(&lines(text, "--"), &[], &mut module)?;
    Ok(module)
}

/// An item of a block: its lines and tokens, and how many marks it begins with.
struct Item<'a> {
    lines: &'a [Line],
    tokens: Vec<Token>,
    marks: usize,
}

impl<'a> Item<'a> {
    fn new(lines: &'a [Line]) -> Self {
        let tokens = tokens(lines);
        let is_mark =
            |token: &&Token| matches!(token.text.as_str(), "pub" | "abbrev" | "unfoldable");
        let marks = tokens.iter().take_while(is_mark).count();
        Item {
            lines,
            tokens,
            marks,
        }
    }

    /// Its tokens after the marks.
    fn rest(&self) -> &[Token] {
        &self.tokens[self.marks..]
    }

    fn word(&self) -> &str {
        self.rest().first().map_or("", |token| token.text.as_str())
    }

    fn kind(&self) -> Kind {
        let marks = &self.tokens[..self.marks];
        if marks.iter().any(|mark| mark.text != "pub") {
            Kind::Function
        } else {
            Kind::Law
        }
    }

    fn end(&self) -> usize {
        self.lines.last().map_or(0, |line| line.number)
    }

    /// The declaration of a name, as far as its head tells.
    fn declares(
        &self,
        name: &Token,
        kind: Kind,
        parameters: &[Token],
        signature: &[Token],
    ) -> Declaration {
        Declaration {
            name: name.text.clone(),
            kind,
            line: name.line,
            length: self.lines.len(),
            end: self.end(),
            parameters: parameters.to_vec(),
            signature: signature.to_vec(),
            members: Vec::new(),
            clauses: Vec::new(),
        }
    }

    fn cannot_be_read(&self) -> String {
        format!("line {} cannot be read", self.lines[0].number)
    }

    /// A head up to a `where` at a line's end, without marks and `where`, and the block after it.
    fn split_at_where(&self) -> (Vec<Token>, &'a [Line]) {
        let is_last = |line: &Line| {
            line.tokens
                .last()
                .is_some_and(|token| token.text == "where")
        };
        let Some(at) = self.lines.iter().position(is_last) else {
            return (self.rest().to_vec(), &[]);
        };
        let head = tokens(&self.lines[..=at]);
        let head = &head[self.marks..head.len() - 1];
        (head.to_vec(), &self.lines[at + 1..])
    }
}

/// The items of a block: each begins with a line of the block's own indentation. A bracket that
/// closes there ends the item before it.
fn items(block: &[Line]) -> Vec<Item<'_>> {
    let Some(first) = block.first() else {
        return Vec::new();
    };
    let goes_on = |line: &Line| line.indent > first.indent || is_close(&line.tokens[0].text);
    let lines = block.chunk_by(|_, next| goes_on(next));
    lines.map(Item::new).collect()
}

/// Reads the items of a block: the file, a module's body, or the declarations after a `where`.
fn read_block(block: &[Line], parameters: &[Token], module: &mut Module) -> Result<(), String> {
    // The declaration that the clauses of this block belong to.
    let mut current = None;
    for item in items(block) {
        match item.word() {
            "use" => module.imports.push(read_import(&item.rest()[1..])),
            "mod" | "unfolding" | "infix" | "infixl" | "infixr" => {}
            "module" => read_module(&item, parameters, module)?,
            "record" => read_type(&item, Kind::Record, parameters, module)?,
            "data" => read_type(&item, Kind::Data, parameters, module)?,
            _ => match signature_names(item.rest()) {
                Some(names) => {
                    current = Some(module.declarations.len());
                    read_signature(&item, names, parameters, module);
                }
                None => {
                    let at: usize = current.ok_or_else(|| item.cannot_be_read())?;
                    read_clause(&item, &mut module.declarations[at])?;
                }
            },
        }
    }
    Ok(())
}

/// How many names a signature declares: all tokens before its `:`, with no `=` or bracket among
/// them. None if it is no signature.
fn signature_names(item: &[Token]) -> Option<usize> {
    let ends = |token: &Token| matches!(token.text.as_str(), ":" | "=") || is_open(&token.text);
    let end = item.iter().position(ends)?;
    (item[end].text == ":" && end > 0).then_some(end)
}

fn read_signature(item: &Item, names: usize, parameters: &[Token], module: &mut Module) {
    let (names, rest) = item.rest().split_at(names);
    for name in names {
        let declaration = item.declares(name, item.kind(), parameters, &rest[1..]);
        module.declarations.push(declaration);
    }
}

/// A clause: its two sides, and the block after a line that is `where` alone.
fn read_clause(item: &Item, declaration: &mut Declaration) -> Result<(), String> {
    let is_where = |line: &Line| line.tokens.len() == 1 && line.tokens[0].text == "where";
    let stop = item.lines.iter().position(is_where);
    let (equation, block) = match stop {
        Some(stop) => (&item.lines[..stop], &item.lines[stop + 1..]),
        None => (item.lines, &[][..]),
    };
    let all = tokens(equation);
    let equals = find_outside(&all, "=").unwrap_or(all.len());
    let mut inner = Module::default();
    read_block(block, &[], &mut inner)?;
    declaration.clauses.push(Clause {
        left: all[..equals].to_vec(),
        right: all.get(equals + 1..).unwrap_or(&[]).to_vec(),
        locals: inner.declarations,
    });
    declaration.length += item.lines.len();
    declaration.end = item.end();
    Ok(())
}

/// `module _ (x : A) where` and its block, whose declarations have its parameters too.
fn read_module(item: &Item, parameters: &[Token], module: &mut Module) -> Result<(), String> {
    let (head, block) = item.split_at_where();
    let own = head.get(2..).unwrap_or(&[]);
    read_block(block, &[parameters, own].concat(), module)
}

/// `record NAME PARAMETERS : TYPE where` and its fields, or a data type and its constructors.
fn read_type(
    item: &Item,
    kind: Kind,
    parameters: &[Token],
    module: &mut Module,
) -> Result<(), String> {
    let (head, block) = item.split_at_where();
    let name = head.get(1).ok_or_else(|| item.cannot_be_read())?;
    let mut declaration = item.declares(name, kind, parameters, &head[2..]);
    for part in items(block) {
        let names = signature_names(part.rest()).ok_or_else(|| part.cannot_be_read())?;
        let (names, rest) = part.rest().split_at(names);
        declaration.members.extend(names.iter().map(|name| Member {
            name: name.text.clone(),
            signature: rest[1..].to_vec(),
        }));
    }
    module.declarations.push(declaration);
    Ok(())
}

/// The tokens of a `use` after that word.
pub fn read_import(tokens: &[Token]) -> Import {
    let path = tokens
        .first()
        .map_or(String::new(), |token| token.text.clone());
    let text = |at: usize| tokens.get(at).map_or("", |token| token.text.as_str());
    if text(1) == "." && text(2) == "{" {
        return Import {
            path,
            names: imported_names(&tokens[3..]),
            alias: None,
        };
    }
    let alias = if text(1) == "as" {
        text(2)
    } else {
        last_part(&path)
    };
    Import {
        alias: Some(alias.to_string()),
        names: Vec::new(),
        path,
    }
}

/// The names up to the closing brace.
fn imported_names(tokens: &[Token]) -> Vec<Imported> {
    let end = tokens
        .iter()
        .position(|token| token.text == "}")
        .unwrap_or(tokens.len());
    tokens[..end]
        .split(|token| token.text == ",")
        .filter(|words| !words.is_empty())
        .map(|words| {
            let name = words[0].text.clone();
            let renamed = words.len() == 3 && words[1].text == "as";
            let local = if renamed {
                words[2].text.clone()
            } else {
                last_part(&name).to_string()
            };
            Imported { name, local }
        })
        .collect()
}

/// What stands after the last dot: `entry` of `Message.entry`.
fn last_part(name: &str) -> &str {
    name.rsplit('.').next().unwrap_or(name)
}
