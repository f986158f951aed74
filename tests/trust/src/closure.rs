//! The closure: every declaration that the calls' contracts and the theorems' statements rest on,
//! by name.

use crate::code::{Code, Function};
use crate::names;
use crate::page::{Listed, Page};
use crate::text::Token;
use crate::tree::{In, Meaning, Place, Source, Tree};
use std::collections::{BTreeMap, BTreeSet, VecDeque};

/// The files of code of the crates that the page names, each with the names that its contracts can
/// use.
#[derive(Default)]
pub struct Crates(BTreeMap<String, Vec<(Source, Code)>>);

impl Crates {
    pub fn of_page(tree: &Tree, page: &Page) -> Self {
        let mut crates = Crates::default();
        for listed in page.calls.iter().chain(&page.inner) {
            let code = crates.0.entry(listed.crate_name.clone());
            code.or_insert_with(|| tree.code(&listed.crate_name));
        }
        crates
    }

    pub fn files(&self, crate_name: &str) -> impl Iterator<Item = &(Source, Code)> {
        self.0.get(crate_name).into_iter().flatten()
    }

    /// The public functions that the page lists under a name, each with its file.
    pub fn functions(&self, listed: &Listed) -> Vec<(&Source, &Function)> {
        let mut found = Vec::new();
        for (source, code) in self.files(&listed.crate_name) {
            for function in &code.functions {
                if function.public && function.name == listed.name {
                    found.push((source, function));
                }
            }
        }
        found
    }
}

/// What cites a name: a call, a theorem or a declaration, and its file.
#[derive(Clone, Debug)]
pub struct Citer {
    pub path: String,
    pub name: String,
}

#[derive(Default)]
pub struct Closure {
    /// Each declaration that is reached, with the first that was found to cite it.
    pub reached: BTreeMap<Place, Citer>,
    /// The modules of the toolchain's libraries of which something is reached.
    pub libraries: BTreeSet<String>,
    /// Names that are declared nowhere, as faults.
    pub unknown: BTreeSet<String>,
    waiting: VecDeque<Place>,
}

impl Closure {
    /// The closure of the calls and theorems that a page lists.
    pub fn of_page(tree: &Tree, page: &Page, crates: &Crates) -> Self {
        let mut closure = Closure::default();
        for listed in &page.calls {
            for (source, function) in crates.functions(listed) {
                closure.cite_contract(tree, source, function);
            }
        }
        for theorem in &page.theorems {
            closure.cite_theorem(tree, &theorem.path, &theorem.name);
        }
        while let Some(place) = closure.waiting.pop_front() {
            closure.follow(tree, &place);
        }
        closure
    }

    fn cite_contract(&mut self, tree: &Tree, source: &Source, function: &Function) {
        let constructors = In { tree, source };
        for promise in &function.contract {
            let variables = function.parameters.clone();
            let names = names::of_expression(&promise.tokens, variables, &constructors);
            self.cite(tree, source, &names, &function.name, true);
        }
    }

    fn cite_theorem(&mut self, tree: &Tree, path: &str, name: &str) {
        let Ok(source) = tree.source(path) else {
            return;
        };
        for theorem in source
            .declarations
            .iter()
            .filter(|declared| declared.name == name)
        {
            let constructors = In {
                tree,
                source: &source,
            };
            let names = names::of_statement(theorem, &constructors);
            self.cite(tree, &source, &names, name, true);
        }
    }

    /// Cites what a declaration names. A law that is reached is a fault. One of specs/ is most
    /// often a definition without its mark, so that what it names belongs to the closure; the proof
    /// of one of proofs/ does not.
    fn follow(&mut self, tree: &Tree, place: &Place) {
        let Some((source, declared)) = tree.declaration(place) else {
            return;
        };
        let is_definition = declared.kind.is_definition();
        if is_definition || !is_proof(&place.path) {
            let constructors = In {
                tree,
                source: &source,
            };
            let names = names::of_declaration(&declared, &constructors);
            self.cite(tree, &source, &names, &declared.name, is_definition);
        }
    }

    /// Adds what names of a file mean. With `strict` a name without a meaning is a fault.
    fn cite(&mut self, tree: &Tree, source: &Source, names: &[Token], by: &str, strict: bool) {
        for name in names {
            match tree.meaning(source, &name.text) {
                Meaning::Declared { places, .. } => {
                    for place in places {
                        self.reach(place, source, by);
                    }
                }
                Meaning::Unknown if strict => {
                    let (path, line, name) = (&source.path, name.line, &name.text);
                    let fault = format!("{path}:{line}: `{name}` in `{by}` is declared nowhere");
                    self.unknown.insert(fault);
                }
                Meaning::Library(module) => {
                    self.libraries.insert(module);
                }
                Meaning::Unknown | Meaning::BuiltIn => {}
            }
        }
    }

    fn reach(&mut self, place: Place, source: &Source, by: &str) {
        if !self.reached.contains_key(&place) {
            let citer = Citer {
                path: source.path.clone(),
                name: by.to_string(),
            };
            self.reached.insert(place.clone(), citer);
            self.waiting.push_back(place);
        }
    }
}

/// Does a file stand in proofs/ of its crate?
pub fn is_proof(path: &str) -> bool {
    path.split('/').nth(2) == Some("proofs")
}
