//! The tests: docs/trust.md beside the tree.

use crate::antt::Declaration;
use crate::closure::{is_proof, Closure, Crates};
use crate::code::Function;
use crate::layout::Layout;
use crate::page::{self, Listed, Page, Theorem};
use crate::tree::{Place, Source, Tree};
use std::collections::BTreeSet;
use std::fs;
use std::path::Path;

/// What the tests found: the subjects without a fault, and each fault of the others.
#[derive(Default)]
pub struct Report {
    pub passed: Vec<String>,
    pub failed: Vec<String>,
}

impl Report {
    fn test(&mut self, subject: String, faults: Vec<String>) {
        if faults.is_empty() {
            self.passed.push(subject);
        } else {
            self.failed.extend(faults);
        }
    }
}

/// A tree, its page, and the closure that both give.
pub struct Trust {
    pub tree: Tree,
    pub page: Page,
    pub crates: Crates,
    pub closure: Closure,
}

/// Reads a tree.
pub fn read(root: &Path) -> Trust {
    let page = match fs::read_to_string(root.join(page::PATH)) {
        Ok(text) => page::read(&text),
        Err(why) => Page {
            faults: vec![format!("{}: {why}", page::PATH)],
            ..Page::default()
        },
    };
    let tree = Tree::new(root);
    let crates = Crates::of_page(&tree, &page);
    let closure = Closure::of_page(&tree, &page, &crates);
    Trust {
        tree,
        page,
        crates,
        closure,
    }
}

impl Trust {
    /// Runs all tests.
    pub fn check(&self) -> Report {
        let mut report = Report::default();
        report.test(page::PATH.to_string(), self.page.faults.clone());
        for call in &self.page.calls {
            report.test(format!("call {call}"), self.call_faults(call));
        }
        for name in self.open_crates() {
            report.test(
                format!("public functions of {name}"),
                self.public_faults(name),
            );
        }
        for function in &self.page.inner {
            report.test(
                format!("inner function {function}"),
                self.inner_faults(function),
            );
        }
        for theorem in &self.page.theorems {
            report.test(
                format!("theorem {}", theorem.name),
                self.theorem_faults(theorem),
            );
        }
        report.test("the names of the closure".to_string(), self.name_faults());
        for path in self.reached_files() {
            let faults = self.file_faults(&path);
            report.test(path, faults);
        }
        report.test("the list of files".to_string(), self.list_faults());
        report.test("the other files of specs/".to_string(), self.other_faults());
        report.test(
            "the numbers of the layout".to_string(),
            self.layout_faults(),
        );
        report
    }

    /// A call is there, promises something, and for any input.
    fn call_faults(&self, call: &Listed) -> Vec<String> {
        let found = self.crates.functions(call);
        if found.is_empty() {
            return vec![not_found("call", call)];
        }
        found
            .iter()
            .flat_map(|(source, function)| contract_faults(source, function))
            .collect()
    }

    /// The crates open to others: those with a call.
    fn open_crates(&self) -> BTreeSet<&str> {
        self.page
            .calls
            .iter()
            .map(|call| call.crate_name.as_str())
            .collect()
    }

    /// Each public function of a crate is listed.
    fn public_faults(&self, crate_name: &str) -> Vec<String> {
        let mut faults = Vec::new();
        for (source, code) in self.crates.files(crate_name) {
            let path = &source.path;
            for function in code.functions.iter().filter(|function| function.public) {
                let (line, name) = (function.line, &function.name);
                if !self.page.lists(crate_name, name) {
                    let fault = "is listed neither as a call nor as an inner function";
                    let what = format!("public function `{name}` of {crate_name}");
                    faults.push(format!("{path}:{line}: {what} {fault}"));
                }
            }
            let export = |line| {
                format!("{path}:{line}: `pub use` in {crate_name}: its functions cannot be listed")
            };
            faults.extend(code.exports.iter().map(export));
        }
        faults
    }

    fn inner_faults(&self, function: &Listed) -> Vec<String> {
        if self.crates.functions(function).is_empty() {
            return vec![not_found("inner function", function)];
        }
        Vec::new()
    }

    /// A theorem is there, and is a law.
    fn theorem_faults(&self, theorem: &Theorem) -> Vec<String> {
        let (page, name, path) = (page::PATH, &theorem.name, &theorem.path);
        let source = match self.tree.source(path) {
            Ok(source) => source,
            Err(why) => return vec![format!("{page}: theorem `{name}` is not found: {why}")],
        };
        match source
            .declarations
            .iter()
            .find(|declared| declared.name == *name)
        {
            None => vec![format!("{page}: theorem `{name}` is not found in {path}")],
            Some(declared) if declared.kind.is_definition() => {
                vec![format!(
                    "{page}: theorem `{name}` is a definition of {path}"
                )]
            }
            Some(_) => Vec::new(),
        }
    }

    /// Each name that the closure uses is declared in a file that can be read.
    fn name_faults(&self) -> Vec<String> {
        let is_theorem = |fault: &String| {
            let mut theorems = self.page.theorems.iter();
            theorems.any(|theorem| fault.starts_with(&theorem.path))
        };
        let unread = self.tree.unread().into_iter();
        let unknown = self.closure.unknown.iter().cloned();
        unknown
            .chain(unread.filter(|fault| !is_theorem(fault)))
            .collect()
    }

    /// The files in which something is reached, and those of specs/ in which a theorem stands.
    fn reached_files(&self) -> BTreeSet<String> {
        let theorems = self
            .page
            .theorems
            .iter()
            .map(|theorem| theorem.path.clone());
        let stated = theorems.filter(|path| !is_proof(path) && self.tree.source(path).is_ok());
        let reached = self.closure.reached.keys().map(|place| place.path.clone());
        reached.chain(stated).collect()
    }

    /// The files of the closure that the page has to list.
    pub fn files(&self) -> BTreeSet<String> {
        let files = self.reached_files().into_iter();
        files.filter(|path| !is_proof(path)).collect()
    }

    /// A file of the closure stands in specs/ and holds definitions, and of laws only listed
    /// theorems.
    fn file_faults(&self, path: &str) -> Vec<String> {
        let reached = self.reached_in(path);
        let mut faults: Vec<String> = reached
            .iter()
            .filter_map(|place| self.place_fault(place))
            .collect();
        if !is_proof(path) {
            faults.extend(self.law_fault(path));
        }
        faults
    }

    fn reached_in(&self, path: &str) -> Vec<&Place> {
        self.closure
            .reached
            .keys()
            .filter(|place| place.path == path)
            .collect()
    }

    /// What is wrong with a declaration that is reached.
    fn place_fault(&self, place: &Place) -> Option<String> {
        let (_, declared) = self.tree.declaration(place)?;
        let citer = self.closure.reached.get(place)?;
        let by = format!("cited by `{}` of {}", citer.name, citer.path);
        let at = format!("{}:{}: `{}`", place.path, declared.line, declared.name);
        if is_proof(&place.path) {
            return Some(format!("{at} stands in proofs/, {by}"));
        }
        if !declared.kind.is_definition() {
            return Some(format!(
                "{at} is a law (neither `abbrev` nor `unfoldable`), {by}"
            ));
        }
        None
    }

    /// The laws of a file that are neither reached nor listed as theorems.
    fn law_fault(&self, path: &str) -> Option<String> {
        let source = self.tree.source(path).ok()?;
        let reached: BTreeSet<usize> = self
            .reached_in(path)
            .iter()
            .map(|place| place.index)
            .collect();
        let is_stray = |(index, declared): &(usize, &Declaration)| {
            let is_law = !declared.kind.is_definition();
            is_law && !reached.contains(index) && !self.page.states(&declared.name, path)
        };
        let laws = source.declarations.iter().enumerate().filter(is_stray);
        let names: Vec<String> = laws
            .map(|(_, law)| format!("`{}` (line {})", law.name, law.line))
            .collect();
        match names.as_slice() {
            [] => None,
            [one] => Some(format!("{path}: holds a law: {one}")),
            more => Some(format!(
                "{path}: holds {} laws: {}",
                more.len(),
                more.join(", ")
            )),
        }
    }

    /// The files of specs/ that are not of the closure: contracts of inner functions rest on them.
    pub fn other_specs(&self) -> Vec<String> {
        let files = self.files();
        let all = self.tree.specs().into_iter();
        all.filter(|path| !files.contains(path)).collect()
    }

    /// They can be read, and hold no law either.
    fn other_faults(&self) -> Vec<String> {
        let faults = |path: &String| match self.tree.source(path) {
            Ok(_) => self.law_fault(path),
            Err(why) => Some(why),
        };
        self.other_specs().iter().filter_map(faults).collect()
    }

    /// The numbers of the stored form stand in no other file as literals.
    fn layout_faults(&self) -> Vec<String> {
        let files = self.tree.files();
        Layout::of(&files).faults(&files)
    }

    /// The page's list of files is the closure's.
    fn list_faults(&self) -> Vec<String> {
        let (page, files) = (page::PATH, self.files());
        let missing = files.difference(&self.page.files);
        let needless = self.page.files.difference(&files);
        let lacks = missing.map(|path| format!("{page}: '## The files' lacks {path}"));
        let lists = needless.map(|path| {
            format!("{page}: '## The files' lists {path}, which is not of the closure")
        });
        lacks.chain(lists).collect()
    }

    /// The definitions that are reached, with their places.
    pub fn definitions(&self) -> Vec<(&Place, Declaration)> {
        let all = self.closure.reached.keys();
        let declared = all.filter_map(|place| Some((place, self.tree.declaration(place)?.1)));
        declared
            .filter(|(_, declared)| declared.kind.is_definition())
            .collect()
    }
}

fn not_found(what: &str, listed: &Listed) -> String {
    format!(
        "{}: {what} `{}` of {} is not found",
        page::PATH,
        listed.name,
        listed.crate_name
    )
}

fn contract_faults(source: &Source, function: &Function) -> Vec<String> {
    let at = format!(
        "{}:{}: call `{}`",
        source.path, function.line, function.name
    );
    let mut faults = Vec::new();
    if function.contract.iter().any(|promise| promise.is_requires) {
        faults.push(format!("{at} has a `requires`"));
    }
    if function.contract.iter().all(|promise| promise.is_requires) {
        faults.push(format!("{at} has no `ensures`"));
    }
    faults
}
