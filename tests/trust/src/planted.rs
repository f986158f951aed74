//! Shows that the tests can fail: each fault is planted in a copy of the tree, and the program, run
//! on the copy, must report it in so many words. What is fine must not be reported. Where a fault
//! is planted follows from the tree: it is the first call, the first theorem, the first definition
//! of the closure.

use crate::antt::{Declaration, Kind};
use crate::checks::{self, Report, Trust};
use crate::closure::is_proof;
use crate::edits::{Edits, Texts};
use crate::layout::{self, Layout};
use crate::page;
use crate::trial::{Plant, Trial};
use std::path::Path;

/// Copies the tree into a folder, plants one thing after another, and tells which were reported.
pub fn try_all(tree: &Path, root: &Path) -> Report {
    plant_all(tree, root).unwrap_or_else(|why| Report {
        passed: Vec::new(),
        failed: vec![format!("nothing could be planted: {why}")],
    })
}

fn plant_all(tree: &Path, root: &Path) -> Result<Report, String> {
    let trial = Trial::new(tree, root)?;
    let victims = Victims::of(root)?;
    let mut report = Report::default();
    for plant in victims.plants() {
        let name = plant.name;
        let outcome = if plant.is_fault() {
            "reported"
        } else {
            "fine, and not reported"
        };
        match trial.try_one(&plant) {
            Ok(()) => report.passed.push(format!("{outcome}: {name}")),
            Err(why) => report.failed.push(format!("{name}: {why}")),
        }
    }
    Ok(report)
}

/// Where to plant.
struct Victims<'a> {
    texts: Texts<'a>,
    /// The first call, its crate and file, and the first and last line of its contract.
    call: String,
    crate_name: String,
    code: String,
    contract: (usize, usize),
    /// The first inner function, with its crate.
    inner: Option<(String, String)>,
    theorem: String,
    /// A file of specs/ that is not of the closure.
    other: Option<String>,
    /// A file of specs/ in which a theorem stands, and one of proofs/.
    stated: Option<String>,
    proof: Option<String>,
    /// The greatest number of the layout, with its name.
    number: (String, u64),
    /// The first definition of the closure that is a function, and its folder and file.
    definition: Declaration,
    folder: String,
    file: String,
}

impl<'a> Victims<'a> {
    fn of(root: &'a Path) -> Result<Self, String> {
        let trust = checks::read(root);
        let page = &trust.page;
        let call = page.calls.first().ok_or("the page lists no call")?;
        let theorem = page.theorems.first().ok_or("the page lists no theorem")?;
        let inner = page.inner.first();
        let stated = page
            .theorems
            .iter()
            .find(|theorem| !is_proof(&theorem.path));
        let proof = page.theorems.iter().find(|theorem| is_proof(&theorem.path));
        let numbers = Layout::of(&trust.tree.files()).values;
        let number = numbers.into_iter().max_by_key(|(_, value)| *value);
        let functions = trust.crates.functions(call);
        let (source, function) = functions.first().ok_or("the first call is not there")?;
        let contract = function.contract_lines();
        let (file, definition) = first_function(&trust).ok_or("the closure has no function")?;
        Ok(Victims {
            texts: Texts { root },
            call: call.name.clone(),
            crate_name: call.crate_name.clone(),
            code: source.path.clone(),
            contract: contract.ok_or("the first call has no contract")?,
            inner: inner.map(|inner| (inner.crate_name.clone(), inner.name.clone())),
            theorem: theorem.name.clone(),
            other: trust.other_specs().into_iter().next(),
            stated: stated.map(|theorem| theorem.path.clone()),
            proof: proof.map(|theorem| theorem.path.clone()),
            number: number.ok_or("the layout has no number")?,
            definition,
            folder: file
                .rsplit_once('/')
                .map_or("", |(folder, _)| folder)
                .to_string(),
            file,
        })
    }

    fn plants(&self) -> Vec<Plant> {
        let mut all = self.wrong_functions();
        all.extend(self.wrong_theorems());
        all.extend(self.wrong_lists());
        all.extend(self.wrong_contracts());
        all.extend(self.unlisted());
        all.extend(self.wrong_definitions());
        all.extend(self.laws());
        all.extend(self.literals());
        all.extend(self.fine());
        all
    }

    /// Calls and inner functions that the page has and the code has not, and the other way round.
    fn wrong_functions(&self) -> Vec<Plant> {
        let row = format!("| {} ", self.crate_name);
        let renamed = || self.in_page(&row, &quoted(&self.call), "`planted`");
        let not_found = format!("call `planted` of {} is not found", self.crate_name);
        let mut all = vec![
            Plant::fault(
                "a call of the page that the code has not",
                renamed(),
                &[&not_found],
            ),
            Plant::fault(
                "a call that the page lacks",
                renamed(),
                &[&self.unlisted_is(&self.call)],
            ),
        ];
        if let Some((crate_name, inner)) = &self.inner {
            let bullet = format!("- {crate_name} ");
            let edits = self.in_page(&bullet, &quoted(inner), "`planted`");
            let wanted = format!("inner function `planted` of {crate_name} is not found");
            all.push(Plant::fault(
                "an inner function that the code has not",
                edits,
                &[&wanted],
            ));
        }
        all
    }

    fn wrong_theorems(&self) -> Vec<Plant> {
        let row = format!("| {}", quoted(&self.theorem));
        let definition = quoted(&self.definition.name);
        let more = format!("| {definition} | {} | no law |\n{row}", quoted(&self.file));
        let is_definition = format!("theorem {definition} is a definition of {}", self.file);
        vec![
            Plant::fault(
                "a theorem that its file has not",
                self.in_page(&row, &quoted(&self.theorem), "`planted`"),
                &["theorem `planted` is not found in"],
            ),
            Plant::fault(
                "a theorem's file that is not there",
                self.in_page(&row, "crates", "planted"),
                &["is not found: planted/", "no such file"],
            ),
            Plant::fault(
                "a definition listed as a theorem",
                self.in_page(&row, &row, &more),
                &[&is_definition],
            ),
        ]
    }

    fn wrong_lists(&self) -> Vec<Plant> {
        let bullet = format!("- {}:", quoted(&self.folder));
        let name = self.file[self.folder.len() + 1..].trim_end_matches(".antt");
        vec![
            Plant::fault(
                "a section of the page that is gone",
                self.in_page("", "## The files", "## Files"),
                &["has no section '## The files'"],
            ),
            Plant::fault(
                "a line of the page of another form",
                self.in_page(&bullet, ":", " and others:"),
                &["cannot be read: ", &quoted(&self.folder)],
            ),
            Plant::fault(
                "a file dropped from the page's list",
                self.in_page(&bullet, name, "Planted"),
                &["'## The files' lacks ", &self.file],
            ),
            Plant::fault(
                "a file too many in the page's list",
                self.in_page(&bullet, ":", ": Planted,"),
                &[&self.folder, "/Planted.antt, which is not of the closure"],
            ),
        ]
    }

    fn wrong_contracts(&self) -> Vec<Plant> {
        let call = format!("call `{}`", self.call);
        let (first, last) = self.contract;
        let requires = self
            .texts
            .insert(&self.code, first, "    requires { 0 ≡ 0 }");
        let nothing = self
            .texts
            .cut(&self.code, first, last)
            .map(|(rest, _)| vec![rest]);
        vec![
            Plant::fault(
                "a call with a requires",
                requires,
                &[&call, "has a `requires`"],
            ),
            Plant::fault(
                "a call that promises nothing",
                nothing,
                &[&call, "has no `ensures`"],
            ),
        ]
    }

    /// Public functions that the page does not list.
    fn unlisted(&self) -> Vec<Plant> {
        let function = "fn planted(x: u32) -> u32\n    ensures { result ≡ x }\n{\n    x\n}\n";
        let method = "    pub fn planted(self) -> u32\n    {\n        0\n    }\n";
        let given = "    ghost next_gives = { Given };\n\n    fn next(&mut self) -> u32 {\n        0\n    }\n";
        let append = |text: &str| self.texts.append(&self.code, text);
        vec![
            Plant::fault(
                "a public function that the page lacks",
                append(&format!("pub {function}")),
                &[&self.unlisted_is("planted")],
            ),
            Plant::fault(
                "a function for C that the page lacks",
                append(&format!(
                    "#[unsafe(no_mangle)]\npub extern \"C\" {function}"
                )),
                &[&self.unlisted_is("planted")],
            ),
            Plant::fault(
                "a public method that the page lacks",
                append(&format!("impl Planted {{\n{method}}}\n")),
                &[&self.unlisted_is("Planted::planted")],
            ),
            Plant::fault(
                "a method of a library trait that the page lacks",
                append(&format!("impl Iterator for Planted {{\n{given}}}\n")),
                &[&self.unlisted_is("Planted::next")],
            ),
            Plant::fault(
                "a function of another crate made public",
                append("pub use planted::planted;\n"),
                &[&self.code, "`pub use`"],
            ),
        ]
    }

    /// How an unlisted function is reported.
    fn unlisted_is(&self, name: &str) -> String {
        format!(
            "public function `{name}` of {} is listed neither",
            self.crate_name
        )
    }

    fn wrong_definitions(&self) -> Vec<Plant> {
        let name = quoted(&self.definition.name);
        let cited = format!("{}` in `", self.definition.name);
        let line = format!("{}:{}: ", self.file, self.definition.line);
        vec![
            Plant::fault(
                "a definition of the closure moved to proofs/",
                self.move_to_proofs(),
                &["/proofs/Planted.antt:", &name, "stands in proofs/"],
            ),
            Plant::fault(
                "a definition of the closure without its mark",
                self.unmark(),
                &[&line, &name, "is a law"],
            ),
            Plant::fault(
                "a name of the closure that is declared nowhere",
                self.rename(),
                &[&cited, "is declared nowhere"],
            ),
        ]
    }

    fn laws(&self) -> Vec<Plant> {
        let law = "planted : Type 1\nplanted = Type 0\n";
        let in_module = "module _ (A : Type 0) where\n  pub planted : Type 0\n  planted = A\n";
        let plant = |name, path: &str, text| {
            let wanted = [path, "holds ", "`planted` (line "];
            Plant::fault(name, self.texts.append(path, text), &wanted)
        };
        let mut all = vec![
            plant("a law in a file of the closure", &self.file, law),
            plant("a law in a module of such a file", &self.file, in_module),
        ];
        if let Some(other) = &self.other {
            all.push(plant("a law in another file of specs/", other, law));
        }
        if let Some(stated) = &self.stated {
            all.push(plant(
                "a law beside a listed theorem in specs/",
                stated,
                law,
            ));
        }
        all
    }

    /// Numbers of the stored form where they have no name.
    fn literals(&self) -> Vec<Plant> {
        let (name, number) = &self.number;
        let is_named = format!("{number} is `{name}` of");
        let plant = |what, path: &str, text: String| {
            let wanted = [path, &is_named];
            Plant::fault(what, self.texts.append(path, &text), &wanted)
        };
        let equation = format!("abbrev planted : ℕ\nplanted = {number}\n");
        let constant = format!("const PLANTED: usize = {number};\n");
        let mut all = vec![
            plant("a number of the layout in the code", &self.code, constant),
            plant(
                "a number of the layout in a definition",
                &self.file,
                equation.clone(),
            ),
        ];
        if let Some(proof) = &self.proof {
            all.push(plant("a number of the layout in a proof", proof, equation));
        }
        let start = format!("{name} = ");
        let broken = self
            .texts
            .replace(layout::DEFINED, &start, "=", "= planted +");
        let wanted = [layout::DEFINED, &quoted(name), "cannot be computed"];
        all.push(Plant::fault(
            "a number of the layout that cannot be computed",
            broken,
            &wanted,
        ));
        all
    }

    fn fine(&self) -> Vec<Plant> {
        let function = "fn planted(x: u32) -> u32\n{\n    x\n}\n";
        let local = "planted = it\n  where\n    it : Type 1\n    it = Type 0\n";
        let local = format!("unfoldable planted : Type 1\n{local}");
        let comment = format!("// {}\n", self.number.1);
        let plant = |name, path, text| Plant::fine(name, self.texts.append(path, text));
        vec![
            plant(
                "a comment beside definitions",
                &self.file,
                "-- planted : Type 1\n",
            ),
            plant("a definition with a local name", &self.file, &local),
            plant("a comment in the code", &self.code, "// pub fn planted()\n"),
            plant("a private function", &self.code, function),
            plant("a number of the layout in a comment", &self.code, &comment),
        ]
    }

    fn in_page(&self, start: &str, old: &str, new: &str) -> Edits {
        self.texts.replace(page::PATH, start, old, new)
    }

    /// The definition in a file of proofs/, from which its own file imports it.
    fn move_to_proofs(&self) -> Edits {
        let declared = &self.definition;
        let ((path, rest), moved) = self.texts.cut(&self.file, declared.line, declared.end)?;
        let crate_name = self.file.split('/').nth(1).unwrap_or("");
        let module = format!("Rattle.{crate_name}.proofs.Planted");
        let import = format!("use {module}.{{{}}}\n", declared.name);
        let proofs = format!("crates/{crate_name}/proofs/Planted.antt");
        Ok(vec![(path, import + &rest), (proofs, moved)])
    }

    /// The definition with `pub` in place of `abbrev` or `unfoldable`.
    fn unmark(&self) -> Edits {
        let head = self.head()?;
        let (mark, _) = head.split_once(' ').unwrap_or((&head, ""));
        self.texts.replace(&self.file, &head, mark, "pub")
    }

    /// The definition under another name, which nothing cites.
    fn rename(&self) -> Edits {
        let name = &self.definition.name;
        self.texts
            .replace(&self.file, &self.head()?, name, "planted")
    }

    /// The definition's first line.
    fn head(&self) -> Result<String, String> {
        let line = self.definition.line;
        let (_, head) = self.texts.cut(&self.file, line, line)?;
        Ok(head)
    }
}

/// The first function of the closure that stands in no module, and its file.
fn first_function(trust: &Trust) -> Option<(String, Declaration)> {
    let is_function =
        |declared: &Declaration| declared.kind == Kind::Function && declared.parameters.is_empty();
    let mut all = trust.definitions().into_iter();
    let first = all.find(|(place, declared)| !is_proof(&place.path) && is_function(declared));
    first.map(|(place, declared)| (place.path.clone(), declared))
}

fn quoted(name: &str) -> String {
    format!("`{name}`")
}
