//! The files of the tree and what a name means in each: where it is declared, or that it is of the
//! toolchain's libraries.

use crate::antt::{self, Declaration, Import, Kind};
use crate::code::{self, Code};
use crate::layout::File;
use crate::names::Constructors;
use std::cell::RefCell;
use std::collections::HashMap;
use std::fs;
use std::path::{Path, PathBuf};
use std::rc::Rc;

/// Where the toolchain's libraries stand.
const LIBRARIES: [&str; 6] = ["Prim", "mathlib", "lib", "native", "borrow", "denote"];

/// The library of the code, which has the words of contracts: `Rattle.std.specs.Prelude`.
const STD: &str = "std";

/// Names of the language itself, which no line imports.
const BUILT_IN: [&str; 7] = ["Type", "Unit", "tt", "⊥", "absurd", "×", "now"];

/// A declaration of a file: the file's path, and its place among the file's declarations.
#[derive(Clone, Debug, PartialEq, Eq, Hash, PartialOrd, Ord)]
pub struct Place {
    pub path: String,
    pub index: usize,
}

/// What a name means.
#[derive(Clone, Debug)]
pub enum Meaning {
    /// A declared name, or a constructor or field of what is declared there.
    Declared {
        places: Vec<Place>,
        constructor: bool,
    },
    /// A name of a module of the toolchain's libraries.
    Library(String),
    /// A name of the language, or a type of the code.
    BuiltIn,
    Unknown,
}

/// A module that an import names.
#[derive(Clone, Debug)]
enum Origin {
    File(String),
    Library(String),
    /// A type of the code.
    Code,
    Unknown,
}

/// A file with its declarations and the names that it imports.
#[derive(Debug)]
pub struct Source {
    pub path: String,
    pub declarations: Vec<Declaration>,
    names: HashMap<String, Vec<usize>>,
    constructors: HashMap<String, Vec<usize>>,
    imported: HashMap<String, (Origin, String)>,
    aliases: HashMap<String, Origin>,
    /// A part of an operator to its whole name: `⨾` to `◌⨾◌`.
    operators: HashMap<String, String>,
}

impl Source {
    fn new(path: &str, declarations: Vec<Declaration>, imports: &[Import]) -> Self {
        let mut source = Source {
            path: path.to_string(),
            declarations: Vec::new(),
            names: HashMap::new(),
            constructors: HashMap::new(),
            imported: HashMap::new(),
            aliases: HashMap::new(),
            operators: HashMap::new(),
        };
        for import in imports {
            source.add_import(import);
        }
        for (index, declaration) in declarations.iter().enumerate() {
            source.add_declaration(index, declaration);
        }
        source.declarations = declarations;
        source
    }

    fn add_import(&mut self, import: &Import) {
        let origin = origin_of(&import.path);
        if let Some(alias) = &import.alias {
            self.aliases.insert(alias.clone(), origin.clone());
        }
        for imported in &import.names {
            self.add_operator(&imported.local);
            let target = (origin.clone(), imported.name.clone());
            self.imported.insert(imported.local.clone(), target);
        }
    }

    fn add_declaration(&mut self, index: usize, declaration: &Declaration) {
        self.add_operator(&declaration.name);
        self.names
            .entry(declaration.name.clone())
            .or_default()
            .push(index);
        if declaration.kind == Kind::Data {
            for member in &declaration.members {
                self.add_operator(&member.name);
                self.constructors
                    .entry(member.name.clone())
                    .or_default()
                    .push(index);
            }
        }
    }

    fn add_operator(&mut self, name: &str) {
        if name.contains('◌') && !name.starts_with('«') {
            for part in name.split('◌').filter(|part| !part.is_empty()) {
                self.operators.insert(part.to_string(), name.to_string());
            }
        }
    }

    /// A name that the file itself declares.
    fn own(&self, name: &str) -> Option<Meaning> {
        let here = |indices: &Vec<usize>| {
            let place = |&index: &usize| Place {
                path: self.path.clone(),
                index,
            };
            indices.iter().map(place).collect()
        };
        let declared = |names: &HashMap<String, Vec<usize>>, constructor| {
            let places = names.get(name).map(here)?;
            Some(Meaning::Declared {
                places,
                constructor,
            })
        };
        declared(&self.names, false).or_else(|| declared(&self.constructors, true))
    }
}

/// Where a module stands. `Rattle.NAME.specs.X` is crates/NAME/specs/X.antt; what stands under
/// `declared` is a type of the code.
fn origin_of(module: &str) -> Origin {
    let (head, rest) = module.split_once('.').unwrap_or((module, ""));
    if LIBRARIES.contains(&head) {
        return Origin::Library(module.to_string());
    }
    let Some((name, rest)) = rest.split_once('.').filter(|_| head == "Rattle") else {
        return Origin::Unknown;
    };
    if name == STD {
        return Origin::Library(module.to_string());
    }
    if rest.starts_with("specs.declared.") {
        return Origin::Code;
    }
    Origin::File(format!("crates/{name}/{}.antt", rest.replace('.', "/")))
}

/// The tree, its files read when they are first asked for.
pub struct Tree {
    root: PathBuf,
    read: RefCell<HashMap<String, Result<Rc<Source>, String>>>,
}

impl Tree {
    pub fn new(root: &Path) -> Self {
        Tree {
            root: root.to_path_buf(),
            read: RefCell::new(HashMap::new()),
        }
    }

    /// A file of definitions or laws.
    pub fn source(&self, path: &str) -> Result<Rc<Source>, String> {
        if let Some(known) = self.read.borrow().get(path) {
            return known.clone();
        }
        let source = self.read_source(path).map(Rc::new);
        self.read
            .borrow_mut()
            .insert(path.to_string(), source.clone());
        source
    }

    /// Why files that were asked for could not be read.
    pub fn unread(&self) -> Vec<String> {
        let read = self.read.borrow();
        let mut faults: Vec<String> = read
            .values()
            .filter_map(|file| file.as_ref().err().cloned())
            .collect();
        faults.sort();
        faults
    }

    fn read_source(&self, path: &str) -> Result<Source, String> {
        let text = fs::read_to_string(self.root.join(path))
            .map_err(|_| format!("{path}: no such file"))?;
        let module = antt::read(&text).map_err(|why| format!("{path}: {why}"))?;
        Ok(Source::new(path, module.declarations, &module.imports))
    }

    /// The files of code of a crate, by path, each with the names that its contracts can use.
    pub fn code(&self, name: &str) -> Vec<(Source, Code)> {
        let folder = format!("crates/{name}/src");
        let mut paths = Vec::new();
        list_files(&self.root, &folder, ".rt", &mut paths);
        paths.sort();
        paths
            .iter()
            .filter_map(|path| {
                let text = fs::read_to_string(self.root.join(path)).ok()?;
                let code = code::read(&text);
                Some((Source::new(path, Vec::new(), &code.imports), code))
            })
            .collect()
    }

    /// The files of every crate's specs/, but for those that only name the others.
    pub fn specs(&self) -> Vec<String> {
        let mut paths = Vec::new();
        list_files(&self.root, "crates", ".antt", &mut paths);
        paths
            .retain(|path| path.split('/').nth(2) == Some("specs") && !path.ends_with("/Lib.antt"));
        paths.sort();
        paths
    }

    /// All files of code, definitions and proofs, with their texts.
    pub fn files(&self) -> Vec<File> {
        let mut paths = Vec::new();
        for ending in [".rt", ".antt"] {
            list_files(&self.root, "crates", ending, &mut paths);
        }
        let is_part = |path: &String| {
            let part = path.split('/').nth(2);
            matches!(part, Some("src" | "specs" | "proofs"))
        };
        paths.retain(is_part);
        paths.sort();
        let read = |path: String| {
            let text = fs::read_to_string(self.root.join(&path)).ok()?;
            Some((path, text))
        };
        paths.into_iter().filter_map(read).collect()
    }

    /// The declaration at a place.
    pub fn declaration(&self, place: &Place) -> Option<(Rc<Source>, Declaration)> {
        let source = self.source(&place.path).ok()?;
        let declaration = source.declarations.get(place.index)?.clone();
        Some((source, declaration))
    }

    /// What a name means in a file.
    pub fn meaning(&self, source: &Source, name: &str) -> Meaning {
        self.look_up(source, name, 0)
    }

    fn look_up(&self, source: &Source, name: &str, depth: usize) -> Meaning {
        // Imports that go round in a circle are no meaning.
        if depth > 16 {
            return Meaning::Unknown;
        }
        if let Some(own) = source.own(name) {
            return own;
        }
        if let Some((origin, original)) = source.imported.get(name) {
            return self.look_up_in(origin, original, depth);
        }
        if let Some(whole) = source.operators.get(name) {
            return self.look_up(source, whole, depth + 1);
        }
        if let Some((head, rest)) = name.split_once('.') {
            return self.look_up_qualified(source, head, rest, depth);
        }
        if BUILT_IN.contains(&name) {
            return Meaning::BuiltIn;
        }
        Meaning::Unknown
    }

    fn look_up_in(&self, origin: &Origin, name: &str, depth: usize) -> Meaning {
        match origin {
            Origin::Library(module) => Meaning::Library(module.clone()),
            Origin::Code => Meaning::BuiltIn,
            Origin::Unknown => Meaning::Unknown,
            Origin::File(path) => match self.source(path) {
                Ok(source) => self.look_up(&source, name, depth + 1),
                Err(_) => Meaning::Unknown,
            },
        }
    }

    /// `head.rest`: a name of a module, a constructor or field of a type, or a projection of what is
    /// declared as `head`.
    fn look_up_qualified(&self, source: &Source, head: &str, rest: &str, depth: usize) -> Meaning {
        if let Some(origin) = source.aliases.get(head) {
            return self.look_up_in(origin, rest, depth);
        }
        match self.look_up(source, head, depth + 1) {
            Meaning::Declared { places, .. } if self.has_type(&places) => {
                self.member_of(places, rest)
            }
            other => other,
        }
    }

    /// Is a type among what is declared at some places?
    fn has_type(&self, places: &[Place]) -> bool {
        let is_type = |place| {
            let found = self.declaration(place);
            found.is_some_and(|(_, type_)| matches!(type_.kind, Kind::Record | Kind::Data))
        };
        places.iter().any(is_type)
    }

    /// A constructor or field of one of some types.
    fn member_of(&self, places: Vec<Place>, name: &str) -> Meaning {
        let has_member = |place: &Place| {
            let found = self.declaration(place);
            found.is_some_and(|(_, type_)| type_.members.iter().any(|member| member.name == name))
        };
        let places: Vec<Place> = places.into_iter().filter(has_member).collect();
        if places.is_empty() {
            return Meaning::Unknown;
        }
        Meaning::Declared {
            places,
            constructor: true,
        }
    }
}

/// The files with an ending under a folder, by path from the root.
fn list_files(root: &Path, folder: &str, ending: &str, paths: &mut Vec<String>) {
    let Ok(entries) = fs::read_dir(root.join(folder)) else {
        return;
    };
    for entry in entries.flatten() {
        let path = format!("{folder}/{}", entry.file_name().to_string_lossy());
        if entry.path().is_dir() {
            list_files(root, &path, ending, paths);
        } else if path.ends_with(ending) {
            paths.push(path);
        }
    }
}

/// A file's view of constructors.
pub struct In<'a> {
    pub tree: &'a Tree,
    pub source: &'a Source,
}

impl Constructors for In<'_> {
    fn is_constructor(&self, name: &str) -> bool {
        matches!(
            self.tree.meaning(self.source, name),
            Meaning::Declared {
                constructor: true,
                ..
            }
        )
    }
}
