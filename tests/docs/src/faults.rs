//! Faults to plant in a copy of the repository, each with the check that must
//! report it and a part of the report.

pub enum Change {
    /// Text behind the first place where a text stands.
    Behind(&'static str, String),
    /// One text for another.
    Instead(&'static str, &'static str),
    /// The file taken away.
    Gone,
}

pub struct Fault {
    pub name: &'static str,
    pub file: &'static str,
    pub change: Change,
    pub check: &'static str,
    pub report: &'static str,
}

use Change::{Behind, Gone, Instead};

const PAGE: &str = "docs/architecture.md";
const TITLE: &str = "# Architecture\n";
const WORDS: &str = "tests/docs/words.txt";

/// What a page says: the fault's name, the text, check and report.
const SAID: [(&str, &str, &str, &str); 17] = [
    (
        "no such file",
        "See `docs/nowhere.md`.",
        "paths",
        "docs/nowhere.md",
    ),
    (
        "no such file here",
        "See `Nowhere.antt`.",
        "paths",
        "Nowhere.antt",
    ),
    (
        "no file fits",
        "See `tests/*/walk`.",
        "paths",
        "tests/*/walk",
    ),
    (
        "a program of no crate",
        "See `target/bin/no`.",
        "paths",
        "target/bin/no",
    ),
    (
        "nothing that is built",
        "See `target/no`.",
        "paths",
        "target/no",
    ),
    (
        "no such file, bare",
        "See docs/nowhere.md.",
        "paths",
        "docs/nowhere.md",
    ),
    (
        "no such program",
        "Say `tests/no/run --all`.",
        "paths",
        "tests/no/run",
    ),
    (
        "a block's file",
        "    cat docs/nowhere.md",
        "paths",
        "docs/nowhere.md",
    ),
    ("no such name", "See `nothing_so`.", "names", "nothing_so"),
    (
        "a name on a new line",
        "See `one\ntwo_so`.",
        "names",
        "two_so",
    ),
    (
        "no such call",
        "Say `called_so(a, b)`.",
        "names",
        "called_so",
    ),
    (
        "no file of the logic",
        "See `model.No.uses`.",
        "names",
        "model.No.uses",
    ),
    (
        "of another file",
        "See `model.Hall.uses`.",
        "names",
        "model.Hall.uses",
    ),
    (
        "of another crate",
        "See `page::step`.",
        "names",
        "page::step",
    ),
    (
        "a backtick left open",
        "See `this.",
        "backticks",
        "not closed",
    ),
    (
        "a link to no file",
        "See [this](nowhere.md).",
        "links",
        "nowhere.md",
    ),
    (
        "to no heading",
        "See [this](scope.md#nowhere).",
        "links",
        "#nowhere",
    ),
];

/// A word more in the list: the fault's name, the line and the report.
const LISTED: [(&str, &str, &str); 3] = [
    (
        "a listed word that is not used",
        "unused a word",
        "no page uses it",
    ),
    ("a listed word without a reason", "unused", "no reason"),
    (
        "a listed word that is declared",
        "step_on a word",
        "declared",
    ),
];

/// The picture of the layers: the fault's name, old, new and the report.
const DRAWN: [(&str, &str, &str, &str); 3] = [
    (
        "a wrong edge",
        " client: hall",
        " client: page",
        "client stands on",
    ),
    (
        "a crate left out",
        " client: hall",
        " ",
        "client is missing",
    ),
    ("a wrong layer", "\n 3  ", "\n 4  ", "in layer 3"),
];

/// A path of a machine: the fault's name, the file, the text to plant behind
/// and the first folder, without its slash, so that this file has no such path.
const MACHINES: [(&str, &str, &str, &str); 3] = [
    ("a path of a machine", PAGE, TITLE, "work"),
    ("one in the code", "crates/model/src/lib.rt", "//", "opt"),
    (
        "one in the page of the past",
        "docs/changes.md",
        "# Changes\n",
        "home",
    ),
];

/// Lines of a build log, in parts, so that this file has none.
const LOGS: [(&str, &str); 8] = [
    ("library model: modules load", "ed=44"),
    ("| modules | check", "ed=0 |"),
    ("logic-built", "=trusted"),
    ("rt: model ", "proved"),
    ("| rt: model ", "proved (unchanged since it | was |"),
    ("x.antt:80:7: note: ", "large solution"),
    ("    Finished ", "`release` profile"),
    ("   Compiling docs ", "v0.1.0"),
];

/// What goes on in the rest of the repository.
fn elsewhere() -> [Fault; 4] {
    [
        Fault {
            name: "a function with another name",
            file: "crates/bench_api/src/lib.rt",
            change: Instead("fn hall_steps", "fn hall_walk"),
            check: "names",
            report: "hall_steps",
        },
        Fault {
            name: "a definition with another name",
            file: "crates/model/specs/Kinds.antt",
            change: Instead("pub uses :", "pub used :"),
            check: "names",
            report: "model.Kinds.uses",
        },
        Fault {
            name: "a file taken away",
            file: "examples/first.run",
            change: Gone,
            check: "paths",
            report: "examples/first.run",
        },
        Fault {
            name: "a page taken away",
            file: "docs/run-files.md",
            change: Gone,
            check: "links",
            report: "run-files.md",
        },
    ]
}

pub fn all() -> Vec<Fault> {
    let mut faults = Vec::from(elsewhere());
    let mut plant = |name, file, change, check, report| {
        faults.push(Fault {
            name,
            file,
            change,
            check,
            report,
        });
    };
    for (name, text, check, report) in SAID {
        let change = Behind(TITLE, format!("\n{text}\n"));
        plant(name, PAGE, change, check, report);
    }
    for (name, line, report) in LISTED {
        let change = Behind("#", format!("\n{line}\n#"));
        plant(name, WORDS, change, "words", report);
    }
    for (name, old, new, report) in DRAWN {
        plant(name, PAGE, Instead(old, new), "layers", report);
    }
    for (name, file, behind, root) in MACHINES {
        let change = Behind(behind, format!("See /{root}/somewhere.\n"));
        plant(name, file, change, "machines", file);
    }
    for (start, end) in LOGS {
        let change = Behind(TITLE, format!("{start}{end}\n"));
        plant("a line of a build log", PAGE, change, "logs", PAGE);
    }
    faults
}
