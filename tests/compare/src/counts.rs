//! How often each answer and each refusal came through the C interface.

use std::collections::BTreeMap;
use std::fmt;

#[derive(Clone, Copy, Debug, PartialEq, Eq, PartialOrd, Ord)]
pub enum Call {
    Open,
    /// A step of a kind; 0 stands for every kind that is none.
    Step(u32),
    Settle,
    /// A held step of a kind, as above.
    HeldStep(u32),
    HeldSettle,
    StepBack,
    Page,
    Check,
    RunRead,
    RunAction,
    RunWrite,
    RunList,
}

impl fmt::Display for Call {
    fn fmt(&self, f: &mut fmt::Formatter<'_>) -> fmt::Result {
        match self {
            Call::Open => write!(f, "open"),
            Call::Step(0) => write!(f, "no kind"),
            Call::Step(kind) => write!(f, "kind {kind}"),
            Call::Settle => write!(f, "settle"),
            Call::HeldStep(0) => write!(f, "no kind, held"),
            Call::HeldStep(kind) => write!(f, "kind {kind}, held"),
            Call::HeldSettle => write!(f, "settle, held"),
            Call::StepBack => write!(f, "step back"),
            Call::Page => write!(f, "page"),
            Call::Check => write!(f, "check"),
            Call::RunRead => write!(f, "run read"),
            Call::RunAction => write!(f, "run action"),
            Call::RunWrite => write!(f, "run write"),
            Call::RunList => write!(f, "run list"),
        }
    }
}

#[derive(Default)]
pub struct Counts {
    pub calls: u64,
    /// By call and number; number 0 and the case for answers, of a step back the
    /// kind.
    answers: BTreeMap<(Call, u32, u32), u64>,
    /// Halls and steps of special interest.
    events: BTreeMap<&'static str, u64>,
}

/// The cases of an answer, as word 0 numbers them.
const CASES: [&str; 4] = ["done", "entry", "summary", "from"];

/// Those of an action of a run file.
const RUN_CASES: [&str; 2] = ["action", "end"];

/// Which files are listed.
const LIST_CASES: [&str; 2] = ["a run", "a refused file"];

/// The refusals of each kind by 01, without 18, which each kind has.
const REFUSALS: [&[u32]; 12] = [
    &[11],
    &[31, 12, 13, 32],
    &[31, 12, 13, 37, 38, 40],
    &[31, 12, 13, 37, 38, 39, 40],
    &[31, 12, 13, 37, 40],
    &[31, 12, 14, 15, 32, 33],
    &[31, 12, 13, 14, 34, 35, 36],
    &[31, 12, 13, 14, 34, 35, 38, 40],
    &[31, 12, 13, 37, 38, 40],
    &[31, 12, 13, 37, 38, 39],
    &[31, 12, 13, 38, 39],
    &[31, 12, 13, 38, 39],
];

/// The cases that a kind answers.
fn cases_of(kind: usize) -> &'static [u32] {
    match kind {
        0 => &[],
        8 | 9 => &[1, 2],
        11 => &[3],
        _ => &[0],
    }
}

/// Every answer and refusal that must have come.
fn wanted_answers() -> Vec<(Call, u32, u32)> {
    let mut wanted = Vec::new();
    for number in [0, 16, 41, 18] {
        wanted.push((Call::Open, number, 0));
    }
    for number in [0, 31, 42, 40, 18] {
        wanted.push((Call::Settle, number, 0));
    }
    for number in [0, 31, 42, 43, 40, 18] {
        wanted.push((Call::HeldSettle, number, 0));
    }
    for number in [31, 43] {
        wanted.push((Call::StepBack, number, 0));
    }
    for number in [0, 31, 12, 38, 18] {
        wanted.push((Call::Page, number, 0));
    }
    for number in [0, 19, 16, 41, 18] {
        wanted.push((Call::RunRead, number, 0));
        wanted.push((Call::RunWrite, number, 0));
    }
    for number in [0, 31] {
        wanted.push((Call::Check, number, 0));
    }
    for (number, case) in [(0, 0), (0, 1), (18, 0)] {
        wanted.push((Call::RunAction, number, case));
        wanted.push((Call::RunList, number, case));
    }
    for (kind, refusals) in REFUSALS.iter().enumerate() {
        let number = kind as u32;
        for call in [Call::Step(number), Call::HeldStep(number)] {
            wanted.extend(refusals.iter().map(|&number| (call, number, 0)));
            wanted.extend(cases_of(kind).iter().map(|&case| (call, 0, case)));
            if kind != 0 {
                wanted.push((call, 18, 0));
            }
        }
        if kind != 0 {
            wanted.push((Call::HeldStep(number), 43, 0));
            wanted.push((Call::StepBack, 0, number));
        }
    }
    wanted
}

impl Counts {
    /// Counts a call by its number, and its case if the number is 0.
    pub fn call(&mut self, call: Call, number: u32, case: u32) {
        self.calls += 1;
        *self.answers.entry((call, number, case)).or_default() += 1;
    }

    pub fn event(&mut self, event: &'static str) {
        *self.events.entry(event).or_default() += 1;
    }

    pub fn of_event(&self, event: &str) -> u64 {
        self.events.get(event).copied().unwrap_or(0)
    }

    pub fn add(&mut self, other: Counts) {
        self.calls += other.calls;
        for (key, count) in other.answers {
            *self.answers.entry(key).or_default() += count;
        }
        for (event, count) in other.events {
            *self.events.entry(event).or_default() += count;
        }
    }

    /// The answers and refusals of each call that must have come and have not.
    pub fn missing_answers(&self) -> Vec<String> {
        let answers = wanted_answers().into_iter();
        let missing = answers.filter(|key| !self.answers.contains_key(key));
        missing.map(name).collect()
    }

    /// Those of the named events that have not come.
    pub fn missing_events(&self, events: &[&'static str]) -> Vec<String> {
        let missing = events.iter().filter(|event| self.of_event(event) == 0);
        missing.map(|event| event.to_string()).collect()
    }
}

fn name((call, number, case): (Call, u32, u32)) -> String {
    match (call, number) {
        (Call::Step(_) | Call::HeldStep(_), 0) => format!("{call}: {}", CASES[case as usize]),
        (Call::StepBack, 0) => format!("{call}: kind {case}"),
        (Call::RunAction, 0) => format!("{call}: {}", RUN_CASES[case as usize]),
        (Call::RunList, 0) => format!("{call}: {}", LIST_CASES[case as usize]),
        (_, 0) => format!("{call}: taken"),
        _ => format!("{call}: {number}"),
    }
}

impl fmt::Display for Counts {
    /// One line for each call, then one for each event.
    fn fmt(&self, f: &mut fmt::Formatter<'_>) -> fmt::Result {
        let mut lines: BTreeMap<Call, String> = BTreeMap::new();
        for (&(call, number, case), count) in &self.answers {
            let name = name((call, number, case));
            let what = name.rsplit(": ").next().unwrap_or_default();
            let line = lines.entry(call).or_default();
            line.push_str(&format!("  {what} x {count}"));
        }
        for (call, line) in lines {
            writeln!(f, "  {call:<13}{line}", call = call.to_string())?;
        }
        for (event, count) in &self.events {
            writeln!(f, "  {event}: {count}")?;
        }
        write!(f, "  calls: {}", self.calls)
    }
}
