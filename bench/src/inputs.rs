//! What both sides are timed on.

use crate::plain;
use compare::actions::{self, Weights};
use compare::halls;
use compare::library::Lent;
use compare::random::Random;
use reference::hall::{
    all_recorders, Entry, Label, Message, Phase, Queued, Recorder, Seat, Summary, View, MOST_VOTES,
};
use reference::runfile::MOST_ACTIONS;
use reference::settle::turn_actions;
use reference::stored::{self, LENGTH};
use reference::{open_built_in, open_whole, write_run_file, Answer, Hall, Opening};

/// An opening and actions, at most as many as a run file takes.
pub struct Run {
    pub name: String,
    pub n: u32,
    pub founders: u32,
    pub actions: Vec<[u32; 4]>,
}

impl Run {
    /// Random actions, as many as a run file takes.
    pub fn random(n: u32, seed: u64) -> Run {
        let mut random = Random::new("bench", seed);
        let mut hall = open_whole(n);
        let weights = Weights::random(&mut random);
        let mut actions = Vec::new();
        while actions.len() < MOST_ACTIONS {
            let action = actions::action(&mut random, &hall, &weights);
            let [k, r, a, b] = action;
            hall.step(k, r, a, b);
            actions.push(action);
        }
        Run {
            name: format!("N = {n}"),
            n,
            founders: all_recorders(n),
            actions,
        }
    }

    /// A run of allowed actions at whose end all entries are delivered
    /// everywhere: four views of all, 16 entries submitted in each. In each view
    /// all that can go goes, in rounds; the first three are left before all has
    /// gone, so that the next one takes up what was left.
    pub fn settled() -> Run {
        const LEFT_AFTER: usize = 610;
        let mut going = Going::open();
        for view in 1..=4 {
            let begin = going.taken.len();
            if view > 1 {
                going.must([5, 0, view, 255]);
                (1..=8).for_each(|r| going.must([6, r, view, 0]));
            }
            going.submit(16);
            while going.round(view) && (view == 4 || going.taken.len() - begin < LEFT_AFTER) {}
        }
        assert!(going.hall.recorders.iter().all(|r| r.report == 65));
        Run {
            name: "settled".to_string(),
            n: 8,
            founders: 255,
            actions: going.taken,
        }
    }

    /// The run file of the first actions.
    pub fn file(&self, count: usize) -> Vec<u8> {
        let mut bytes = vec![0; 65_536];
        let opening = Opening::built_in(self.n, self.founders);
        let length = write_run_file(opening, &self.actions[..count], &mut bytes);
        bytes.truncate(length.expect("the run fits"));
        bytes
    }
}

/// A hall of eight founders on its way, and the actions that were taken.
struct Going {
    hall: Hall,
    taken: Vec<[u32; 4]>,
}

impl Going {
    fn open() -> Going {
        Going {
            hall: open_whole(8),
            taken: Vec::new(),
        }
    }

    /// Tries an action and says whether it is taken.
    fn goes(&mut self, action: [u32; 4]) -> bool {
        let [k, r, a, b] = action;
        let goes = !matches!(self.hall.step(k, r, a, b), Answer::Refused(_));
        if goes {
            self.taken.push(action);
        }
        goes
    }

    fn must(&mut self, action: [u32; 4]) {
        assert!(self.goes(action), "{action:?} is allowed");
    }

    /// So many entries, their senders by turns.
    fn submit(&mut self, count: u32) {
        let first = self.hall.entries.len() as u32;
        (first..first + count).for_each(|e| self.must([1, e % 8 + 1, 1_000 + e, 0]));
    }

    /// Each kind at each recorder once; whether any was taken.
    fn round(&mut self, view: u32) -> bool {
        let before = self.taken.len();
        for kind in [2, 3, 4, 7, 8, 9, 10, 11] {
            let a = if kind == 7 { view } else { 0 };
            for r in 1..=8 {
                self.goes([kind, r, a, 0]);
            }
        }
        self.taken.len() > before
    }
}

/// A hall to be settled, and all actions that are tried on the way.
pub struct Settle {
    pub hall: Hall,
    pub tries: Vec<[u32; 4]>,
    pub taken: usize,
}

/// The longest settle of a hall reached from opening: 64 entries wait and all
/// recorders have a new view before them. Each turn takes the first action that
/// is not refused; it ends when none is left.
pub fn longest_settle() -> Settle {
    let mut going = Going::open();
    going.submit(64);
    going.must([5, 0, 2, 255]);
    let hall = going.hall.clone();
    let before = going.taken.len();
    let turn: Vec<[u32; 4]> = turn_actions(2, 255).collect();
    let mut tries = Vec::new();
    let mut found = true;
    while found {
        found = turn.iter().any(|&action| {
            tries.push(action);
            going.goes(action)
        });
    }
    Settle {
        hall,
        tries,
        taken: going.taken.len() - before,
    }
}

/// A hall's bytes, and what page to ask for.
pub struct Snapshot {
    pub lent: Lent,
    pub recorder: u32,
    pub place: u32,
}

fn snapshot(hall: &Hall) -> Snapshot {
    let recorder = hall.n;
    Snapshot {
        lent: Lent::new(&stored::form(hall), LENGTH),
        recorder,
        place: hall.recorder(recorder).order.len() as u32,
    }
}

/// A hall that was just opened for all recorders.
fn empty_hall(n: u32) -> Snapshot {
    snapshot(&open_whole(n))
}

/// Halls along a run, evenly spread.
pub fn along(run: &Run, count: usize) -> Vec<Snapshot> {
    let mut hall = open_built_in(run.n, run.founders).expect("the opening is taken");
    let stride = run.actions.len() / count;
    let mut snapshots = Vec::new();
    for (place, &[k, r, a, b]) in run.actions.iter().enumerate() {
        if place % stride == 0 {
            snapshots.push(snapshot(&hall));
        }
        hall.step(k, r, a, b);
    }
    snapshots
}

/// Random halls that no run reaches.
fn odd_halls(seed: u64, count: usize) -> Vec<Snapshot> {
    let mut random = Random::new("bench", seed);
    (0..count)
        .map(|_| snapshot(&halls::hall(&mut random)))
        .collect()
}

/// A hall that is full in every field, the longest to check.
fn full_hall() -> Snapshot {
    let all: Vec<usize> = (0..64).collect();
    let label = |e: usize| Label {
        view: u32::MAX,
        seq: e as u32 / 8 + 1,
        sender: e as u32 % 8 + 1,
    };
    let summary = Summary {
        known: u64::MAX,
        order: all.clone(),
        confirm: 65,
        high: u32::MAX,
    };
    let seat = Seat {
        pending: (0..65).map(|e| Message::Entry(e % 64)).collect(),
        receive: 73,
        safe: 73,
        summary: Some(summary),
    };
    let queued = |e: usize| Queued {
        source: e as u32 % 8 + 1,
        message: Message::Entry(e % 64),
    };
    let view = |g: u32| View {
        number: u32::MAX - 31 + g,
        members: 255,
        queue: (0..72).map(queued).collect(),
        seats: vec![seat.clone(); 8],
    };
    let recorder = Recorder {
        current: u32::MAX,
        phase: Phase::Collect,
        known: u64::MAX,
        next_seq: 65,
        buffer: all.clone(),
        order: all,
        safe_labels: u64::MAX,
        confirm: 65,
        report: 65,
        high: u32::MAX,
        heard: 255,
        safe_sources: 255,
    };
    snapshot(&Hall {
        n: 8,
        entries: (0..64)
            .map(|e| Entry {
                sender: label(e).sender,
                value: u32::MAX,
                label: Some(label(e)),
            })
            .collect(),
        views: (0..32).map(view).collect(),
        recorders: vec![recorder; 8],
        votes: [MOST_VOTES; 8],
    })
}

/// Halls to take along a run, and random ones.
pub const HALLS: usize = 64;

/// Halls of different kinds, with the names that rows call them by.
pub fn halls(run: &Run) -> [(&'static str, Vec<Snapshot>); 5] {
    [
        ("an empty hall, N = 3", vec![empty_hall(3)]),
        ("an empty hall, N = 8", vec![empty_hall(8)]),
        ("halls of a run", along(run, HALLS)),
        ("random halls", odd_halls(3, HALLS)),
        ("a full hall", vec![full_hall()]),
    ]
}

/// The check in place says the same as the second implementation's reader, on
/// the inputs and on damaged ones.
pub fn checks_agree<'a>(halls: impl Iterator<Item = &'a Snapshot>) {
    let mut random = Random::new("bench", 4);
    let mut halls_seen = 0;
    for snapshot in halls {
        let mut bytes = snapshot.lent.area().to_vec();
        assert!(plain::is_hall(&bytes));
        for _ in 0..200 {
            let at = random.below(LENGTH);
            let kept = bytes[at];
            bytes[at] = if random.coin() {
                kept ^ 1
            } else {
                random.byte()
            };
            let is_hall = stored::read(&bytes).is_some();
            assert_eq!(plain::is_hall(&bytes), is_hall, "byte {at}");
            halls_seen += u32::from(is_hall);
            bytes[at] = kept;
        }
    }
    assert!(halls_seen > 100);
}
