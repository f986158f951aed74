//! The margin on a page, for every set of recorders in a hall of every size and
//! with rows of several kinds: as founders, and as a view formed later. Recorders
//! outside the set have no view.

use crate::counts::Counts;
use crate::pair::{Difference, Pair};
use crate::random::Random;
use crate::rows::{different, equal, with_vote};
use reference::calls::ANSWER_LENGTH;
use reference::hall::{all_recorders, MOST_RECORDERS, MOST_VOTES};
use reference::stored::LENGTH;
use reference::{open, Votes};
use std::collections::BTreeSet;

const NO_VIEW: &str = "margin: of no view";
const BELOW: &str = "margin: of a view, below 0";
const ZERO: &str = "margin: of a view, 0";
const ABOVE: &str = "margin: of a view, above 0";

const LEAST: &str = "margin: -8,000";
const GREATEST: &str = "margin: 8,000";

/// What must have come.
pub const EVENTS: [&str; 6] = [NO_VIEW, BELOW, ZERO, ABOVE, LEAST, GREATEST];

/// The built-in votes of recorders 1 to 8.
const BUILT_IN: Votes = [2, 1, 1, 1, 1, 1, 1, 1];

/// The votes that recorders 1 to N have of a row for eight.
fn first(n: u32, row: Votes) -> Votes {
    let mut votes = [0; MOST_RECORDERS as usize];
    votes[..n as usize].copy_from_slice(&row[..n as usize]);
    votes
}

/// Rows for a hall of N: the built-in one, the greatest, one vote alone at the
/// last recorder, rising and falling votes of which each exceeds all lesser ones
/// together, and others without an order.
fn rows(n: u32) -> [Votes; 6] {
    [
        first(n, BUILT_IN),
        equal(n, MOST_VOTES),
        with_vote([0; MOST_RECORDERS as usize], n as usize - 1, 1),
        first(n, [1, 2, 4, 8, 16, 32, 64, 128]),
        first(n, [128, 64, 32, 16, 8, 4, 2, 1]),
        first(n, [5, 3, 3, 0, 1_000, 257, 0, 740]),
    ]
}

/// A hall of N with a row.
#[derive(Clone, Copy)]
struct Size {
    n: u32,
    row: Votes,
}

fn is_member(set: u32, r: u32) -> bool {
    set >> (r - 1) & 1 != 0
}

impl Size {
    fn votes(self, set: u32) -> i32 {
        let members = (1..).zip(self.row).filter(|&(r, _)| is_member(set, r));
        members.map(|(_, votes)| votes as i32).sum()
    }

    /// The votes of a set less those of all others, which is twice its votes
    /// less those of the hall.
    fn margin(self, set: u32) -> i32 {
        let others = ((1 << self.n) - 1) ^ set;
        self.votes(set) - self.votes(others)
    }
}

fn event(view: u32, margin: i32) -> &'static str {
    match (view, margin) {
        (_, -8_000) => LEAST,
        (_, 8_000) => GREATEST,
        (0, _) => NO_VIEW,
        (_, ..=-1) => BELOW,
        (_, 0) => ZERO,
        _ => ABOVE,
    }
}

/// The margin on a page, whose view, set and margin must be the wanted ones.
fn page_margin(
    pair: &mut Pair,
    r: u32,
    wanted: (u32, u32, i32),
    counts: &mut Counts,
) -> Result<i32, Difference> {
    let (_, words) = pair.page(r, 0, ANSWER_LENGTH, counts)?;
    let given = (words[0], words[1], words[3] as i32);
    if given != wanted {
        let what = format!("view, set and margin {given:?}, must be {wanted:?}");
        return Err(format!("page {r}: {what}"));
    }
    let (view, _, margin) = given;
    counts.event(event(view, margin));
    Ok(margin)
}

/// The margins on the pages of all recorders, in a hall where the members of a
/// set are in a view of that set and all others in none.
fn page_margins(
    mut pair: Pair,
    size: Size,
    (view, set): (u32, u32),
    counts: &mut Counts,
) -> Result<BTreeSet<i32>, Difference> {
    let wanted = |r| {
        if is_member(set, r) {
            (view, set, size.margin(set))
        } else {
            (0, 0, size.margin(0))
        }
    };
    (1..=size.n)
        .map(|r| page_margin(&mut pair, r, wanted(r), counts))
        .collect()
}

/// A hall where no recorder has a view. No run reaches it, and a hall of one has
/// the margin of the empty set in no other.
fn without_views(size: Size) -> Pair {
    let founders = all_recorders(size.n);
    let mut hall = open(size.n, founders, size.row).expect("the opening is taken");
    for recorder in &mut hall.recorders {
        recorder.current = 0;
    }
    Pair::of_hall(hall, &[])
}

/// A hall opened with a set as founders.
fn opened(size: Size, founders: u32, counts: &mut Counts) -> Result<Pair, Difference> {
    let mut pair = Pair::of_bytes(vec![0; LENGTH], LENGTH);
    pair.open(size.n, founders, size.row, counts)?;
    Ok(pair)
}

/// A hall whose view 2 is a set that all members have entered; the least of them
/// alone founded the hall.
fn formed(size: Size, set: u32, counts: &mut Counts) -> Result<Pair, Difference> {
    let founder = 1 << set.trailing_zeros();
    let mut pair = opened(size, founder, counts)?;
    pair.step([5, 0, 2, set], ANSWER_LENGTH, counts)?;
    for r in (1..=size.n).filter(|&r| is_member(set, r)) {
        pair.step([6, r, 2, 0], ANSWER_LENGTH, counts)?;
    }
    Ok(pair)
}

/// All sets of a hall; each of their margins must have come.
fn of_size(size: Size, counts: &mut Counts) -> Result<(), Difference> {
    let sets = 1 << size.n;
    let mut seen = page_margins(without_views(size), size, (0, 0), counts)?;
    for set in 1..sets {
        let pair = opened(size, set, counts)?;
        seen.extend(page_margins(pair, size, (1, set), counts)?);
        let pair = formed(size, set, counts)?;
        seen.extend(page_margins(pair, size, (2, set), counts)?);
    }
    let wanted: BTreeSet<i32> = (0..sets).map(|set| size.margin(set)).collect();
    if seen != wanted {
        return Err(format!("margins {seen:?} came, must be {wanted:?}"));
    }
    Ok(())
}

fn of_row(n: u32, row: Votes, counts: &mut Counts) -> Result<(), Difference> {
    let say = |what| format!("hall of {n}, votes {row:?}: {what}");
    of_size(Size { n, row }, counts).map_err(say)
}

pub fn all(_: u64, counts: &mut Counts) -> Result<(), Difference> {
    for n in 1..=MOST_RECORDERS {
        for row in rows(n) {
            of_row(n, row, counts)?;
        }
    }
    Ok(())
}

/// Random rows in which no two recorders have the same votes: a count that
/// misses a recorder or takes one twice gives another margin.
pub fn of_different(seed: u64, counts: &mut Counts) -> Result<(), Difference> {
    let mut random = Random::new("margins", seed);
    for n in 1..=MOST_RECORDERS {
        of_row(n, different(&mut random, n), counts)?;
    }
    Ok(())
}
