//! Openings on any slice.

use crate::counts::Counts;
use crate::pair::{Difference, Pair};
use crate::random::Random;
use crate::rows::{any as any_row, equal, with_vote, EDGES};
use reference::hall::{built_in_votes, Votes, MOST_VOTES};
use reference::stored::LENGTH;

/// Every N to 9 with every founders word of up to nine recorders.
pub fn all(_: u64, counts: &mut Counts) -> Result<(), Difference> {
    let mut pair = Pair::of_bytes(vec![0x5a; LENGTH + 5], LENGTH + 5);
    for n in 0..=9 {
        for founders in 0..1 << 9 {
            pair.open(n, founders, built_in_votes(n.clamp(1, 8)), counts)?;
        }
    }
    Ok(())
}

/// Opens with a row: founders that are taken and some that are not, in a slice
/// that is long enough and in one that is not. So 41 stands between 16 and 18.
fn with_row(
    pairs: &mut [Pair; 2],
    n: u32,
    row: Votes,
    counts: &mut Counts,
) -> Result<(), Difference> {
    for pair in pairs {
        for founders in [0, 1, 1 << 8] {
            pair.open(n, founders, row, counts)?;
        }
    }
    Ok(())
}

/// Every N with votes at their edges, one after another in rows of several
/// kinds, and with every single bit of a vote.
pub fn votes(_: u64, counts: &mut Counts) -> Result<(), Difference> {
    let mut pairs = [LENGTH, LENGTH - 1].map(|length| Pair::of_bytes(vec![0x5a; LENGTH], length));
    for n in 0..=9 {
        let inside = n.clamp(1, 8);
        let rows = [[0; 8], equal(inside, MOST_VOTES), built_in_votes(inside)];
        for row in rows {
            with_row(&mut pairs, n, row, counts)?;
        }
        for place in 0..8 {
            for vote in EDGES.into_iter().chain((0..32).map(|bit| 1 << bit)) {
                for row in rows {
                    with_row(&mut pairs, n, with_vote(row, place, vote), counts)?;
                }
            }
        }
    }
    Ok(())
}

/// Any words, on slices of any length and with any content.
pub fn any(seed: u64, counts: &mut Counts) -> Result<(), Difference> {
    let mut random = Random::new("openings", seed);
    for _ in 0..40 {
        let length = match random.below(4) {
            0 => random.below(LENGTH),
            1 => LENGTH - 1 - random.below(3),
            _ => LENGTH + random.below(40),
        };
        let mut area = vec![0; length + random.below(40)];
        random.fill(&mut area);
        let mut pair = Pair::of_bytes(area, length);
        for _ in 0..8 {
            let n = match random.below(8) {
                0 => random.word(),
                _ => random.between(0, 10),
            };
            let founders = match random.below(4) {
                0 => random.word() >> random.below(32),
                1 => 1 << random.below(32),
                _ => random.word() & ((1 << random.below(10)) - 1),
            };
            pair.open(n, founders, any_row(&mut random, n), counts)?;
        }
    }
    Ok(())
}
