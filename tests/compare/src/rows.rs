//! Rows of votes: such as pass, and any.

use crate::random::Random;
use reference::hall::{built_in_votes, judge_votes, Votes, MOST_RECORDERS, MOST_VOTES};

/// Votes at the edges of their range and of their bytes.
pub const EDGES: [u32; 14] = [
    0,
    1,
    2,
    255,
    256,
    999,
    1_000,
    1_001,
    1_024,
    65_535,
    65_536,
    1 << 24,
    1 << 31,
    u32::MAX,
];

/// A row with the same vote for all recorders up to N.
pub fn equal(n: u32, vote: u32) -> Votes {
    let mut votes = [0; MOST_RECORDERS as usize];
    votes[..n as usize].fill(vote);
    votes
}

/// A row with one vote put in place of another.
pub fn with_vote(mut votes: Votes, place: usize, vote: u32) -> Votes {
    votes[place] = vote;
    votes
}

/// Votes for recorders 1 to N, none of them 0 and no two the same.
pub fn different(random: &mut Random, n: u32) -> Votes {
    let mut votes = [0; MOST_RECORDERS as usize];
    for place in 0..n as usize {
        while votes[place] == 0 {
            let vote = random.between(1, MOST_VOTES);
            if !votes.contains(&vote) {
                votes[place] = vote;
            }
        }
    }
    votes
}

/// Votes for recorders 1 to N, which may all be 0.
fn within(random: &mut Random, n: u32) -> Votes {
    let mut votes = [0; MOST_RECORDERS as usize];
    let most = random.pick(&[1, 2, 5, MOST_VOTES]);
    match random.below(8) {
        0 => return equal(n, most),
        1 => votes[random.below(n as usize)] = most,
        2 => {
            // Two that are as strong, or nearly.
            votes[random.below(n as usize)] = most;
            votes[random.below(n as usize)] = random.between(most - 1, most);
        }
        3 => {
            // The built-in row, with the two votes elsewhere.
            votes = equal(n, 1);
            votes[random.below(n as usize)] = 2;
        }
        _ => votes[..n as usize].fill_with(|| random.between(0, most)),
    }
    votes
}

/// A row that passes in a hall of N, one in four the built-in one.
pub fn passing(random: &mut Random, n: u32) -> Votes {
    if random.one_in(4) {
        return built_in_votes(n);
    }
    loop {
        let votes = within(random, n);
        if judge_votes(n, &votes).is_ok() {
            return votes;
        }
    }
}

/// Any row, for any N: one that passes, one with a vote changed, or any words.
pub fn any(random: &mut Random, n: u32) -> Votes {
    let row = match n {
        1..=MOST_RECORDERS => passing(random, n),
        _ => within(random, MOST_RECORDERS),
    };
    match random.below(6) {
        0 => with_vote(row, random.below(8), random.pick(&EDGES)),
        1 => with_vote(row, random.below(8), random.word() >> random.below(32)),
        2 => [0; MOST_RECORDERS as usize],
        3 => row.map(|_| random.word() >> random.below(32)),
        _ => row,
    }
}
