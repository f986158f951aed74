//! Settles: of halls whose count is known, of runs from an opening, and of
//! random halls that no run reaches.

use crate::counts::Counts;
use crate::halls;
use crate::pair::{random_room, Difference, Pair};
use crate::random::Random;
use crate::runs::{calls, lend, opening};
use reference::calls::ANSWER_LENGTH;
use reference::settle::{turn_actions, MOST_STEPS};
use reference::stored::LENGTH;
use reference::{refusal, Hall, View};

/// A room that is often too short.
fn any_room(random: &mut Random) -> usize {
    if random.one_in(8) {
        random.below(ANSWER_LENGTH)
    } else {
        random_room(random)
    }
}

/// The number of a settle, and its count if that is 0.
type Settled = (u32, u32);

/// Settles, with a slice of `room` bytes for the answer.
fn settle(pair: &mut Pair, room: usize, counts: &mut Counts) -> Result<Settled, Difference> {
    let (number, [count, ..]) = pair.settle(room, counts)?;
    if count as usize > MOST_STEPS {
        return Err(format!("{count} steps"));
    }
    Ok((number, count))
}

fn greatest_view(pair: &Pair) -> Option<&View> {
    pair.hall().and_then(Hall::greatest_view)
}

/// Makes the steps of a settle one by one; then no action of a turn is allowed,
/// and 40 is not met. Gives their number.
fn step_by_step(pair: &mut Pair, counts: &mut Counts) -> Result<u32, Difference> {
    let hall = pair.hall().cloned();
    let steps = hall.and_then(|mut hall| hall.settle().ok());
    let steps = steps.ok_or("it does not settle")?;
    for &step in &steps {
        match pair.step(step, ANSWER_LENGTH, counts)? {
            0 => (),
            number => return Err(format!("step {step:?} of a settle: {number}")),
        }
    }
    let view = greatest_view(pair).ok_or("no view")?;
    for action in turn_actions(view.number, view.members) {
        if let number @ (0 | refusal::FULL) = pair.step(action, ANSWER_LENGTH, counts)? {
            return Err(format!("step {action:?} after a settle: {number}"));
        }
    }
    Ok(steps.len() as u32)
}

/// A settle and its steps one by one leave the same bytes, and the count is their
/// number; a second settle takes no step.
fn settle_both_ways(pair: &mut Pair, counts: &mut Counts) -> Result<Settled, Difference> {
    let mut other = Pair::of_bytes(pair.lent().to_vec(), pair.lent().len());
    let settled = settle(pair, ANSWER_LENGTH, counts)?;
    if let (0, count) = settled {
        let steps = step_by_step(&mut other, counts)?;
        if steps != count || other.lent() != pair.lent() {
            return Err(format!("{count} steps at once, {steps} one by one"));
        }
        if settle(pair, ANSWER_LENGTH, counts)? != (0, 0) {
            return Err("the second settle takes steps".to_string());
        }
    }
    Ok(settled)
}

/// Whether R has delivered all entries of a sender, in order of submission.
fn has_delivered(hall: &Hall, r: u32, sender: u32) -> bool {
    let recorder = hall.recorder(r);
    let of_sender = |&entry: &usize| hall.entries[entry].sender == sender;
    let delivered = recorder
        .order
        .iter()
        .copied()
        .take(recorder.report as usize - 1);
    delivered
        .filter(of_sender)
        .eq((0..hall.entries.len()).filter(of_sender))
}

/// Whether all members of the greatest view have delivered what was submitted at
/// any of them.
fn is_complete(pair: &Pair) -> bool {
    let (Some(hall), Some(view)) = (pair.hall(), greatest_view(pair)) else {
        return false;
    };
    let members: Vec<u32> = (1..=hall.n).filter(|&r| view.has(r)).collect();
    let complete = |&r: &u32| members.iter().all(|&sender| has_delivered(hall, r, sender));
    members.iter().all(complete)
}

/// Settles a reached hall: 40 is not given, and a settled log is complete.
fn settle_reached(
    random: &mut Random,
    pair: &mut Pair,
    counts: &mut Counts,
) -> Result<(), Difference> {
    let settled = if random.one_in(4) {
        settle_both_ways(pair, counts)?
    } else {
        settle(pair, any_room(random), counts)?
    };
    match settled {
        (refusal::FULL, _) => Err("40 in a reached hall".to_string()),
        (0, _) if !is_complete(pair) => Err("the log is not complete".to_string()),
        _ => Ok(()),
    }
}

/// A run from an opening that is settled now and then.
pub fn opened(seed: u64, counts: &mut Counts) -> Result<(), Difference> {
    let mut random = Random::new("settled runs", seed);
    let mut pair = opening(&mut random, counts)?;
    for _ in 0..random.between(1, 8) {
        let most = random.pick(&[4, 20, 100, 400]);
        let steps = random.between(0, most);
        calls(&mut random, &mut pair, steps, counts)?;
        settle_reached(&mut random, &mut pair, counts)?;
    }
    Ok(())
}

/// Random halls, settled and after some calls again.
pub fn odd(seed: u64, counts: &mut Counts) -> Result<(), Difference> {
    let mut random = Random::new("odd settles", seed);
    for _ in 0..40 {
        let hall = match random.below(16) {
            0 => halls::long_buffer(&mut random),
            1 | 2 => halls::in_exchange(&mut random),
            _ => halls::to_settle(&mut random),
        };
        let mut pair = lend(&mut random, hall)?;
        if random.one_in(8) {
            settle_both_ways(&mut pair, counts)?;
        } else {
            settle(&mut pair, any_room(&mut random), counts)?;
        }
        let steps = random.between(0, 4);
        calls(&mut random, &mut pair, steps, counts)?;
        settle(&mut pair, any_room(&mut random), counts)?;
    }
    Ok(())
}

/// N and founders, the steps before a settle, and what it gives.
type Known = (u32, u32, Vec<[u32; 4]>, Settled);

/// Settles whose count was found by hand, and the longest.
fn known() -> [Known; 8] {
    let submit = |r: u32| [1, r, 0, 0];
    let form = |number: u32, set: u32| [5, 0, number, set];
    let one = vec![submit(1)];
    let each: Vec<_> = (1..=3).map(submit).collect();
    let most: Vec<_> = (0..64).map(|k| submit(1 + k % 8)).collect();
    let then = |before: &[[u32; 4]], last: [u32; 4]| [before, &[last]].concat();
    [
        (3, 7, vec![], (0, 0)),
        (1, 1, one, (0, 7)),
        (3, 7, each.clone(), (0, 45)),
        (3, 7, then(&each, form(2, 0b011)), (0, 36)),
        (3, 7, vec![form(2, 0b111)], (0, 27)),
        (3, 7, vec![form(2, 0b011), form(3, 0b110)], (42, 0)),
        (8, 255, most.clone(), (0, 2_240)),
        (8, 255, then(&most, form(2, 255)), (0, 2_392)),
    ]
}

/// Settles of opened halls with the built-in row.
pub fn counted(_: u64, counts: &mut Counts) -> Result<(), Difference> {
    for (n, founders, before, wanted) in known() {
        let mut pair = Pair::of_bytes(vec![0; LENGTH], LENGTH);
        pair.open_built_in(n, founders, counts)?;
        for action in before {
            pair.step(action, ANSWER_LENGTH, counts)?;
        }
        let settled = settle_both_ways(&mut pair, counts)?;
        if settled != wanted || settled.0 == 0 && !is_complete(&pair) {
            return Err(format!("hall of {n}: {settled:?}, must be {wanted:?}"));
        }
    }
    Ok(())
}
