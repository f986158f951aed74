//! Damaged halls: changed bytes, moved records, pieces of other halls, noise
//! and slices of other lengths. Some are still halls, and then the calls on
//! them are compared like all others.

use crate::actions;
use crate::counts::Counts;
use crate::halls;
use crate::pair::{random_room, Difference, Pair};
use crate::random::Random;
use crate::rows::{self, EDGES};
use reference::calls::ANSWER_LENGTH;
use reference::hall::{all_recorders, built_in_votes, MOST_VOTES};
use reference::stored::LENGTH;
use reference::{open, open_whole, stored, Hall, Votes};

/// Damaged bytes that are a hall, and bytes that are none.
pub const STILL_A_HALL: &str = "damaged: still a hall";
pub const NO_HALL: &str = "damaged: no hall";
/// Damaged bytes that are a hall which was settled.
pub const SETTLED: &str = "damaged: settled";

/// Where the votes stand.
const VOTES_AT: usize = 59_699;

/// A hall to damage: a random one, or one that a run reaches.
fn sound_hall(random: &mut Random) -> Hall {
    match random.below(4) {
        0 => return halls::voting(random),
        1 => return halls::to_settle(random),
        _ => (),
    }
    let n = random.between(1, 8);
    let votes = rows::passing(random, n);
    let mut hall = open(n, all_recorders(n), votes).expect("the opening is taken");
    let weights = actions::Weights::random(random);
    for _ in 0..random.between(0, 2_000) {
        let [k, r, a, b] = actions::action(random, &hall, &weights);
        hall.step(k, r, a, b);
    }
    hall
}

/// A check, and a step, a page or a settle, on bytes that may be no hall.
fn call(random: &mut Random, pair: &mut Pair, counts: &mut Counts) -> Result<(), Difference> {
    pair.check(counts)?;
    let hall = pair.hall();
    counts.event(if hall.is_some() {
        STILL_A_HALL
    } else {
        NO_HALL
    });
    let room = random_room(random);
    if random.one_in(24) {
        if let (0, _) = pair.settle(room, counts)? {
            counts.event(SETTLED);
        }
    } else if random.one_in(3) {
        let (r, place) = match hall {
            Some(hall) => actions::page(random, hall),
            None => (random.between(0, 9), random.between(0, 1)),
        };
        pair.page(r, place, room, counts)?;
    } else {
        let action = actions::any_step(random, hall);
        pair.step(action, room, counts)?;
    }
    Ok(())
}

/// The greatest value of a byte in its range, by docs/stored-form.md.
fn limit(at: usize) -> u8 {
    match at {
        0 => 8,
        1 => 32,
        2..=161 => 255,
        162 => 64,
        163..=802 => [8, 255, 255, 255, 255, 255, 255, 255, 255, 64][(at - 163) % 10],
        803..=3_090 => recorder_limit((at - 803) % 286),
        3_091..=55_058 => place_limit((at - 3_091) % 203),
        55_059..VOTES_AT => match (at - 55_059) % 145 {
            0 => 72,
            k if k % 2 == 1 => 8,
            _ => 64,
        },
        _ => [255, 3, 0, 0][(at - VOTES_AT) % 4],
    }
}

fn recorder_limit(at: usize) -> u8 {
    match at {
        0..=3 | 138..=141 => 255,
        4 => 2,
        5..=137 => 64,
        _ => 1,
    }
}

fn place_limit(at: usize) -> u8 {
    match at {
        0 => 65,
        1..=65 | 133..=198 => 64,
        66 | 67 => 72,
        68..=132 => 1,
        _ => 255,
    }
}

/// The values that a byte is set to: near ones, the end of its range and the
/// value after it, and a random one; or all others.
fn other_values(random: &mut Random, at: usize, byte: u8, all: bool) -> Vec<u8> {
    if all {
        return (0..=255).filter(|&other| other != byte).collect();
    }
    let last = limit(at);
    let near = [byte ^ 1, byte.wrapping_add(1)];
    let edge = [last, last.saturating_add(1)];
    let values = near.into_iter().chain(edge).chain([random.byte()]);
    let mut values: Vec<u8> = values.filter(|&other| other != byte).collect();
    values.sort_unstable();
    values.dedup();
    values
}

/// Sets each byte of a hall, from `first` on in strides, to other values.
fn bytes(
    random: &mut Random,
    (first, stride, all): (usize, usize, bool),
    counts: &mut Counts,
) -> Result<(), Difference> {
    let hall = sound_hall(random);
    let form = stored::form(&hall);
    let mut pair = Pair::of_hall(hall, &[]);
    for at in (first..LENGTH).step_by(stride) {
        for other in other_values(random, at, form[at], all) {
            pair.change(|area| {
                area.copy_from_slice(&form);
                area[at] = other;
            });
            let say = |what| format!("byte {at} set to {other}: {what}");
            call(random, &mut pair, counts).map_err(say)?;
        }
    }
    Ok(())
}

/// One in 16 bytes of a hall, set to some other values; 16 seeds in a row take
/// them all.
pub fn some_values(seed: u64, counts: &mut Counts) -> Result<(), Difference> {
    let mut random = Random::new("damage", seed);
    bytes(&mut random, ((seed % 16) as usize, 16, false), counts)
}

/// One in 256 bytes of a hall, set to all other values.
pub fn all_values(seed: u64, counts: &mut Counts) -> Result<(), Difference> {
    let mut random = Random::new("damage all", seed);
    bytes(&mut random, ((seed % 256) as usize, 256, true), counts)
}

/// Three views of one recorder, which is in the second and has sent its summary
/// there, and an entry with a label.
const NUMBERED: [[u32; 4]; 6] = [
    [1, 1, 5, 0],
    [2, 1, 0, 0],
    [5, 0, 2, 1],
    [6, 1, 2, 0],
    [4, 1, 0, 0],
    [5, 0, 3, 1],
];

/// Where its numbers are, each with the least and the greatest that it may be: of
/// the first view, the third, of the label, the current view, the recorder's
/// highest primary and the summary's.
const NUMBERS: [(usize, u32, u32); 6] = [
    (2, 1, 1),
    (12, 3, u32::MAX),
    (168, 1, u32::MAX),
    (803, 0, 3),
    (941, 0, u32::MAX),
    (3_493, 0, u32::MAX),
];

/// Each of the four bytes of a number, set to all values.
pub fn numbers(_: u64, counts: &mut Counts) -> Result<(), Difference> {
    let mut pair = Pair::of_bytes(vec![0; LENGTH], LENGTH);
    pair.open_built_in(1, 1, counts)?;
    for action in NUMBERED {
        pair.step(action, ANSWER_LENGTH, counts)?;
    }
    let form = pair.lent().to_vec();
    for (at, least, most) in NUMBERS {
        for (k, byte) in (0..4).flat_map(|k| (0..=255).map(move |byte| (k, byte))) {
            pair.change(|area| {
                area.copy_from_slice(&form);
                area[at + k] = byte;
            });
            let (refusal, _) = pair.page(1, 0, ANSWER_LENGTH, counts)?;
            let number = word_at(pair.lent(), at);
            if (refusal == 0) != (least..=most).contains(&number) {
                return Err(format!("number {number} at {at}: {refusal}"));
            }
        }
    }
    Ok(())
}

/// The word at an offset.
fn word_at(bytes: &[u8], at: usize) -> u32 {
    u32::from_le_bytes([bytes[at], bytes[at + 1], bytes[at + 2], bytes[at + 3]])
}

/// The votes in a hall's bytes.
fn votes_in(bytes: &[u8]) -> Votes {
    let mut votes = [0; 8];
    for (place, vote) in votes.iter_mut().enumerate() {
        *vote = word_at(bytes, VOTES_AT + 4 * place);
    }
    votes
}

/// Whether a row may stand in a hall of N, as 02 says it.
fn may_stand(n: u32, votes: Votes) -> bool {
    let (within, above) = votes.split_at(n as usize);
    let most = within.iter().max();
    most.is_some_and(|&most| (1..=MOST_VOTES).contains(&most)) && above.iter().all(|&v| v == 0)
}

/// A step and a page on a hall whose votes are changed: 31 exactly if they may
/// not stand there. The step forms a view.
fn votes_changed(
    pair: &mut Pair,
    form: &[u8],
    change: impl Fn(&mut [u8]),
    counts: &mut Counts,
) -> Result<(), Difference> {
    pair.change(|area| {
        area.copy_from_slice(form);
        change(&mut area[VOTES_AT..]);
    });
    let votes = votes_in(pair.lent());
    let wanted = if may_stand(form[0].into(), votes) {
        0
    } else {
        31
    };
    let (page, _) = pair.page(1, 0, ANSWER_LENGTH, counts)?;
    let step = pair.step([5, 0, 2, 1], ANSWER_LENGTH, counts)?;
    if (page, step) != (wanted, wanted) {
        return Err(format!("votes {votes:?}: page {page}, step {step}"));
    }
    counts.event(if wanted == 0 { STILL_A_HALL } else { NO_HALL });
    Ok(())
}

/// Votes in an opened hall of every N: every value of each byte; votes at their
/// edges at each place, in a row of 0 and in one of the most votes; all 0.
pub fn votes(_: u64, counts: &mut Counts) -> Result<(), Difference> {
    for n in 1..=8 {
        let hall = open_whole(n);
        let form = stored::form(&hall);
        let mut pair = Pair::of_hall(hall, &[]);
        for (at, byte) in (0..32).flat_map(|at| (0..=255).map(move |byte| (at, byte))) {
            votes_changed(&mut pair, &form, |votes| votes[at] = byte, counts)?;
        }
        for row in [[0; 8], rows::equal(n, MOST_VOTES), built_in_votes(n)] {
            for (place, vote) in (0..8).flat_map(|place| EDGES.map(|vote| (place, vote))) {
                let words = rows::with_vote(row, place, vote).map(u32::to_le_bytes);
                let put = |votes: &mut [u8]| votes.copy_from_slice(words.as_flattened());
                votes_changed(&mut pair, &form, put, counts)?;
            }
        }
    }
    Ok(())
}

/// The tables of a stored hall: offset, size of a record, number of records.
const TABLES: [(usize, usize, usize); 7] = [
    (2, 5, 32),
    (163, 10, 64),
    (803, 286, 8),
    (3_091, 203, 256),
    (3_091, 6_496, 8),
    (55_059, 145, 32),
    (VOTES_AT, 4, 8),
];

/// Copies one record of a table over another, or swaps two of them.
fn move_record(random: &mut Random, area: &mut [u8]) {
    let (start, size, count) = random.pick(&TABLES);
    let one = start + size * random.below(count);
    let other = start + size * random.below(count);
    let kept = area[other..other + size].to_vec();
    area.copy_within(one..one + size, other);
    if random.coin() {
        area[one..one + size].copy_from_slice(&kept);
    }
}

/// Sets a few bytes, near each other or anywhere, to low or any values.
fn set_bytes(random: &mut Random, area: &mut [u8]) {
    let near = random.below(LENGTH);
    let spread = random.pick(&[4, 64, LENGTH]);
    for _ in 0..1 + random.below(4) {
        let at = (near + random.below(spread)) % LENGTH;
        area[at] = match random.below(3) {
            0 => random.byte(),
            1 => area[at].wrapping_add(1),
            _ => random.below(9) as u8,
        };
    }
}

/// Puts a piece of another hall in its place.
fn splice(random: &mut Random, area: &mut [u8]) {
    let other = stored::form(&sound_hall(random));
    let (start, size, count) = random.pick(&TABLES);
    let from = start + size * random.below(count);
    let to = match random.below(3) {
        0 => from + size,
        1 => start + size * count,
        _ => LENGTH,
    };
    area[from..to].copy_from_slice(&other[from..to]);
}

/// Only noise, of any or of low bytes, or zeros.
fn noise(random: &mut Random, area: &mut [u8]) {
    let limit = random.pick(&[1, 2, 9, 65, 256]);
    for byte in area.iter_mut() {
        *byte = random.below(limit) as u8;
    }
    if random.coin() {
        area[0] = random.between(1, 8) as u8;
    }
}

/// Halls damaged in larger ways, with several calls on each.
pub fn records(seed: u64, counts: &mut Counts) -> Result<(), Difference> {
    let mut random = Random::new("records", seed);
    for _ in 0..12 {
        let form = stored::form(&sound_hall(&mut random));
        for _ in 0..16 {
            let mut area = form.clone();
            match random.below(16) {
                0..=6 => move_record(&mut random, &mut area),
                7..=12 => set_bytes(&mut random, &mut area),
                13 | 14 => splice(&mut random, &mut area),
                _ => noise(&mut random, &mut area),
            }
            let mut pair = Pair::of_bytes(area, LENGTH);
            for _ in 0..4 {
                call(&mut random, &mut pair, counts)?;
            }
        }
    }
    Ok(())
}

/// A sound hall in slices of all kinds of lengths: a shorter one is no hall, a
/// longer one is, whatever its other bytes are.
pub fn lengths(seed: u64, counts: &mut Counts) -> Result<(), Difference> {
    let mut random = Random::new("lengths", seed);
    let mut area = stored::form(&sound_hall(&mut random));
    area.extend((0..200).map(|_| random.byte()));
    for _ in 0..60 {
        let length = match random.below(5) {
            0 => random.below(LENGTH),
            1 => LENGTH - 1,
            2 => random.pick(&[0, 1, 2, 162, 803, 3_091, 55_059, VOTES_AT, LENGTH]),
            _ => LENGTH + random.below(200),
        };
        let mut pair = Pair::of_bytes(area.clone(), length);
        if pair.hall().is_some() != (length >= LENGTH) {
            return Err(format!("length {length}"));
        }
        for _ in 0..4 {
            let say = |what| format!("length {length}: {what}");
            call(&mut random, &mut pair, counts).map_err(say)?;
        }
    }
    Ok(())
}
