//! Held steps, held settles and steps back: on runs that are lent one buffer, on
//! random halls, where somebody else writes, with invented slots and with buffers
//! that are not in form.

use crate::actions::{self, Weights};
use crate::bench::Bench;
use crate::counts::Counts;
use crate::flaws::{flaws, spoil, FLAWS, PARTS};
use crate::halls;
use crate::pair::{random_room, Difference, Pair};
use crate::random::Random;
use crate::rows;
use crate::runs::{lend, opening};
use reference::calls::ANSWER_LENGTH;
use reference::hall::all_recorders;
use reference::kept::Kept;
use reference::stored::{self, LENGTH as HALL};
use reference::undo::{Part, Slot, Undo, LENGTH, MOST_HELD};
use reference::{open, Hall};

/// What the tests must meet besides; those of `bench` are told by the calls.
pub const EVENTS: [&str; 8] = [
    INTO_A_SETTLE,
    FOREIGN_TAKEN,
    FOREIGN_REFUSED,
    INVENTED_TAKEN,
    INVENTED_REFUSED,
    OVERLAP_TAKEN,
    NO_BYTES_AT_THE_END,
    OTHER_HALL,
];

const INTO_A_SETTLE: &str = "step back: into a settle";
const FOREIGN_TAKEN: &str = "step back: taken after a foreign write";
const FOREIGN_REFUSED: &str = "step back: 43 after a foreign write";
const INVENTED_TAKEN: &str = "step back: of an invented slot, taken";
const INVENTED_REFUSED: &str = "step back: of an invented slot, 43";
const OVERLAP_TAKEN: &str = "step back: overlapping parts, the second one decides";
const NO_BYTES_AT_THE_END: &str = "step back: a part of no bytes at the hall's end";
const OTHER_HALL: &str = "step back: with the buffer of another hall";

/// A few bytes, or none.
fn some_bytes(random: &mut Random) -> Vec<u8> {
    let mut bytes = vec![0; random.below(3) * random.below(40)];
    random.fill(&mut bytes);
    bytes
}

/// A room that is often too short.
fn any_room(random: &mut Random) -> usize {
    if random.one_in(6) {
        random.below(ANSWER_LENGTH)
    } else {
        random_room(random)
    }
}

/// The hall of a bench.
fn hall_of(bench: &Bench) -> Result<&Hall, Difference> {
    bench.hall().ok_or("the hall is lost".to_string())
}

/// The same number on kept halls, and the same hall and count then.
fn compare_kept(bench: &Bench, kept: &Kept, same: bool) -> Result<(), Difference> {
    if same && bench.hall() == Some(&kept.hall) && bench.slots() == kept.count() {
        Ok(())
    } else {
        Err("not as with kept halls".to_string())
    }
}

/// Steps back, up to so many, until none is held.
fn backs(
    bench: &mut Bench,
    kept: &mut Kept,
    most: u32,
    counts: &mut Counts,
) -> Result<(), Difference> {
    for _ in 0..most {
        let number = bench.back(counts)?;
        let taken = kept.back();
        compare_kept(bench, kept, taken == (number == 0))?;
        if number != 0 {
            break;
        }
    }
    Ok(())
}

/// A held settle, and now and then some of its steps back.
fn settle(
    random: &mut Random,
    bench: &mut Bench,
    kept: &mut Kept,
    counts: &mut Counts,
) -> Result<(), Difference> {
    let (number, [steps, ..]) = bench.settle(any_room(random), counts)?;
    let same = number != 0 || kept.settle() == Ok(steps as usize);
    compare_kept(bench, kept, same)?;
    if steps > 1 && random.coin() {
        counts.event(INTO_A_SETTLE);
        backs(bench, kept, random.between(1, steps - 1), counts)?;
    }
    Ok(())
}

/// A call of a run that is lent one buffer, also on halls that are kept whole.
fn call(
    random: &mut Random,
    weights: &Weights,
    bench: &mut Bench,
    kept: &mut Kept,
    counts: &mut Counts,
) -> Result<(), Difference> {
    match random.below(40) {
        0 => settle(random, bench, kept, counts),
        1 | 2 => backs(bench, kept, random.between(1, 20), counts),
        _ => {
            let action = actions::action(random, &kept.hall, weights);
            let number = bench.step(action, random_room(random), counts)?;
            let same = number != 0 || kept.step(action).plain().is_ok();
            compare_kept(bench, kept, same)
        }
    }
}

/// A run of calls that begins with nothing held.
fn held_run(
    random: &mut Random,
    pair: Pair,
    calls: u32,
    counts: &mut Counts,
) -> Result<(), Difference> {
    let hall = pair.hall().ok_or("no hall")?.clone();
    let mut kept = Kept::new(hall);
    let mut bench = Bench::empty(pair, &some_bytes(random));
    let weights = Weights::random(random);
    for place in 0..calls {
        let say = |what| format!("call {place}: {what}");
        call(random, &weights, &mut bench, &mut kept, counts).map_err(say)?;
    }
    backs(&mut bench, &mut kept, 17, counts)
}

/// Runs from an opening.
pub fn opened(seed: u64, counts: &mut Counts) -> Result<(), Difference> {
    let mut random = Random::new("held runs", seed);
    let pair = opening(&mut random, counts)?;
    let calls = random.between(100, 700);
    held_run(&mut random, pair, calls, counts)
}

/// A random hall of any kind.
fn any_hall(random: &mut Random) -> Hall {
    match random.below(12) {
        0 => halls::long_buffer(random),
        1 => halls::in_exchange(random),
        2 => halls::before_the_last(random, 8).0,
        3 => halls::before_the_last(random, 9).0,
        4..=7 => halls::to_settle(random),
        _ => halls::voting(random),
    }
}

/// Runs from random halls.
pub fn odd(seed: u64, counts: &mut Counts) -> Result<(), Difference> {
    let mut random = Random::new("odd held runs", seed);
    for _ in 0..16 {
        let hall = any_hall(&mut random);
        let pair = lend(&mut random, hall)?;
        let calls = random.between(1, 40);
        held_run(&mut random, pair, calls, counts)?;
    }
    Ok(())
}

/// The longest settle: its last 16 steps are taken back, and taken again.
pub fn longest_settle(_: u64, counts: &mut Counts) -> Result<(), Difference> {
    let mut pair = Pair::of_bytes(vec![0; HALL], HALL);
    pair.open_built_in(8, 255, counts)?;
    let mut bench = Bench::empty(pair, &[]);
    for k in 0..64 {
        bench.step([1, 1 + k % 8, k, 0], ANSWER_LENGTH, counts)?;
    }
    bench.step([5, 0, 2, 255], ANSWER_LENGTH, counts)?;
    let (_, [first, ..]) = bench.settle(ANSWER_LENGTH, counts)?;
    let settled = (bench.pair.lent().to_vec(), bench.buffer().to_vec());
    let mut taken = 0;
    while bench.back(counts)? == 0 {
        taken += 1;
    }
    let (_, [again, ..]) = bench.settle(ANSWER_LENGTH, counts)?;
    let same = settled == (bench.pair.lent().to_vec(), bench.buffer().to_vec());
    if (first, taken, again, same) != (2_392, 16, 16, true) {
        return Err(format!("{first} steps, {taken} back, {again} again"));
    }
    Ok(())
}

/// An action that a hall allows, if one is found.
fn allowed(random: &mut Random, hall: &Hall) -> Option<[u32; 4]> {
    let weights = Weights::random(random);
    let mut tried = hall.clone();
    (0..40).find_map(|_| {
        let action = actions::action(random, &tried, &weights);
        let [k, r, a, b] = action;
        tried.step(k, r, a, b).plain().is_ok().then_some(action)
    })
}

/// Held steps, up to so many.
fn history(random: &mut Random, hall: &mut Hall, most: usize) -> Undo {
    let mut undo = Undo::default();
    for _ in 0..most {
        let Some(action) = allowed(random, hall) else {
            break;
        };
        hall.step_held(&mut undo, action);
    }
    undo
}

/// Numbers of held steps about those that matter.
fn any_count(random: &mut Random) -> usize {
    let any = random.below(20);
    random.pick(&[0, 1, 2, 3, 15, 16, 17, any])
}

/// A write by somebody who does not lend the buffer: a step, a settle, an old
/// hall in place of this one, or a new hall.
fn foreign_write(
    random: &mut Random,
    pair: &mut Pair,
    old: &[u8],
    counts: &mut Counts,
) -> Result<bool, Difference> {
    match random.below(16) {
        0 => {
            let n = random.between(1, 8);
            let votes = rows::passing(random, n);
            pair.open(n, all_recorders(n), votes, counts)?;
        }
        1 | 2 => pair.change(|area| area[..HALL].copy_from_slice(old)),
        3 => return Ok(pair.settle(ANSWER_LENGTH, counts)?.0 == 0),
        _ => {
            let hall = pair.hall().ok_or("the hall is lost")?;
            let action = allowed(random, hall).unwrap_or([1, 1, 0, 0]);
            return Ok(pair.step(action, ANSWER_LENGTH, counts)? == 0);
        }
    }
    Ok(true)
}

/// Runs in which somebody else writes.
pub fn foreign(seed: u64, counts: &mut Counts) -> Result<(), Difference> {
    let mut random = Random::new("foreign writes", seed);
    let pair = if random.coin() {
        opening(&mut random, counts)?
    } else {
        let hall = any_hall(&mut random);
        lend(&mut random, hall)?
    };
    let mut bench = Bench::empty(pair, &some_bytes(&mut random));
    let mut old = bench.pair.lent()[..HALL].to_vec();
    let mut written = false;
    for place in 0..200 {
        if place % 25 == 0 {
            old.copy_from_slice(&bench.pair.lent()[..HALL]);
        }
        match random.below(8) {
            0 | 1 => written |= foreign_write(&mut random, &mut bench.pair, &old, counts)?,
            2 | 3 => {
                let none = bench.slots() == 0;
                let number = bench.back(counts)?;
                if written && !none {
                    counts.event(match number {
                        0 => FOREIGN_TAKEN,
                        _ => FOREIGN_REFUSED,
                    });
                }
            }
            4 if random.one_in(8) => _ = bench.settle(any_room(&mut random), counts)?,
            _ => {
                let hall = hall_of(&bench)?;
                let action = actions::any_step(&mut random, Some(hall));
                let held = bench.step(action, random_room(&mut random), counts)? == 0;
                written &= !held;
            }
        }
    }
    Ok(())
}

/// A part of a hall's bytes.
fn part(form: &[u8], start: usize, end: usize) -> Part {
    Part {
        offset: start,
        bytes: form[start..end].to_vec(),
    }
}

/// Any part that is in form, with the bytes of a hall or any.
fn any_part(random: &mut Random, form: &[u8], room: usize) -> Part {
    let any = random.below(room + 1);
    let length = random.pick(&[0, 1, room, any]);
    let anywhere = random.below(HALL - length + 1);
    let start = random.pick(&[0, 162.min(HALL - length), HALL - length, anywhere]);
    let mut part = part(form, start, start + length);
    if random.one_in(4) {
        random.fill(&mut part.bytes);
    }
    part
}

fn end(part: &Part) -> usize {
    part.offset + part.bytes.len()
}

/// A part with more bytes about it, all that fit.
fn widened(random: &mut Random, form: &[u8], narrow: &Part, room: usize) -> Part {
    let more = room - narrow.bytes.len();
    let start = narrow.offset.saturating_sub(random.below(more + 1));
    part(form, start, (start + room).min(HALL).max(end(narrow)))
}

/// The second part lies in the first one, which has other bytes there.
fn overlapping(random: &mut Random, form: &[u8], first: &Part) -> [Part; 2] {
    let length = 1 + random.below(first.bytes.len().min(PARTS[1].1));
    let start = first.offset + random.below(first.bytes.len() - length + 1);
    let second = part(form, start, start + length);
    let mut first = first.clone();
    let inside = start - first.offset;
    random.fill(&mut first.bytes[inside..inside + length]);
    [first, second]
}

/// A part that makes another hall: with another value of an entry, with one
/// recorder more, or with other votes.
fn other_part(random: &mut Random, form: &[u8]) -> Part {
    let entries = usize::from(form[162]);
    match random.below(3) {
        0 if entries > 0 => {
            let at = 164 + 10 * random.below(entries);
            let mut value = part(form, at, at + 4);
            random.fill(&mut value.bytes);
            value
        }
        1 if form[0] < 8 => Part {
            offset: 0,
            bytes: vec![form[0] + 1],
        },
        _ => {
            let votes = rows::passing(random, form[0].into());
            Part {
                offset: HALL - 32,
                bytes: votes.map(u32::to_le_bytes).as_flattened().to_vec(),
            }
        }
    }
}

/// A slot in place of the one that was held, with what it is made for. `form` is
/// the hall before the action.
fn invent(random: &mut Random, form: &[u8], slot: &Slot) -> (Slot, &'static str) {
    let [first, second] = &slot.parts;
    let rooms = PARTS.map(|(_, room)| room);
    let with = |parts: [Part; 2]| Slot {
        action: slot.action,
        parts,
    };
    let whole = [first, second].map(end).into_iter().max().unwrap_or(0);
    let from = first.offset.min(second.offset);
    let none = second.bytes.is_empty();
    match random.below(12) {
        // The parts the other way round, or both in one.
        0 if first.bytes.len() <= rooms[1] => {
            (with([second.clone(), first.clone()]), INVENTED_TAKEN)
        }
        1 if whole - from <= rooms[0] => {
            let room = part(form, from, whole);
            (with([room, part(form, 0, 0)]), INVENTED_TAKEN)
        }
        // One in two halves, or with an overlap.
        2 if none => {
            let middle = first.offset + first.bytes.len() / 2;
            let halves = [
                part(form, first.offset, middle),
                part(form, middle, end(first)),
            ];
            (with(halves), INVENTED_TAKEN)
        }
        3 | 4 if none => (with(overlapping(random, form, first)), OVERLAP_TAKEN),
        5 if none => {
            let nothing = part(form, HALL, HALL);
            (with([first.clone(), nothing]), NO_BYTES_AT_THE_END)
        }
        6 => {
            let parts = [
                widened(random, form, first, rooms[0]),
                widened(random, form, second, rooms[1]),
            ];
            (with(parts), INVENTED_TAKEN)
        }
        // Bytes or words that were not there.
        7 => {
            let mut wrong = slot.clone();
            let place = usize::from(random.coin() && !none);
            let bytes = &mut wrong.parts[place].bytes;
            let at = random.below(bytes.len());
            let any = random.byte();
            bytes[at] = random.pick(&[bytes[at] ^ 1, bytes[at].wrapping_add(1), any]);
            (wrong, INVENTED_REFUSED)
        }
        8 => {
            let mut wrong = slot.clone();
            let any = random.word();
            wrong.action[random.below(4)] = random.pick(&[0, 1, 2, 12, u32::MAX, any]);
            (wrong, INVENTED_REFUSED)
        }
        9 | 10 if none => {
            let other = other_part(random, form);
            (with([first.clone(), other]), INVENTED_REFUSED)
        }
        _ => {
            let parts = rooms.map(|room| any_part(random, form, room));
            (with(parts), INVENTED_REFUSED)
        }
    }
}

/// Slots that nobody held, all in form; the rule decides.
pub fn invented(seed: u64, counts: &mut Counts) -> Result<(), Difference> {
    let mut random = Random::new("invented slots", seed);
    for _ in 0..8 {
        let mut hall = any_hall(&mut random);
        let count = any_count(&mut random);
        let older = history(&mut random, &mut hall, count);
        let Some(action) = allowed(&mut random, &hall) else {
            continue;
        };
        let form = stored::form(&hall);
        let mut undo = older.clone();
        hall.step_held(&mut undo, action);
        let last = undo.slots.len() - 1;
        let slot = undo.slots[last].clone();
        for _ in 0..8 {
            let (invented, made_for) = invent(&mut random, &form, &slot);
            undo.slots[last] = invented;
            if random.one_in(4) && last > 0 {
                let place = random.below(last);
                let parts = PARTS.map(|(_, room)| any_part(&mut random, &form, room));
                undo.slots[place].parts = parts;
            }
            let pair = Pair::of_hall(hall.clone(), &[]);
            let mut bench = Bench::new(pair, undo.form(), LENGTH);
            let taken = bench.back(counts)? == 0;
            if taken == (made_for != INVENTED_REFUSED) {
                counts.event(made_for);
            }
            bench.back(counts)?;
            let hall = hall_of(&bench)?;
            let action = actions::any_step(&mut random, Some(hall));
            bench.step(action, ANSWER_LENGTH, counts)?;
            bench.back(counts)?;
        }
    }
    Ok(())
}

/// The buffer of one hall beside another one, often nearly the same.
pub fn other_halls(seed: u64, counts: &mut Counts) -> Result<(), Difference> {
    let mut random = Random::new("other halls", seed);
    for _ in 0..12 {
        let mut hall = any_hall(&mut random);
        let mut near = hall.clone();
        let count = 1 + any_count(&mut random);
        let undo = history(&mut random, &mut hall, count);
        let other = match random.below(3) {
            0 => any_hall(&mut random),
            _ => {
                history(&mut random, &mut near, count);
                near
            }
        };
        let mut bench = Bench::new(Pair::of_hall(other, &[]), undo.form(), LENGTH);
        for _ in 0..4 {
            if bench.slots() > 0 {
                counts.event(OTHER_HALL);
            }
            bench.back(counts)?;
            let hall = hall_of(&bench)?;
            if let Some(action) = allowed(&mut random, hall).filter(|_| random.coin()) {
                bench.step(action, ANSWER_LENGTH, counts)?;
                bench.back(counts)?;
            }
        }
    }
    Ok(())
}

/// A hall that a run reaches, with a buffer of some of its last steps.
fn reached(random: &mut Random) -> (Hall, Undo) {
    let n = random.between(1, 8);
    let votes = rows::passing(random, n);
    let mut hall = open(n, all_recorders(n), votes).expect("the opening is taken");
    let before = random.below(60);
    history(random, &mut hall, before);
    let count = 1 + random.below(MOST_HELD);
    let undo = history(random, &mut hall, count);
    (hall, undo)
}

/// Each byte of a buffer, one in 16 of them, set to other values.
pub fn damaged(seed: u64, counts: &mut Counts) -> Result<(), Difference> {
    let mut random = Random::new("damaged buffers", seed);
    let (hall, undo) = reached(&mut random);
    let (hall_form, form) = (stored::form(&hall), undo.form());
    let mut bench = Bench::new(Pair::of_hall(hall, &[]), form.clone(), LENGTH);
    for at in ((seed % 16) as usize..LENGTH).step_by(16) {
        for other in [form[at] ^ 1, form[at].wrapping_add(1), 255, random.byte()] {
            let mut buffer = form.clone();
            buffer[at] = other;
            bench.lend(&buffer, LENGTH);
            let say = |what| format!("byte {at} set to {other}: {what}");
            let changed = any_call(&mut random, &mut bench, counts).map_err(say)?;
            if changed {
                bench.pair.change(|area| area.copy_from_slice(&hall_form));
            }
        }
    }
    Ok(())
}

/// A step back, mostly, or a held step or settle; whether it was taken.
fn any_call(
    random: &mut Random,
    bench: &mut Bench,
    counts: &mut Counts,
) -> Result<bool, Difference> {
    let number = match random.below(24) {
        0 => bench.settle(any_room(random), counts)?.0,
        1..=6 => {
            let action = actions::any_step(random, bench.hall());
            bench.step(action, any_room(random), counts)?
        }
        _ => bench.back(counts)?,
    };
    Ok(number == 0)
}

/// Buffers of all lengths, one in 16 of them; a longer one may have any bytes
/// after it.
pub fn lengths(seed: u64, counts: &mut Counts) -> Result<(), Difference> {
    let mut random = Random::new("lengths of buffers", seed);
    let (hall, undo) = reached(&mut random);
    let hall_form = stored::form(&hall);
    let mut buffer = undo.form();
    buffer.resize(LENGTH + 120, 0);
    random.fill(&mut buffer[LENGTH..]);
    let mut bench = Bench::new(Pair::of_hall(hall, &[]), buffer.clone(), LENGTH);
    for length in ((seed % 16) as usize..LENGTH + 100)
        .step_by(16)
        .chain([LENGTH - 1, LENGTH])
    {
        bench.lend(&buffer, length);
        if bench.held().is_some() != (length >= LENGTH) {
            return Err(format!("length {length}"));
        }
        let say = |what| format!("length {length}: {what}");
        bench.back(counts).map_err(say)?;
        let action = allowed(&mut random, hall_of(&bench)?).unwrap_or([1, 1, 0, 0]);
        bench.step(action, ANSWER_LENGTH, counts).map_err(say)?;
        if random.one_in(4) {
            bench.settle(ANSWER_LENGTH, counts).map_err(say)?;
        }
        if length >= LENGTH {
            bench.pair.change(|area| area.copy_from_slice(&hall_form));
        }
    }
    both_lengths(&mut random, &hall_form, &buffer, counts)
}

/// Slices of a hall and of a buffer, each too short, just as long or longer.
fn both_lengths(
    random: &mut Random,
    hall_form: &[u8],
    buffer: &[u8],
    counts: &mut Counts,
) -> Result<(), Difference> {
    let area = [hall_form, &[0x5a; 20]].concat();
    for hall_length in [0, 1, HALL - 1, HALL, HALL + 7, HALL + 20] {
        for length in [0, LENGTH - 1, LENGTH, LENGTH + 9, LENGTH + 120] {
            let pair = Pair::of_bytes(area.clone(), hall_length);
            let mut bench = Bench::new(pair, buffer.to_vec(), length);
            let say = |what| format!("lengths {hall_length} and {length}: {what}");
            bench.back(counts).map_err(say)?;
            every_call(random, &mut bench, counts).map_err(say)?;
        }
    }
    Ok(())
}

/// Words that are refused with 12 to 15.
fn wrong_words(random: &mut Random) -> [u32; 4] {
    random.pick(&[
        [1, 0, 5, 0],
        [8, 9, 0, 0],
        [5, 1, 9, 1],
        [2, 1, 1, 0],
        [11, 1, 0, 1],
        [6, 1, 0, 0],
        [7, 1, 0, 0],
        [5, 0, 0, 1],
        [5, 0, u32::MAX, 0],
        [5, 0, u32::MAX, 256],
    ])
}

/// Every call with one bench.
fn every_call(
    random: &mut Random,
    bench: &mut Bench,
    counts: &mut Counts,
) -> Result<(), Difference> {
    let taken = bench.hall().and_then(|hall| allowed(random, hall));
    let any = actions::any_step(random, bench.hall());
    let no_kind = [random.pick(&[0, 12, 256 + 1, u32::MAX]), 1, 0, 0];
    let wrong = wrong_words(random);
    bench.settle(any_room(random), counts)?;
    for action in taken.into_iter().chain([any, no_kind, wrong]) {
        bench.step(action, any_room(random), counts)?;
    }
    bench.back(counts)?;
    Ok(())
}

/// A hall for which all calls have something to say. One in four is settled.
fn hall_for_flaws(random: &mut Random) -> (Hall, Undo) {
    if random.coin() {
        let (mut hall, mut undo) = reached(random);
        if random.coin() {
            _ = hall.settle_held(&mut undo);
        }
        return (hall, undo);
    }
    let mut hall = any_hall(random);
    let count = any_count(random);
    let undo = history(random, &mut hall, count);
    (hall, undo)
}

/// Buffers with one thing wrong, beside a hall and beside bytes that are none.
pub fn flawed(seed: u64, counts: &mut Counts) -> Result<(), Difference> {
    let mut random = Random::new("flawed buffers", seed);
    let (hall, undo) = hall_for_flaws(&mut random);
    let hall_form = stored::form(&hall);
    let mut sound = undo.form();
    sound.extend(some_bytes(&mut random));
    let length = sound.len();
    let mut bench = Bench::new(Pair::of_hall(hall, &[]), sound.clone(), length);
    for flaw in FLAWS.into_iter().map(Some).chain([None]) {
        let mut buffer = sound.clone();
        let length = match flaw {
            Some(flaw) => spoil(&mut random, &mut buffer, flaw),
            None => length,
        };
        if flaws(&buffer[..length]) != Vec::from_iter(flaw) {
            return Err(format!("{flaw:?} is not what is wrong"));
        }
        bench.lend(&buffer, length);
        let say = |what| format!("{flaw:?}: {what}");
        for _ in 0..3 {
            every_call(&mut random, &mut bench, counts).map_err(say)?;
        }
        // Mostly no hall then, by its first byte, its last votes or any byte.
        let (any, byte) = (random.below(HALL), random.byte());
        let at = random.pick(&[0, HALL - 1, any]);
        bench.pair.change(|area| area[at] = byte);
        every_call(&mut random, &mut bench, counts).map_err(say)?;
        bench.pair.change(|area| area.copy_from_slice(&hall_form));
    }
    Ok(())
}
