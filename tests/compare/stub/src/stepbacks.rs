//! Mistakes in held steps, held settles and steps back.

use crate::{fault, faulty};
use reference::actions::judge_kind;
use reference::calls::{self, ANSWER_LENGTH};
use reference::refusal;
use reference::stored::{self, LENGTH as HALL};
use reference::undo::{Part, Slot, Undo, LENGTH, MOST_HELD};

/// A slot, and where its parts begin, with the room of each.
const SLOT: usize = 521;
const PARTS: [(usize, usize); 2] = [(16, 286), (310, 203)];

/// A number for a slice that is too short to be a hall.
fn short_hall(bytes: &[u8]) -> Option<u32> {
    let wrong = bytes.len() < HALL && faulty("43 for a short hall");
    wrong.then_some(refusal::UNDO)
}

/// Two slices as they were before a call.
struct Before {
    hall: Vec<u8>,
    undo: Vec<u8>,
}

impl Before {
    fn new(bytes: &[u8], undo: &[u8]) -> Before {
        Before {
            hall: bytes.to_vec(),
            undo: undo.to_vec(),
        }
    }

    fn slots(&self) -> Vec<Slot> {
        let undo = mended(&self.undo).unwrap_or(self.undo.clone());
        Undo::read(&undo).map_or(Vec::new(), |undo| undo.slots)
    }
}

/// A held step, rightly or by a mistake.
pub fn step_held(bytes: &mut [u8], undo: &mut [u8], action: [u32; 4], answer: &mut [u8]) -> u32 {
    if fault().is_none() {
        return calls::step_held(bytes, undo, action, answer);
    }
    let short = answer.len() < ANSWER_LENGTH;
    if let Some(number) = step_out_of_order(bytes, undo, action, short) {
        return number;
    }
    let before = Before::new(bytes, undo);
    let number = with_mended(undo, |undo| calls::step_held(bytes, undo, action, answer));
    match number {
        0 => stepped(&before, bytes, undo, answer),
        _ => not_stepped(number, bytes, undo, action),
    }
    number
}

/// A number that comes too early or too late.
fn step_out_of_order(bytes: &[u8], undo: &[u8], action: [u32; 4], short: bool) -> Option<u32> {
    let flawed = Undo::read(undo).is_none();
    let kind = judge_kind(action[0]);
    let hall = stored::read(bytes);
    if flawed && (faulty("43 before 11") || kind.is_ok() && faulty("43 before 31")) {
        return Some(refusal::UNDO);
    }
    if hall.is_none() && faulty("31 before 11 in a held step") {
        return Some(refusal::STORED_FORM);
    }
    kind.ok()?;
    if let Some(number) = short_hall(bytes) {
        return Some(number);
    }
    let [k, r, a, b] = action;
    let number = hall.filter(|_| flawed)?.step(k, r, a, b).plain().err();
    let of_words = number.is_some_and(|number| number <= 15);
    let late = of_words && faulty("43 after 12") || faulty("43 after 32 to 40");
    if short && (number.is_none() && faulty("43 after 18") || faulty("18 before 43")) {
        return Some(refusal::SHORT_SLICE);
    }
    number.filter(|_| late)
}

/// Changes what a buffer holds.
fn edit(undo: &mut [u8], change: impl FnOnce(&mut Vec<Slot>)) {
    if let Some(mut held) = Undo::read(undo) {
        change(&mut held.slots);
        held.write(undo);
    }
}

/// The bytes of a slot's parts as they are now.
fn save_again(slot: &mut Slot, bytes: &[u8]) {
    for Part {
        offset,
        bytes: kept,
    } in &mut slot.parts
    {
        let end = *offset + kept.len();
        *kept = bytes[*offset..end].to_vec();
    }
}

/// What is done wrong when a step was accepted.
fn stepped(before: &Before, bytes: &mut [u8], undo: &mut [u8], answer: &mut [u8]) {
    let old = before.slots();
    edit(undo, |slots| {
        if faulty("a held step not held") {
            return slots.clone_from(&old);
        }
        let Some(mut newest) = slots.pop() else {
            return;
        };
        newest_wrong(&mut newest, before, bytes);
        if faulty("the newest slot in front") {
            return slots.insert(0, newest);
        }
        if old.len() == MOST_HELD && faulty("the oldest kept at the 17th") {
            slots.clone_from(&old);
            slots.pop();
        }
        if old.len() == MOST_HELD && faulty("the 17th not held") {
            return slots.clone_from(&old);
        }
        if old.len() == MOST_HELD && faulty("the 17th pushes out all") {
            slots.clear();
        }
        if slots.len() == MOST_HELD - 1 && faulty("15 held at most") {
            slots.remove(0);
        }
        slots.push(newest);
    });
    past_the_ends(bytes, undo);
    if faulty("the answer of a held step cleared") {
        answer[..ANSWER_LENGTH].fill(0);
    }
    if faulty("a byte past the answer of a held step") && answer.len() > ANSWER_LENGTH {
        answer[ANSWER_LENGTH] ^= 1;
    }
}

/// A slot that is not the one of the step.
fn newest_wrong(slot: &mut Slot, before: &Before, bytes: &[u8]) {
    if faulty("a slot saved after the step") {
        save_again(slot, bytes);
    } else if faulty("the second part not saved") {
        slot.parts[1] = no_part();
    } else if faulty("the parts of a slot swapped") && slot.parts[0].bytes.len() <= PARTS[1].1 {
        slot.parts.swap(0, 1);
    } else if faulty("the last entry saved at a label") && slot.action[0] == 2 {
        let place = 163 + 10 * (usize::from(before.hall[162]) - 1);
        slot.parts[1].offset = place;
        save_again(slot, &before.hall);
    } else if faulty("no second part with an offset") && slot.parts[1].bytes.is_empty() {
        slot.parts[1].offset = slot.parts[0].offset;
    } else if faulty("a slot without word B") {
        slot.action[3] = 0;
    }
}

/// Bytes that are written past the hall and past the buffer.
fn past_the_ends(bytes: &mut [u8], undo: &mut [u8]) {
    if faulty("a byte past the buffer") && undo.len() > LENGTH {
        undo[LENGTH] ^= 1;
    }
    if faulty("the rest of the buffer cleared") {
        undo[LENGTH..].fill(0);
    }
    if faulty("a byte past a held hall") && bytes.len() > HALL {
        bytes[HALL] ^= 1;
    }
}

fn no_part() -> Part {
    Part {
        offset: 0,
        bytes: Vec::new(),
    }
}

/// A slot of an action that wrote nothing.
fn blank_slot(action: [u32; 4]) -> Slot {
    Slot {
        action,
        parts: [no_part(), no_part()],
    }
}

/// What is done wrong when a step was refused.
fn not_stepped(number: u32, bytes: &mut [u8], undo: &mut [u8], action: [u32; 4]) {
    let Some(mut held) = Undo::read(undo) else {
        if faulty("a wrong buffer cleared") && number == refusal::UNDO {
            undo.fill(0);
        }
        return;
    };
    let refused = !matches!(number, 11 | 31);
    if refused && (faulty("a refused action held") || number == 18 && faulty("held without room")) {
        held.push(blank_slot(action));
        held.write(undo);
    }
    if refused && faulty("the slot written before the refusal") && held.slots.len() < MOST_HELD {
        let at = 1 + SLOT * held.slots.len();
        undo[at..at + 4].copy_from_slice(&action[0].to_le_bytes());
    }
    if refused && faulty("the oldest pushed out by a refused action") {
        edit(undo, |slots| {
            if slots.len() == MOST_HELD {
                slots.remove(0);
            }
        });
    }
    if number == 18 && faulty("stepped without room for the answer, held") {
        calls::step(bytes, action, &mut [0; ANSWER_LENGTH]);
    }
}

/// A held settle, rightly or by a mistake.
pub fn settle_held(bytes: &mut [u8], undo: &mut [u8], answer: &mut [u8]) -> u32 {
    if fault().is_none() {
        return calls::settle_held(bytes, undo, answer);
    }
    let short = answer.len() < ANSWER_LENGTH;
    if let Some(number) = settle_out_of_order(bytes, undo, short) {
        return number;
    }
    let before = Before::new(bytes, undo);
    let number = with_mended(undo, |undo| calls::settle_held(bytes, undo, answer));
    match number {
        0 => {
            let steps = u32::from_le_bytes([answer[0], answer[1], answer[2], answer[3]]);
            settled(&before, steps as usize, bytes, undo);
        }
        refusal::FULL if faulty("the steps before a 40 held") => stopped(bytes, undo),
        18 if faulty("a settle held without room") => {
            let mut settled = bytes.to_vec();
            calls::settle_held(&mut settled, undo, &mut [0; ANSWER_LENGTH]);
        }
        18 if faulty("settled without room for the answer, held") => {
            calls::settle(bytes, &mut [0; ANSWER_LENGTH]);
        }
        _ => (),
    }
    number
}

/// A number that comes too early or too late.
fn settle_out_of_order(bytes: &[u8], undo: &[u8], short: bool) -> Option<u32> {
    let flawed = Undo::read(undo).is_none();
    if let Some(number) = short_hall(bytes) {
        return Some(number);
    }
    let hall = stored::read(bytes);
    if flawed && hall.is_none() && faulty("43 before 31 in a held settle") {
        return Some(refusal::UNDO);
    }
    let mut hall = hall.filter(|_| flawed)?;
    if faulty("43 before 42") {
        return Some(refusal::UNDO);
    }
    if short && hall.view_to_settle().is_ok() && faulty("18 before 43 in a held settle") {
        return Some(refusal::SHORT_SLICE);
    }
    match hall.settle() {
        Err(refusal::FULL) if faulty("43 after 40") => Some(refusal::FULL),
        Ok(_) if short && faulty("43 after 18 in a held settle") => Some(refusal::SHORT_SLICE),
        Ok(steps) if steps.is_empty() && faulty("43 only where a settle takes steps") => Some(0),
        _ => None,
    }
}

/// The slots of the steps of a settle before it meets 40.
fn stopped(bytes: &[u8], undo: &mut [u8]) {
    let (Some(mut hall), Some(mut held)) = (stored::read(bytes), Undo::read(undo)) else {
        return;
    };
    let Ok(view) = hall.view_to_settle() else {
        return;
    };
    let (number, members) = (view.number, view.members);
    loop {
        let before = hall.clone();
        match hall.turn(number, members) {
            Ok(Some(step)) => held.push(Slot::of(&before, step)),
            _ => break,
        }
    }
    held.write(undo);
}

/// What is done wrong when a hall was settled.
fn settled(before: &Before, steps: usize, bytes: &mut [u8], undo: &mut [u8]) {
    let mut held = Undo {
        slots: before.slots(),
    };
    edit(undo, |slots| {
        if faulty("a settle not held") {
            *slots = held.slots;
        } else if faulty("a settle held as its last action") && steps > 0 {
            held.push(slots.pop().expect("a step is held"));
            *slots = held.slots;
        } else if faulty("a settle held as its first actions") {
            *slots = first_actions(&before.hall, held).slots;
        } else if faulty("a settle pushes out all that was held") && steps > 0 {
            slots.drain(..slots.len().saturating_sub(steps));
        } else if faulty("a settle of no step held") && steps == 0 {
            held.push(blank_slot([0; 4]));
            *slots = held.slots;
        } else if faulty("the slots of a settle saved after it") {
            let from = slots.len().saturating_sub(steps);
            for slot in &mut slots[from..] {
                save_again(slot, bytes);
            }
        } else if faulty("the steps of a settle the other way round") {
            let from = slots.len().saturating_sub(steps);
            slots[from..].reverse();
        } else if faulty("15 steps of a settle held at most") && steps >= MOST_HELD {
            slots.remove(0);
        }
    });
    past_the_ends(bytes, undo);
}

/// A settle of which the first 16 steps are held.
fn first_actions(bytes: &[u8], mut held: Undo) -> Undo {
    let mut hall = stored::read(bytes).expect("it was settled");
    let steps = hall.clone().settle().expect("it was settled");
    for &step in steps.iter().take(MOST_HELD) {
        hall.step_held(&mut held, step);
    }
    held
}

/// A step back, rightly or by a mistake.
pub fn step_back(bytes: &mut [u8], undo: &mut [u8]) -> u32 {
    if fault().is_none() {
        return calls::step_back(bytes, undo);
    }
    if Undo::read(undo).is_none() && faulty("43 before 31 in a step back") {
        return refusal::UNDO;
    }
    if let Some(number) = short_hall(bytes) {
        return number;
    }
    let number = with_mended(undo, |undo| back(bytes, undo));
    if number == 0 {
        past_the_ends(bytes, undo);
    }
    number
}

fn back(bytes: &mut [u8], undo: &mut [u8]) -> u32 {
    if stored::read(bytes).is_none() {
        return refusal::STORED_FORM;
    }
    let Some(mut held) = Undo::read(undo) else {
        return refusal::UNDO;
    };
    if held.slots.is_empty() {
        return none_held();
    }
    let place = if faulty("the oldest taken back first") {
        0
    } else {
        held.slots.len() - 1
    };
    let slot = held.slots[place].clone();
    let mut restored = bytes[..HALL].to_vec();
    put_back(&slot, &mut restored);
    if !leads(&slot, &restored, &bytes[..HALL]) {
        if faulty("the parts put back before the check") {
            bytes[..HALL].copy_from_slice(&restored);
        }
        if faulty("a slot dropped at 43") {
            held.slots.pop();
            held.write(undo);
        }
        return refusal::UNDO;
    }
    if !faulty("the hall not restored") {
        bytes[..HALL].copy_from_slice(&restored);
    }
    let stale = undo[1..].to_vec();
    held.slots.remove(place);
    held.write(undo);
    not_cleared(&stale, held.slots.len(), undo);
    0
}

/// The number where none is held.
fn none_held() -> u32 {
    if faulty("a step back with none held taken") {
        0
    } else if faulty("38 where none is held") {
        refusal::NOTHING
    } else {
        refusal::UNDO
    }
}

/// Leaves what stood in the place of the slot taken back.
fn not_cleared(stale: &[u8], count: usize, undo: &mut [u8]) {
    let slot = SLOT * count..SLOT * (count + 1);
    let buffer = &mut undo[1..];
    if faulty("the place of a slot taken back not cleared") {
        buffer[slot].copy_from_slice(&stale[SLOT * count..SLOT * (count + 1)]);
    } else if faulty("only the words of a slot taken back cleared") {
        let parts = slot.start + 16..slot.end;
        buffer[parts.clone()].copy_from_slice(&stale[parts]);
    } else if faulty("the last byte of a slot taken back not cleared") {
        buffer[slot.end - 1] = stale[slot.end - 1];
    } else if faulty("the count not lowered") {
        undo[0] += 1;
    } else if faulty("all slots cleared by a step back") {
        undo[..LENGTH].fill(0);
    }
}

fn put_back(slot: &Slot, form: &mut [u8]) {
    let mut slot = slot.clone();
    if faulty("the second part put back first") {
        slot.parts.swap(0, 1);
    } else if faulty("only the first part put back") {
        slot.parts[1].bytes.clear();
    } else if faulty("the last byte of a part not put back") {
        slot.parts[0].bytes.pop();
    }
    slot.put_back(form);
}

/// Whether a slot's action leads from one form to another.
fn leads(slot: &Slot, restored: &[u8], present: &[u8]) -> bool {
    let Some(mut hall) = stored::read(restored) else {
        return faulty("the restored hall not checked");
    };
    let [k, r, a, b] = slot.action;
    if hall.step(k, r, a, b).plain().is_err() {
        return faulty("an action that is refused taken back");
    }
    let again = stored::form(&hall);
    again == present
        || faulty("the present bytes not compared")
        || faulty("the votes not compared") && again[..HALL - 32] == present[..HALL - 32]
        || faulty("the first byte not compared") && again[1..] == present[1..]
        || faulty("bytes outside the parts not compared") && same_in_parts(slot, &again, present)
}

fn same_in_parts(slot: &Slot, one: &[u8], other: &[u8]) -> bool {
    slot.parts.iter().all(|part| {
        let end = part.offset + part.bytes.len();
        one[part.offset..end] == other[part.offset..end]
    })
}

/// A call with a buffer that is not in form taken as one that is.
fn with_mended(undo: &mut [u8], call: impl FnOnce(&mut [u8]) -> u32) -> u32 {
    let Some(mut mended) = mended(undo) else {
        return call(undo);
    };
    let number = call(&mut mended);
    if number == 0 {
        undo.copy_from_slice(&mended[..undo.len()]);
    }
    number
}

/// A buffer made right that is refused: something not looked at.
fn mended(undo: &[u8]) -> Option<Vec<u8>> {
    if Undo::read(undo).is_some() {
        return None;
    }
    let mut mended = undo.to_vec();
    if undo.len() < LENGTH {
        let short = faulty("a buffer one byte short taken") && undo.len() == LENGTH - 1;
        mended.push(0);
        return Some(mended).filter(|_| short);
    }
    let count = usize::from(undo[0]);
    if faulty("17 slots taken") && count == MOST_HELD + 1
        || faulty("any number of slots taken") && count > MOST_HELD
    {
        mended[0] = MOST_HELD as u8;
    }
    if faulty("bytes after the slots not looked at") && count <= MOST_HELD {
        mended[1 + SLOT * count..LENGTH].fill(0);
    }
    if faulty("the last byte of a buffer not looked at") && count < MOST_HELD {
        mended[LENGTH - 1] = 0;
    }
    let (slots, _) = mended[1..LENGTH].split_at_mut(SLOT * count.min(MOST_HELD));
    let last = count.min(MOST_HELD).saturating_sub(1);
    for (place, slot) in slots.chunks_exact_mut(SLOT).enumerate() {
        for (part, (at, room)) in PARTS.into_iter().enumerate() {
            mend_part(&mut slot[at..at + 8 + room], part, place == last);
        }
    }
    Some(mended)
}

/// A part of a slot: offset, length, and its room.
fn mend_part(part: &mut [u8], place: usize, newest: bool) {
    let word = |at: usize| u32::from_le_bytes([part[at], part[at + 1], part[at + 2], part[at + 3]]);
    let (offset, length) = (word(0), word(4) as usize);
    let end = offset as usize + length;
    let room = part.len() - 8;
    let past = length <= room && end > HALL;
    let in_32_bits = offset.wrapping_add(length as u32) as usize;
    let taken = past && faulty("a part past the hall taken")
        || past && place == 1 && faulty("a second part past the hall taken")
        || past && in_32_bits <= HALL && faulty("the end of a part in 32 bits")
        || end == HALL + 1 && faulty("a part one byte past the hall taken")
        || length > room && faulty("a part of any length taken")
        || length == room + 1 && faulty("a part one byte too long taken")
        || !newest && faulty("only the newest slot looked at");
    if taken {
        part.fill(0);
    }
    let not_looked_at = faulty("bytes after a part not looked at")
        || place == 1 && faulty("bytes after a second part not looked at");
    if not_looked_at && length <= room {
        part[8 + length..].fill(0);
    }
}
