//! The offsets of docs/stored-form.md, written out as they stand there: what
//! the library stores is found at them, field by field.

use crate::counts::Counts;
use crate::halls;
use crate::library;
use crate::pair::{Difference, Pair};
use crate::random::Random;
use reference::calls::ANSWER_LENGTH;
use reference::stored::LENGTH;
use reference::{Entry, Hall, Message, Recorder, Seat};

/// Bytes seen by the document.
struct Document<'a>(&'a [u8]);

impl Document<'_> {
    fn byte(&self, at: usize) -> u32 {
        self.0[at].into()
    }

    fn word(&self, at: usize) -> u32 {
        self.byte(at)
            + (self.byte(at + 1) << 8)
            + (self.byte(at + 2) << 16)
            + (self.byte(at + 3) << 24)
    }

    fn bytes(&self, at: usize, count: usize) -> Vec<u32> {
        (at..at + count).map(|k| self.byte(k)).collect()
    }
}

fn entry_at(e: usize) -> usize {
    163 + 10 * (e - 1)
}

fn recorder_at(r: usize) -> usize {
    803 + 286 * (r - 1)
}

fn place_at(p: usize, i: usize) -> usize {
    3_091 + 6_496 * (p - 1) + 203 * i
}

fn queue_at(i: usize) -> usize {
    55_059 + 145 * i
}

fn vote_at(r: usize) -> usize {
    59_699 + 4 * (r - 1)
}

/// What differs between a field and its bytes.
fn same<T: PartialEq + std::fmt::Debug>(what: &str, bytes: T, field: T) -> Result<(), Difference> {
    if bytes == field {
        Ok(())
    } else {
        Err(format!("{what}: {bytes:?} stored, {field:?} wanted"))
    }
}

/// A list's bytes: its length, then its places, then zeros.
fn list(capacity: usize, items: &[u32]) -> Vec<u32> {
    let mut bytes = vec![items.len() as u32];
    bytes.extend_from_slice(items);
    bytes.resize(1 + capacity, 0);
    bytes
}

/// Entry numbers count from 1.
fn numbers(entries: &[usize]) -> Vec<u32> {
    entries.iter().map(|&entry| entry as u32 + 1).collect()
}

fn message(message: Message) -> u32 {
    match message {
        Message::Entry(entry) => entry as u32 + 1,
        Message::Summary => 0,
    }
}

fn set(set: u64, count: usize) -> Vec<u32> {
    (0..count).map(|k| (set >> k & 1) as u32).collect()
}

fn entry(bytes: &Document, e: usize, entry: &Entry) -> Result<(), Difference> {
    let at = entry_at(e);
    same("sender", bytes.byte(at), entry.sender)?;
    same("value", bytes.word(164 + 10 * (e - 1)), entry.value)?;
    let view = entry.label.map_or(0, |label| label.view);
    same("label's view", bytes.word(168 + 10 * (e - 1)), view)?;
    let seq = entry.label.map_or(0, |label| label.seq);
    same("label's sequence", bytes.byte(172 + 10 * (e - 1)), seq)
}

fn recorder(bytes: &Document, r: usize, recorder: &Recorder) -> Result<(), Difference> {
    let at = recorder_at(r);
    let field = |what: &str, offset: usize, wanted: Vec<u32>| {
        same(what, bytes.bytes(at + offset, wanted.len()), wanted)
    };
    same("current", bytes.word(at), recorder.current)?;
    same("phase", bytes.byte(at + 4), recorder.phase as u32)?;
    same("sequence", bytes.byte(at + 5), recorder.next_seq - 1)?;
    field("buffer", 6, list(64, &numbers(&recorder.buffer)))?;
    field("order", 71, list(64, &numbers(&recorder.order)))?;
    same("confirm", bytes.byte(at + 136), recorder.confirm - 1)?;
    same("report", bytes.byte(at + 137), recorder.report - 1)?;
    same("highest primary", bytes.word(at + 138), recorder.high)?;
    field("known", 142, set(recorder.known, 64))?;
    field("safe labels", 206, set(recorder.safe_labels, 64))?;
    field("heard", 270, set(recorder.heard.into(), 8))?;
    field("safe sources", 278, set(recorder.safe_sources.into(), 8))
}

fn place(bytes: &Document, p: usize, i: usize, seat: &Seat) -> Result<(), Difference> {
    let at = place_at(p, i);
    let field = |what: &str, offset: usize, wanted: Vec<u32>| {
        same(what, bytes.bytes(at + offset, wanted.len()), wanted)
    };
    let pending: Vec<u32> = seat.pending.iter().map(|&m| message(m)).collect();
    field("pending", 0, list(65, &pending))?;
    same("receive", bytes.byte(at + 66), seat.receive - 1)?;
    same("safe", bytes.byte(at + 67), seat.safe - 1)?;
    let Some(sent) = &seat.summary else {
        return field("no summary", 68, vec![0; 135]);
    };
    same("sent", bytes.byte(at + 68), 1)?;
    field("summary's known", 69, set(sent.known, 64))?;
    field("summary's order", 133, list(64, &numbers(&sent.order)))?;
    same("summary's confirm", bytes.byte(at + 198), sent.confirm - 1)?;
    same("summary's highest", bytes.word(at + 199), sent.high)
}

fn blank(bytes: &Document, at: usize, count: usize) -> Result<(), Difference> {
    same("blank", bytes.bytes(at, count), vec![0; count])
}

/// All fields of a hall stand at the document's offsets.
fn stands(bytes: &Document, hall: &Hall) -> Result<(), Difference> {
    let n = hall.n as usize;
    let formed = hall.views.len();
    same("N", bytes.byte(0), hall.n)?;
    same("formed views", bytes.byte(1), formed as u32)?;
    for (i, view) in hall.views.iter().enumerate() {
        same("view's number", bytes.word(2 + 5 * i), view.number)?;
        same("view's set", bytes.byte(6 + 5 * i), view.members)?;
        let queued = view.queue.iter();
        let queue: Vec<u32> = queued
            .flat_map(|q| [q.source, message(q.message)])
            .collect();
        let at = queue_at(i);
        same("queue's length", bytes.byte(at), queue.len() as u32 / 2)?;
        same("queue", bytes.bytes(at + 1, queue.len()), queue.clone())?;
        blank(bytes, at + 1 + queue.len(), 144 - queue.len())?;
    }
    blank(bytes, 2 + 5 * formed, 162 - (2 + 5 * formed))?;
    blank(bytes, queue_at(formed), 59_699 - queue_at(formed))?;
    for (r, vote) in (1..).zip(hall.votes) {
        same("votes", bytes.word(vote_at(r)), vote)?;
    }
    same("entries", bytes.byte(162), hall.entries.len() as u32)?;
    for (e, submitted) in (1..).zip(&hall.entries) {
        entry(bytes, e, submitted).map_err(|what| format!("entry {e}: {what}"))?;
    }
    let past = entry_at(hall.entries.len() + 1);
    blank(bytes, past, 803 - past)?;
    for (r, of_hall) in (1..).zip(&hall.recorders) {
        recorder(bytes, r, of_hall).map_err(|what| format!("recorder {r}: {what}"))?;
        for (i, view) in hall.views.iter().enumerate() {
            place(bytes, r, i, &view.seats[r - 1])
                .map_err(|what| format!("recorder {r}, place {i}: {what}"))?;
        }
        blank(bytes, place_at(r, formed), 203 * (32 - formed))?;
    }
    blank(bytes, recorder_at(n + 1), 286 * (8 - n))?;
    blank(bytes, place_at(n + 1, 0), 6_496 * (8 - n))
}

/// The number of a later view.
const LATER: u32 = 0x0403_0201;

/// Three recorders, of which 1 and 2 found the hall and are an entry apart.
/// What the library stores is read at the offsets, without the second
/// implementation.
pub fn by_hand(_: u64, counts: &mut Counts) -> Result<(), Difference> {
    let length = library::length() as usize;
    if length != LENGTH {
        return Err(format!("a hall's length is {length}, must be {LENGTH}"));
    }
    let mut pair = Pair::of_bytes(vec![0xff; LENGTH], LENGTH);
    pair.open(3, 0b011, [1_000, 3, 0x201, 0, 0, 0, 0, 0], counts)?;
    let actions = [
        [1, 2, 0x0a0b_0c0d, 0],
        [1, 1, 7, 0],
        [2, 2, 0, 0],
        [3, 2, 0, 0],
        [7, 2, 1, 0],
        [8, 1, 0, 0],
        [8, 2, 0, 0],
        [9, 1, 0, 0],
        [10, 1, 0, 0],
        [11, 1, 0, 0],
        [2, 1, 0, 0],
        [5, 0, LATER, 0b101],
        [6, 3, LATER, 0],
        [4, 3, 0, 0],
        [7, 3, LATER, 0],
        [8, 3, 0, 0],
    ];
    for action in actions {
        if pair.step(action, ANSWER_LENGTH, counts)? != 0 {
            return Err(format!("{action:?} is refused"));
        }
    }
    let bytes = Document(pair.lent());
    let wanted: [(&str, usize, &[u32]); 38] = [
        ("N", 0, &[3]),
        ("formed views", 1, &[2]),
        ("view 1", 2, &[1, 0, 0, 0, 0b011]),
        ("the later view", 7, &[1, 2, 3, 4, 0b101]),
        ("no third view", 12, &[0; 150]),
        ("entries", 162, &[2]),
        ("entry 1", 163, &[2, 0x0d, 0x0c, 0x0b, 0x0a, 1, 0, 0, 0, 1]),
        ("entry 2", 173, &[1, 7, 0, 0, 0, 1, 0, 0, 0, 1]),
        ("no entry 3", 183, &[0; 620]),
        (
            "recorder 1: view, phase, sequence",
            803,
            &[1, 0, 0, 0, 0, 1],
        ),
        ("recorder 1: buffer", 809, &[1, 2, 0]),
        ("recorder 1: order", 874, &[1, 1, 0]),
        (
            "recorder 1: confirm, report, highest",
            939,
            &[1, 1, 1, 0, 0, 0],
        ),
        ("recorder 1: known", 945, &[1, 1, 0]),
        ("recorder 1: safe labels", 1_009, &[1, 0, 0]),
        ("recorder 1: heard, safe sources", 1_073, &[0; 16]),
        (
            "recorder 2: view, phase, sequence",
            1_089,
            &[1, 0, 0, 0, 0, 1],
        ),
        ("recorder 2: buffer", 1_095, &[0, 0]),
        ("recorder 2: order", 1_160, &[1, 1, 0]),
        (
            "recorder 2: confirm, report, highest",
            1_225,
            &[0, 0, 1, 0, 0, 0],
        ),
        ("recorder 2: known", 1_231, &[1, 0, 0]),
        (
            "recorder 3: view, phase, sequence",
            1_375,
            &[1, 2, 3, 4, 2, 0],
        ),
        ("recorder 3: highest", 1_513, &[0, 0, 0, 0]),
        ("recorder 3: heard", 1_645, &[0, 0, 1, 0, 0, 0, 0, 0]),
        ("recorders 4 to 8", 1_661, &[0; 1_430]),
        ("1 in view 1: marks, no summary", 3_157, &[1, 1, 0]),
        ("2 in view 1: pending", 9_587, &[0, 0]),
        ("2 in view 1: marks, no summary", 9_653, &[1, 0, 0]),
        ("3 in the later view: pending", 16_286, &[0, 0]),
        (
            "3 in the later view: marks, summary sent",
            16_352,
            &[1, 0, 1],
        ),
        ("3 in the later view: summary", 16_355, &[0; 134]),
        ("queue of view 1", 55_059, &[1, 2, 1, 0, 0]),
        ("queue of the later view", 55_204, &[1, 3, 0, 0, 0]),
        ("no third queue", 55_349, &[0; 4_350]),
        ("votes of 1", 59_699, &[0xe8, 3, 0, 0]),
        ("votes of 2", 59_703, &[3, 0, 0, 0]),
        ("votes of 3", 59_707, &[1, 2, 0, 0]),
        ("no votes of 4 to 8", 59_711, &[0; 20]),
    ];
    for (what, at, bytes_wanted) in wanted {
        same(
            what,
            bytes.bytes(at, bytes_wanted.len()),
            bytes_wanted.to_vec(),
        )?;
    }
    Ok(())
}

/// Random halls: the library takes them as halls, and after calls all fields
/// stand where the document says.
pub fn of_halls(seed: u64, counts: &mut Counts) -> Result<(), Difference> {
    let mut random = Random::new("offsets", seed);
    let hall = halls::voting(&mut random);
    let mut pair = Pair::of_hall(hall, &[]);
    for _ in 0..10 {
        let hall = pair.hall().ok_or("the hall is lost")?;
        let action = crate::actions::any_step(&mut random, Some(hall));
        pair.step(action, ANSWER_LENGTH, counts)?;
        let hall = pair.hall().ok_or("the hall is lost")?;
        stands(&Document(pair.lent()), hall)?;
    }
    Ok(())
}
