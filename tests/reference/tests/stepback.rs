//! Held steps, held settles and steps back: the buffer's form, its parts by
//! kind, and runs on lent bytes beside halls that are kept whole.

mod random;

use random::Random;
use reference::calls::{self, ANSWER_LENGTH};
use reference::hall::Hall;
use reference::kept::Kept;
use reference::undo::{Part, Slot, Undo, LENGTH, MOST_HELD};
use reference::{open, open_whole, read_run_file, stored, Answer};
use std::collections::{BTreeMap, BTreeSet};
use std::fs;
use std::path::Path;

type Call = [u32; 4];

/// Runs that are lent one buffer, and runs in which somebody else writes.
const RUNS: u64 = 60;
const FOREIGN_RUNS: u64 = 60;

/// An action that may well be refused.
fn action(random: &mut Random, hall: &Hall) -> Call {
    const KINDS: [u32; 16] = [1, 2, 2, 3, 3, 4, 5, 6, 6, 7, 7, 8, 8, 9, 10, 11];
    let last = hall.views.last().map_or(0, |view| view.number);
    let r = random.between(1, hall.n);
    match KINDS[random.below(16) as usize] {
        1 if random.one_in(12) => [12, 1, 0, 0],
        1 => [1, r + u32::from(random.one_in(12)), random.below(1_000), 0],
        5 if random.one_in(3) => [5, 0, last + 1, random.between(1, (1 << hall.n) - 1)],
        5 => [5, 0, last, 1],
        6 => [6, r, last, 0],
        7 if random.one_in(3) => [7, r, random.between(1, last), 0],
        7 => [7, r, hall.recorder(r).current, 0],
        kind => [kind, r, 0, 0],
    }
}

/// Lent bytes, each slice with a few more than it needs.
#[derive(Clone, PartialEq)]
struct Bench {
    hall: Vec<u8>,
    undo: Vec<u8>,
}

impl Bench {
    /// A hall, and a buffer that holds nothing.
    fn new(hall: &Hall) -> Bench {
        let mut bytes = stored::form(hall);
        bytes.extend([7; 3]);
        let mut undo = vec![0; LENGTH];
        undo.extend([9; 5]);
        Bench { hall: bytes, undo }
    }

    fn hall(&self) -> Hall {
        stored::read(&self.hall).expect("a hall")
    }

    fn held(&self) -> Undo {
        Undo::read(&self.undo).expect("an undo buffer")
    }

    fn step(&mut self, call: Call) -> u32 {
        let mut answer = [0; ANSWER_LENGTH];
        calls::step_held(&mut self.hall, &mut self.undo, call, &mut answer)
    }

    /// The number of a settle, and its count.
    fn settle(&mut self) -> (u32, u8) {
        let mut answer = [0; ANSWER_LENGTH];
        let number = calls::settle_held(&mut self.hall, &mut self.undo, &mut answer);
        (number, answer[0])
    }

    fn back(&mut self) -> u32 {
        calls::step_back(&mut self.hall, &mut self.undo)
    }

    /// A step by somebody who does not lend the buffer.
    fn foreign_step(&mut self, call: Call) -> u32 {
        calls::step(&mut self.hall, call, &mut [0; ANSWER_LENGTH])
    }

    /// Whether the bytes past hall and buffer are as they were.
    fn rests_stand(&self) -> bool {
        self.hall[stored::LENGTH..] == [7; 3] && self.undo[LENGTH..] == [9; 5]
    }
}

fn number(answer: Answer) -> u32 {
    answer.plain().err().unwrap_or(0)
}

#[test]
fn the_lengths_are_those_of_the_document() {
    assert_eq!(LENGTH, 8_337);
    assert_eq!(MOST_HELD, 16);
    assert_eq!(Undo::default().form(), [0; 8_337]);
    assert_eq!(Undo::read(&[0; 8_337]), Some(Undo::default()));
}

/// The first slot of a submit, byte by byte.
#[test]
fn a_slot_by_hand() {
    let mut bench = Bench::new(&open_whole(3));
    assert_eq!(bench.step([1, 2, 0x0403_0201, 0]), 0);
    let mut wanted = vec![0; LENGTH];
    wanted[0] = 1;
    wanted[1] = 1;
    wanted[5] = 2;
    wanted[9..13].copy_from_slice(&[1, 2, 3, 4]);
    wanted[17..25].copy_from_slice(&[163, 0, 0, 0, 10, 0, 0, 0]);
    wanted[311..319].copy_from_slice(&[162, 0, 0, 0, 1, 0, 0, 0]);
    assert_eq!(bench.undo[..LENGTH], wanted);
    // The second slot, of the label, has recorder 2 and the entry.
    assert_eq!(bench.step([2, 2, 0, 0]), 0);
    let slot = &bench.undo[522..1_043];
    assert_eq!(bench.undo[0], 2);
    assert_eq!(slot[..8], [2, 0, 0, 0, 2, 0, 0, 0]);
    assert_eq!(slot[16..24], [0x41, 4, 0, 0, 0x1e, 1, 0, 0]);
    assert_eq!(slot[310..318], [163, 0, 0, 0, 10, 0, 0, 0]);
    assert_eq!(slot[318..328], [2, 1, 2, 3, 4, 0, 0, 0, 0, 0]);
    assert_eq!(slot[328..], [0; 193]);
}

/// One action of each kind, with the offset and the length of its parts.
const BY_KIND: [(Call, [(usize, usize); 2]); 14] = [
    ([1, 3, 5, 0], [(163, 10), (162, 1)]),
    ([1, 2, 6, 0], [(173, 10), (162, 1)]),
    ([2, 2, 0, 0], [(1_089, 286), (173, 10)]),
    ([3, 2, 0, 0], [(1_089, 286), (9_587, 203)]),
    ([7, 2, 1, 0], [(55_059, 145), (9_587, 203)]),
    ([8, 1, 0, 0], [(803, 286), (3_091, 203)]),
    ([5, 0, 9, 3], [(7, 5), (1, 1)]),
    ([8, 2, 0, 0], [(1_089, 286), (9_587, 203)]),
    ([8, 3, 0, 0], [(1_375, 286), (16_083, 203)]),
    ([9, 2, 0, 0], [(1_089, 286), (9_587, 203)]),
    ([10, 2, 0, 0], [(1_089, 286), (0, 0)]),
    ([11, 2, 0, 0], [(1_089, 286), (0, 0)]),
    ([6, 2, 9, 0], [(1_089, 286), (0, 0)]),
    ([4, 2, 0, 0], [(1_089, 286), (9_790, 203)]),
];

#[test]
fn parts_by_kind() {
    let mut bench = Bench::new(&open_whole(3));
    for (call, places) in BY_KIND {
        let before = bench.hall.clone();
        assert_eq!(bench.step(call), 0, "{call:?}");
        let held = bench.held();
        let newest = held.slots.last().unwrap();
        assert_eq!(newest.action, call);
        for (part, (offset, length)) in newest.parts.iter().zip(places) {
            assert_eq!((part.offset, part.bytes.len()), (offset, length));
            assert_eq!(part.bytes, before[offset..offset + length]);
        }
    }
    // The queue and the place of a view that is not the current one.
    assert_eq!(bench.step([7, 2, 9, 0]), 0);
    let held = bench.held();
    let places = held.slots.last().unwrap().parts.each_ref();
    assert_eq!(places.map(|part| part.offset), [55_204, 9_790]);
}

/// The run files of the vectors.
fn vectors() -> Vec<Vec<u8>> {
    let folder = Path::new(env!("CARGO_MANIFEST_DIR")).join("../vectors");
    let paths = fs::read_dir(folder)
        .unwrap()
        .map(|file| file.unwrap().path());
    let runs = paths.filter(|path| path.extension().is_some_and(|found| found == "run"));
    runs.map(|path| fs::read(path).unwrap()).collect()
}

/// The parts are all that an accepted action changes, and it changes something.
#[test]
fn parts_cover_the_steps_of_the_vectors() {
    let mut kinds = BTreeSet::new();
    let mut steps = 0;
    for run in vectors() {
        let Ok((opening, actions)) = read_run_file(&run) else {
            continue;
        };
        let mut hall = open(opening.n, opening.founders, opening.row()).unwrap();
        for action in actions {
            let before = hall.clone();
            let [k, r, a, b] = action;
            if number(hall.step(k, r, a, b)) != 0 {
                continue;
            }
            let mut form = stored::form(&hall);
            assert_ne!(form, stored::form(&before));
            Slot::of(&before, action).put_back(&mut form);
            assert_eq!(form, stored::form(&before));
            kinds.insert(k);
            steps += 1;
        }
    }
    assert!(kinds.into_iter().eq(1..=11));
    assert!(steps > 10_000, "{steps}");
}

fn submits(bench: &mut Bench, values: impl IntoIterator<Item = u32>) {
    for value in values {
        assert_eq!(bench.step([1, 1, value, 0]), 0);
    }
}

#[test]
fn sixteen_and_seventeen() {
    let mut bench = Bench::new(&open_whole(3));
    let mut shown = vec![bench.clone()];
    for value in 1..=17 {
        submits(&mut bench, [value]);
        shown.push(bench.clone());
    }
    assert_eq!(bench.held().slots.len(), 16);
    assert_eq!(bench.held().slots[0].action[2], 2);
    for then in shown[1..17].iter().rev() {
        assert_eq!(bench.back(), 0);
        assert!(bench.hall == then.hall);
        assert_eq!(bench.held().slots, then.held().slots[1..]);
    }
    // The first submit was pushed out.
    assert!(bench.hall == shown[1].hall && bench.undo[..LENGTH] == [0; LENGTH]);
    assert_eq!(bench.back(), 43);
    // With 16 held nothing is pushed out.
    let mut bench = shown[16].clone();
    for then in shown[..16].iter().rev() {
        assert_eq!(bench.back(), 0);
        assert!(bench == *then);
    }
    assert_eq!(bench.back(), 43);
    assert!(bench == shown[0]);
}

#[test]
fn one_after_the_sixteenth_and_one_back() {
    let mut bench = Bench::new(&open_whole(3));
    submits(&mut bench, 1..=17);
    assert_eq!(bench.back(), 0);
    let held = bench.held().slots;
    let values: Vec<u32> = held.iter().map(|slot| slot.action[2]).collect();
    assert!(values.into_iter().eq(2..=16));
}

#[test]
fn refused_actions_leave_no_trace() {
    let mut bench = Bench::new(&open_whole(3));
    submits(&mut bench, [5]);
    let kept = bench.clone();
    for call in [[2, 2, 0, 0], [1, 4, 0, 0], [12, 0, 0, 0], [5, 0, 1, 1]] {
        assert_ne!(bench.step(call), 0);
        assert!(bench == kept);
    }
    assert_eq!(bench.back(), 0);
    assert_eq!(bench.hall().entries.len(), 0);
}

/// A settle of seven steps is seven actions.
#[test]
fn back_into_a_settle() {
    let mut bench = Bench::new(&open_whole(1));
    assert_eq!(bench.settle(), (0, 0));
    assert_eq!(bench.undo[..LENGTH], [0; LENGTH]);
    submits(&mut bench, [5]);
    assert_eq!(bench.settle(), (0, 7));
    let kinds = |bench: &Bench| -> Vec<u32> {
        let held = bench.held().slots;
        held.iter().map(|slot| slot.action[0]).collect()
    };
    assert_eq!(kinds(&bench), [1, 2, 3, 7, 8, 9, 10, 11]);
    let settled = bench.clone();
    // A second settle takes no step and leaves no trace.
    assert_eq!(bench.settle(), (0, 0));
    assert!(bench == settled);
    for _ in 0..3 {
        assert_eq!(bench.back(), 0);
    }
    assert_eq!(kinds(&bench), [1, 2, 3, 7, 8]);
    let (confirm, report) = (bench.hall().recorder(1).confirm, 1);
    assert_eq!((confirm, bench.hall().recorder(1).report), (1, report));
    assert_eq!(bench.settle(), (0, 3));
    assert!(bench == settled);
}

#[test]
fn a_long_settle_leaves_its_last_sixteen() {
    let mut bench = Bench::new(&open_whole(3));
    for r in 1..=3 {
        assert_eq!(bench.step([1, r, 0, 0]), 0);
    }
    let mut kept = Kept::new(bench.hall());
    assert_eq!((kept.settle(), bench.settle()), (Ok(45), (0, 45)));
    assert_eq!(bench.held().slots.len(), 16);
    while kept.back() {
        assert_eq!(bench.back(), 0);
        assert_eq!(bench.hall(), kept.hall);
    }
    assert_eq!(bench.back(), 43);
}

/// A call on a bench and on kept halls: the numbers are the same.
fn call(random: &mut Random, bench: &mut Bench, kept: &mut Kept) -> u32 {
    match random.below(24) {
        0 => {
            let (number, count) = bench.settle();
            let wanted = kept.settle();
            assert_eq!(number, wanted.err().unwrap_or(0));
            assert_eq!(count, wanted.unwrap_or(0) as u8);
            number
        }
        1..=3 => {
            let number = bench.back();
            assert_eq!(number == 0, kept.back());
            assert!(matches!(number, 0 | 43));
            number
        }
        _ => {
            let action = action(random, &kept.hall);
            let wanted = number(kept.step(action));
            assert_eq!(bench.step(action), wanted, "{action:?}");
            wanted
        }
    }
}

/// The slots are those of the newest actions of a history.
fn assert_newest(held: &Undo, history: &[Slot]) {
    let from = history.len() - held.slots.len();
    assert_eq!(held.slots, history[from..]);
}

/// How often the runs came to what they are made for.
#[derive(Debug, Default)]
struct Met {
    full: u32,
    taken_back: u32,
    none_held: u32,
    refused: u32,
    pushed_out: u32,
}

/// A run that is lent one buffer throughout, beside kept halls.
fn lent_throughout(seed: u64, met: &mut Met) {
    let mut random = Random(seed);
    let n = random.between(1, 8);
    let mut kept = Kept::new(open_whole(n));
    let mut bench = Bench::new(&kept.hall);
    for _ in 0..random.between(100, 400) {
        let before = bench.clone();
        let number = call(&mut random, &mut bench, &mut kept);
        if number != 0 {
            assert!(bench == before);
        }
        let held = bench.held();
        assert_eq!(bench.hall(), kept.hall);
        assert_eq!(held.slots.len(), kept.count());
        assert!(bench.rests_stand());
        let before = before.held().slots;
        if held.slots.len() + 1 == before.len() {
            assert_newest(&held, &before[..held.slots.len()]);
            met.taken_back += 1;
        }
        met.full += u32::from(held.slots.len() == MOST_HELD);
        met.pushed_out += u32::from(before.len() == MOST_HELD && before != held.slots);
        met.none_held += u32::from(number == 43);
        met.refused += u32::from(!matches!(number, 0 | 43));
    }
    while kept.back() {
        assert_eq!(bench.back(), 0);
        assert_eq!(bench.hall(), kept.hall);
    }
    assert_eq!(bench.back(), 43);
    assert_eq!(bench.undo[..LENGTH], [0; LENGTH]);
}

#[test]
fn runs_lent_one_buffer() {
    let mut met = Met::default();
    for seed in 0..RUNS {
        lent_throughout(seed, &mut met);
    }
    let Met {
        full,
        taken_back,
        none_held,
        refused,
        pushed_out,
    } = met;
    let least = full.min(taken_back).min(refused).min(pushed_out);
    assert!(least > 500 && none_held > 20, "{met:?}");
}

/// What comes of a step back by the rule alone, on bytes: the hall restored, or
/// why there is none.
fn by_the_rule(bench: &Bench) -> Result<Vec<u8>, &'static str> {
    let held = bench.held();
    let newest = held.slots.last().ok_or("none is held")?;
    let mut restored = bench.hall.clone();
    for Part { offset, bytes } in &newest.parts {
        let end = offset + bytes.len();
        restored.splice(*offset..end, bytes.iter().copied());
    }
    if stored::read(&restored).is_none() {
        return Err("no hall");
    }
    let mut again = restored.clone();
    if calls::step(&mut again, newest.action, &mut [0; ANSWER_LENGTH]) != 0 {
        return Err("refused there");
    }
    if again != bench.hall {
        return Err("leads elsewhere");
    }
    Ok(restored)
}

/// A step back gives what the rule says.
fn back_by_the_rule(bench: &mut Bench) -> &'static str {
    let before = bench.clone();
    let wanted = by_the_rule(bench);
    let number = bench.back();
    match wanted {
        Ok(restored) => {
            assert_eq!(number, 0);
            assert!(bench.hall == restored);
            let mut older = before.held();
            older.slots.pop();
            assert_eq!(bench.held(), older);
            "taken back"
        }
        Err(why) => {
            assert_eq!(number, 43);
            assert!(*bench == before);
            why
        }
    }
}

/// Runs in which some steps are not lent the buffer, or an old hall is put in
/// place of the present one. The steps may commute, so that the rule decides and
/// not what was there before.
#[test]
fn somebody_else_writes() {
    let mut met: BTreeMap<&str, u32> = BTreeMap::new();
    for seed in 0..FOREIGN_RUNS {
        let mut random = Random(seed);
        let n = random.between(1, 4);
        let mut bench = Bench::new(&open_whole(n));
        let mut old = bench.hall.clone();
        for place in 0..400 {
            let action = action(&mut random, &bench.hall());
            if place % 50 == 0 {
                old.clone_from(&bench.hall);
            }
            match random.below(24) {
                0 => bench.hall.clone_from(&old),
                1..=3 => _ = bench.foreign_step(action),
                4..=8 => *met.entry(back_by_the_rule(&mut bench)).or_default() += 1,
                _ => _ = bench.step(action),
            }
        }
    }
    let reasons = [
        "leads elsewhere",
        "no hall",
        "none is held",
        "refused there",
    ];
    let seldom = |what: &str| met.get(what).is_none_or(|&count| count < 10);
    assert!(
        !reasons.iter().any(|why| seldom(why)) && !seldom("taken back"),
        "{met:?}"
    );
}

/// A buffer with two slots: of a submit and of its label.
fn two_slots() -> Vec<u8> {
    let mut bench = Bench::new(&open_whole(3));
    assert_eq!(bench.step([1, 2, 5, 0]), 0);
    assert_eq!(bench.step([2, 2, 0, 0]), 0);
    bench.undo[..LENGTH].to_vec()
}

#[test]
fn buffers_that_are_not_in_form() {
    let sound = two_slots();
    let changed = |changes: &[(usize, u8)]| {
        let mut buffer = sound.clone();
        for &(at, byte) in changes {
            buffer[at] = byte;
        }
        Undo::read(&buffer)
    };
    assert!(changed(&[]).is_some_and(|undo| undo.form() == sound));
    assert_eq!(Undo::read(&sound[..LENGTH - 1]), None);
    // The words may be any.
    for at in 1..17 {
        assert!(changed(&[(at, 255)]).is_some());
    }
    // The count: a slot too few, too many, more than there can be. A blank slot
    // is one.
    for (count, taken) in [(1, false), (3, true), (16, true), (17, false), (255, false)] {
        assert_eq!(changed(&[(0, count)]).is_some(), taken, "{count}");
    }
    // Past the last slot.
    for at in [1 + 2 * 521, 5_000, LENGTH - 1] {
        assert_eq!(changed(&[(at, 1)]), None);
    }
    // Past the bytes of a part: of 10 in the first, of 1 in the second.
    for at in [25 + 10, 25 + 285, 319 + 1, 319 + 202] {
        assert_eq!(changed(&[(at, 1)]), None);
    }
    // Lengths: 286 and 203 are the most.
    let first = |low, high| changed(&[(21, low), (22, high)]).is_some();
    let second = |low| changed(&[(315, low)]).is_some();
    assert!(first(30, 1) && !first(31, 1) && second(203) && !second(204));
    assert_eq!(changed(&[(24, 1)]), None);
    // Offsets: 59,721 with 10 bytes is the last, 59,730 with one byte.
    let first = |low, high| changed(&[(17, low), (18, high)]).is_some();
    let second = |low, high| changed(&[(311, low), (312, high)]).is_some();
    assert!(first(0x49, 0xe9) && !first(0x4a, 0xe9));
    assert!(second(0x52, 0xe9) && !second(0x53, 0xe9));
    // One whose sum with the length is 5 in 32 bits.
    let near_the_end = [(17, 251), (18, 255), (19, 255), (20, 255)];
    assert_eq!(changed(&near_the_end), None);
    // No bytes at the end, and after it.
    let no_bytes = |low| changed(&[(315, 0), (311, low), (312, 0xe9)]).is_some();
    assert!(no_bytes(0x53) && !no_bytes(0x54));
}

/// Each number before the next, all bytes kept.
#[test]
fn the_order_of_refusals() {
    let hall = open_whole(3);
    let mut sound = Bench::new(&hall);
    submits(&mut sound, [5]);
    let mut no_buffer = sound.clone();
    no_buffer.undo[0] = 17;
    let mut no_hall = no_buffer.clone();
    no_hall.hall[0] = 9;
    let mut answer = [0; ANSWER_LENGTH];
    let short = &mut answer[..63];
    let step = |bench: &Bench, call: Call, answer: &mut [u8]| {
        let mut after = bench.clone();
        let number = calls::step_held(&mut after.hall, &mut after.undo, call, answer);
        assert!(after == *bench);
        number
    };
    assert_eq!(step(&no_hall, [12, 9, 9, 9], short), 11);
    assert_eq!(step(&no_hall, [1, 9, 9, 9], short), 31);
    assert_eq!(step(&no_buffer, [1, 9, 9, 9], short), 43);
    assert_eq!(step(&sound, [1, 9, 9, 9], short), 12);
    assert_eq!(step(&sound, [1, 1, 9, 9], short), 13);
    assert_eq!(step(&sound, [2, 2, 0, 0], short), 38);
    assert_eq!(step(&sound, [1, 1, 9, 0], short), 18);
    let settle = |bench: &Bench, answer: &mut [u8]| {
        let mut after = bench.clone();
        let number = calls::settle_held(&mut after.hall, &mut after.undo, answer);
        assert!(after == *bench);
        number
    };
    assert_eq!(settle(&no_hall, short), 31);
    assert_eq!(settle(&no_buffer, short), 43);
    assert_eq!(settle(&sound, short), 18);
    // 40, by a label that exists already.
    let mut full = sound.clone();
    full.hall.copy_within(163..173, 173);
    full.hall[162] = 2;
    full.hall[178] = 1;
    full.hall[182] = 1;
    assert_eq!(settle(&full, short), 40);
    full.undo[0] = 17;
    assert_eq!(settle(&full, short), 43);
    // 42, by a view of recorder 3 alone.
    assert_eq!(full.foreign_step([5, 0, 2, 4]), 0);
    assert_eq!(settle(&full, short), 42);
    assert_eq!(no_hall.clone().back(), 31);
    assert_eq!(no_buffer.clone().back(), 43);
    assert_eq!(answer, [0; ANSWER_LENGTH]);
}
