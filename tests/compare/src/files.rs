//! Run files read and written through the C interface: numbers, words and all
//! bytes are those of the second implementation, and what was written reads
//! back.

use crate::counts::{Call, Counts};
use crate::library::{self, Lent};
use crate::pair::{answer_slice, first_difference, given, random_room, words_of, Difference};
use crate::random::Random;
use crate::rows;
use crate::vectors::run_files;
use reference::calls::{self, ANSWER_LENGTH, WORDS};
use reference::hall::judge_votes;
use reference::runfile::{Run, BLOCK, MOST_ACTIONS, MOST_ACTIONS_WITH_VOTES, MOST_BYTES};
use reference::{read_run_file, write_run_file, Opening};
use std::fs;

const EARLIER_BYTES: &str = "run file: bytes before the opening block";
const LONGEST: &str = "run file: of 65,536 bytes, taken";
const TOO_LONG: &str = "run file: longer, refused";
const WRITTEN_BACK: &str = "run file: written back unchanged";
const READ_BACK: &str = "run file: written and read back";
const MOST_WRITTEN: &str = "run file: 4,094 actions written";
const TOO_MANY: &str = "run file: 4,095 actions refused";
const OFFSET_PAST: &str = "run file: an offset near 2^64";
const HIGH_WORD: &str = "run file: an offset with a high word";
const VOTES_EARLIER_BYTES: &str = "run file with votes: bytes before the opening block";
const VOTES_LONGEST: &str = "run file with votes: of 65,536 bytes, taken";
const VOTES_READ_BACK: &str = "run file with votes: written and read back";
const VOTES_MOST_WRITTEN: &str = "run file with votes: 4,092 actions written";
const VOTES_TOO_MANY: &str = "run file with votes: 4,093 actions refused";
const VOTES_UNUSED: &str = "run file without votes: wrong ones not looked at";
const OTHER_DISTANCE: &str = "run file: the distance of the other third word, refused";
const NO_ROOM: &str = "run file: no room for votes, refused";
const OTHER_THIRD: &str = "run file: a third word above 1, refused";
const OTHER_THIRD_WRITTEN: &str = "run file: a third word above 1 and wrong votes, not written";

/// What must have come.
pub const EVENTS: [&str; 19] = [
    EARLIER_BYTES,
    LONGEST,
    TOO_LONG,
    WRITTEN_BACK,
    READ_BACK,
    MOST_WRITTEN,
    TOO_MANY,
    OFFSET_PAST,
    HIGH_WORD,
    VOTES_EARLIER_BYTES,
    VOTES_LONGEST,
    VOTES_READ_BACK,
    VOTES_MOST_WRITTEN,
    VOTES_TOO_MANY,
    VOTES_UNUSED,
    OTHER_DISTANCE,
    NO_ROOM,
    OTHER_THIRD,
    OTHER_THIRD_WRITTEN,
];

/// The word at an offset, if there is one.
fn word_at(file: &[u8], at: usize) -> Option<u32> {
    let bytes = file.get(at..at.checked_add(4)?)?;
    Some(u32::from_le_bytes([bytes[0], bytes[1], bytes[2], bytes[3]]))
}

/// Where the opening block of a file stands, by its trailer.
fn block_at(file: &[u8]) -> Option<usize> {
    let trailer = file.len().checked_sub(BLOCK)?;
    let distance = word_at(file, trailer)? as usize;
    file.len().checked_sub(distance).filter(|&at| at < trailer)
}

/// Bytes of a run, by the third word; any but 1 has no votes.
pub(crate) fn run_length(third: u32, count: usize) -> usize {
    BLOCK * (count + if third == 1 { 4 } else { 2 })
}

/// Why a file is refused that is so for its third word, or the distance that
/// does not go with it.
fn refused_by_third(file: &[u8]) -> Option<&'static str> {
    let at = block_at(file)?;
    let (third, count) = (word_at(file, at + 8)?, word_at(file, file.len() - 12)?);
    let distance = file.len() - at;
    let of = |third: u32| distance == run_length(third, count as usize);
    match third {
        1 if distance < run_length(1, 0) => Some(NO_ROOM),
        0 if of(1) => Some(OTHER_DISTANCE),
        1 if of(0) => Some(OTHER_DISTANCE),
        2.. if of(0) || of(1) => Some(OTHER_THIRD),
        _ => None,
    }
}

/// The event of a run that is taken, by the words of its opening.
fn taken(words: &[u32; WORDS], length: usize) -> Option<&'static str> {
    let votes = words[5] == 1;
    let block = words[2] as usize - if votes { 3 * BLOCK } else { BLOCK };
    match (block, length) {
        (0, MOST_BYTES) if votes => Some(VOTES_LONGEST),
        (0, MOST_BYTES) => Some(LONGEST),
        (0, _) => None,
        _ if votes => Some(VOTES_EARLIER_BYTES),
        _ => Some(EARLIER_BYTES),
    }
}

/// The event of a run to write, by its number.
fn write_event(opening: Opening, count: usize, number: u32) -> Option<&'static str> {
    const WITH_VOTES_AND_ONE: usize = MOST_ACTIONS_WITH_VOTES + 1;
    const AND_ONE: usize = MOST_ACTIONS + 1;
    let right = (1..=8).contains(&opening.n) && judge_votes(opening.n, &opening.votes).is_ok();
    match (opening.third, number, count) {
        (1, 0, MOST_ACTIONS_WITH_VOTES) => Some(VOTES_MOST_WRITTEN),
        (1, 19, WITH_VOTES_AND_ONE) => Some(VOTES_TOO_MANY),
        (0, 0, MOST_ACTIONS) => Some(MOST_WRITTEN),
        (0, 19, AND_ONE) => Some(TOO_MANY),
        (0, 0, _) if !right => Some(VOTES_UNUSED),
        (2.., 19, _) if !right => Some(OTHER_THIRD_WRITTEN),
        _ => None,
    }
}

/// A file on both sides: the bytes that the library is lent, and those that
/// they must be.
struct File {
    wanted: Vec<u8>,
    lent: Lent,
}

/// An area is as it must be, and nothing about it is written.
fn same(name: &str, lent: &Lent, wanted: &[u8]) -> Result<(), Difference> {
    if lent.area() != wanted {
        let what = first_difference(lent.area(), wanted);
        return Err(format!("the {name}'s {what}"));
    }
    if !lent.guards_stand() {
        return Err(format!("a byte outside the {name}'s slice was written"));
    }
    Ok(())
}

impl File {
    /// An area of which the first `length` bytes are lent.
    fn new(area: Vec<u8>, length: usize) -> File {
        let lent = Lent::new(&area, length);
        File { wanted: area, lent }
    }

    fn whole(area: Vec<u8>) -> File {
        let length = area.len();
        File::new(area, length)
    }

    /// A call on both sides with `room` bytes for the answer. Gives the number,
    /// and the words if that is 0.
    fn call(
        &mut self,
        room: usize,
        second: impl FnOnce(&mut [u8], &mut [u8]) -> u32,
        first: impl FnOnce(&mut Lent, &mut Lent) -> u32,
    ) -> Result<(u32, [u32; WORDS]), Difference> {
        let mut words = answer_slice(room);
        let mut wanted_words = words.area().to_vec();
        let lent = &mut self.wanted[..self.lent.length()];
        let wanted = second(lent, &mut wanted_words[..room]);
        let number = first(&mut self.lent, &mut words);
        if number != wanted {
            return Err(format!("number {number}, must be {wanted}"));
        }
        same("file", &self.lent, &self.wanted)?;
        same("answer", &words, &wanted_words)?;
        Ok(given(number, &words))
    }

    fn read(
        &mut self,
        room: usize,
        counts: &mut Counts,
    ) -> Result<(u32, [u32; WORDS]), Difference> {
        let second = |file: &mut [u8], words: &mut [u8]| calls::run_read(file, words);
        let given = self.call(room, second, library::run_read);
        let (number, words) = given.map_err(|what| format!("run read: {what}"))?;
        counts.call(Call::RunRead, number, 0);
        let length = self.lent.length();
        let event = match number {
            0 => taken(&words, length),
            19 if length > MOST_BYTES => Some(TOO_LONG),
            19 => refused_by_third(&self.lent.area()[..length]),
            _ => None,
        };
        if let Some(event) = event {
            counts.event(event);
        }
        Ok((number, words))
    }

    fn action(
        &mut self,
        at: usize,
        room: usize,
        counts: &mut Counts,
    ) -> Result<(u32, [u32; WORDS]), Difference> {
        let given = self.call(
            room,
            |file, words| calls::run_action(file, at, words),
            |file, words| library::run_action(file, at, words),
        );
        let (number, words) = given.map_err(|what| format!("run action at {at}: {what}"))?;
        counts.call(Call::RunAction, number, words[0]);
        if at > usize::MAX - 2 * BLOCK {
            counts.event(OFFSET_PAST);
        }
        Ok((number, words))
    }

    fn write(
        &mut self,
        opening: Opening,
        actions: &[u32],
        room: usize,
        counts: &mut Counts,
    ) -> Result<u32, Difference> {
        let mut lent = actions.to_vec();
        let given = self.call(
            room,
            |file, words| calls::run_write(file, opening, actions, words),
            |file, words| library::run_write(file, opening, &mut lent, words),
        );
        let count = actions.len() / 4;
        let at = |what| format!("run write {opening:?}, {count} actions: {what}");
        let (number, _) = given.map_err(at)?;
        if lent != actions {
            return Err(at("the actions are changed".to_string()));
        }
        counts.call(Call::RunWrite, number, 0);
        if let Some(event) = write_event(opening, count, number) {
            counts.event(event);
        }
        Ok(number)
    }

    /// The whole run, call by call until the end, which comes twice.
    fn run(&mut self, counts: &mut Counts) -> Result<Result<Run, u32>, Difference> {
        let (number, words) = self.read(ANSWER_LENGTH, counts)?;
        if number != 0 {
            return Ok(Err(number));
        }
        let [n, founders, low, high, count, third, votes @ .., _, _] = words;
        let offset = |low: u32, high: u32| low as usize | (high as usize) << 32;
        let mut at = offset(low, high);
        let mut actions = Vec::new();
        loop {
            let (_, [end, k, r, a, b, low, high, ..]) = self.action(at, ANSWER_LENGTH, counts)?;
            if end == 1 {
                break;
            }
            actions.push([k, r, a, b]);
            at = offset(low, high);
        }
        self.action(at, ANSWER_LENGTH, counts)?;
        if actions.len() != count as usize {
            let actions = actions.len();
            return Err(format!("{actions} actions, must be {count}"));
        }
        let opening = Opening {
            n,
            founders,
            third,
            votes,
        };
        Ok(Ok((opening, actions)))
    }
}

/// A file's run by the library is the second implementation's.
fn read_alike(file: &[u8], counts: &mut Counts) -> Result<Result<Run, u32>, Difference> {
    let run = File::whole(file.to_vec()).run(counts)?;
    if run != read_run_file(file) {
        return Err("another run is read".to_string());
    }
    Ok(run)
}

/// Writes a run that was read from a file back into a slice of its length.
fn write_back(file: &[u8], (opening, actions): Run, counts: &mut Counts) -> Result<(), Difference> {
    let length = run_length(opening.third, actions.len());
    let mut written = File::whole(vec![0xa5; length]);
    written.write(opening, actions.as_flattened(), ANSWER_LENGTH, counts)?;
    if length == file.len() {
        if written.lent.area() != file {
            return Err("it is not written back".to_string());
        }
        counts.event(WRITTEN_BACK);
    }
    Ok(())
}

/// The run files of tests/vectors, read and written back.
pub fn vectors(_: u64, counts: &mut Counts) -> Result<(), Difference> {
    for path in run_files() {
        let name = path.file_name().unwrap_or_default().to_string_lossy();
        let say = |what: Difference| format!("{name}: {what}");
        let file = fs::read(&path).map_err(|error| say(error.to_string()))?;
        let run = read_alike(&file, counts).map_err(say)?;
        if let Ok(run) = run {
            write_back(&file, run, counts).map_err(say)?;
        }
    }
    Ok(())
}

/// Any words, four for each action.
fn any_actions(random: &mut Random, count: usize) -> Vec<u32> {
    (0..4 * count).map(|_| random.word()).collect()
}

/// The most actions of a file with a third word.
fn most_actions(third: u32) -> usize {
    match third {
        1 => MOST_ACTIONS_WITH_VOTES,
        _ => MOST_ACTIONS,
    }
}

/// How many actions a file has: mostly few.
pub(crate) fn any_count(random: &mut Random, third: u32) -> usize {
    let most = most_actions(third);
    match random.below(12) {
        0 => most - random.below(3),
        1 => random.below(most + 1),
        _ => random.below(20),
    }
}

/// An opening that is taken, with votes or with the built-in row.
pub(crate) fn right_opening(random: &mut Random) -> Opening {
    let n = random.between(1, 8);
    let founders = random.below(1 << n) as u32;
    if random.coin() {
        Opening::with_votes(n, founders, rows::passing(random, n))
    } else {
        Opening::built_in(n, founders)
    }
}

/// A run file that is taken, with bytes before the opening block.
fn sound_file(random: &mut Random) -> Vec<u8> {
    let opening = right_opening(random);
    let count = any_count(random, opening.third);
    let length = run_length(opening.third, count);
    let earlier = match random.below(4) {
        0 => MOST_BYTES - length,
        1 => random.below(80).min(MOST_BYTES - length),
        _ => 0,
    };
    let mut file = vec![0; earlier + length];
    random.fill(&mut file[..earlier]);
    let mut word = || random.word();
    let actions: Vec<[u32; 4]> = (0..count)
        .map(|_| [word(), word(), word(), word()])
        .collect();
    write_run_file(opening, &actions, &mut file[earlier..]).expect("a run that is taken");
    file
}

/// Changes word i, from the end on, of a file of at least four words.
fn change_word(file: &mut [u8], i: usize, change: impl Fn(u32) -> u32) {
    let at = file.len() - 4 * (i + 1);
    let bytes = &mut file[at..at + 4];
    let word = u32::from_le_bytes([bytes[0], bytes[1], bytes[2], bytes[3]]);
    bytes.copy_from_slice(&change(word).to_le_bytes());
}

/// Changes the word at an offset, if there is one.
fn set_word(file: &mut [u8], at: usize, word: u32) {
    if let Some(bytes) = file.get_mut(at..at + 4) {
        bytes.copy_from_slice(&word.to_le_bytes());
    }
}

/// Changes the four words at an offset.
fn set_block(file: &mut [u8], at: usize, words: [u32; 4]) {
    file[at..at + BLOCK].copy_from_slice(words.map(u32::to_le_bytes).as_flattened());
}

/// Puts an opening block with third word 1 so near the end that no votes follow
/// it, with a count that makes the distance right modulo 2^32.
fn no_room_for_votes(random: &mut Random, file: &mut [u8]) {
    let blocks = random.pick(&[2, 3]);
    let Some(block) = file.len().checked_sub(BLOCK * blocks) else {
        return;
    };
    let trailer = file.len() - BLOCK;
    let (distance, count) = (16 * blocks as u32, (1 << 28) - 4 + blocks as u32);
    set_block(file, block, [3, 0, 1, 0]);
    set_block(file, trailer, [distance, count, 0, 0]);
}

/// A third word, a count or votes that do not go with the rest of a file, or
/// actions taken for votes, or votes for actions.
fn damage_votes(random: &mut Random, file: &mut [u8]) {
    let Some(block) = block_at(file) else {
        return;
    };
    let given = word_at(file, block + 8) == Some(1);
    let other_count = |count: u32| {
        if given {
            count.wrapping_add(2)
        } else {
            count.wrapping_sub(2)
        }
    };
    let other_third = u32::from(!given);
    match random.below(7) {
        0 => set_word(file, block + 8, random.pick(&[0, 1, 2, 256, u32::MAX])),
        1 => set_word(file, block + 8, other_third),
        2 => change_word(file, 2, other_count),
        3 => {
            set_word(file, block + 8, other_third);
            change_word(file, 2, other_count);
        }
        4 => no_room_for_votes(random, file),
        5 => {
            // A wrong third word, and a wrong vote behind it.
            set_word(file, block + 8, 2);
            set_word(file, block + BLOCK, 1_001);
        }
        _ => {
            let vote = block + BLOCK + 4 * random.below(8);
            set_word(file, vote, random.pick(&rows::EDGES));
        }
    }
}

/// Damages a file: bytes changed, cut off or added.
pub(crate) fn damage(random: &mut Random, file: &mut Vec<u8>) {
    let length = file.len();
    let blocks = length / BLOCK;
    match random.below(18) {
        0 => file[random.below(length)] ^= 1 << random.below(8),
        1 => file[length - 1 - random.below(BLOCK)] ^= 1 << random.below(8),
        2 => {
            // A byte of a block: of a short file often the opening block's.
            let at = length - BLOCK * random.between(2, blocks.min(6) as u32) as usize;
            file[at + random.below(BLOCK)] = random.byte();
        }
        3 => file.truncate(length - 1 - random.below(length.min(40))),
        4 => drop(file.drain(..random.between(1, length.min(40) as u32) as usize)),
        5 => file.extend((0..random.between(1, 40)).map(|at| at as u8)),
        6 => {
            // About the greatest length.
            let wanted = MOST_BYTES - 2 + random.below(6);
            let earlier = vec![random.byte(); wanted.saturating_sub(length)];
            file.splice(..0, earlier);
        }
        7 => {
            let by = random.between(1, 3);
            change_word(file, 2, |count| count.wrapping_add(by));
            change_word(file, 3, |distance| distance.wrapping_add(16 * by));
        }
        8 => {
            // A distance that is right only modulo 2^32.
            change_word(file, 2, |count| count | 1 << 28);
        }
        9 => change_word(file, random.below(4), |word| word.wrapping_add(1)),
        10 => {
            let word = random.word();
            change_word(file, random.below(4), |_| word);
        }
        11 => file.truncate(random.below(length.min(3 * BLOCK))),
        _ => damage_votes(random, file),
    }
}

/// An offset: in the file, at its end, past it, or near 2^64.
fn any_offset(random: &mut Random, length: usize) -> usize {
    match random.below(8) {
        0 => 0,
        1 => length,
        2 => length.saturating_sub(random.below(3 * BLOCK)),
        3 => length + random.below(3 * BLOCK),
        4 => usize::MAX - random.below(3 * BLOCK),
        5 => random.next() as usize >> random.below(64),
        _ => random.below(length + 1),
    }
}

/// Files as they are and damaged, read at any offset.
pub fn damaged(seed: u64, counts: &mut Counts) -> Result<(), Difference> {
    let mut random = Random::new("damaged files", seed);
    let sound = sound_file(&mut random);
    for round in 0..16 {
        let mut file = sound.clone();
        if round > 0 {
            damage(&mut random, &mut file);
        }
        let length = file.len();
        // More bytes than are lent.
        file.extend([0x3c; 24]);
        let mut file = File::new(file, length);
        file.read(ANSWER_LENGTH, counts)?;
        for _ in 0..6 {
            let at = any_offset(&mut random, length);
            file.action(at, random_room(&mut random), counts)?;
        }
        file.read(random_room(&mut random), counts)?;
    }
    let run = read_alike(&sound, counts)?;
    run.map(|_| ())
        .map_err(|number| format!("a sound file refused with {number}"))
}

/// An opening, now and then refused. Its votes may be any with any third word.
fn any_opening(random: &mut Random) -> Opening {
    let mut opening = right_opening(random);
    match random.below(10) {
        0 => {
            opening.n = random.between(0, 10);
            opening.founders = random.word() >> random.below(32);
        }
        1 => {
            opening.n = random.word();
            opening.founders = random.word();
        }
        2 => opening.third = random.pick(&[2, 3, 256, 1 << 31, u32::MAX]),
        _ => (),
    }
    if random.coin() {
        opening.votes = rows::any(random, opening.n);
    }
    opening
}

/// How many actions are to be written: now and then too many.
fn count_to_write(random: &mut Random, third: u32) -> usize {
    match random.below(10) {
        0 => most_actions(third) + 1,
        1 => most_actions(third) + 1 + random.below(1_000),
        2 => 0,
        3 => most_actions(third),
        _ => any_count(random, third),
    }
}

/// The length of a slice to write a run of some length into.
fn length_to_write(random: &mut Random, run: usize) -> usize {
    match random.below(6) {
        0 => run - 1,
        1 => random.below(run),
        2 => run,
        _ => run + random.below(60),
    }
}

/// Any openings and actions, written into slices of any length. What was
/// written reads back.
pub fn written(seed: u64, counts: &mut Counts) -> Result<(), Difference> {
    let mut random = Random::new("written files", seed);
    for _ in 0..8 {
        let opening = any_opening(&mut random);
        let count = count_to_write(&mut random, opening.third);
        let mut actions = any_actions(&mut random, count);
        // A rest that is no action.
        actions.extend((0..random.between(0, 3)).map(|word| word + 1));
        let run = run_length(opening.third, count);
        let length = length_to_write(&mut random, run);
        let mut area = vec![0; length + random.below(20)];
        random.fill(&mut area);
        let mut file = File::new(area, length);
        let room = random_room(&mut random);
        if file.write(opening, &actions, room, counts)? != 0 {
            continue;
        }
        let (given, read) = read_alike(&file.lent.area()[..run], counts)?
            .map_err(|number| format!("written and refused with {number}"))?;
        // Votes that are not written read back as 0.
        let votes = opening.votes.map(|vote| vote * opening.third);
        if given != (Opening { votes, ..opening }) || read.as_flattened() != &actions[..4 * count] {
            return Err("another run is read back".to_string());
        }
        counts.event(match opening.third {
            1 => VOTES_READ_BACK,
            _ => READ_BACK,
        });
    }
    Ok(())
}

/// Offsets about 2^32, in a file of more than 4 GiB of which few pages are
/// touched: the high word of an offset is not lost.
pub fn high_words(_: u64, counts: &mut Counts) -> Result<(), Difference> {
    let half = 1 << 32;
    let mut file = vec![0; half + 5 * BLOCK];
    for (byte, value) in file[half - 2 * BLOCK..].iter_mut().zip(1..) {
        *byte = value;
    }
    for at in (half - 3 * BLOCK..half + 6 * BLOCK).chain([0, half / 2]) {
        let mut words = answer_slice(ANSWER_LENGTH);
        let mut wanted = words.area().to_vec();
        calls::run_action(&file, at, &mut wanted[..ANSWER_LENGTH]);
        let number = library::run_action_of(&mut file, at, &mut words);
        if number != 0 {
            return Err(format!("run action at {at}: number {number}"));
        }
        same("answer", &words, &wanted).map_err(|what| format!("run action at {at}: {what}"))?;
        let [end, .., high] = words_of(words.area())[..7] else {
            return Err("no seven words".to_string());
        };
        counts.call(Call::RunAction, 0, end);
        if high != 0 {
            counts.event(HIGH_WORD);
        }
    }
    Ok(())
}
