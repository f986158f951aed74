//! Run files listed through the C interface: the number, the words, the text, the
//! hall and all other bytes are those of the second implementation.

use crate::actions::{self, Weights};
use crate::counts::{Call, Counts};
use crate::files::{any_count, damage, right_opening, run_length};
use crate::library::{self, Lent};
use crate::pair::{answer_slice, compare_area, random_room, Difference};
use crate::random::Random;
use crate::vectors::run_files;
use reference::calls::{self, ANSWER_LENGTH};
use reference::runfile::MOST_ACTIONS;
use reference::stored::LENGTH;
use reference::{listing, open, read_run_file, write_run_file, Opening};
use std::fs;

const JUST_FITS: &str = "listing: in a text of just its length";
const TEXT_SHORT: &str = "listing: a text one byte too short, refused";
const HALL_SHORT: &str = "listing: a hall one byte too short, refused";
const NO_HALL: &str = "listing: of a refused file, without a hall";
const LONGEST: &str = "listing: of 4,094 actions";

/// What must have come.
pub const EVENTS: [&str; 5] = [JUST_FITS, TEXT_SHORT, HALL_SHORT, NO_HALL, LONGEST];

/// No line is longer.
const LINE: usize = 85;

/// Bytes lent for a listing.
struct Room {
    hall: usize,
    text: usize,
    words: usize,
}

/// The event of a listing.
fn event(taken: Option<usize>, listing: usize, room: &Room, number: u32) -> Option<&'static str> {
    match (taken, number) {
        (Some(_), 18) if room.hall == LENGTH - 1 => Some(HALL_SHORT),
        (_, 18) if room.text + 1 == listing && room.words >= ANSWER_LENGTH => Some(TEXT_SHORT),
        (None, 0) if room.hall == 0 => Some(NO_HALL),
        (Some(MOST_ACTIONS), 0) => Some(LONGEST),
        (_, 0) if room.text == listing => Some(JUST_FITS),
        _ => None,
    }
}

/// Lists a file on both sides.
fn list(file: &[u8], room: Room, counts: &mut Counts) -> Result<(), Difference> {
    let mut lent = Lent::new(file, file.len());
    let [mut hall, mut text, mut words] = [room.hall, room.text, room.words].map(answer_slice);
    let [mut wanted_hall, mut wanted_text, mut wanted_words] =
        [&hall, &text, &words].map(|slice| slice.area().to_vec());
    let wanted = calls::run_list(
        file,
        &mut wanted_hall[..room.hall],
        &mut wanted_text[..room.text],
        &mut wanted_words[..room.words],
    );
    let number = library::run_list(&mut lent, &mut hall, &mut text, &mut words);
    let say = |what: Difference| {
        let Room { hall, text, words } = room;
        format!("run list with {hall}, {text} and {words} bytes: {what}")
    };
    if number != wanted {
        return Err(say(format!("number {number}, must be {wanted}")));
    }
    compare_area("file", &lent, file).map_err(say)?;
    compare_area("hall", &hall, &wanted_hall).map_err(say)?;
    compare_area("text", &text, &wanted_text).map_err(say)?;
    compare_area("answer", &words, &wanted_words).map_err(say)?;
    let taken = read_run_file(file).ok().map(|(_, actions)| actions.len());
    let refused_file = number == 0 && taken.is_none();
    counts.call(Call::RunList, number, u32::from(refused_file));
    if let Some(event) = event(taken, listing(file).len(), &room, number) {
        counts.event(event);
    }
    Ok(())
}

/// The run files of tests/vectors, in texts of just the length and in long ones.
pub fn vectors(_: u64, counts: &mut Counts) -> Result<(), Difference> {
    for path in run_files() {
        let name = path.file_name().unwrap_or_default().to_string_lossy();
        let say = |what: Difference| format!("{name}: {what}");
        let file = fs::read(&path).map_err(|error| say(error.to_string()))?;
        for text in [listing(&file).len(), LINE * (MOST_ACTIONS + 2)] {
            let room = Room {
                hall: LENGTH,
                text,
                words: ANSWER_LENGTH,
            };
            list(&file, room, counts).map_err(say)?;
        }
    }
    Ok(())
}

/// A run of allowed and refused actions.
fn run(random: &mut Random, opening: &Opening, count: usize) -> Vec<[u32; 4]> {
    let founders = opening.founders;
    let mut hall = open(opening.n, founders, opening.row()).expect("the opening is taken");
    let weights = Weights::random(random);
    let mut next = || {
        let action = actions::action(random, &hall, &weights);
        let [k, r, a, b] = action;
        hall.step(k, r, a, b);
        action
    };
    (0..count).map(|_| next()).collect()
}

/// A file with such a run.
fn any_file(random: &mut Random) -> Vec<u8> {
    let opening = right_opening(random);
    let count = match random.below(4) {
        0 => random.below(400),
        _ => any_count(random, opening.third),
    };
    let actions = run(random, &opening, count);
    let mut file = vec![0; run_length(opening.third, count)];
    write_run_file(opening, &actions, &mut file).expect("a run that is taken");
    file
}

/// The length of a slice of which so many bytes are needed.
fn any_length(random: &mut Random, needed: usize) -> usize {
    match random.below(8) {
        0 => needed - 1,
        1 => random.below(needed),
        2 => 0,
        3 => needed + random.below(60),
        _ => needed,
    }
}

/// The length of a text for a listing of `needed` bytes.
fn any_text(random: &mut Random, needed: usize, lines: usize) -> usize {
    match random.below(3) {
        0 => LINE * lines - random.below(2),
        _ => any_length(random, needed),
    }
}

/// Files as they are and damaged, listed into slices of any length.
pub fn any(seed: u64, counts: &mut Counts) -> Result<(), Difference> {
    let mut random = Random::new("listings", seed);
    let sound = any_file(&mut random);
    for round in 0..8 {
        let mut file = sound.clone();
        if round > 3 {
            damage(&mut random, &mut file);
        }
        let lines = read_run_file(&file).map_or(1, |(_, actions)| actions.len() + 2);
        let room = Room {
            hall: any_length(&mut random, LENGTH),
            text: any_text(&mut random, listing(&file).len(), lines),
            words: random_room(&mut random),
        };
        list(&file, room, counts)?;
    }
    Ok(())
}
