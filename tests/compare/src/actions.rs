//! Random calls on a hall: most of them fit the hall, so that runs get
//! somewhere, and some are junk.

use crate::random::Random;
use reference::hall::at_mark;
use reference::{Hall, Phase};

/// How often each kind is tried.
pub struct Weights([u32; 11]);

impl Weights {
    pub fn random(random: &mut Random) -> Weights {
        let submit = random.pick(&[8, 20, 60]);
        let form = random.pick(&[1, 4, 12, 40]);
        let enter = random.pick(&[20, 60]);
        Weights([submit, 60, 60, 60, form, enter, 120, 250, 200, 90, 60])
    }

    fn kind(&self, random: &mut Random) -> u32 {
        let mut left = random.below(self.0.iter().sum::<u32>() as usize) as u32;
        for (kind, &weight) in (1..).zip(&self.0) {
            if left < weight {
                return kind;
            }
            left -= weight;
        }
        unreachable!("left was below the sum of the weights")
    }
}

/// Whether an action of a kind at R may well be allowed.
fn fits(hall: &Hall, kind: u32, r: u32) -> bool {
    let recorder = hall.recorder(r);
    let view = hall.current_index(r).map(|index| &hall.views[index]);
    match kind {
        2 => view.is_some() && recorder.phase == Phase::Normal && hall.first_waiting(r).is_some(),
        3 => view.is_some() && recorder.phase == Phase::Normal && !recorder.buffer.is_empty(),
        4 => view.is_some() && recorder.phase == Phase::Send,
        6 => !views_above(hall, r).is_empty(),
        7 => !views_pending(hall, r).is_empty(),
        8 => view.is_some_and(|view| at_mark(&view.queue, view.seat(r).receive).is_some()),
        9 => view.is_some_and(|view| {
            let mark = view.seat(r).safe;
            at_mark(&view.queue, mark).is_some() && view.all_received(mark)
        }),
        10 => at_mark(&recorder.order, recorder.confirm).is_some(),
        11 => recorder.report < recorder.confirm,
        _ => true,
    }
}

/// The formed views with R above its current one.
fn views_above(hall: &Hall, r: u32) -> Vec<u32> {
    let current = hall.recorder(r).current;
    let above = hall.views.iter().filter(|view| view.has(r));
    let numbers = above.map(|view| view.number);
    numbers.filter(|&number| number > current).collect()
}

/// The formed views in which something of R is pending.
fn views_pending(hall: &Hall, r: u32) -> Vec<u32> {
    let pending = hall.views.iter();
    let pending = pending.filter(|view| !view.seat(r).pending.is_empty());
    pending.map(|view| view.number).collect()
}

/// The number of a formed view, now and then with one bit changed.
fn any_view(random: &mut Random, hall: &Hall) -> u32 {
    let numbers: Vec<u32> = hall.views.iter().map(|view| view.number).collect();
    let number = random.pick_any(&numbers).unwrap_or(1);
    if random.one_in(4) {
        number ^ 1 << random.below(32)
    } else {
        number
    }
}

fn view_to_enter(random: &mut Random, hall: &Hall, r: u32) -> u32 {
    let above = views_above(hall, r);
    match above.last() {
        Some(&newest) if random.coin() => newest,
        Some(_) if !random.one_in(8) => random.pick(&above),
        _ => any_view(random, hall),
    }
}

fn view_to_place(random: &mut Random, hall: &Hall, r: u32) -> u32 {
    match random.pick_any(&views_pending(hall, r)) {
        Some(number) if !random.one_in(8) => number,
        _ => any_view(random, hall),
    }
}

/// Words at the edges of recorders, of kinds and of the bytes of a number.
const EDGES: [u32; 17] = [
    0,
    1,
    2,
    8,
    9,
    11,
    12,
    255,
    256,
    257,
    65_535,
    65_536,
    (1 << 24) - 1,
    1 << 24,
    1 << 31,
    u32::MAX - 1,
    u32::MAX,
];

/// A number above the formed ones, mostly: one of the next, or the next whose low
/// bytes are 0.
fn new_number(random: &mut Random, hall: &Hall) -> u32 {
    let last = hall.views.last().map_or(0, |view| view.number);
    match random.below(24) {
        0 | 1 => last,
        2 => random.word() >> random.below(32),
        3 => random.pick(&EDGES),
        4 | 5 => (last | random.pick(&[0xff, 0xffff, 0xff_ffff])).saturating_add(1),
        _ => last.saturating_add(random.between(1, 3)),
    }
}

/// All recorders, all but one, or any set.
fn new_set(random: &mut Random, n: u32) -> u32 {
    let all = (1 << n) - 1;
    match random.below(4) {
        0 => all,
        1 if n > 1 => all & !(1 << random.below(n as usize)),
        _ => random.between(1, all),
    }
}

/// A word at an edge, or any word.
fn junk_word(random: &mut Random) -> u32 {
    match random.below(8) {
        0 => random.word(),
        1 => random.between(0, 300),
        _ => random.pick(&EDGES),
    }
}

fn junk(random: &mut Random) -> [u32; 4] {
    [0; 4].map(|_: u32| junk_word(random))
}

fn fitting(random: &mut Random, hall: &Hall, weights: &Weights) -> (u32, u32) {
    let mut choice = (1, 1);
    for _ in 0..8 {
        choice = (weights.kind(random), random.between(1, hall.n));
        if random.one_in(6) || fits(hall, choice.0, choice.1) {
            break;
        }
    }
    choice
}

/// An action for a hall. One in 24 has a junk word, one in 48 only such words.
pub fn action(random: &mut Random, hall: &Hall, weights: &Weights) -> [u32; 4] {
    if random.one_in(48) {
        return junk(random);
    }
    let (kind, r) = fitting(random, hall, weights);
    let mut words = match kind {
        1 => [1, r, random.word() >> random.below(32), 0],
        5 => [5, 0, new_number(random, hall), new_set(random, hall.n)],
        6 => [6, r, view_to_enter(random, hall, r), 0],
        7 => [7, r, view_to_place(random, hall, r), 0],
        _ => [kind, r, 0, 0],
    };
    if random.one_in(24) {
        words[random.below(4)] = junk_word(random);
    }
    words
}

/// A recorder and a place for a page.
pub fn page(random: &mut Random, hall: &Hall) -> (u32, u32) {
    if random.one_in(20) {
        return (junk_word(random), junk_word(random));
    }
    let r = random.between(1, hall.n);
    let length = hall.recorder(r).order.len() as u32;
    let place = match random.below(4) {
        0 => 0,
        1 => length + random.between(0, 1),
        _ => random.between(0, length),
    };
    (r, place)
}

/// A step for bytes that may be no hall.
pub fn any_step(random: &mut Random, hall: Option<&Hall>) -> [u32; 4] {
    match hall {
        Some(hall) => {
            let weights = Weights::random(random);
            action(random, hall, &weights)
        }
        None if random.one_in(16) => junk(random),
        None => {
            let kind = random.between(1, 11);
            let r = if kind == 5 { 0 } else { 1 };
            let a = if matches!(kind, 1 | 5 | 6 | 7) { 1 } else { 0 };
            [kind, r, a, u32::from(kind == 5)]
        }
    }
}
