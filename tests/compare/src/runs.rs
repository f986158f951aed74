//! Random calls: on opened halls, and on random halls that no run reaches.

use crate::actions::{self, Weights};
use crate::counts::Counts;
use crate::halls;
use crate::pair::{random_room, Difference, Pair};
use crate::random::Random;
use crate::rows;
use reference::calls::ANSWER_LENGTH;
use reference::stored::LENGTH;
use reference::Hall;

/// Steps, and a page after one in three of them.
pub fn calls(
    random: &mut Random,
    pair: &mut Pair,
    steps: u32,
    counts: &mut Counts,
) -> Result<(), Difference> {
    let weights = Weights::random(random);
    for place in 0..steps {
        let hall = pair.hall().ok_or("the hall is lost")?;
        let action = actions::action(random, hall, &weights);
        let (r, at) = actions::page(random, hall);
        let say = |what| format!("call {place}: {what}");
        pair.step(action, random_room(random), counts)
            .map_err(say)?;
        if random.one_in(3) {
            pair.page(r, at, random_room(random), counts).map_err(say)?;
        }
        if random.one_in(64) {
            pair.read_back().map_err(say)?;
        }
    }
    pair.read_back()
}

/// A hall just opened.
pub fn opening(random: &mut Random, counts: &mut Counts) -> Result<Pair, Difference> {
    let rest = random.below(3) * random.below(40);
    let mut area = vec![0; LENGTH + rest];
    random.fill(&mut area);
    let mut pair = Pair::of_bytes(area, LENGTH + rest);
    let n = random.between(1, 8);
    let founders = random.below(1 << n) as u32;
    let votes = rows::passing(random, n);
    pair.open(n, founders, votes, counts)?;
    Ok(pair)
}

/// A run from an opening.
pub fn opened(seed: u64, counts: &mut Counts) -> Result<(), Difference> {
    let mut random = Random::new("opened", seed);
    let mut pair = opening(&mut random, counts)?;
    let steps = random.between(500, 4_000);
    calls(&mut random, &mut pair, steps, counts)
}

/// A random hall in a slice that may be longer.
pub fn lend(random: &mut Random, hall: Hall) -> Result<Pair, Difference> {
    if !hall.check() {
        return Err("a random hall breaks a rule".to_string());
    }
    let mut rest = vec![0; random.below(3) * random.below(40)];
    random.fill(&mut rest);
    let pair = Pair::of_hall(hall, &rest);
    pair.read_back()?;
    Ok(pair)
}

/// Calls on random halls.
pub fn odd(seed: u64, counts: &mut Counts) -> Result<(), Difference> {
    let mut random = Random::new("odd", seed);
    for _ in 0..40 {
        let hall = halls::voting(&mut random);
        let mut pair = lend(&mut random, hall)?;
        let steps = random.between(1, 60);
        calls(&mut random, &mut pair, steps, counts)?;
    }
    Ok(())
}

/// Calls on random halls that are about to take an order.
pub fn exchanges(seed: u64, counts: &mut Counts) -> Result<(), Difference> {
    let mut random = Random::new("exchanges", seed);
    for _ in 0..40 {
        let kind = random.pick(&[8, 9]);
        let (hall, r) = halls::before_the_last(&mut random, kind);
        let mut pair = lend(&mut random, hall)?;
        pair.step([kind, r, 0, 0], ANSWER_LENGTH, counts)?;
        let steps = random.between(1, 8);
        calls(&mut random, &mut pair, steps, counts)?;
    }
    Ok(())
}
