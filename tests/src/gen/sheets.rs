//! Random sheets that are accepted.

use super::write::Spec;
use crate::model::sheet::{item_limit, MAX_LEVEL};
use crate::rng::Rng;

fn name(rng: &mut Rng) -> Vec<u8> {
    let length = if rng.percent(80) { rng.between(1, 3) } else { rng.between(1, 16) };
    (0..length).map(|_| rng.between(33, 126) as u8).collect()
}

fn parent_count(rng: &mut Rng, rule: u8) -> u64 {
    match rule {
        1 | 3 | 4 | 7 if rng.percent(85) => rng.between(1, 4),
        1 | 3 | 4 | 7 => rng.between(1, 16),
        6 => 3,
        _ => 2,
    }
}

/// The rules of random figures, and of those where choices guard what may be OUT or NULL.
const RULES: [u8; 11] = [1, 1, 1, 2, 3, 4, 5, 5, 6, 7, 8];
const GUARDS: [u8; 8] = [1, 2, 5, 5, 6, 6, 6, 8];

/// Random items, all of them at most at level `most`; item 0 is an entry.
pub fn random_specs(rng: &mut Rng, count: usize, entries: u64, most: usize) -> Vec<Spec> {
    specs_of(rng, &RULES, count, entries, most)
}

fn specs_of(rng: &mut Rng, rules: &[u8], count: usize, entries: u64, most: usize) -> Vec<Spec> {
    let mut specs = vec![Spec::Entry(name(rng))];
    let mut levels = vec![0];
    while specs.len() < count {
        if rng.percent(entries) {
            specs.push(Spec::Entry(name(rng)));
            levels.push(0);
            continue;
        }
        let rule = *rng.pick(rules);
        let mut parents: Vec<u16> = Vec::new();
        for _ in 0..parent_count(rng, rule) {
            let here = specs.len() as u64;
            let parent = match rng.below(10) {
                0..=4 => here - 1 - rng.below(here.min(4)),
                5 if !parents.is_empty() => *rng.pick(&parents) as u64,
                _ => rng.below(here),
            };
            parents.push(if levels[parent as usize] < most { parent as u16 } else { 0 });
        }
        levels.push(1 + parents.iter().map(|&p| levels[p as usize]).max().unwrap());
        let (keep, spread) = (rng.below(2) as u8, rng.below(3) as u8);
        specs.push(Spec::Figure { rule, keep, spread, parents, name: name(rng) });
    }
    specs
}

pub fn small_specs(rng: &mut Rng) -> Vec<Spec> {
    let (count, entries) = (rng.between(1, 10) as usize, rng.between(15, 50));
    let rules: &[u8] = if rng.percent(30) { &GUARDS } else { &RULES };
    specs_of(rng, rules, count, entries, MAX_LEVEL)
}

/// A small sheet with choices.
pub fn guard_specs(rng: &mut Rng) -> Vec<Spec> {
    let (count, entries) = (rng.between(6, 14) as usize, rng.between(20, 40));
    specs_of(rng, &GUARDS, count, entries, MAX_LEVEL)
}

/// A tower of figures up to a level, each listing the one before at least twice where it can.
pub fn tower(rng: &mut Rng, levels: usize) -> Vec<Spec> {
    let ground = rng.between(1, 3) as usize;
    let mut specs: Vec<Spec> = (0..ground).map(|_| Spec::Entry(name(rng))).collect();
    let often_kept = rng.below(3) * 40;
    for _ in 0..levels {
        let before = specs.len() as u16 - 1;
        let rule = *rng.pick(&[1, 2, 3, 3, 4, 4, 5, 6, 7, 8]);
        let mut parents = vec![before; parent_count(rng, rule).max(2) as usize];
        if rng.percent(40) {
            let place = rng.below(parents.len() as u64 - 1) as usize + 1;
            parents[place] = rng.below(ground as u64) as u16;
        }
        let (keep, spread) = (rng.percent(often_kept) as u8, rng.below(3) as u8);
        specs.push(Spec::Figure { rule, keep, spread, parents, name: name(rng) });
    }
    specs
}

#[derive(Clone, Copy, Debug, PartialEq, Eq)]
pub enum Shape {
    Small,
    Medium,
    Deep,
    /// At most 1,024 items.
    Wide,
    /// More, up to 4,096.
    Vast,
}

pub fn shape(rng: &mut Rng) -> Shape {
    match rng.below(1000) {
        0..=719 => Shape::Small,
        720..=929 => Shape::Medium,
        930..=984 => Shape::Deep,
        985..=997 => Shape::Wide,
        _ => Shape::Vast,
    }
}

/// An item count of a wide sheet, or of a vast one: often at a limit, or beside one.
fn many(rng: &mut Rng, shape: Shape) -> u64 {
    let (first, second) = (item_limit(1) as u64, item_limit(2) as u64);
    match (shape, rng.below(10)) {
        (Shape::Vast, 0..=3) => second,
        (Shape::Vast, 4) => second - 1,
        (Shape::Vast, 5) => first + 1,
        (Shape::Vast, _) => rng.between(first + 1, second),
        (_, 0..=2) => first,
        (_, 3) => first - 1,
        (_, 4 | 5) => rng.between(127, 129),
        _ => rng.between(100, first),
    }
}

/// A sheet that is accepted.
pub fn sheet(rng: &mut Rng, shape: Shape) -> Vec<Spec> {
    match shape {
        Shape::Small => small_specs(rng),
        Shape::Medium => {
            let count = rng.between(11, 60) as usize;
            let entries = rng.between(10, 60);
            random_specs(rng, count, entries, MAX_LEVEL)
        }
        Shape::Deep => {
            let levels = if rng.percent(60) { MAX_LEVEL as u64 } else { rng.between(20, 64) };
            tower(rng, levels as usize)
        }
        Shape::Wide | Shape::Vast => {
            let count = many(rng, shape);
            let (entries, level) = (rng.between(5, 90), *rng.pick(&[1, 2, 5, 20, MAX_LEVEL]));
            random_specs(rng, count as usize, entries, level)
        }
    }
}
