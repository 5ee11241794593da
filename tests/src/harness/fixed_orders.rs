//! Orders of steps that are the same in every run: all of them on sheets of one item and two and on
//! some of three and four, lists spelled out, and how many steps and rounds there can be.

use super::arrivals::{asks, quiet, values_of};
use super::closes::fresh_of;
use super::compare::{Act, Comparison};
use super::fixed::{expect, opened, post};
use super::fixed_owed::{drop, entry, keep, list, posted, step, sum};
use super::orders::{explore, since_openings, try_lists, try_orders};
use super::sequences::{ladder, run_ladder, take, Order};
use super::small::{Small, FEW, FOUR, MANY, ONE, THREE, TWO};
use crate::gen::plain_chain;
use crate::model::sheet::read_sheet;
use crate::model::table::no_mark;

pub fn run_fixed_orders(c: &mut Comparison) -> Result<(), String> {
    every_order(c)?;
    every_list(c)?;
    diamond(c)?;
    flagged(c)?;
    highest_first(c)?;
    interrupted(c)?;
    most_rounds(c)
}

/// The sheets in each of their ways.
fn in_every_way(small: &[Small]) -> impl Iterator<Item = Vec<u8>> + '_ {
    small.iter().flat_map(|s| (0..s.ways()).map(|way| s.sheet(way)))
}

/// All sequences of steps: from all tables of sheets of one item and two, and from those with few
/// values of each sheet of three in one way. The sheet of four has the longest that are known, with
/// spreads of either edition.
fn every_order(c: &mut Comparison) -> Result<(), String> {
    for sheet in in_every_way(&ONE).chain(in_every_way(&TWO)) {
        explore(c, &sheet, &MANY)?;
    }
    for (small, way) in THREE.iter().zip((0..).step_by(11)) {
        try_orders(c, &small.sheet(way % small.ways()), &FEW)?;
    }
    [4, 118].iter().try_for_each(|&way| try_orders(c, &FOUR[3].sheet(way), &FEW).map(|_| ()))
}

/// All that calls leave since the openings, of each sheet of one item and two in one way, and of some of
/// three.
fn every_list(c: &mut Comparison) -> Result<(), String> {
    for (small, way) in ONE.iter().chain(&TWO).zip(0..) {
        since_openings(c, &small.sheet(7 * way % small.ways()), &MANY.entries[..2])?;
    }
    for (small, way) in THREE.iter().step_by(3).zip(8..) {
        try_lists(c, &small.sheet(7 * way % small.ways()), &MANY.entries[..2])?;
    }
    Ok(())
}

/// Two figures of an entry and one of both, stepped from the lowest and then with the last before the
/// second: two steps more.
fn diamond(c: &mut Comparison) -> Result<(), String> {
    let specs = [entry(), sum(0, 0, &[0]), sum(0, 0, &[0]), sum(0, 0, &[1, 2])];
    let all = "1110";
    let kept = [(keep(1), "1000", "----"), (keep(2), "1000", "----"), (keep(3), all, "----")];
    let lowest = [
        (posted(0, 4), all, "n---"),
        (step(0), all, "-rr-"),
        (step(1), all, "-nr-"),
        (step(1), all, "--rr"),
        (step(2), all, "--nr"),
        (step(2), all, "---r"),
        (step(3), all, "---n"),
        (step(3), all, "----"),
    ];
    let other = [
        (posted(0, 5), all, "n---"),
        (step(0), all, "-rr-"),
        (step(2), all, "-rn-"),
        (step(2), all, "-r-r"),
        (step(3), all, "-r-n"),
        (step(3), all, "-r--"),
        (step(1), all, "-n--"),
        (step(1), all, "---r"),
        (step(3), all, "---n"),
        (step(3), all, "----"),
    ];
    list(c, &specs, &[&kept[..], &lowest, &other].concat())
}

/// A step of a figure looks another up that has nothing stored and a parent with notice: it is stored
/// with notice, and steps of it and of its parent, in either order, come to the same end.
fn flagged(c: &mut Comparison) -> Result<(), String> {
    let specs = [entry(), entry(), sum(1, 0, &[0]), sum(0, 0, &[1, 2])];
    let all = "1110";
    let begun = [
        (keep(3), all, "----"),
        (drop(2), all, "----"),
        (posted(0, 4), all, "n---"),
        (posted(1, 5), all, "nn--"),
        (step(1), all, "n--r"),
        (step(3), all, "n-nn"),
    ];
    let orders = [
        [(step(0), all, "--nn"), (step(2), all, "---n"), (step(3), all, "----")],
        [(step(3), all, "n-n-"), (step(2), all, "n--r"), (step(0), all, "--rr")],
    ];
    let ends = [(step(2), all, "---r"), (step(3), all, "----")];
    list(c, &specs, &[&begun[..], &orders[0]].concat())?;
    list(c, &specs, &[&begun[..], &orders[1], &ends].concat())
}

/// Ladders that are followed to their ends in each order.
fn highest_first(c: &mut Comparison) -> Result<(), String> {
    (2..=8).try_for_each(|items| run_ladder(c, items))
}

/// A sheet that from the highest takes 131,071 steps, after so many of them: asks are right.
fn interrupted(c: &mut Comparison) -> Result<(), String> {
    let start = ladder(c, 17)?;
    let items = read_sheet(&start.sheet).unwrap();
    let values = values_of(&fresh_of(&items, &start.table));
    for limit in [0, 1, 2, 3, 50] {
        let mut order = Order::new(&mut c.rng, 1, items.len());
        let (end, taken) = take(c, &items, &start, &mut order, limit)?;
        expect("steps that were followed", taken as u64, limit as u64)?;
        if no_mark(&end.table) {
            return Err(start.dump(&format!("no mark is left after {taken} steps")));
        }
        asks(c, &end, &values, &[0, 1, 8, 16])?;
    }
    Ok(())
}

/// A chain of 64 levels, stored, after a post, on a screen with the highest item first: a round for the
/// entry, and two for each level.
fn most_rounds(c: &mut Comparison) -> Result<(), String> {
    let (mut lent, _) = opened(c, plain_chain(64), 65, true)?;
    expect("a post", c.act(&Act::Give(post(0, 1)), &mut lent)?.number, 0)?;
    let items = read_sheet(&lent.sheet).unwrap();
    let mut order = Order::in_rounds((0..65).rev().collect());
    let (end, taken) = take(c, &items, &lent, &mut order, usize::MAX)?;
    expect("steps until no mark is left", taken as u64, 129)?;
    expect("rounds until no mark is left", order.rounds() as u64, 129)?;
    quiet(c, &end, &values_of(&fresh_of(&items, &lent.table)), &items, &[0, 1, 63, 64])
}

#[cfg(test)]
mod tests {
    use super::*;
    use crate::mock::{Mock, Wrong};
    use crate::rng::Rng;

    fn try_mock(wrong: Wrong) -> Result<(), String> {
        run_fixed_orders(&mut Comparison::new(&mut Mock(wrong), Rng::new(1)))
    }

    /// Each mock with wrong steps is found by these alone.
    #[test]
    fn wrong_steps_are_found() {
        try_mock(Wrong::Nothing).unwrap();
        for wrong in Wrong::STEPS {
            assert!(try_mock(wrong).is_err(), "{wrong:?} was not found");
        }
    }

    /// The longest sequences of steps that are known.
    #[test]
    fn longest_sequences() {
        let mut mock = Mock(Wrong::Nothing);
        let mut c = Comparison::new(&mut mock, Rng::new(1));
        every_order(&mut c).unwrap();
        assert_eq!(c.tally.orders.longest, [0, 1, 4, 10, 21]);
    }
}
