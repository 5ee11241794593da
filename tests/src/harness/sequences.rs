//! The orders of an office: on sheets of any size marked items are stepped from the lowest, from the
//! highest, at random, or in rounds over a list of the items, until no mark is left, or for so long.

use super::arrivals::{asks, board_and_close, quiet, values_of};
use super::closes::fresh_of;
use super::compare::{Act, Comparison, Lent};
use super::fixed::{expect, opened, post};
use super::fixed_owed::{entry, sum};
use super::lists::{list_length, open, plain_call, Office};
use super::orders::{LARGE, ORDERS};
use super::swaps::plain_swap;
use crate::gen::{self, write_sheet, Shape, Spec};
use crate::model::calls::Call;
use crate::model::fresh::FreshOffice;
use crate::model::sheet::{index_of, read_sheet, Item};
use crate::model::table::{is_marked, no_mark, RECORD};
use crate::rng::Rng;

/// Which marked item is next.
pub struct Order {
    /// One of `ORDERS`.
    which: usize,
    /// The items as a screen shows them, where the office is, and how often it began at the top.
    screen: Vec<usize>,
    at: usize,
    rounds: usize,
}

impl Order {
    /// One of `ORDERS`; the screen has the items anyhow.
    pub fn new(rng: &mut Rng, which: usize, items: usize) -> Self {
        let mut screen: Vec<usize> = (0..items).collect();
        for last in (1..items).rev() {
            screen.swap(last, rng.below(last as u64 + 1) as usize);
        }
        Order { which, ..Order::in_rounds(screen) }
    }

    /// Rounds over this screen.
    pub fn in_rounds(screen: Vec<usize>) -> Self {
        Order { which: ORDERS.len() - 1, screen, at: 0, rounds: 1 }
    }

    /// The round that the order is in.
    pub fn rounds(&self) -> usize {
        self.rounds
    }

    fn next(&mut self, rng: &mut Rng, table: &[u8]) -> Option<usize> {
        let n = self.screen.len();
        let marked: Vec<usize> = (0..n).filter(|&i| is_marked(table, i)).collect();
        match self.which {
            _ if marked.is_empty() => None,
            0 => marked.first().copied(),
            1 => marked.last().copied(),
            2 => Some(*rng.pick(&marked)),
            _ => loop {
                if self.at == n {
                    (self.at, self.rounds) = (0, self.rounds + 1);
                }
                self.at += 1;
                let item = self.screen[self.at - 1];
                if is_marked(table, item) {
                    return Some(item);
                }
            },
        }
    }

    /// From the lowest no item is stepped more than twice; this one was stepped so many times. A round
    /// is the last for the entries, and two more are for each level: nothing marks it when those below
    /// have no mark.
    fn within(&self, items: &[Item], times: usize) -> bool {
        let levels = items.iter().map(|item| item.level).max().unwrap();
        match self.which {
            0 => times <= 2,
            3 => self.rounds <= 1 + 2 * levels,
            _ => true,
        }
    }
}

/// A sheet of any size and a table, of an opening and a list, or of neither, stepped in each order.
pub fn run_sequences(c: &mut Comparison) -> Result<(), String> {
    let shape = match c.rng.below(100) {
        0..=39 => Shape::Small,
        40..=74 => Shape::Medium,
        75..=89 => Shape::Deep,
        _ if c.rng.percent(10) => Shape::Vast,
        _ => Shape::Wide,
    };
    let specs = gen::sheet(&mut c.rng, shape);
    let sheet = gen::write_any(&mut c.rng, &specs);
    let items = read_sheet(&sheet).unwrap();
    let (start, office) = match c.rng.percent(25) {
        true => {
            let table = gen::accepted_table(&mut c.rng, &items);
            (Lent { sheet, index: index_of(&items), table }, None)
        }
        false => busy_office(c, sheet, &items, shape)?,
    };
    if let Some(office) = &office {
        arrived(c, &items, &start, &office.fresh)?;
    }
    let one = c.rng.below(ORDERS.len() as u64) as usize;
    let many = [Shape::Wide, Shape::Vast].contains(&shape);
    for which in (0..ORDERS.len()).filter(|&which| !many || which == one) {
        let mut order = Order::new(&mut c.rng, which, items.len());
        let limit = most_steps(&mut c.rng, items.len());
        let (end, _) = take(c, &items, &start, &mut order, limit)?;
        if let Some(office) = &office {
            arrived(c, &items, &end, &office.fresh)?;
        }
    }
    Ok(())
}

/// An opening, a list, and then posts and swaps, so that marks stand. Of a wide sheet all is stored, and much
/// is posted.
fn busy_office<'i>(
    c: &mut Comparison,
    sheet: Vec<u8>,
    items: &'i [Item],
    shape: Shape,
) -> Result<(Lent, Option<Office<'i>>), String> {
    let (index, table) = (vec![0; 4 * items.len()], vec![0; RECORD * items.len()]);
    let (mut lent, numbers) = (Lent { sheet, index, table }, gen::choose_numbers(&mut c.rng));
    let mut office = Some(open(c, items, &mut lent)?);
    for _ in 0..list_length(&mut c.rng, shape).min(40) {
        let call = gen::any_call(&mut c.rng, items, &lent.table, numbers);
        plain_call(c, call, &mut lent, &mut office)?;
    }
    let posts = match shape {
        Shape::Wide => {
            expect("a close", c.act(&Act::Close, &mut lent)?.number, 0)?;
            items.len() as u64 / 8
        }
        Shape::Vast => {
            expect("a close", c.act(&Act::Close, &mut lent)?.number, 0)?;
            4
        }
        _ => c.rng.between(1, 5),
    };
    for _ in 0..posts {
        let held = gen::numbers_of(items, &lent.table);
        match gen::good_swap(&mut c.rng, items, &held).filter(|_| c.rng.percent(20)) {
            Some(swap) => plain_swap(c, swap, &mut lent, &mut office)?,
            None => {
                let post = gen::good_post(&mut c.rng, items, numbers);
                plain_call(c, post, &mut lent, &mut office)?
            }
        };
    }
    Ok((lent, office))
}

/// A ladder: an entry and figures that each sum all items below them, stored by an opening, after a
/// post to the entry.
pub fn ladder(c: &mut Comparison, items: usize) -> Result<Lent, String> {
    let mut specs: Vec<Spec> = vec![entry()];
    specs.extend((1..items as u16).map(|i| sum(0, 0, &(0..i).collect::<Vec<u16>>())));
    let (mut lent, _) = opened(c, write_sheet(&specs), items, true)?;
    expect("a post", c.act(&Act::Give(post(0, 1)), &mut lent)?.number, 0)?;
    Ok(lent)
}

/// From the lowest a ladder takes two steps for a figure, and from the highest 2^n - 1: each change of
/// an item is followed by all the steps of the items above it. In every order it comes to the same end.
pub fn run_ladder(c: &mut Comparison, items: usize) -> Result<(), String> {
    let start = ladder(c, items)?;
    let read = read_sheet(&start.sheet).unwrap();
    let lengths = [Some(2 * items - 1), Some((1 << items) - 1), None, None];
    for (which, right) in lengths.into_iter().enumerate() {
        let mut order = Order::new(&mut c.rng, which, items);
        let (end, taken) = take(c, &read, &start, &mut order, usize::MAX)?;
        expect("steps until no mark is left", taken as u64, right.unwrap_or(taken) as u64)?;
        let fresh = fresh_of(&read, &start.table);
        let all: Vec<usize> = (0..items).collect();
        quiet(c, &end, &values_of(&fresh), &read, &all)?;
        board_and_close(c, &end, &fresh, &read, &all)?;
    }
    Ok(())
}

/// Steps in an order until no mark is left, or so many: what they leave, and how many they are.
pub fn take(
    c: &mut Comparison,
    items: &[Item],
    start: &Lent,
    order: &mut Order,
    limit: usize,
) -> Result<(Lent, usize), String> {
    let (mut lent, mut taken, mut times) = (start.clone(), 0, vec![0; items.len()]);
    while let Some(item) = order.next(&mut c.rng, &lent.table).filter(|_| taken < limit) {
        let step = Act::Give(Call::Step { item: item as u64 });
        expect("a step of a marked item", c.act(&step, &mut lent)?.number, 0)?;
        taken += 1;
        times[item] += 1;
        if !order.within(items, times[item]) {
            return Err(start.dump(&format!("{taken} steps, {}", ORDERS[order.which])));
        }
    }
    let (met, ended) = (&mut c.tally.orders, no_mark(&lent.table));
    met.ended[order.which] += (ended && taken > 0) as u64;
    met.large += (ended && taken > 0 && items.len() > LARGE) as u64;
    met.interrupted[order.which] += !ended as u64;
    met.most = met.most.max(taken as u64);
    met.taken += taken as u64;
    Ok((lent, taken))
}

/// How many steps are followed: sometimes few, or not to the end.
fn most_steps(rng: &mut Rng, items: usize) -> usize {
    match items {
        _ if rng.percent(20) => rng.below(items as u64 + 1).min(100) as usize,
        0..=12 => 400,
        13..=LARGE => 40 + 3 * items,
        1_025.. => 100,
        _ => 20 * items,
    }
}

/// Some readings, or for a small sheet all, are the fresh office's: before steps, and after them.
fn arrived(
    c: &mut Comparison,
    items: &[Item],
    lent: &Lent,
    fresh: &FreshOffice,
) -> Result<(), String> {
    let n = items.len();
    let asked: Vec<usize> = match n {
        0..=12 => (0..n).collect(),
        _ => (0..3).map(|_| c.rng.below(n as u64) as usize).collect(),
    };
    c.tally.judged += asked.len() as u64;
    board_and_close(c, lent, fresh, items, &asked)?;
    match no_mark(&lent.table) {
        true => quiet(c, lent, &values_of(fresh), items, &asked),
        false => asks(c, lent, &values_of(fresh), &asked).map(|_| ()),
    }
}

#[cfg(test)]
mod tests {
    use super::*;
    use crate::gen::plain_chain;

    /// A table of entries and these marks.
    fn marked(marks: &[u8]) -> Vec<u8> {
        marks.iter().flat_map(|&mark| [[1, mark].to_vec(), vec![0; RECORD - 2]].concat()).collect()
    }

    #[test]
    fn each_order_takes_its_item() {
        let mut rng = Rng::new(1);
        let table = marked(&[0, 2, 1, 0, 2, 0]);
        for (which, right) in [(0, &[1][..]), (1, &[4]), (2, &[1, 2, 4]), (3, &[1, 2, 4])] {
            let mut met: Vec<usize> = (0..60)
                .map(|_| Order::new(&mut rng, which, 6).next(&mut rng, &table).unwrap())
                .collect();
            met.sort();
            met.dedup();
            assert_eq!(met, right);
            assert_eq!(Order::new(&mut rng, which, 6).next(&mut rng, &marked(&[0; 6])), None);
        }
    }

    /// A round has each marked item once, in the order of the screen.
    #[test]
    fn rounds_go_over_the_screen() {
        let mut rng = Rng::new(2);
        let table = marked(&[2, 0, 2, 2]);
        let mut order = Order::new(&mut rng, 3, 4);
        order.screen = vec![3, 1, 0, 2];
        for round in 1..=3 {
            for item in [3, 0, 2] {
                assert_eq!(order.next(&mut rng, &table), Some(item));
                assert_eq!(order.rounds, round);
            }
        }
        // Items at levels 0 to 3.
        let items = read_sheet(&plain_chain(3)).unwrap();
        for (which, times, rounds, right) in [
            (0, 2, 1, true),
            (0, 3, 1, false),
            (1, 3, 1, true),
            (2, 3, 1, true),
            (3, 3, 7, true),
            (3, 3, 8, false),
        ] {
            order.rounds = rounds;
            order.which = which;
            assert_eq!(order.within(&items, times), right);
        }
    }
}
