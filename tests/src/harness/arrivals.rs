//! Where steps arrive. On a table since an opening every reading is the fresh office's, however many
//! steps were taken and in whatever order; where no mark is left, nothing but look-ups is done.

use super::closes::{fresh_of, table_of};
use super::compare::{Act, Lent};
use super::fixed::expect;
use super::orders::{Acts, Explored};
use super::swaps::fresh_swap;
use crate::model::board::Board;
use crate::model::calls::Call;
use crate::model::field::i64_at;
use crate::model::fresh::FreshOffice;
use crate::model::sheet::{read_sheet, Item};
use crate::model::swap::Swap;
use crate::model::table::{from_pair, no_mark, to_pair, OWED, RECORD};
use std::collections::HashSet;

/// Kind and number of each item.
pub type Solution = Vec<(u8, i64)>;

/// What a fresh office gives for each item.
pub fn values_of(fresh: &FreshOffice) -> Solution {
    fresh.all().into_iter().map(to_pair).collect()
}

/// Asks for these items, each on a copy, give these values and leave no mark. What they leave.
pub fn asks(
    acts: &mut dyn Acts,
    lent: &Lent,
    values: &Solution,
    asked: &[usize],
) -> Result<Vec<Vec<u8>>, String> {
    let mut left = Vec::new();
    for &item in asked {
        let mut after = lent.clone();
        let reply = acts.act(&Act::Give(Call::Ask { item: item as u64 }), &mut after)?;
        let given = (reply.number, (reply.kind as u8, reply.value));
        if given != (0, values[item]) || !no_mark(&after.table) {
            let right = values[item];
            let title = format!("asked for {item}: {reply:?}, by the fresh office {right:?}");
            return Err(lent.dump(&title) + &after.dump("after"));
        }
        left.push(after.table);
    }
    Ok(left)
}

/// A board of these items on a copy, and a close of another, give the same. What they leave.
pub fn board_and_close(
    acts: &mut dyn Acts,
    lent: &Lent,
    fresh: &FreshOffice,
    items: &[Item],
    asked: &[usize],
) -> Result<Vec<Vec<u8>>, String> {
    let (values, mut boarded, mut closed) = (values_of(fresh), lent.clone(), lent.clone());
    let list = asked.iter().flat_map(|&item| (item as u16).to_le_bytes()).collect();
    let mut board = Board { items: list, results: vec![7; 9 * asked.len()] };
    expect("a board", acts.board(&mut board, &mut boarded)?.number, 0)?;
    let result = |&item: &usize| {
        let (kind, number) = values[item];
        [vec![kind], number.to_le_bytes().to_vec()].concat()
    };
    expect("a close", acts.act(&Act::Close, &mut closed)?.number, 0)?;
    let right = asked.iter().flat_map(result).collect::<Vec<u8>>();
    match board.results == right && closed.table == table_of(items, fresh) {
        true => Ok(vec![boarded.table, closed.table]),
        false => Err(lent.dump("a board or a close does not give what the fresh office gives")),
    }
}

/// Whether a look-up alone can have left this: UNK figures with keep 1, and one that is kept, are
/// stored, with their value and no mark, and all else is as it was.
fn only_filled(
    items: &[Item],
    values: &Solution,
    before: &[u8],
    after: &[u8],
    kept: Option<usize>,
) -> bool {
    let records = before.chunks(RECORD).zip(after.chunks(RECORD)).enumerate();
    records.into_iter().all(|(i, (old, new))| {
        let keep = items[i].figure.as_ref().is_some_and(|figure| figure.keep);
        let right = new[1] == 0 && stored(after, i) == values[i];
        match kept == Some(i) {
            true => right,
            false => old[..OWED] == new[..OWED] || old[0] == 0 && keep && right,
        }
    })
}

/// Kind and number of an item.
fn stored(table: &[u8], item: usize) -> (u8, i64) {
    (table[RECORD * item], i64_at(table, RECORD * item + 2))
}

/// Where no mark stands, what is stored is right. An ask for one of these items steps nothing, and a
/// keep of one stores its value without a mark.
pub fn quiet(
    acts: &mut dyn Acts,
    lent: &Lent,
    values: &Solution,
    items: &[Item],
    asked: &[usize],
) -> Result<(), String> {
    let wrong = |&i: &usize| lent.table[RECORD * i] != 0 && stored(&lent.table, i) != values[i];
    if let Some(i) = (0..items.len()).find(wrong) {
        return Err(lent.dump(&format!("no mark stands, and item {i} is not {:?}", values[i])));
    }
    let left = asks(acts, lent, values, asked)?;
    for (table, item) in left.iter().zip(asked) {
        if !only_filled(items, values, &lent.table, table, None) {
            return Err(lent.dump(&format!("no mark stands, and an ask for {item} steps")));
        }
    }
    for &item in asked.iter().filter(|&&i| items[i].figure.is_some()) {
        let mut after = lent.clone();
        let number = acts.act(&Act::Give(Call::Keep { item: item as u64 }), &mut after)?.number;
        expect("a keep", number, 0)?;
        if !only_filled(items, values, &lent.table, &after.table, Some(item)) {
            return Err(lent.dump(&format!("no mark stands, and a keep of {item} is wrong")));
        }
    }
    Ok(())
}

/// A small sheet, and every table that calls since its openings leave, with these values posted.
pub struct Since<'v> {
    items: Vec<Item>,
    posted: &'v [(u8, i64)],
    pub explored: Explored,
    pub met: HashSet<Vec<u8>>,
}

impl<'v> Since<'v> {
    /// Goes on from each table with each call, until there is none that was not met. In each every
    /// reading is right, and from each all sequences of steps are followed.
    pub fn explore(
        acts: &mut dyn Acts,
        sheet: &[u8],
        posted: &'v [(u8, i64)],
    ) -> Result<Self, String> {
        let (items, explored) = (read_sheet(sheet).unwrap(), Explored::new(sheet));
        let mut since = Since { items, posted, explored, met: HashSet::new() };
        let mut rest = since.openings(acts)?;
        while let Some(table) = rest.pop() {
            if !since.met.contains(&table) {
                since.explored.longest(acts, &table, 0)?;
                rest.extend(since.stepped(&table)?);
                rest.extend(since.go_on(acts, &since.explored.lent(&table))?);
                since.met.insert(table);
            }
        }
        Ok(since)
    }

    fn openings(&self, acts: &mut dyn Acts) -> Result<Vec<Vec<u8>>, String> {
        let mut opened = Vec::new();
        for full in [false, true] {
            let mut lent = self.explored.lent(&vec![9; RECORD * self.items.len()]);
            expect("an opening", acts.act(&Act::Open { full }, &mut lent)?.number, 0)?;
            opened.push(lent.table);
        }
        Ok(opened)
    }

    fn fresh(&self, table: &[u8]) -> FreshOffice<'_> {
        fresh_of(&self.items, table)
    }

    /// What the steps from a table leave: all have its entries.
    fn stepped(&self, table: &[u8]) -> Result<Vec<Vec<u8>>, String> {
        let next = self.explored.next(table);
        match next.iter().all(|left| self.fresh(left).all() == self.fresh(table).all()) {
            true => Ok(next.to_vec()),
            false => Err(self.explored.lent(table).dump("a step leaves other entries")),
        }
    }

    /// What every call but a step leaves; those that read must give what the fresh office gives.
    fn go_on(&self, acts: &mut dyn Acts, lent: &Lent) -> Result<Vec<Vec<u8>>, String> {
        let fresh = self.fresh(&lent.table);
        let (values, all) = (values_of(&fresh), (0..self.items.len()).collect::<Vec<usize>>());
        let mut left = asks(acts, lent, &values, &all)?;
        left.extend(board_and_close(acts, lent, &fresh, &self.items, &all)?);
        if no_mark(&lent.table) {
            quiet(acts, lent, &values, &self.items, &all)?;
        }
        for call in self.calls() {
            let (mut after, mut fresh) = (lent.clone(), self.fresh(&lent.table));
            expect("a call", acts.act(&Act::Give(call), &mut after)?.number, 0)?;
            fresh.feed(&call);
            if fresh.all() != self.fresh(&after.table).all() {
                return Err(lent.dump(&format!("{call:?} leaves other entries")));
            }
            left.push(after.table);
        }
        for swap in self.exchanges(&lent.table) {
            left.push(self.exchanged(acts, lent, &swap)?);
        }
        Ok(left)
    }

    /// What a swap leaves: the entries by its postings, which follow from those before.
    fn exchanged(&self, acts: &mut dyn Acts, lent: &Lent, swap: &Swap) -> Result<Vec<u8>, String> {
        let (mut after, mut fresh) = (lent.clone(), self.fresh(&lent.table));
        expect("a swap", acts.act(&Act::Swap(*swap), &mut after)?.number, 0)?;
        for (entry, (kind, number)) in fresh_swap(&self.items, &fresh, swap).1 {
            fresh.posting(entry as usize, from_pair(kind as u64, number).unwrap());
        }
        match fresh.all() == self.fresh(&after.table).all() {
            true => Ok(after.table),
            false => Err(lent.dump(&format!("{swap:?} leaves other entries"))),
        }
    }

    /// The swaps by which two entries exchange their numbers, so that no others come.
    fn exchanges(&self, table: &[u8]) -> Vec<Swap> {
        let entry = |i: usize| self.items[i].figure.is_none() && table[RECORD * i] == 3;
        let entries: Vec<usize> = (0..self.items.len()).filter(|&i| entry(i)).collect();
        let number = |i: usize| stored(table, i).1;
        let exchange = |giver: usize, taker: usize| Swap {
            giver: giver as u64,
            taker: taker as u64,
            quantity: number(giver) - number(taker),
        };
        let pairs = entries.iter().flat_map(|&giver| entries.iter().map(move |&t| (giver, t)));
        let pairs = pairs.filter(|&(giver, taker)| number(giver) > number(taker));
        pairs.map(|(giver, taker)| exchange(giver, taker)).collect()
    }

    /// Each post of one of the values, and each keep and drop.
    fn calls(&self) -> Vec<Call> {
        let post =
            |item, &(kind, number): &(u8, i64)| Call::Post { item, kind: kind as u64, number };
        let mut calls = Vec::new();
        for (item, read) in (0..).zip(&self.items) {
            match read.figure {
                Some(_) => calls.extend([Call::Keep { item }, Call::Drop { item }]),
                None => calls.extend(self.posted.iter().map(|value| post(item, value))),
            }
        }
        calls
    }
}

#[cfg(test)]
mod tests {
    use super::*;
    use crate::harness::compare::Comparison;
    use crate::harness::fixed::{opened, post};
    use crate::mock::{Mock, Wrong};
    use crate::model::sheet::EXAMPLE;
    use crate::rng::Rng;

    /// Readings that are not the fresh office's are found, each by its way.
    #[test]
    fn other_readings_are_found() {
        let mut mock = Mock(Wrong::Nothing);
        let mut c = Comparison::new(&mut mock, Rng::new(1));
        let items = read_sheet(&EXAMPLE).unwrap();
        let (mut lent, _) = opened(&mut c, EXAMPLE.to_vec(), 5, true).unwrap();
        for act in [Act::Give(post(0, 7)), Act::Give(Call::Ask { item: 0 })] {
            c.act(&act, &mut lent).unwrap();
        }
        let (right, mut wrong) = (fresh_of(&items, &lent.table), fresh_of(&items, &lent.table));
        wrong.feed(&post(0, 8));
        for (fresh, same) in [(right, true), (wrong, false)] {
            let values = values_of(&fresh);
            for item in [0, 3, 4] {
                assert_eq!(asks(&mut c, &lent, &values, &[item]).is_ok(), same);
            }
            assert!(asks(&mut c, &lent, &values, &[1]).is_ok());
            assert_eq!(board_and_close(&mut c, &lent, &fresh, &items, &[0, 3]).is_ok(), same);
            assert_eq!(board_and_close(&mut c, &lent, &fresh, &items, &[]).is_ok(), same);
            assert_eq!(quiet(&mut c, &lent, &values, &items, &[]).is_ok(), same);
        }
    }

    /// A look-up fills UNK figures with keep 1, or the one that is kept, and changes nothing else.
    #[test]
    fn what_look_ups_leave() {
        let items = read_sheet(&EXAMPLE).unwrap();
        let record = |kind, mark| [vec![kind, mark], vec![0; RECORD - 2]].concat();
        let table = |t: (u8, u8), b: (u8, u8)| {
            [record(1, 0).repeat(3), record(t.0, t.1), record(b.0, b.1)].concat()
        };
        let (values, unk, null) = (vec![(1, 0); 5], (0, 0), (1, 0));
        // Figure 3 has keep 1, and figure 4 has not.
        for (before, after, kept, right) in [
            ((unk, unk), (unk, unk), None, true),
            ((unk, unk), (null, unk), None, true),
            ((unk, unk), (unk, null), None, false),
            ((unk, unk), (unk, null), Some(4), true),
            ((unk, unk), (null, null), Some(4), true),
            ((unk, unk), (null, unk), Some(4), false),
            ((unk, unk), ((1, 2), unk), None, false),
            ((unk, unk), (unk, (1, 2)), Some(4), false),
            ((unk, unk), ((2, 0), unk), None, false),
            ((null, unk), (unk, unk), None, false),
            ((null, null), (null, null), Some(3), true),
        ] {
            let (before, after) = (table(before.0, before.1), table(after.0, after.1));
            assert_eq!(only_filled(&items, &values, &before, &after, kept), right);
        }
    }
}
