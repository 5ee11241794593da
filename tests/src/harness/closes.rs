//! Season-close runs: each held against a fresh office that was posted the entries of the table,
//! some against asks and against steps and keeps, and those of an opened table against the fresh
//! office of the list.

use super::compare::{Act, Comparison, Lent};
use super::fixed::expect;
use super::lists::{plain_call, Office};
use super::tally::Tally;
use crate::gen::{self, Shape};
use crate::model::calls::{Call, Reply};
use crate::model::field::i64_at;
use crate::model::fresh::FreshOffice;
use crate::model::sheet::{index_of, read_sheet, Item};
use crate::model::table::{record, Cell, Mark, RECORD};

/// A fresh office that was posted the entries of a table. A post to a figure changes nothing.
pub fn fresh_of<'i>(items: &'i [Item], table: &[u8]) -> FreshOffice<'i> {
    let mut fresh = FreshOffice::new(items);
    for (item, record) in (0..).zip(table.chunks(RECORD)) {
        fresh.feed(&Call::Post { item, kind: record[0] as u64, number: i64_at(record, 2) });
    }
    fresh
}

/// The table in which each item holds what the fresh office gives, no mark stands, and an item is
/// owed if it has a child.
pub fn table_of(items: &[Item], fresh: &FreshOffice) -> Vec<u8> {
    let mut has_child = vec![false; items.len()];
    let figures = items.iter().filter_map(|item| item.figure.as_ref());
    figures.flat_map(|figure| &figure.parents).for_each(|&parent| has_child[parent] = true);
    let closed = |value| Cell { stored: Some(value), mark: Mark::None };
    let records = fresh.all().into_iter().zip(has_child);
    records.flat_map(|(value, owed)| record(&closed(value), owed)).collect()
}

/// An accepted run leaves what the fresh office gives under the entries of the table before.
pub fn solves(tally: &mut Tally, before: &Lent, after: &Lent) -> Result<(), String> {
    let items = read_sheet(&before.sheet).unwrap();
    tally.count_close(&items, &before.table, &after.table);
    let right = table_of(&items, &fresh_of(&items, &before.table));
    let right = Lent { table: right, ..before.clone() };
    match *after == right {
        true => Ok(()),
        false => Err(format!("a close leaves no solution\n{}{}", before.dump(""), after.dump(""))),
    }
}

/// A run with the lent bytes as they are, judged by what is known of the list.
pub fn plain_close(
    c: &mut Comparison,
    lent: &mut Lent,
    office: &mut Option<Office>,
) -> Result<(), String> {
    let before = lent.clone();
    expect("a close", c.act(&Act::Close, lent)?.number, 0)?;
    if c.rng.percent(30) {
        once_more(c, lent)?;
    }
    let Some(office) = office else { return Ok(()) };
    office.judge_close(c, &before.table, &lent.table)?;
    // Few of the large ones, for the time that these calls take.
    let often = match office.items.len() {
        0..=12 => 25,
        13..=100 => 5,
        101..=1_024 => 1,
        _ => 0,
    };
    if c.rng.percent(often) {
        as_asks(c, &before, lent)?;
        as_keeps(c, &before, lent)?;
    }
    Ok(())
}

/// A second run changes nothing.
pub fn once_more(c: &mut Comparison, closed: &Lent) -> Result<(), String> {
    let mut again = closed.clone();
    expect("a second close", c.act(&Act::Close, &mut again)?.number, 0)?;
    match again == *closed {
        true => Ok(()),
        false => Err("a second close changes the table".to_string()),
    }
}

/// Each item holds what an ask gives on a copy of the table before, and on one of the table after,
/// which the ask leaves as it is.
pub fn as_asks(c: &mut Comparison, before: &Lent, after: &Lent) -> Result<(), String> {
    c.tally.closes_as_asks += 1;
    for (item, record) in (0..).zip(after.table.chunks(RECORD)) {
        let ask = Act::Give(Call::Ask { item });
        let mut later = after.clone();
        let replies = [c.act(&ask, &mut before.clone())?, c.act(&ask, &mut later)?];
        let (kind, value) = (record[0] as u64, i64_at(record, 2));
        let right = Reply { number: 0, offset: 0, kind, value };
        if replies != [right; 2] || later != *after {
            return Err(format!("item {item} of a close is {right:?}, by asks {replies:?}"));
        }
    }
    Ok(())
}

/// On the table before, steps of the lowest marked item until none is marked, then keeps of the
/// figures, lowest first, leave the same.
pub fn as_keeps(c: &mut Comparison, before: &Lent, after: &Lent) -> Result<(), String> {
    c.tally.closes_as_keeps += 1;
    let mut lent = before.clone();
    while let Some(item) = lent.table.chunks(RECORD).position(|record| record[1] != 0) {
        c.act(&Act::Give(Call::Step { item: item as u64 }), &mut lent)?;
    }
    for (item, read) in (0..).zip(read_sheet(&before.sheet).unwrap()) {
        if read.figure.is_some() {
            c.act(&Act::Give(Call::Keep { item }), &mut lent)?;
        }
    }
    match lent == *after {
        true => Ok(()),
        false => Err(format!("a close is not steps and keeps: {}", lent.dump("these leave"))),
    }
}

/// A run that is refused for one byte: of the sheet, of the table's length, of index or table.
pub fn refused_close(c: &mut Comparison, lent: &Lent) -> Result<(), String> {
    let mut wrong = lent.clone();
    let right = match c.rng.below(4) {
        0 => {
            wrong.sheet.pop();
            1
        }
        1 => {
            wrong.table.push(0);
            8
        }
        2 => {
            wrong.index[0] ^= 1;
            9
        }
        _ => {
            wrong.table[1] = 3;
            10
        }
    };
    let before = wrong.clone();
    expect("a close", c.act(&Act::Close, &mut wrong)?.number, right)?;
    match wrong == before {
        true => Ok(()),
        false => Err("a refused close changes what it is lent".to_string()),
    }
}

/// A run at both offices leaves the same table, and the fresh office's.
pub fn same_closes(
    c: &mut Comparison,
    one: &(Lent, Office),
    two: &(Lent, Office),
) -> Result<(), String> {
    let (mut first, mut second) = (one.0.clone(), two.0.clone());
    c.act(&Act::Close, &mut first)?;
    c.act(&Act::Close, &mut second)?;
    let items = one.1.items;
    let right = table_of(items, &one.1.fresh);
    c.tally.judged += 2 * items.len() as u64;
    match [&first.table, &second.table, &table_of(items, &two.1.fresh)] == [&right; 3] {
        true => Ok(()),
        false => Err(format!("closed offices differ\n{}{}", first.dump(""), second.dump(""))),
    }
}

/// A run on any accepted table of any sheet, and a list that goes on from what it leaves.
pub fn run_closes(c: &mut Comparison) -> Result<(), String> {
    let (shape, numbers) = (gen::shape(&mut c.rng), gen::choose_numbers(&mut c.rng));
    let specs = gen::sheet(&mut c.rng, shape);
    let sheet = gen::write_any(&mut c.rng, &specs);
    let items = read_sheet(&sheet).unwrap();
    let table = gen::accepted_table(&mut c.rng, &items);
    let mut lent = Lent { sheet, index: index_of(&items), table };
    c.tally.closed_tables += 1;
    plain_close(c, &mut lent, &mut None)?;
    let mut office = Some(Office::of_table(&items, &lent.table));
    for _ in 0..c.rng.below(if shape == Shape::Vast { 3 } else { 8 }) {
        let call = gen::any_call(&mut c.rng, &items, &lent.table, numbers);
        plain_call(c, call, &mut lent, &mut office)?;
    }
    plain_close(c, &mut lent, &mut office)
}
