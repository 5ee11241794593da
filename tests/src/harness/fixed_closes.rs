//! Closes that are the same in every run: every form of the example's table, the tests in their
//! order, the limits from both sides, and lists that go on from a close.

use super::closes::{as_asks, as_keeps, once_more};
use super::compare::{Act, Comparison, Lent};
use super::days::refused_sheets;
use super::fixed::{
    busy_example, expect, longest_sheet, opened, pair_of, post, Given, EDITIONS, OUT,
};
use crate::gen::{make_owed_true, spec_figure, write_sheet, Spec};
use crate::model::calls::Call;
use crate::model::field::i64_at;
use crate::model::sheet::{read_sheet, EXAMPLE, MAX_LEVEL};
use crate::model::table::{OWED, RECORD};
use crate::model::value::LIMIT;

pub fn run_fixed_closes(c: &mut Comparison) -> Result<(), String> {
    every_form(c)?;
    order_of_tests(c)?;
    between_calls(c)?;
    towers(c)?;
    item_counts(c)?;
    limits(c)
}

/// A close on the bytes, which are kept, and the number that the paper gives it.
fn given(c: &mut Comparison, lent: &Lent, right: u64) -> Result<(), String> {
    expect("a close", c.act(&Act::Close, &mut lent.clone())?.number, right)
}

/// What an item must hold after a close of the bytes, which are kept.
pub fn closes_to(c: &mut Comparison, lent: &Lent, item: u64, right: Given) -> Result<(), String> {
    let mut closed = lent.clone();
    expect("a close", c.act(&Act::Close, &mut closed)?.number, 0)?;
    let record = &closed.table[RECORD * item as usize..][..RECORD];
    match (record[1], (record[0] as u64, i64_at(record, 2))) == (0, pair_of(right)) {
        true => Ok(()),
        false => Err(format!("a close leaves item {item} as {record:?}")),
    }
}

/// A close of a table that calls have written since its opening, held against asks and keeps.
fn closed(c: &mut Comparison, lent: &mut Lent) -> Result<(), String> {
    let before = lent.clone();
    expect("a close", c.act(&Act::Close, lent)?.number, 0)?;
    as_asks(c, &before, lent)?;
    as_keeps(c, &before, lent)?;
    once_more(c, lent)
}

/// The example with each kind and mark of each record, in every combination, and with an owed byte
/// that is false: each of them in turn, each time another byte.
fn every_form(c: &mut Comparison) -> Result<(), String> {
    let busy = busy_example(c)?;
    let marks = |kind, from: &[u8]| from.iter().map(|&mark| (kind, mark)).collect::<Vec<_>>();
    let entry = [marks(1, &[0, 2]), marks(3, &[0, 2])].concat();
    let stored = [1, 2, 3].map(|kind| marks(kind, &[0, 1, 2])).concat();
    let figure = [marks(0, &[0, 2]), stored].concat();
    let forms = [&entry, &entry, &entry, &figure, &figure];
    let items = read_sheet(&EXAMPLE).unwrap();
    for turn in 0..forms.iter().map(|f| f.len()).product() {
        let (mut lent, mut rest) = (Lent { table: vec![], ..busy.clone() }, turn);
        for (form, number) in forms.iter().zip([1_000i64, -300, 7, 1_300, 5]) {
            let (kind, mark) = form[rest % form.len()];
            rest /= form.len();
            lent.table.extend([kind, mark]);
            lent.table.extend(if kind == 3 { number } else { 0 }.to_le_bytes());
            lent.table.push(0);
        }
        make_owed_true(&items, &mut lent.table);
        given(c, &lent, 0)?;
        let byte = &mut lent.table[turn % 5 * RECORD + OWED];
        *byte = byte.wrapping_add(1 + (turn / 5 % 255) as u8);
        given(c, &lent, 10)?;
    }
    Ok(())
}

/// Each refusal alone, and together with those tested after it.
fn order_of_tests(c: &mut Comparison) -> Result<(), String> {
    let busy = busy_example(c)?;
    given(c, &busy, 0)?;
    // Each record is tested, also that of a figure, which would be worked out anew.
    for at in (0..busy.table.len()).step_by(RECORD) {
        let mut lent = busy.clone();
        lent.table[at] = 4;
        given(c, &lent, 10)?;
    }
    let (mut index, mut table) = (busy.index.clone(), busy.table.clone());
    (index[19], table[53]) = (1, 1);
    given(c, &Lent { table: table.clone(), ..busy.clone() }, 10)?;
    given(c, &Lent { index: index.clone(), ..busy.clone() }, 9)?;
    let both = Lent { index, table, ..busy.clone() };
    given(c, &both, 9)?;
    for (index, table) in [(20, 56), (20, 54), (20, 50), (21, 55), (19, 55), (0, 0)] {
        for mut lent in [busy.clone(), both.clone()] {
            lent.index.resize(index, 0);
            lent.table.resize(table, 0);
            given(c, &lent, 8)?;
            for (sheet, right) in refused_sheets().into_iter().zip(1..) {
                given(c, &Lent { sheet, ..lent.clone() }, right)?;
            }
        }
    }
    for (sheet, right) in refused_sheets().into_iter().zip(1..) {
        given(c, &Lent { sheet: sheet.clone(), ..busy.clone() }, right)?;
        given(c, &Lent { sheet, ..both.clone() }, right)?;
    }
    Ok(())
}

/// A close after each call of a list, from both openings: with copies, and then going on from it.
fn between_calls(c: &mut Comparison) -> Result<(), String> {
    let calls = [
        post(0, 1_000),
        Call::Ask { item: 4 },
        post(1, 300),
        Call::Keep { item: 4 },
        post(2, -200),
        Call::Step { item: 2 },
        Call::Drop { item: 3 },
        post(0, 1_000),
        Call::Post { item: 0, kind: 1, number: 0 },
        Call::Drop { item: 4 },
        post(0, LIMIT),
        post(2, 1),
        post(2, 0),
    ];
    for turn in 0..4 {
        let (full, goes_on) = (turn % 2 == 1, turn >= 2);
        let (mut lent, _) = opened(c, EXAMPLE.to_vec(), 5, full)?;
        closed(c, &mut lent.clone())?;
        for call in calls {
            c.act(&Act::Give(call), &mut lent)?;
            let mut after = lent.clone();
            closed(c, &mut after)?;
            if goes_on {
                lent = after;
            }
        }
    }
    Ok(())
}

/// All levels above one entry: a chain, and a tower of sixteenfold parents, which are counted.
fn towers(c: &mut Comparison) -> Result<(), String> {
    let top = MAX_LEVEL as u64;
    for (keep, spread) in [(0, 0), (0, 1), (1, 2)] {
        let tower = |rule: u8, times: usize| {
            let mut specs = vec![Spec::Entry(b"A".to_vec())];
            let figure = |p: u16| spec_figure(rule, keep, spread, &vec![p; times]);
            specs.extend((0..MAX_LEVEL as u16).map(figure));
            write_sheet(&specs)
        };
        for (sheet, right) in [(tower(1, 1), LIMIT), (tower(7, 16), 16)] {
            let (mut lent, _) = opened(c, sheet, MAX_LEVEL + 1, spread == 1)?;
            closes_to(c, &lent, top, None)?;
            for call in [post(0, 1), Call::Keep { item: 40 }, post(0, LIMIT)] {
                c.act(&Act::Give(call), &mut lent)?;
            }
            closes_to(c, &lent, top, Some(right))?;
            closed(c, &mut lent)?;
        }
    }
    Ok(())
}

/// One item; then the most of each edition, each as long as it can be, and one more.
fn item_counts(c: &mut Comparison) -> Result<(), String> {
    let (mut lent, _) = opened(c, write_sheet(&[Spec::Entry(b"A".to_vec())]), 1, false)?;
    closed(c, &mut lent)?;
    c.act(&Act::Give(post(0, -LIMIT)), &mut lent)?;
    closes_to(c, &lent, 0, Some(-LIMIT))?;
    closed(c, &mut lent)?;
    let counts = EDITIONS.iter().flat_map(|&(e, most)| [(e, most, 0), (e, most + 1, 4)]);
    for (edition, count, right) in counts {
        let openings: &[bool] = if edition == 1 { &[false, true] } else { &[true] };
        for &full in openings {
            let (mut lent, number) = opened(c, longest_sheet(edition, count), count, full)?;
            given(c, &lent, right)?;
            if number == 0 {
                c.act(&Act::Give(post(0, 5)), &mut lent)?;
                closes_to(c, &lent, count as u64 - 1, Some(5))?;
            }
        }
    }
    Ok(())
}

/// The range from both sides, in entries, in figures that are stored, and in what is worked out.
fn limits(c: &mut Comparison) -> Result<(), String> {
    for (limit, beyond) in [(LIMIT, LIMIT + 1), (-LIMIT, -LIMIT - 1)] {
        let one = limit.signum();
        for (second, right) in [(0, Some(limit)), (one, OUT), (-one, Some(limit - one))] {
            let (mut lent, _) = opened(c, EXAMPLE.to_vec(), 5, false)?;
            for call in [post(0, limit), post(2, second)] {
                c.act(&Act::Give(call), &mut lent)?;
            }
            closes_to(c, &lent, 3, right)?;
            closes_to(c, &lent, 4, right)?;
            closed(c, &mut lent)?;
        }
        for item in [0, 3] {
            for (number, right) in [(limit, 0), (beyond, 10)] {
                let (mut lent, at) = (busy_example(c)?, RECORD * item);
                lent.table[at] = 3;
                lent.table[at + 2..at + OWED].copy_from_slice(&number.to_le_bytes());
                given(c, &lent, right)?;
            }
        }
    }
    Ok(())
}

#[cfg(test)]
mod tests {
    use super::*;
    use crate::mock::{Mock, Wrong};
    use crate::rng::Rng;

    fn try_closes(wrong: Wrong) -> Result<(), String> {
        run_fixed_closes(&mut Comparison::new(&mut Mock(wrong), Rng::new(1)))
    }

    /// Each wrong close is found by these alone, and in a close.
    #[test]
    fn wrong_closes_are_found() {
        try_closes(Wrong::Nothing).unwrap();
        assert_eq!(Wrong::closes().count(), 30);
        for wrong in Wrong::closes() {
            let found = try_closes(wrong).err().unwrap_or_default();
            assert!(found.starts_with("Close\n"), "{wrong:?} was not found: {found}");
        }
    }
}
