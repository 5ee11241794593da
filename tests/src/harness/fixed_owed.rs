//! Owed bytes that are the same in every run: tables of each length beside the right one, false
//! bytes of each item, and lists of which the owed bytes and marks are spelled out after each call.

use super::compare::{Act, Comparison, Lent};
use super::fixed::{acts, busy_example, expect, opened, post, reads, EDITIONS};
use crate::gen::{make_owed_true, plain_chain, spec_figure, write_edition, write_sheet, Spec};
use crate::model::board::Board;
use crate::model::calls::Call;
use crate::model::sheet::{read_sheet, EXAMPLE, MAX_LEVEL};
use crate::model::table::{OWED, RECORD};

pub fn run_fixed_owed(c: &mut Comparison) -> Result<(), String> {
    lengths(c)?;
    false_bytes(c)?;
    every_pattern(c)?;
    order_of_tests(c)?;
    openings(c)?;
    two_children(c)?;
    deferring(c)?;
    looking_up(c)?;
    fan(c)?;
    chain(c)
}

pub fn entry() -> Spec {
    Spec::Entry(b"A".to_vec())
}

/// Tables of 10n, 11n - 1, 11n, 11n + 1 and 12n bytes, for one item, five and the most of each edition.
fn lengths(c: &mut Comparison) -> Result<(), String> {
    let most = EDITIONS.map(|(edition, n)| (write_edition(edition, &vec![entry(); n]), n));
    for (sheet, n) in [(write_sheet(&[entry()]), 1), (EXAMPLE.to_vec(), 5)].into_iter().chain(most)
    {
        let (lent, number) = opened(c, sheet, n, true)?;
        expect("an opening", number, 0)?;
        let calls = [posted(0, 5), ask(0), board(0), Act::Close];
        let openings = [Act::Open { full: false }, Act::Open { full: true }];
        for length in [10 * n, 11 * n - 1, 11 * n, 11 * n + 1, 12 * n] {
            for act in calls.iter().chain(&openings) {
                let mut lent = lent.clone();
                lent.table.resize(length, 0);
                let right = if length == 11 * n { 0 } else { 8 };
                expect("a table's length", c.act(act, &mut lent)?.number, right)?;
            }
        }
    }
    Ok(())
}

/// Each owed byte of the example as each value, with every act: with both figures stored, with none,
/// and with the second alone, when the first is UNK and owed.
fn false_bytes(c: &mut Comparison) -> Result<(), String> {
    let busy = busy_example(c)?;
    let (items, acts) = (read_sheet(&EXAMPLE).unwrap(), acts());
    for kinds in [[3, 3], [0, 0], [0, 3]] {
        let mut lent = busy.clone();
        for (at, kind) in [3 * RECORD, 4 * RECORD].into_iter().zip(kinds) {
            lent.table[at..at + RECORD].fill(0);
            lent.table[at] = kind;
        }
        make_owed_true(&items, &mut lent.table);
        for at in (OWED..lent.table.len()).step_by(RECORD) {
            for byte in 0..=255 {
                let mut changed = lent.clone();
                changed.table[at] = byte;
                let act = &acts[(at / RECORD + byte as usize) % acts.len()];
                let number = c.act(act, &mut changed)?.number;
                let right = if byte == lent.table[at] { 0 } else { 10 };
                expect("an owed byte", number, right)?;
            }
        }
    }
    Ok(())
}

/// Every pattern of owed bytes 0 and 1 for each pattern of stored figures of the example, with every
/// act: one pattern is true.
fn every_pattern(c: &mut Comparison) -> Result<(), String> {
    let busy = busy_example(c)?;
    for (kinds, right) in [([1, 1], 15), ([1, 0], 5), ([0, 1], 15), ([0, 0], 0)] {
        for pattern in 0..32 {
            let mut lent = busy.clone();
            for (at, kind) in [3 * RECORD, 4 * RECORD].into_iter().zip(kinds) {
                lent.table[at..at + RECORD].fill(0);
                lent.table[at] = kind;
            }
            for (item, record) in lent.table.chunks_mut(RECORD).enumerate() {
                record[OWED] = pattern >> item & 1;
            }
            for act in acts() {
                let number = c.act(&act, &mut lent.clone())?.number;
                expect("owed bytes", number, if pattern == right { 0 } else { 10 })?;
            }
        }
    }
    Ok(())
}

/// A false owed byte with what is tested before it, beside it and after it.
fn order_of_tests(c: &mut Comparison) -> Result<(), String> {
    let mut lent = busy_example(c)?;
    lent.table[OWED] = 0;
    let given = |c: &mut Comparison, lent: &Lent, right| -> Result<(), String> {
        let beyond = Act::Board(Board { items: vec![9, 0], results: vec![] });
        for act in [step(9), Act::Close, beyond] {
            expect("a false owed byte", c.act(&act, &mut lent.clone())?.number, right)?;
        }
        Ok(())
    };
    given(c, &lent, 10)?;
    let mut broken = lent.clone();
    broken.table[4 * RECORD + 1] = 1;
    given(c, &broken, 10)?;
    lent.index[0] = 0;
    given(c, &lent, 9)?;
    lent.index.push(0);
    given(c, &lent, 8)?;
    lent.sheet[11] = 5;
    given(c, &lent, 2)
}

fn openings(c: &mut Comparison) -> Result<(), String> {
    for (full, right) in [(false, "00000"), (true, "11110")] {
        let (lent, _) = opened(c, EXAMPLE.to_vec(), 5, full)?;
        shown(&lent, right, "-----")?;
    }
    Ok(())
}

/// The owed bytes of a table, and its marks: `-`, `r` or `n`.
fn shown(lent: &Lent, owed: &str, marks: &str) -> Result<(), String> {
    let text = |at: usize, signs: &[u8; 3]| -> String {
        lent.table.chunks(RECORD).map(|record| signs[record[at] as usize % 3] as char).collect()
    };
    let given = (text(OWED, b"01?"), text(1, b"-rn"));
    match given == (owed.to_string(), marks.to_string()) {
        true => Ok(()),
        false => Err(format!("owed and marks are {given:?}, not {:?}", (owed, marks))),
    }
}

/// A call of a list, with the owed bytes and the marks that it leaves.
pub type Shown = (Act, &'static str, &'static str);

/// A list from a bare opening.
pub fn list(c: &mut Comparison, specs: &[Spec], calls: &[Shown]) -> Result<(), String> {
    let (mut lent, _) = opened(c, write_sheet(specs), specs.len(), false)?;
    for (act, owed, marks) in calls {
        expect("a call of a list", c.act(act, &mut lent)?.number, 0)?;
        shown(&lent, owed, marks).map_err(|e| format!("after {act:?}: {e}\n{calls:?}"))?;
    }
    Ok(())
}

pub fn posted(item: u64, number: i64) -> Act {
    Act::Give(post(item, number))
}

pub fn keep(item: u64) -> Act {
    Act::Give(Call::Keep { item })
}

pub fn drop(item: u64) -> Act {
    Act::Give(Call::Drop { item })
}

pub fn step(item: u64) -> Act {
    Act::Give(Call::Step { item })
}

pub fn ask(item: u64) -> Act {
    Act::Give(Call::Ask { item })
}

pub fn board(item: u8) -> Act {
    Act::Board(Board { items: vec![item, 0], results: vec![0; 9] })
}

pub fn sum(keep: u8, spread: u8, parents: &[u16]) -> Spec {
    spec_figure(1, keep, spread, parents)
}

/// Two children of one entry, which they list again and again.
fn two_children(c: &mut Comparison) -> Result<(), String> {
    let calls = [
        (keep(2), "110", "---"),
        (keep(1), "110", "---"),
        (drop(2), "100", "---"),
        (drop(1), "000", "---"),
        (keep(1), "100", "---"),
        (posted(0, 4), "100", "n--"),
        (step(0), "100", "-r-"),
        (drop(1), "000", "-n-"),
        (posted(0, 5), "000", "nn-"),
        (step(0), "000", "-n-"),
        (step(1), "000", "---"),
        (Act::Close, "110", "---"),
        (drop(1), "110", "---"),
        (posted(0, 6), "110", "n--"),
        (step(0), "110", "-nr"),
    ];
    list(c, &[entry(), sum(0, 0, &[0; 16]), sum(0, 0, &[0, 0, 1])], &calls)
}

/// A figure that defers, by spread 0 and by spread 2, with nothing stored above it, and with a stored
/// figure. With notice it acts as renew.
fn deferring(c: &mut Comparison) -> Result<(), String> {
    let alone = [
        (keep(3), "11100", "-----"),
        (posted(0, 4), "11100", "n----"),
        (posted(1, 5), "11100", "nn---"),
        (step(0), "11100", "-n-r-"),
        (step(1), "11100", "--nr-"),
        (ask(0), "11100", "-----"),
        (keep(3), "11100", "-----"),
    ];
    let with_child = [
        (keep(4), "11110", "-----"),
        (posted(0, 6), "11110", "n----"),
        (step(0), "11110", "---r-"),
        (step(3), "11110", "---n-"),
        (posted(0, 7), "11110", "n--n-"),
        (step(0), "11110", "---n-"),
        (step(3), "11110", "----r"),
        (ask(4), "11110", "-----"),
        (drop(4), "11100", "-----"),
        (posted(1, 6), "11100", "-n---"),
        (step(1), "11100", "--n--"),
        (step(2), "11100", "---r-"),
        (drop(3), "00000", "---n-"),
        (step(3), "00000", "-----"),
    ];
    [0, 2].iter().try_for_each(|&spread| {
        let specs = [entry(), entry(), sum(0, 0, &[1]), sum(0, spread, &[0, 2]), sum(0, 0, &[3])];
        list(c, &specs, &[&alone[..], &with_child].concat())
    })
}

/// Look-ups keep figures with keep 1 on their way.
fn looking_up(c: &mut Comparison) -> Result<(), String> {
    let calls = [
        (posted(0, 4), "00000", "n----"),
        (step(0), "00000", "-----"),
        (ask(2), "10000", "-----"),
        (board(4), "11100", "-----"),
        (drop(1), "11100", "-----"),
        (posted(0, 5), "11100", "n----"),
        (step(0), "11100", "-n---"),
        (step(1), "11100", "--n--"),
        (step(2), "11100", "---n-"),
        (step(3), "11100", "-----"),
        (drop(3), "10000", "-----"),
        (board(1), "10000", "-----"),
    ];
    let specs = [entry(), sum(1, 0, &[0]), sum(0, 0, &[1]), sum(1, 1, &[2]), sum(0, 0, &[3])];
    list(c, &specs, &calls)
}

/// 800 children of an entry that are UNK and have none themselves: none is told. Then one of them
/// has a stored child, and is told alone.
fn fan(c: &mut Comparison) -> Result<(), String> {
    let mut specs = vec![entry()];
    specs.extend((0..800).map(|_| sum(0, 0, &[0])));
    specs.push(sum(0, 0, &[400]));
    let (mut lent, _) = opened(c, write_sheet(&specs), specs.len(), false)?;
    for (number, notices) in [(4, 0), (5, 1)] {
        c.act(&posted(0, number), &mut lent)?;
        c.act(&step(0), &mut lent)?;
        let marks: Vec<usize> = (0..802).filter(|i| lent.table[RECORD * i + 1] != 0).collect();
        if marks != [400][..notices] {
            return Err(format!("marked after a step: {marks:?}"));
        }
        reads(c, &mut lent, 801, Some(number))?;
        c.act(&keep(801), &mut lent)?;
    }
    Ok(())
}

/// All levels above one entry, with the highest stored: every item below it is owed. Dropped, none is.
fn chain(c: &mut Comparison) -> Result<(), String> {
    let top = MAX_LEVEL as u64;
    let (mut lent, _) = opened(c, plain_chain(MAX_LEVEL as u16), MAX_LEVEL + 1, false)?;
    let (owed, none) = ("1".repeat(MAX_LEVEL) + "0", "0".repeat(MAX_LEVEL + 1));
    let quiet = "-".repeat(MAX_LEVEL + 1);
    for number in [4, 5] {
        c.act(&keep(top), &mut lent)?;
        shown(&lent, &owed, &quiet)?;
        c.act(&posted(0, number), &mut lent)?;
        for item in 0..top {
            c.act(&step(item), &mut lent)?;
            let mut marks = quiet.clone().into_bytes();
            marks[item as usize + 1] = if item + 1 == top { b'r' } else { b'n' };
            shown(&lent, &owed, &String::from_utf8(marks).unwrap())?;
        }
        reads(c, &mut lent, top, Some(number))?;
        c.act(&drop(top), &mut lent)?;
        shown(&lent, &none, &quiet)?;
    }
    Ok(())
}

#[cfg(test)]
mod tests {
    use super::*;
    use crate::mock::{Mock, Wrong};
    use crate::rng::Rng;

    fn try_owed(wrong: Wrong) -> Result<(), String> {
        run_fixed_owed(&mut Comparison::new(&mut Mock(wrong), Rng::new(1)))
    }

    /// Each mock that is wrong about owed bytes is found by these alone.
    #[test]
    fn wrong_owed_bytes_are_found() {
        try_owed(Wrong::Nothing).unwrap();
        let mut found = 0;
        for wrong in Wrong::owed() {
            assert!(try_owed(wrong).is_err(), "{wrong:?} was not found");
            found += 1;
        }
        assert_eq!(found, 34);
    }
}
