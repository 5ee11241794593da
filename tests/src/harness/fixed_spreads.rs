//! Spread bytes that are the same in every run: each byte in both editions, spread 2 among other faults,
//! with the number and the offset of each answer written out; large sheets; index and table, which no
//! spread decides about; and a table of version 4.3.0, spelled out.

use super::compare::{Act, Comparison, Lent};
use super::fixed::{acts, busy_example, expect, opened, reads, EDITIONS};
use super::fixed_editions::{acts_of, give, row, OPENINGS};
use super::fixed_owed::{ask, board, drop, entry, keep, posted, step, sum};
use super::spreads::beside;
use crate::gen::{
    in_edition, make_owed_true, plain_chain, spread_places, with_spreads, write_edition, Spec,
};
use crate::model::sheet::{index_of, read_sheet, EXAMPLE};
use crate::model::table::RECORD;

pub fn run_fixed_spreads(c: &mut Comparison) -> Result<(), String> {
    each_byte(c)?;
    two_figures(c)?;
    other_faults(c)?;
    levels(c)?;
    other_bytes(c)?;
    counts(c)?;
    full_sheets(c)?;
    index_and_table(c)?;
    every_table(c)?;
    forgotten(c)
}

/// The fields of the example's figures.
const FIGURES: [u64; 2] = [19, 31];

fn all_acts() -> Vec<Act> {
    [&acts()[..], &OPENINGS].concat()
}

/// The example in an edition, with these spreads.
fn example(edition: u16, spreads: [u8; 2]) -> Vec<u8> {
    let mut spreads = spreads.into_iter();
    in_edition(edition, &with_spreads(&EXAMPLE, |_| spreads.next().unwrap()))
}

/// Each spread byte of either figure, with every function.
fn each_byte(c: &mut Comparison) -> Result<(), String> {
    let (mut lent, all) = (busy_example(c)?, all_acts());
    for edition in [1, 2] {
        for byte in 0..=255 {
            let accepted = byte < 2 || (edition, byte) == (1, 2);
            for (spreads, offset) in [([byte, 0], FIGURES[0]), ([1, byte], FIGURES[1])] {
                lent.sheet = example(edition, spreads);
                give(c, &all, &lent, if accepted { (0, 0) } else { (5, offset) })?;
            }
        }
    }
    Ok(())
}

/// Spreads of both figures: the first that is refused counts.
fn two_figures(c: &mut Comparison) -> Result<(), String> {
    let mut lent = busy_example(c)?;
    let [first, second] = FIGURES.map(|offset| (5, offset));
    for (spreads, in_1, in_2) in [
        ([2, 2], (0, 0), first),
        ([2, 1], (0, 0), first),
        ([1, 2], (0, 0), second),
        ([2, 3], second, first),
        ([3, 2], first, first),
        ([3, 3], first, first),
        ([0, 1], (0, 0), (0, 0)),
    ] {
        for (edition, right) in [(1, in_1), (2, in_2)] {
            lent.sheet = example(edition, spreads);
            give(c, &all_acts(), &lent, right)?;
        }
    }
    Ok(())
}

/// A byte of the example's sheet, and the answer in each edition: with spread 2 at its first figure, of
/// which the field begins at 19, and in the second list at its second, at 31.
type Fault = (usize, u8, (u64, u64), (u64, u64));
const WITH_FIRST: [Fault; 26] = [
    // The head.
    (0, 2, (2, 0), (2, 0)),
    (1, 5, (3, 0), (3, 0)),
    (5, 0, (4, 0), (4, 0)),
    (6, 255, (4, 0), (4, 0)),
    // A field before it.
    (7, 9, (2, 7), (2, 7)),
    (10, 32, (3, 7), (3, 7)),
    (16, 200, (1, 15), (1, 15)),
    // Its own: 1, 2 and 3 are lower, 6 is higher.
    (20, 255, (1, 19), (1, 19)),
    (21, 1, (1, 19), (1, 19)),
    (19, 5, (2, 19), (2, 19)),
    (5, 3, (2, 19), (2, 19)),
    (19, 2, (3, 19), (3, 19)),
    (20, 3, (3, 19), (3, 19)),
    (25, 3, (3, 19), (3, 19)),
    (30, 32, (3, 19), (3, 19)),
    (22, 9, (5, 19), (5, 19)),
    (22, 6, (5, 19), (5, 19)),
    (23, 2, (5, 19), (5, 19)),
    (26, 3, (6, 19), (5, 19)),
    (29, 1, (6, 19), (5, 19)),
    // A field after it.
    (32, 255, (1, 31), (5, 19)),
    (43, 5, (2, 43), (5, 19)),
    (42, 127, (3, 31), (5, 19)),
    (34, 9, (5, 31), (5, 19)),
    (38, 4, (6, 31), (5, 19)),
    (5, 4, (2, 31), (5, 19)),
];
const WITH_SECOND: [Fault; 8] = [
    (22, 9, (5, 19), (5, 19)),
    (24, 3, (5, 19), (5, 19)),
    (26, 3, (6, 19), (6, 19)),
    (30, 32, (3, 19), (3, 19)),
    (5, 4, (2, 31), (2, 31)),
    (38, 4, (6, 31), (5, 31)),
    (42, 32, (3, 31), (3, 31)),
    (44, 1, (1, 43), (5, 31)),
];

fn other_faults(c: &mut Comparison) -> Result<(), String> {
    let mut lent = busy_example(c)?;
    for (spreads, faults) in [([2, 0], &WITH_FIRST[..]), ([0, 2], &WITH_SECOND)] {
        for &(at, byte, in_1, in_2) in faults {
            for (edition, right) in [(1, in_1), (2, in_2)] {
                lent.sheet = example(edition, spreads);
                lent.sheet[at] = byte;
                give(c, &all_acts(), &lent, right).map_err(|e| format!("byte {at}: {e}"))?;
            }
        }
    }
    // A sheet that is cut, one with a byte after its end, and an edition that is not known.
    for (edition, right) in [(1, [(1, 43), (2, 46)]), (2, [(5, 19); 2]), (3, [(4, 0); 2])] {
        for (length, right) in [EXAMPLE.len() - 1, EXAMPLE.len() + 1].into_iter().zip(right) {
            lent.sheet = example(edition, [2, 0]);
            lent.sheet.resize(length, 0);
            give(c, &all_acts(), &lent, right)?;
        }
    }
    Ok(())
}

/// Spread 2 at a level above the highest, and at the highest, below another. Each figure has 10 bytes.
fn levels(c: &mut Comparison) -> Result<(), String> {
    let at = |figure: usize| 11 + 10 * figure as u64;
    for (levels, figure, in_1, in_2) in [
        (65, 64, (7, at(64)), (5, at(64))),
        (65, 63, (7, at(64)), (5, at(63))),
        (66, 65, (7, at(64)), (7, at(64))),
        (64, 63, (0, 0), (5, at(63))),
    ] {
        let mut sheet = plain_chain(levels);
        let place = spread_places(&sheet)[figure];
        sheet[place] = 2;
        for (edition, right) in [(1, in_1), (2, in_2)] {
            let sheet = in_edition(edition, &sheet);
            let n = levels as usize + 1;
            let mut lent = Lent { sheet, index: vec![9; 4 * n], table: vec![9; RECORD * n] };
            give(c, &OPENINGS, &lent, right)?;
            c.act(&OPENINGS[1], &mut lent)?;
            let others = [ask(64), keep(40), Act::Close, board(64)];
            give(c, &others, &lent, right)?;
        }
    }
    Ok(())
}

/// Edition 2 takes 2 in every other byte of a figure: a difference with keep 1, two parents, both item 2, and
/// 2 as its name.
fn other_bytes(c: &mut Comparison) -> Result<(), String> {
    for (keep_byte, spread) in [(1, 0), (0, 1), (1, 1), (0, 0)] {
        let name = b"2".to_vec();
        let figure = |parents: [u16; 2]| {
            let (name, parents) = (name.clone(), parents.to_vec());
            Spec::Figure { rule: 2, keep: keep_byte, spread, parents, name }
        };
        let specs = [entry(), entry(), entry(), figure([2, 2]), figure([3, 2])];
        for edition in [1, 2] {
            let (mut lent, number) = opened(c, write_edition(edition, &specs), 5, false)?;
            expect("2 in other bytes", number, 0)?;
            for act in [posted(0, 5), posted(1, 4), keep(3)] {
                c.act(&act, &mut lent)?;
            }
            give(c, &all_acts(), &lent, (0, 0))?;
        }
    }
    Ok(())
}

/// Rows of each size with spread 2 at their last item, which alone is a figure.
fn counts(c: &mut Comparison) -> Result<(), String> {
    for (edition, most) in EDITIONS {
        for count in [2, 127, 128, 129, 1_023, 1_024, 1_025, 4_095, 4_096, 4_097] {
            let (mut lent, _) = opened(c, row(edition, count, 0), count as usize, true)?;
            c.act(&posted(0, 5), &mut lent)?;
            lent.sheet = row(edition, count, 2);
            let right = match edition {
                _ if count as usize > most => (4, 0),
                1 => (0, 0),
                _ => (5, 7 + 4 * (count as u64 - 1)),
            };
            let all = [&acts_of(c, count)[..], &OPENINGS].concat();
            // In two items the giver and the taker of the swap are one.
            let all: Vec<Act> =
                all.into_iter().filter(|a| count > 2 || !matches!(a, Act::Swap(_))).collect();
            give(c, &all, &lent, right)?;
        }
    }
    Ok(())
}

/// The most items of edition 1, all but one with spread 2: every function, beside spread 0.
fn full_sheets(c: &mut Comparison) -> Result<(), String> {
    let mut specs = vec![entry()];
    specs.extend((1..1_024u16).map(|i| sum((i % 2) as u8, 2, &[(i - 1) % 60, 0])));
    let sheet = write_edition(1, &specs);
    let (index, table) = (vec![9; 4 * 1_024], vec![9; RECORD * 1_024]);
    for full in [false, true] {
        let (index, table) = (index.clone(), table.clone());
        let mut lent = Lent { sheet: sheet.clone(), index, table };
        let list = [
            Act::Open { full },
            posted(0, 1),
            keep(1_023),
            step(0),
            ask(1_023),
            posted(0, 2),
            step(0),
            step(1),
            step(1),
            drop(1_023),
            board(200),
            Act::Close,
            posted(0, 3),
            step(0),
            ask(1_023),
        ];
        for act in list {
            expect("an act of a list", beside(c, &act, &mut lent)?.number, 0)?;
        }
        let second = Lent { sheet: in_edition(2, &sheet), ..lent };
        give(c, &[ask(0), Act::Close, board(0)], &second, (5, 11))?;
        give(c, &OPENINGS, &second, (5, 11))?;
    }
    Ok(())
}

/// The spreads of two figures in edition 1.
fn pairs_of_spreads() -> impl Iterator<Item = [u8; 2]> {
    (0..9).map(|turn| [turn % 3, turn / 3])
}

/// Bytes of index and table that are refused with one pair of spreads are refused with each.
fn index_and_table(c: &mut Comparison) -> Result<(), String> {
    let (plain, acts) = (busy_example(c)?, acts());
    let sheets: Vec<Vec<u8>> = pairs_of_spreads().map(|spreads| example(1, spreads)).collect();
    let (index, table) = (plain.index.len(), plain.table.len());
    for at in 0..index + table {
        for byte in [0, 1, 2, 3, 4, 128, 255] {
            let act = &acts[(at + byte as usize) % acts.len()];
            let mut lent = plain.clone();
            match at < index {
                true => lent.index[at] = byte,
                false => lent.table[at - index] = byte,
            }
            let right = c.act(act, &mut lent.clone())?.number;
            for sheet in &sheets {
                lent.sheet.clone_from(sheet);
                give(c, std::slice::from_ref(act), &lent, (right, 0))?;
            }
        }
    }
    Ok(())
}

/// Each kind and mark of both figures of the example, with each mark of an entry: each act with spread 2
/// as with spread 0.
fn every_table(c: &mut Comparison) -> Result<(), String> {
    let (busy, items) = (busy_example(c)?, read_sheet(&EXAMPLE).unwrap());
    let forms = [(0, 0), (0, 2), (1, 0), (1, 1), (1, 2), (3, 0), (3, 1), (3, 2)];
    for turn in 0..2 * 64 {
        let mut lent = Lent { sheet: example(1, [2, 2]), ..busy.clone() };
        let (first, second) = (forms[turn / 2 % 8], forms[turn / 16]);
        lent.table[1] = if turn % 2 == 0 { 2 } else { 0 };
        for (item, (kind, mark)) in [(3, first), (4, second)] {
            let record = &mut lent.table[RECORD * item..][..RECORD];
            record.fill(0);
            (record[0], record[1]) = (kind, mark);
            record[2] = if kind == 3 { 7 } else { 0 };
        }
        make_owed_true(&items, &mut lent.table);
        let steps = [0, 1, 3, 4].map(step);
        for act in acts().iter().chain(&steps) {
            beside(c, act, &mut lent.clone())?;
        }
    }
    Ok(())
}

/// A table of version 4.3.0: entry 0 is posted 5 and stepped; figure 1 has spread 2 and has forgotten,
/// figure 2, a sum of it, is stored, or not. Record by record: kind, mark, number, owed.
fn forgotten(c: &mut Comparison) -> Result<(), String> {
    let sheet = write_edition(1, &[entry(), sum(0, 2, &[0]), sum(0, 2, &[1])]);
    let index = index_of(&read_sheet(&sheet).unwrap());
    for (stored, owed) in [(1, 1), (0, 0)] {
        let records = [[3, 0, 5, owed], [0, 2, 0, owed], [stored, 0, 0, 0]];
        let record = |[kind, mark, number, owed]: [u8; 4]| {
            [&[kind, mark, number][..], &[0; 7], &[owed]].concat()
        };
        let lent = Lent {
            sheet: sheet.clone(),
            index: index.clone(),
            table: records.map(record).concat(),
        };
        let calls = [posted(0, 6), keep(1), keep(2), drop(1), drop(2), step(1), Act::Close];
        give(c, &calls, &lent, (0, 0))?;
        give(c, &[step(0), step(2)], &lent, (14, 0))?;
        for item in [0, 1, 2] {
            reads(c, &mut lent.clone(), item, Some(5))?;
        }
        // It is told no longer what it has forgotten, and what stands above it defers.
        let mut told = lent.clone();
        c.act(&step(1), &mut told)?;
        let marks: Vec<u8> = told.table.chunks(RECORD).map(|record| record[1]).collect();
        if marks != [0, 0, owed] {
            return Err(format!("after a step of what has forgotten the marks are {marks:?}"));
        }
        for act in [keep(1), posted(0, 6), step(0)] {
            c.act(&act, &mut told)?;
        }
        reads(c, &mut told.clone(), 2, Some(6))?;
        c.act(&Act::Close, &mut told)?;
        reads(c, &mut told, 1, Some(6))?;
    }
    Ok(())
}

#[cfg(test)]
mod tests {
    use super::*;
    use crate::mock::{Mock, Wrong};
    use crate::rng::Rng;

    fn try_spreads(wrong: Wrong) -> Result<(), String> {
        run_fixed_spreads(&mut Comparison::new(&mut Mock(wrong), Rng::new(1)))
    }

    /// Each mock that is wrong about spreads is found by these alone.
    #[test]
    fn wrong_spreads_are_found() {
        try_spreads(Wrong::Nothing).unwrap();
        assert_eq!(Wrong::SPREADS.len(), 33);
        for &wrong in Wrong::SPREADS {
            assert!(try_spreads(wrong).is_err(), "{wrong:?} was not found");
        }
    }
}
