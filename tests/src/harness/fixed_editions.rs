//! Editions and large sheets that are the same in every run: each limit from both sides with every
//! function, counts that are false, the highest items as parents and as children, and every act on a
//! few sheets in both editions.

use super::compare::{Act, Comparison, Lent};
use super::editions::{same, Pair};
use super::fixed::{acts, busy_example, expect, longest_sheet, opened, reads, spreads, EDITIONS};
use super::fixed_owed::{ask, drop, entry, keep, posted, step, sum};
use super::spreads::beside;
use crate::gen::{board_of, in_edition, spec_figure, write_edition, Spec};
use crate::model::field::i64_at;
use crate::model::sheet::{read_sheet, EXAMPLE};
use crate::model::swap::Swap;
use crate::model::table::RECORD;

pub fn run_fixed_editions(c: &mut Comparison) -> Result<(), String> {
    heads(c)?;
    short_sheets(c)?;
    each_byte(c)?;
    every_act(c)?;
    counts(c)?;
    false_counts(c)?;
    scratch(c)?;
    sixteen_parents(c)?;
    parents_beyond(c)?;
    many_children(c)?;
    levels(c)?;
    long_sheets(c)
}

pub const OPENINGS: [Act; 2] = [Act::Open { full: false }, Act::Open { full: true }];

/// The item counts on both sides of each limit.
const COUNTS: [u16; 9] = [127, 128, 129, 1_023, 1_024, 1_025, 4_095, 4_096, 4_097];

/// Each act on the bytes, which are kept, with the number and the offset that the paper gives it.
pub fn give(
    c: &mut Comparison,
    acts: &[Act],
    lent: &Lent,
    right: (u64, u64),
) -> Result<(), String> {
    for act in acts {
        let reply = c.act(act, &mut lent.clone())?;
        if (reply.number, reply.offset) != right {
            return Err(format!("{act:?} gives {reply:?} on both sides, and the paper {right:?}"));
        }
    }
    Ok(())
}

/// The example and each edition in its head, with its own count and with others: the head is at fault,
/// or the field after its items.
fn heads(c: &mut Comparison) -> Result<(), String> {
    let busy = busy_example(c)?;
    let all = [&acts()[..], &OPENINGS].concat();
    let editions = [0, 1, 2, 3, 4, 127, 128, 255, 256, 257, 258, 512, 513, 32_769, 65_535];
    for edition in editions {
        for count in [0, 1, 4, 5, 6].into_iter().chain(COUNTS).chain([8_192, 65_535]) {
            let most = match edition {
                1 => 1_024,
                2 => 4_096,
                _ => 0,
            };
            let right = match count {
                0 => (4, 0),
                _ if count > most => (4, 0),
                // The second item, or the last, where the last field must be.
                1 => (2, 11),
                4 => (2, 31),
                5 => (0, 0),
                // The last field where an item must be.
                _ => (2, 43),
            };
            let mut lent = Lent { sheet: in_edition(edition, &EXAMPLE), ..busy.clone() };
            lent.sheet[5..7].copy_from_slice(&u16::to_le_bytes(count));
            give(c, &all, &lent, right)?;
        }
        // No item at all, and nothing lent for any.
        let sheet = write_edition(edition, &[]);
        let none = Lent { sheet, index: vec![], table: vec![] };
        give(c, &all, &none, (4, 0))?;
    }
    Ok(())
}

/// Sheets that end before their head does, or with it.
fn short_sheets(c: &mut Comparison) -> Result<(), String> {
    let busy = busy_example(c)?;
    let all = [&acts()[..], &OPENINGS].concat();
    for (edition, count, right) in [(1, 5, 1), (2, 5, 1), (2, 4_096, 1), (1, 1_025, 4), (3, 5, 4)] {
        let mut head = in_edition(edition, &EXAMPLE)[..7].to_vec();
        head[5..7].copy_from_slice(&u16::to_le_bytes(count));
        for length in 0..7 {
            give(c, &all, &Lent { sheet: head[..length].to_vec(), ..busy.clone() }, (1, 0))?;
        }
        let offset = if right == 4 { 0 } else { 7 };
        give(c, &all, &Lent { sheet: head, ..busy.clone() }, (right, offset))?;
    }
    Ok(())
}

/// Each byte of the example but its edition as each value, in both editions.
fn each_byte(c: &mut Comparison) -> Result<(), String> {
    let busy = busy_example(c)?;
    let all = [&acts()[..], &OPENINGS].concat();
    for at in (0..EXAMPLE.len()).filter(|at| ![3, 4].contains(at)) {
        for byte in 0..=255 {
            let mut lent = busy.clone();
            lent.sheet[at] = byte;
            // With more than 1,024 items the editions differ.
            if at != 6 || byte < 4 {
                same(c, &all[(at + byte as usize) % all.len()], &mut lent)?;
            }
        }
    }
    Ok(())
}

/// Entries 0 and 1, figure 2 a share of them, 3 a choice of 1 and of the share, 4 a sum with this spread,
/// 5 one of it.
fn mixed(spread: u8) -> Vec<Spec> {
    let share = spec_figure(5, 1, 0, &[0, 1]);
    let choice = spec_figure(6, 1, 1, &[0, 1, 2]);
    vec![entry(), entry(), share, choice, sum(0, spread, &[3, 0]), sum(0, 0, &[4])]
}

/// Lists in which every function is accepted and refused, in both editions; the same list with spread 2
/// and with spread 0, and in edition 2, where spread 2 is refused.
fn every_act(c: &mut Comparison) -> Result<(), String> {
    for (spread, pair) in [(0, same as Pair), (1, same), (2, beside), (2, same)] {
        every_act_of(c, spread, pair)?;
    }
    Ok(())
}

/// From both openings; the share is OUT.
fn every_act_of(c: &mut Comparison, spread: u8, pair: Pair) -> Result<(), String> {
    let swap = |giver, taker, quantity| Act::Swap(Swap { giver, taker, quantity });
    for full in [false, true] {
        let (index, table) = (vec![9; 24], vec![9; 6 * RECORD]);
        let mut lent = Lent { sheet: write_edition(1, &mixed(spread)), index, table };
        let list = [
            (Act::Open { full }, 0),
            (posted(0, 50_000), 0),
            (posted(1, 10_001), 0),
            (keep(5), 0),
            (posted(0, 50_000), 0),
            (step(0), 0),
            (posted(0, 50_000), 0),
            (keep(4), 0),
            (drop(3), 0),
            (Act::Board(board_of(&mut c.rng, &[5, 3, 2])), 0),
            (ask(5), 0),
            (keep(4), 0),
            (keep(5), 0),
            (swap(0, 1, 1), 0),
            (step(1), 0),
            (keep(3), 0),
            (drop(4), 0),
            (Act::Close, 0),
            (posted(0, 40_000), 0),
            (step(0), 0),
            (step(3), 14),
            (step(4), 0),
            (ask(3), 0),
            (drop(5), 0),
            (ask(6), 11),
            (posted(2, 1), 12),
            (swap(1, 1, 1), 18),
            (Act::Close, 0),
        ];
        for (act, right) in list {
            let number = pair(c, &act, &mut lent)?.number;
            expect("an act on two sheets", number, right).map_err(|e| format!("{act:?}: {e}"))?;
        }
    }
    Ok(())
}

/// So many items: entries, and a figure, the sum of the first of them and the last.
pub fn row(edition: u16, count: u16, spread: u8) -> Vec<u8> {
    let mut specs = vec![entry(); count as usize - 1];
    specs.push(sum(0, spread, &[0, count - 2]));
    write_edition(edition, &specs)
}

/// The functions that a row of so many items takes; item 0 has a mark.
pub fn acts_of(c: &mut Comparison, count: u16) -> Vec<Act> {
    let (last, before) = (count as u64 - 1, count as u64 - 2);
    let board = board_of(&mut c.rng, &[count - 1, 0, count - 2]);
    vec![
        posted(before, 7),
        keep(last),
        drop(last),
        step(0),
        ask(last),
        Act::Swap(Swap { giver: 0, taker: before, quantity: 3 }),
        Act::Board(board),
        Act::Close,
    ]
}

/// The functions with an item that is none of so many.
fn acts_beyond(c: &mut Comparison, item: u64) -> Vec<Act> {
    let board = board_of(&mut c.rng, &[0, item as u16]);
    let swap = |giver, taker| Act::Swap(Swap { giver, taker, quantity: 1 });
    let swaps = [swap(0, item), swap(item, 0)];
    let calls = [posted(item, 7), keep(item), drop(item), step(item), ask(item)];
    [&calls[..], &swaps, &[Act::Board(board)]].concat()
}

/// Kind, mark and number of a record.
fn record(lent: &Lent, item: u64) -> (u8, u8, i64) {
    let record = &lent.table[RECORD * item as usize..][..RECORD];
    (record[0], record[1], i64_at(record, 2))
}

fn holds(lent: &Lent, item: u64, right: (u8, u8, i64)) -> Result<(), String> {
    match record(lent, item) == right {
        true => Ok(()),
        false => Err(format!("item {item} is {:?}, not {right:?}", record(lent, item))),
    }
}

/// Rows of each count on both sides of each limit, in both editions, with every function.
fn counts(c: &mut Comparison) -> Result<(), String> {
    for (edition, most) in EDITIONS {
        for count in COUNTS {
            let sheet = row(edition, count, 0);
            let n = count as usize;
            let all = [&acts_of(c, count)[..], &OPENINGS].concat();
            let (mut lent, number) = opened(c, sheet, n, true)?;
            if n > most {
                expect("too many items", number, 4)?;
                give(c, &all, &lent, (4, 0))?;
                let short = Lent { index: vec![], table: vec![0; RECORD * most], ..lent };
                give(c, &all, &short, (4, 0))?;
                continue;
            }
            expect("as many items as there may be", number, 0)?;
            c.act(&posted(0, 5), &mut lent)?;
            give(c, &all, &lent, (0, 0))?;
            if count % 2 == 0 {
                let beyond = acts_beyond(c, n as u64);
                give(c, &beyond, &lent, (11, 0))?;
            }
            lent.table.pop();
            give(c, &all[all.len() - 3..], &lent, (8, 0))?;
            lent.table.push(0);
            told(c, lent, n as u64 - 1)?;
        }
    }
    // Item numbers that some of a sheet's are if they are cut to fewer bits.
    let (lent, _) = opened(c, row(2, 4_096, 0), 4_096, false)?;
    for item in [5_119, 32_768] {
        let beyond = acts_beyond(c, item);
        give(c, &beyond, &lent, (11, 0))?;
    }
    Ok(())
}

/// The last item of a row, after a post of 5 to the first: told, stepped and read.
fn told(c: &mut Comparison, mut lent: Lent, last: u64) -> Result<(), String> {
    c.act(&step(0), &mut lent)?;
    holds(&lent, last, (1, 1, 0))?;
    c.act(&step(last), &mut lent)?;
    holds(&lent, last, (3, 2, 5))?;
    c.act(&posted(last - 1, 7), &mut lent)?;
    reads(c, &mut lent, last, Some(12))?;
    holds(&lent, last, (3, 0, 12))
}

/// Heads that claim an item more than there is, or one less, or far more; and rows that end early.
fn false_counts(c: &mut Comparison) -> Result<(), String> {
    // The fields of a row: items of 4 bytes up to the last, one of 12.
    let end = |items: u16| 7 + 4 * (items as u64 - 1) + 12;
    for (edition, items, claimed) in [
        (1, 128, 129),
        (2, 128, 129),
        (1, 129, 128),
        (2, 129, 128),
        (1, 1_023, 1_024),
        (2, 1_023, 1_024),
        (1, 1_024, 1_023),
        (1, 1_024, 1_025),
        (2, 1_024, 1_025),
        (2, 1_025, 1_024),
        (2, 4_095, 4_096),
        (2, 4_096, 4_095),
        (2, 4_096, 4_097),
        (2, 4_096, 65_535),
        (1, 129, 1),
        (1, 1_024, 128),
        (2, 1_025, 128),
        (2, 4_096, 100),
        (2, 4_096, 1_024),
        (1, 100, 1_024),
        (2, 100, 4_096),
        (1, 100, 4_096),
    ] {
        let (mut lent, number) = opened(c, row(edition, items, 0), items as usize, true)?;
        expect("a row", number, 0)?;
        lent.sheet[5..7].copy_from_slice(&u16::to_le_bytes(claimed));
        let all = [&acts_of(c, items)[..], &OPENINGS].concat();
        let right = match claimed as usize {
            claimed if claimed > EDITIONS[edition as usize - 1].1 => (4, 0),
            _ if claimed > items => (2, end(items)),
            // An item where the last field must be.
            claimed => (2, 7 + 4 * claimed as u64),
        };
        give(c, &all, &lent, right)?;
        // Without its last field, and with half of its last item.
        lent.sheet[5..7].copy_from_slice(&items.to_le_bytes());
        let length = lent.sheet.len();
        lent.sheet.truncate(length - 3);
        give(c, &OPENINGS, &lent, (1, end(items)))?;
        lent.sheet.truncate(length - 9);
        give(c, &[ask(0), Act::Close], &lent, (1, end(items) - 12))?;
    }
    Ok(())
}

/// What a look-up finds is of its moment, in a sheet of each size: entry 0 has the stored figures s and
/// c, and u, a sum of s, is UNK. c is worked out when 0 has told it, and again when u has.
fn scratch(c: &mut Comparison) -> Result<(), String> {
    for count in [4, 127, 128, 129, 1_024, 1_025, 4_096u16] {
        let mut specs = vec![entry(); count as usize - 3];
        let (s, u) = (count - 3, count - 2);
        specs.extend([sum(0, 0, &[0]), sum(0, 0, &[s]), sum(0, 1, &[u, 0])]);
        for edition in if count > 1_024 { 2..=2 } else { 1..=2 } {
            let sheet = write_edition(edition, &specs);
            let (mut lent, _) = opened(c, sheet, count as usize, true)?;
            c.act(&drop(u as u64), &mut lent)?;
            c.act(&posted(0, 5), &mut lent)?;
            let mut stepped = lent.clone();
            reads(c, &mut lent, count as u64 - 1, Some(10))?;
            for (item, right) in [(0, 5), (s as u64, 5), (s as u64, 5), (u as u64, 10)] {
                c.act(&step(item), &mut stepped)?;
                holds(&stepped, count as u64 - 1, (3, 2, right))?;
            }
        }
    }
    Ok(())
}

/// The highest item as a sum of sixteen, the lowest and the highest before it and those beside each
/// limit, or of some of them: told by each, and worked out. The highest of edition 1 with spread 2.
fn sixteen_parents(c: &mut Comparison) -> Result<(), String> {
    let parents: [u16; 16] = [
        0, 127, 128, 129, 255, 256, 1_022, 1_023, 1_024, 1_025, 2_047, 2_048, 3_071, 3_072, 4_093,
        4_094,
    ];
    for (edition, spread, parents) in [
        (2, 0, &parents[..]),
        (2, 1, &parents[12..]),
        (1, 0, &parents[3..7]),
        (1, 2, &parents[..7]),
    ] {
        let last = EDITIONS[edition as usize - 1].1 - 1;
        let mut specs = vec![entry(); last];
        specs.push(sum(0, spread, parents));
        let (mut lent, _) = opened(c, write_edition(edition, &specs), last + 1, true)?;
        let (last, mut right) = (last as u64, 0);
        for (k, &parent) in parents.iter().enumerate() {
            right += 1 << k;
            c.act(&posted(parent as u64, 1 << k), &mut lent)?;
            c.act(&step(parent as u64), &mut lent)?;
            let before = if k == 0 { (1, 1, 0) } else { (3, 1, right - (1 << k)) };
            holds(&lent, last, if spread == 1 { (3, 2, right) } else { before })?;
            c.act(&ask(last - 1), &mut lent)?;
            holds(&lent, last, (3, 0, right))?;
        }
    }
    Ok(())
}

/// Parents that are items if their numbers are cut to fewer bits, and the item itself.
fn parents_beyond(c: &mut Comparison) -> Result<(), String> {
    for (items, parents) in [
        (5, &[5, 1_024, 1_025, 4_096, 4_097, 65_535][..]),
        (1_025, &[1_025, 2_048, 4_096]),
        (4_095, &[4_095, 4_096, 8_191, 65_535]),
    ] {
        for &parent in parents {
            let mut specs = vec![entry(); items];
            specs.push(sum(0, 0, &[0, parent]));
            let sheet = write_edition(2, &specs);
            let (lent, number) = opened(c, sheet, items + 1, false)?;
            expect("a parent that is none", number, 6)?;
            give(c, &[ask(0), Act::Close], &lent, (6, 7 + 4 * items as u64))?;
        }
    }
    Ok(())
}

/// Entry 0 with 4,000 children, or, in edition 1, 928, told by one step, and all caught up by one ask.
/// Every sixteenth is a sum of it, and gets another value; the others count it, and do not.
fn many_children(c: &mut Comparison) -> Result<(), String> {
    EDITIONS.iter().try_for_each(|&(edition, items)| many_children_of(c, edition, items as u64))
}

fn many_children_of(c: &mut Comparison, edition: u16, items: u64) -> Result<(), String> {
    let is_sum = |i: u64| i % 16 == 0;
    let spread = |i: u64| if is_sum(i) { i / 16 } else { i / 2 } % spreads(edition) as u64;
    let mut specs = vec![entry(); 96];
    let rule = |i| if is_sum(i) { 1 } else { 7 };
    specs.extend((96..items).map(|i| spec_figure(rule(i), 0, spread(i) as u8, &[0])));
    let (mut lent, _) = opened(c, write_edition(edition, &specs), items as usize, true)?;
    for act in [posted(0, 1), Act::Close, posted(0, 3)] {
        c.act(&act, &mut lent)?;
    }
    let mut asked = lent.clone();
    c.act(&step(0), &mut lent)?;
    reads(c, &mut asked, items - 1, Some(1))?;
    for item in 96..items {
        let (told, quiet) = match (is_sum(item), spread(item)) {
            (true, 1) => ((3, 2, 3), (3, 0, 3)),
            (true, _) => ((3, 1, 1), (3, 0, 3)),
            (false, 1) => ((3, 0, 1), (3, 0, 1)),
            (false, _) => ((3, 1, 1), (3, 0, 1)),
        };
        holds(&lent, item, told)?;
        holds(&asked, item, quiet)?;
    }
    Ok(())
}

/// All levels at the highest items, and one more.
fn levels(c: &mut Comparison) -> Result<(), String> {
    for (levels, right) in [(64, 0), (65, 7)] {
        let ground = 4_096 - levels;
        let mut specs = vec![entry(); ground as usize];
        specs.push(sum(0, 0, &[0, ground - 1]));
        specs.extend((ground..4_095).map(|p| sum((p / 2 % 2) as u8, (p % 2) as u8, &[p])));
        let (mut lent, number) = opened(c, write_edition(2, &specs), 4_096, false)?;
        expect("levels", number, right)?;
        if right != 0 {
            let offset = 7 + 4 * ground as u64 + 12 + 10 * 63;
            give(c, &[ask(0), keep(4_095)], &lent, (7, offset))?;
            continue;
        }
        let last = ground as u64 - 1;
        c.act(&posted(last, 9), &mut lent)?;
        reads(c, &mut lent, 4_095, Some(9))?;
        c.act(&keep(4_095), &mut lent)?;
        c.act(&posted(0, 1), &mut lent)?;
        c.act(&step(0), &mut lent)?;
        reads(c, &mut lent, 4_095, Some(10))?;
        c.act(&drop(4_095), &mut lent)?;
        c.act(&Act::Close, &mut lent)?;
        holds(&lent, 4_095, (3, 0, 10))?;
    }
    Ok(())
}

/// Entries that together with head and end have so many bytes, the names as long as they must be.
pub fn sheet_of_bytes(edition: u16, bytes: usize) -> Vec<u8> {
    let (items, most) = (bytes - 10, EDITIONS[edition as usize - 1].1);
    let count = (items / 17).min(most);
    let (each, more) = (items / count - 3, items % count);
    let name = |k| vec![b'N'; each + (k < more) as usize];
    write_edition(edition, &(0..count).map(|k| Spec::Entry(name(k))).collect::<Vec<_>>())
}

/// Sheets about as long as a day program takes, and the longest: every function takes them.
fn long_sheets(c: &mut Comparison) -> Result<(), String> {
    let near = [65_536, 65_537].map(|bytes| sheet_of_bytes(2, bytes));
    for sheet in near.into_iter().chain([longest_sheet(2, 4_096)]) {
        let (length, items) = (sheet.len(), read_sheet(&sheet).unwrap());
        let last = items.len() as u64 - 1;
        let (mut lent, number) = opened(c, sheet, items.len(), false)?;
        expect("a long sheet", number, 0)?;
        c.act(&posted(0, 5), &mut lent)?;
        let figure = items[last as usize].figure.is_some();
        let (sort, other) = if figure { (0, 12) } else { (12, 0) };
        give(c, &[keep(last), drop(last)], &lent, (sort, 0))?;
        give(c, &[posted(last, 1)], &lent, (other, 0))?;
        give(c, &[posted(0, 7), step(0), ask(0), Act::Close], &lent, (0, 0))?;
        give(c, &OPENINGS, &lent, (0, 0))?;
        let board = board_of(&mut c.rng, &[last as u16, 0]);
        give(c, &[Act::Board(board)], &lent, (0, 0))?;
        let swap = Swap { giver: 0, taker: last, quantity: 1 };
        give(c, &[Act::Swap(swap)], &lent, (other, 0))?;
        // A byte more is refused for being there, and not for the length.
        lent.sheet.push(0);
        give(c, &[ask(0), Act::Close], &lent, (2, length as u64))?;
        give(c, &OPENINGS, &lent, (2, length as u64))?;
    }
    Ok(())
}

#[cfg(test)]
mod tests {
    use super::*;
    use crate::harness::editions::MET;
    use crate::harness::fixed_spreads::run_fixed_spreads;
    use crate::harness::tally::FUNCTIONS;
    use crate::mock::{Mock, Wrong};
    use crate::rng::Rng;

    fn try_editions(wrong: Wrong) -> Result<(), String> {
        run_fixed_editions(&mut Comparison::new(&mut Mock(wrong), Rng::new(1)))
    }

    /// These meet every sort of sheet with every function, together with each spread.
    #[test]
    fn every_sort_is_met() {
        let mut mock = Mock(Wrong::Nothing);
        let mut c = Comparison::new(&mut mock, Rng::new(1));
        run_fixed_editions(&mut c).unwrap();
        run_fixed_spreads(&mut c).unwrap();
        for (met, (function, _)) in c.tally.editions.iter().zip(FUNCTIONS) {
            let missing: Vec<&str> =
                (0..MET.len()).filter(|&at| met[at] == 0).map(|at| MET[at]).collect();
            assert_eq!(missing, [""; 0], "{function}");
        }
        assert!(c.tally.edition_pairs > 10_000 && c.tally.spread_pairs > 1_000);
    }

    /// Each wrong edition, limit or large sheet is found by these alone.
    #[test]
    fn wrong_editions_are_found() {
        assert_eq!(Wrong::EDITIONS.len(), 38);
        for &wrong in Wrong::EDITIONS {
            let found = try_editions(wrong).err().unwrap_or_default();
            assert!(!found.is_empty(), "{wrong:?} was not found");
        }
    }

    #[test]
    fn sheets_have_their_bytes() {
        for (edition, bytes) in [(1, 15_000), (2, 65_535), (2, 65_536), (2, 65_537), (2, 77_834)] {
            let sheet = sheet_of_bytes(edition, bytes);
            assert_eq!(sheet.len(), bytes);
            assert!(read_sheet(&sheet).is_ok(), "{edition} {bytes}");
        }
        assert_eq!(longest_sheet(2, 4_096).len(), 225_254);
    }
}
