//! Swaps that are the same in every run: the range from both sides, each refusal alone and with those
//! tested before and after it, NULL on either side, there and back, and beside two posts.

use super::boards::same_boards;
use super::closes::{plain_close, same_closes};
use super::compare::{Act, Comparison, Lent};
use super::days::refused_sheets;
use super::fixed::{busy_example, expect, opened, post, post_given, Given, EDITIONS};
use super::fixed_owed::{entry, sum};
use super::lists::{plain_call, Office};
use super::swaps::{and_back, as_posts, plain_swap, BESIDE};
use crate::gen::{make_owed_true, write_edition, write_sheet};
use crate::model::calls::Call;
use crate::model::field::i64_at;
use crate::model::sheet::{read_sheet, Item, EXAMPLE};
use crate::model::swap::Swap;
use crate::model::table::{no_mark, RECORD};
use crate::model::value::LIMIT;

pub fn run_fixed_swaps(c: &mut Comparison) -> Result<(), String> {
    arguments(c)?;
    range(c)?;
    every_form(c)?;
    order_of_tests(c)?;
    item_counts(c)?;
    marks(c)?;
    stays(c)?;
    beside_posts(c)
}

fn swap(giver: u64, taker: u64, quantity: i64) -> Swap {
    Swap { giver, taker, quantity }
}

/// A swap on the bytes, which are kept, and the number that the paper gives it. An accepted one is held
/// against two posts, and made back. What it leaves.
fn given(c: &mut Comparison, swap: Swap, lent: &Lent, right: u64) -> Result<Lent, String> {
    let mut after = lent.clone();
    let number = c.act(&Act::Swap(swap), &mut after)?.number;
    expect("a swap", number, right).map_err(|e| format!("{swap:?}: {e}"))?;
    if number == 0 {
        as_posts(c, &swap, lent, &after)?;
        and_back(c, &swap, &lent.table, &mut after.clone(), &mut None)?;
    }
    Ok(after)
}

/// Quantities on both sides of each limit.
const QUANTITIES: [i64; 14] = [
    i64::MIN,
    -LIMIT,
    -1,
    0,
    1,
    2,
    1_000,
    LIMIT - 1,
    LIMIT,
    LIMIT + 1,
    2 * LIMIT,
    2 * LIMIT + 1,
    i64::MAX - 1,
    i64::MAX,
];

/// Each pair of items of the example and of item numbers beyond them, with each quantity. The entries
/// hold 1,000, -300 and NULL.
fn arguments(c: &mut Comparison) -> Result<(), String> {
    let busy = busy_example(c)?;
    let beyond = [5, 6, 255, 256, 65_535, 65_536, 1 << 32, (1 << 32) + 1, 1 << 63, u64::MAX];
    let all: Vec<u64> = (0..5).chain(beyond).collect();
    let held = [1_000, -300, 0];
    for &giver in &all {
        for &taker in &all {
            for quantity in QUANTITIES {
                let right = match (giver, taker) {
                    (5.., _) | (_, 5..) => 11,
                    (3.., _) | (_, 3..) => 12,
                    _ if giver == taker || quantity < 1 => 18,
                    _ => 13 * !fits(held[giver as usize], held[taker as usize], quantity) as u64,
                };
                given(c, swap(giver, taker, quantity), &busy, right)?;
            }
        }
    }
    Ok(())
}

/// Whether both results are in the range, on exact numbers.
fn fits(giver: i64, taker: i64, quantity: i64) -> bool {
    let range = -(LIMIT as i128)..=LIMIT as i128;
    let quantity = quantity as i128;
    range.contains(&(giver as i128 - quantity)) && range.contains(&(taker as i128 + quantity))
}

/// What the entries of the example may hold on both sides of each limit.
const HELD: [Given; 11] = [
    None,
    Some(0),
    Some(1),
    Some(-1),
    Some(2),
    Some(-2),
    Some(LIMIT),
    Some(LIMIT - 1),
    Some(-LIMIT),
    Some(1 - LIMIT),
    Some(123_456_789_012),
];

/// Results at the limits and one beyond, of the giver, of the taker and of both, wherever they begin.
fn range(c: &mut Comparison) -> Result<(), String> {
    for (turn, (from, to)) in HELD.iter().flat_map(|g| HELD.map(|t| (*g, t))).enumerate() {
        let (giver, taker) = [(0, 1), (1, 0), (2, 0), (1, 2)][turn % 4];
        let (mut lent, _) = opened(c, EXAMPLE.to_vec(), 5, turn % 3 == 0)?;
        for call in [post_given(giver, from), post_given(taker, to)] {
            c.act(&Act::Give(call), &mut lent)?;
        }
        let (from, to) = (from.unwrap_or(0), to.unwrap_or(0));
        // As far as the giver can go, the taker, and both.
        let rooms = [LIMIT + from, LIMIT - to, (LIMIT + from).min(LIMIT - to)];
        let near = rooms.iter().flat_map(|room| [room - 1, *room, room + 1]);
        for quantity in near.chain(QUANTITIES) {
            let right = match quantity {
                ..=0 => 18,
                _ => 13 * !fits(from, to, quantity) as u64,
            };
            let after = given(c, swap(giver, taker, quantity), &lent, right)?;
            if right == 0 {
                holds(&after, giver, from - quantity)?;
                holds(&after, taker, to + quantity)?;
            }
        }
    }
    Ok(())
}

/// An entry holds a number, with notice.
fn holds(lent: &Lent, entry: u64, number: i64) -> Result<(), String> {
    let record = &lent.table[RECORD * entry as usize..][..RECORD];
    match record[..2] == [3, 2] && i64_at(record, 2) == number {
        true => Ok(()),
        false => Err(format!("entry {entry} is {record:?}, not {number} with notice")),
    }
}

/// The example with each kind and mark of its entries in every combination, NULL on either side and
/// both among them, and its figures in some forms. Every swap of two entries, and of one.
fn every_form(c: &mut Comparison) -> Result<(), String> {
    let (busy, items) = (busy_example(c)?, read_sheet(&EXAMPLE).unwrap());
    let entry = [(1, 0), (1, 2), (3, 0), (3, 2)];
    let figures = [[(0, 0), (0, 2)], [(3, 1), (0, 0)], [(3, 2), (2, 1)], [(1, 0), (3, 0)]];
    for turn in 0..4 * 4 * 4 * figures.len() {
        let entries = [turn % 4, turn / 4 % 4, turn / 16 % 4].map(|form| entry[form]);
        let forms = entries.iter().chain(&figures[turn / 64]);
        let mut lent = Lent { table: vec![], ..busy.clone() };
        for (&(kind, mark), number) in forms.zip([40i64, -7, 3, 9, 5]) {
            lent.table.extend([kind, mark]);
            lent.table.extend(if kind == 3 { number } else { 0 }.to_le_bytes());
            lent.table.push(0);
        }
        make_owed_true(&items, &mut lent.table);
        for (giver, taker) in (0..3).flat_map(|giver| [0, 1, 2].map(|taker| (giver, taker))) {
            let right = if giver == taker { 18 } else { 0 };
            given(c, swap(giver, taker, [1, 7, 40][turn % 3]), &lent, right)?;
        }
    }
    Ok(())
}

/// Swaps with each cause alone and with those tested after it, on entries that hold the limits and
/// NULL, and their numbers.
fn faults() -> Vec<(Swap, u64)> {
    let mut faults = vec![(swap(0, 1, 1), 0), (swap(0, 2, 1), 0)];
    for quantity in [1, 0, -1, i64::MIN, i64::MAX] {
        for absent in [5, (1 << 32) + 1, u64::MAX] {
            // 11, then with a figure, then one absent item twice.
            for other in [0, 3, absent] {
                faults.extend([(swap(absent, other, quantity), 11)]);
                faults.extend([(swap(other, absent, quantity), 11)]);
            }
        }
        for (giver, taker) in [(3, 0), (0, 3), (3, 1), (1, 4), (3, 4), (4, 4)] {
            faults.push((swap(giver, taker, quantity), 12));
        }
        // One entry twice, also where a result is beyond the range.
        faults.extend([0, 1, 2].map(|entry| (swap(entry, entry, quantity), 18)));
    }
    for quantity in [0, -1, -LIMIT, i64::MIN] {
        // With -1 the giver's result is beyond the range, then the taker's, then both, if it were taken.
        let pairs = [(0, 2), (2, 1), (0, 1), (1, 0)];
        faults.extend(pairs.map(|(giver, taker)| (swap(giver, taker, quantity), 18)));
    }
    for (giver, taker, quantity) in [(1, 2, 1), (2, 0, 1), (1, 0, 1), (0, 1, 2 * LIMIT + 1)] {
        faults.push((swap(giver, taker, quantity), 13));
        faults.push((swap(giver, taker, i64::MAX), 13));
    }
    faults
}

/// Each refusal of the arguments with those of what is lent, which are tested before it.
fn order_of_tests(c: &mut Comparison) -> Result<(), String> {
    let (mut full, _) = opened(c, EXAMPLE.to_vec(), 5, true)?;
    for call in [post(0, LIMIT), post(1, -LIMIT)] {
        c.act(&Act::Give(call), &mut full)?;
    }
    for (swap, right) in faults() {
        given(c, swap, &full, right)?;
        let mut lent = full.clone();
        lent.table[53] = 1;
        given(c, swap, &lent, 10)?;
        let mut owed = full.clone();
        owed.table[54] = 1;
        given(c, swap, &owed, 10)?;
        lent.index[19] = 1;
        given(c, swap, &lent, 9)?;
        given(c, swap, &Lent { index: lent.index.clone(), ..full.clone() }, 9)?;
        for (index, table) in [(20, 56), (20, 54), (20, 50), (21, 55), (19, 55), (0, 0)] {
            let mut lent = lent.clone();
            lent.index.resize(index, 0);
            lent.table.resize(table, 0);
            given(c, swap, &lent, 8)?;
        }
        for (sheet, right) in refused_sheets().into_iter().zip(1..) {
            given(c, swap, &Lent { sheet: sheet.clone(), ..full.clone() }, right)?;
            given(c, swap, &Lent { sheet, ..lent.clone() }, right)?;
        }
    }
    Ok(())
}

/// One entry alone, and the most of each edition: the last of them gives, takes, and the next is none.
fn item_counts(c: &mut Comparison) -> Result<(), String> {
    let (one, _) = opened(c, write_sheet(&[entry()]), 1, false)?;
    for (giver, taker, right) in [(0, 0, 18), (0, 1, 11), (1, 0, 11)] {
        given(c, swap(giver, taker, 1), &one, right)?;
    }
    let others: [&[u64]; 2] = [&[0, 255, 256, 511, 1_022], &[0, 4_094]];
    for ((edition, count), others) in EDITIONS.into_iter().zip(others) {
        let (most, _) = opened(c, write_edition(edition, &vec![entry(); count]), count, true)?;
        let last = count as u64 - 1;
        for &other in others {
            for (giver, taker) in [(other, last), (last, other)] {
                let after = given(c, swap(giver, taker, LIMIT), &most, 0)?;
                holds(&after, giver, -LIMIT)?;
                holds(&after, taker, LIMIT)?;
            }
            given(c, swap(last + 1, other, 1), &most, 11)?;
            given(c, swap(other, last + 1, 1), &most, 11)?;
        }
        given(c, swap(last, last, 1), &most, 18)?;
    }
    Ok(())
}

/// Entries 0, 1 and 2, a sum of each, and one of the first two; all are stored and nothing is marked.
fn three_sums(c: &mut Comparison, spread: u8) -> Result<(Lent, Vec<Item>), String> {
    let mut specs = vec![entry(), entry(), entry()];
    let sums: [&[u16]; 4] = [&[0], &[1], &[2], &[0, 1]];
    specs.extend(sums.map(|parents| sum(0, spread, parents)));
    let sheet = write_sheet(&specs);
    let (lent, _) = opened(c, sheet.clone(), 7, true)?;
    Ok((lent, read_sheet(&sheet).unwrap()))
}

/// The marks after each call, spelled out: a swap sets two, and figures are told by steps alone.
fn marks(c: &mut Comparison) -> Result<(), String> {
    let (mut lent, items) = three_sums(c, 0)?;
    let mut office = Some(Office::new(&items));
    let step = |item| Act::Give(Call::Step { item });
    for (act, right) in [
        (Act::Swap(swap(1, 0, 5)), "nn-----"),
        (step(0), "-n-r--r"),
        (Act::Swap(swap(2, 0, 1)), "nnnr--r"),
        (step(1), "n-nrr-r"),
        (Act::Swap(swap(2, 0, 0)), "n-nrr-r"),
        (Act::Swap(swap(1, 0, 5)), "nnnrr-r"),
        (Act::Give(Call::Ask { item: 6 }), "-------"),
        (Act::Swap(swap(0, 2, 11)), "n-n----"),
    ] {
        match &act {
            Act::Swap(swap) => plain_swap(c, *swap, &mut lent, &mut office)?,
            Act::Give(call) => plain_call(c, *call, &mut lent, &mut office)?,
            _ => unreachable!(),
        };
        let mark = |record: &[u8]| ["-", "r", "n"][record[1] as usize];
        let marks: String = lent.table.chunks(RECORD).map(mark).collect();
        if marks != right {
            return Err(format!("after {act:?} the marks are {marks}, not {right}"));
        }
    }
    plain_close(c, &mut lent, &mut office)
}

/// After a swap where no mark stands, the figures that neither entry leads to stay stored, with their
/// values, whatever goes on without a posting.
fn stays(c: &mut Comparison) -> Result<(), String> {
    for spread in 0..3 {
        let (mut lent, items) = three_sums(c, spread)?;
        let mut office = Some(Office::new(&items));
        for call in [post(0, 4), post(2, 9), Call::Ask { item: 0 }] {
            plain_call(c, call, &mut lent, &mut office)?;
        }
        [3, 4, 5, 6].iter().try_for_each(|&item| {
            plain_call(c, Call::Keep { item }, &mut lent, &mut office).map(|_| ())
        })?;
        expect("no mark", no_mark(&lent.table) as u64, 1)?;
        expect("a swap", plain_swap(c, swap(0, 1, 4), &mut lent, &mut office)?.number, 0)?;
        for call in [
            Call::Step { item: 1 },
            Call::Drop { item: 4 },
            Call::Keep { item: 5 },
            Call::Step { item: 0 },
            Call::Ask { item: 6 },
            Call::Drop { item: 6 },
            Call::Ask { item: 5 },
        ] {
            plain_call(c, call, &mut lent, &mut office)?;
            let record = &lent.table[5 * RECORD..6 * RECORD];
            if (record[0], record[1], i64_at(record, 2)) != (3, 0, 9) {
                return Err(format!("after a swap and {call:?} figure 5 is {record:?}"));
            }
            for refused in [swap(0, 0, 1), swap(0, 1, 0), swap(2, 7, 1), swap(2, 5, 1)] {
                plain_swap(c, refused, &mut lent, &mut office)?;
            }
        }
        plain_close(c, &mut lent, &mut office)?;
    }
    Ok(())
}

/// Two offices with the same postings: swaps at one, and at the other the posts that these count as.
fn beside_posts(c: &mut Comparison) -> Result<(), String> {
    let swaps =
        [(0, 1, 5, [-5, 5]), (1, 2, 5, [0, 5]), (2, 0, 5, [0, 0]), (0, 2, LIMIT, [-LIMIT, LIMIT])];
    let items = read_sheet(&EXAMPLE).unwrap();
    for full in [false, true] {
        let (mut one, _) = opened(c, EXAMPLE.to_vec(), 5, full)?;
        let (mut two, _) = opened(c, EXAMPLE.to_vec(), 5, !full)?;
        let (mut first, mut second) = (Some(Office::new(&items)), Some(Office::new(&items)));
        for (giver, taker, quantity, results) in swaps {
            let swap = swap(giver, taker, quantity);
            expect("a swap", plain_swap(c, swap, &mut one, &mut first)?.number, 0)?;
            for (entry, number) in [giver, taker].into_iter().zip(results) {
                plain_call(c, post(entry, number), &mut two, &mut second)?;
                plain_call(c, Call::Ask { item: 4 }, &mut two, &mut second)?;
            }
            c.tally.swaps[BESIDE] += 1;
            let offices = [(&one, &mut first), (&two, &mut second)];
            let [a, b] = offices.map(|(lent, office)| (lent.clone(), office.take().unwrap()));
            same_boards(c, &items, &a, &b)?;
            same_closes(c, &a, &b)?;
            ((one, first), (two, second)) = ((a.0, Some(a.1)), (b.0, Some(b.1)));
        }
    }
    Ok(())
}

#[cfg(test)]
mod tests {
    use super::*;
    use crate::harness::swaps::MET;
    use crate::mock::{Mock, Wrong};
    use crate::rng::Rng;

    /// These meet every sort of swap.
    #[test]
    fn every_sort_is_met() {
        let mut mock = Mock(Wrong::Nothing);
        let mut c = Comparison::new(&mut mock, Rng::new(1));
        run_fixed_swaps(&mut c).unwrap();
        let missing = (0..MET.len()).filter(|&at| c.tally.swaps[at] == 0).map(|at| MET[at]);
        assert_eq!(missing.collect::<Vec<&str>>(), [""; 0]);
    }

    /// Each wrong swap is found by these alone, and in a swap.
    #[test]
    fn wrong_swaps_are_found() {
        assert_eq!(Wrong::swaps().count(), 47);
        for wrong in Wrong::swaps() {
            let mut mock = Mock(wrong);
            let mut c = Comparison::new(&mut mock, Rng::new(1));
            let found = run_fixed_swaps(&mut c).err().unwrap_or_default();
            assert!(found.starts_with("Swap("), "{wrong:?} was not found: {found}");
        }
    }
}
