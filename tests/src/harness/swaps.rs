//! Swaps: each is held against the sum of the entries, some against two posts, and those of an opened
//! table against the fresh office. Runs of swaps alone, from any accepted table.

use super::closes::plain_close;
use super::compare::{Act, Comparison, Lent};
use super::fixed::{expect, post};
use super::lists::{open, plain_call, Office};
use crate::gen::{self, Shape};
use crate::model::calls::Reply;
use crate::model::field::i64_at;
use crate::model::fresh::FreshOffice;
use crate::model::sheet::{index_of, item_limit, read_sheet, Item};
use crate::model::swap::Swap;
use crate::model::table::{OWED, RECORD};
use crate::model::value::{Value, LIMIT};

/// What must be met: accepted swaps, then refused ones, each by its cause alone but where both are
/// named.
pub const MET: [&str; 26] = [
    "of two numbers",
    "the giver NULL",
    "the taker NULL",
    "both NULL",
    "the giver's result -10^15",
    "the taker's result 10^15",
    "a quantity over 10^15",
    "an entry with notice",
    "the giver's number above the taker's",
    "a stored figure must stay",
    "at one office, and two posts at another",
    "11, the giver",
    "11, the taker",
    "11, one absent item twice",
    "12, the giver",
    "12, the taker",
    "12, one figure twice",
    "18, one entry twice",
    "18, quantity 0",
    "18, a quantity below 0",
    "18, one entry twice and a quantity under 1",
    "13, the giver's result",
    "13, the taker's result",
    "13, both results",
    "13, a result one beyond the range",
    "13, quantity 2^63 - 1",
];
/// Where the refused ones begin.
pub const REFUSED: usize = 11;
/// Counted where a list is known.
pub const STAYS: usize = 9;
pub const BESIDE: usize = 10;

pub type Times = [u64; MET.len()];

/// A posting: an entry, and its kind and number.
pub type Posting = (u64, (u8, i64));

/// The exact sum of the entries, NULL as 0.
pub fn sum_of(items: &[Item], table: &[u8]) -> i128 {
    let entries = items.iter().zip(table.chunks(RECORD)).filter(|(item, _)| item.figure.is_none());
    entries.filter(|(_, record)| record[0] == 3).map(|(_, record)| i64_at(record, 2) as i128).sum()
}

fn record(table: &[u8], item: u64) -> &[u8] {
    &table[RECORD * item as usize..][..RECORD]
}

/// What an item holds as a number, NULL as 0.
fn held(table: &[u8], item: u64) -> i128 {
    i64_at(record(table, item), 2) as i128
}

/// Both results, which may be beyond the range.
fn results(table: &[u8], swap: &Swap) -> [i128; 2] {
    let quantity = swap.quantity as i128;
    [held(table, swap.giver) - quantity, held(table, swap.taker) + quantity]
}

/// What is known of a swap by its number, and by what was lent before and after.
pub fn judge(
    met: &mut Times,
    swap: &Swap,
    number: u64,
    before: &Lent,
    after: &Lent,
) -> Result<(), String> {
    if number != 0 && before != after {
        return Err(format!("{swap:?} is refused, and changes what it is lent"));
    }
    if (1..=10).contains(&number) {
        return Ok(());
    }
    let items = read_sheet(&before.sheet).unwrap();
    count(met, &items, swap, number, &before.table);
    if number != 0 {
        return Ok(());
    }
    let sums = [before, after].map(|lent| sum_of(&items, &lent.table));
    match sums[0] == sums[1] && only_postings(swap, &before.table, &after.table) {
        true => Ok(()),
        false => Err(format!("{swap:?}: {}{}", before.dump("before"), after.dump("after"))),
    }
}

/// Both entries hold their results with notice, and nothing else has changed.
fn only_postings(swap: &Swap, before: &[u8], after: &[u8]) -> bool {
    let exact = results(before, swap);
    let right = |item: u64, result: i128| {
        let (old, new) = (record(before, item), record(after, item));
        new[..2] == [3, 2] && new[OWED] == old[OWED] && held(after, item) == result
    };
    let others = (0..).zip(before.chunks(RECORD).zip(after.chunks(RECORD)));
    let mut others = others.filter(|(i, _)| ![swap.giver, swap.taker].contains(i));
    let both = right(swap.giver, exact[0]) && right(swap.taker, exact[1]);
    both && others.all(|(_, (old, new))| old == new)
}

/// Counts a swap on what is in form.
fn count(met: &mut Times, items: &[Item], swap: &Swap, number: u64, table: &[u8]) {
    let n = items.len() as u64;
    let same = swap.giver == swap.taker;
    let [giver, taker] = [swap.giver, swap.taker].map(|item| match number {
        11 => item >= n,
        12 => items[item as usize].figure.is_some(),
        _ => false,
    });
    let mut is = [false; MET.len()];
    match number {
        11 => is[11..14].copy_from_slice(&[giver && !taker, taker && !giver, same]),
        12 => is[14..17].copy_from_slice(&[giver && !taker, taker && !giver, same]),
        18 => {
            let (zero, below) = (swap.quantity == 0, swap.quantity < 0);
            let alone = [same && !zero && !below, !same && zero, !same && below];
            is[17..20].copy_from_slice(&alone);
            is[20] = same && (zero || below);
        }
        13 => count_beyond(&mut is, swap, results(table, swap)),
        _ => count_accepted(&mut is, swap, table),
    }
    met.iter_mut().zip(is).for_each(|(times, is)| *times += is as u64);
}

fn count_beyond(is: &mut [bool; MET.len()], swap: &Swap, [giver, taker]: [i128; 2]) {
    let limit = LIMIT as i128;
    let (low, high) = (giver < -limit, taker > limit);
    is[21..24].copy_from_slice(&[low && !high, high && !low, low && high]);
    is[24] = giver == -limit - 1 || taker == limit + 1;
    is[25] = swap.quantity == i64::MAX;
}

fn count_accepted(is: &mut [bool; MET.len()], swap: &Swap, table: &[u8]) {
    let (giver, taker) = (record(table, swap.giver), record(table, swap.taker));
    let nulls = [giver, taker].map(|record| record[0] == 1);
    let [low, high] = results(table, swap);
    is[..9].copy_from_slice(&[
        nulls == [false, false],
        nulls == [true, false],
        nulls == [false, true],
        nulls == [true, true],
        low == -(LIMIT as i128),
        high == LIMIT as i128,
        swap.quantity > LIMIT,
        giver[1] == 2 || taker[1] == 2,
        swap.giver > swap.taker,
    ]);
}

/// By the fresh office: the number of a swap on an opened table, and the postings that it makes.
pub fn fresh_swap(items: &[Item], fresh: &FreshOffice, swap: &Swap) -> (u64, Vec<Posting>) {
    let n = items.len() as u64;
    let sides = [swap.giver, swap.taker];
    if sides.iter().any(|&item| item >= n) {
        return (11, vec![]);
    }
    if sides.iter().any(|&item| items[item as usize].figure.is_some()) {
        return (12, vec![]);
    }
    if swap.giver == swap.taker || swap.quantity < 1 {
        return (18, vec![]);
    }
    let mut made = Vec::new();
    for (item, sign) in sides.into_iter().zip([-1, 1]) {
        let value = match fresh.asked(item) {
            Some(Value::Number(number)) => number as i128,
            _ => 0,
        };
        let result = value + sign * swap.quantity as i128;
        if result.abs() > LIMIT as i128 {
            return (13, vec![]);
        }
        made.push((item, (3, result as i64)));
    }
    (0, made)
}

/// The postings that an accepted swap has made: what its entries hold, the giver's first.
pub fn made(swap: &Swap, after: &[u8]) -> Vec<Posting> {
    let posting = |item| {
        let record = record(after, item);
        (item, (record[0], i64_at(record, 2)))
    };
    [swap.giver, swap.taker].map(posting).to_vec()
}

/// A swap with the lent bytes as they are, judged by what is known of the list.
pub fn plain_swap(
    c: &mut Comparison,
    swap: Swap,
    lent: &mut Lent,
    office: &mut Option<Office>,
) -> Result<Reply, String> {
    let before = lent.clone();
    let reply = c.act(&Act::Swap(swap), lent)?;
    if reply.number == 0 && c.rng.percent(20) {
        as_posts(c, &swap, &before, lent)?;
    }
    if let Some(office) = office {
        office.judge_swap(c, &swap, &reply, &before.table, &lent.table)?;
    }
    Ok(reply)
}

/// An accepted swap leaves what posts of both results do, the giver's first, on the table before.
pub fn as_posts(
    c: &mut Comparison,
    swap: &Swap,
    before: &Lent,
    after: &Lent,
) -> Result<(), String> {
    c.tally.swaps_as_posts += 1;
    let mut lent = before.clone();
    for (item, result) in [swap.giver, swap.taker].into_iter().zip(results(&before.table, swap)) {
        let post = Act::Give(post(item, result as i64));
        expect("a post of a result", c.act(&post, &mut lent)?.number, 0)?;
    }
    match lent == *after {
        true => Ok(()),
        false => Err(format!("{swap:?} is not two posts: {}", lent.dump("these leave"))),
    }
}

/// After an accepted swap, one of the same quantity back: both entries hold what they held, NULL now 0.
pub fn and_back(
    c: &mut Comparison,
    swap: &Swap,
    before: &[u8],
    lent: &mut Lent,
    office: &mut Option<Office>,
) -> Result<(), String> {
    let back = Swap { giver: swap.taker, taker: swap.giver, quantity: swap.quantity };
    expect("a swap back", plain_swap(c, back, lent, office)?.number, 0)?;
    let as_it_was = |item| {
        let now = record(&lent.table, item);
        now[..2] == [3, 2] && held(&lent.table, item) == held(before, item)
    };
    match as_it_was(swap.giver) && as_it_was(swap.taker) {
        true => Ok(()),
        false => Err(format!("{swap:?} and {back:?} leave other values: {}", lent.dump(""))),
    }
}

/// A sheet, mostly with two entries or more.
fn sheet_of_entries(c: &mut Comparison, shape: Shape) -> (Vec<u8>, Vec<Item>) {
    loop {
        let specs = gen::sheet(&mut c.rng, shape);
        let sheet = gen::write_any(&mut c.rng, &specs);
        let items = read_sheet(&sheet).unwrap();
        let entries = items.iter().filter(|item| item.figure.is_none()).count();
        if entries > 1 || c.rng.percent(10) {
            return (sheet, items);
        }
    }
}

/// What a run of swaps begins with: any accepted table, or an opening and a list of calls.
fn begin<'i>(
    c: &mut Comparison,
    sheet: Vec<u8>,
    items: &'i [Item],
) -> Result<(Lent, Option<Office<'i>>), String> {
    let index = index_of(items);
    if c.rng.percent(60) {
        let table = gen::accepted_table(&mut c.rng, items);
        return Ok((Lent { sheet, index, table }, None));
    }
    let mut lent = Lent { sheet, index, table: vec![0; RECORD * items.len()] };
    let mut office = Some(open(c, items, &mut lent)?);
    let numbers = gen::choose_numbers(&mut c.rng);
    for _ in 0..c.rng.below(if items.len() > item_limit(1) { 3 } else { 10 }) {
        let call = gen::any_call(&mut c.rng, items, &lent.table, numbers);
        plain_call(c, call, &mut lent, &mut office)?;
    }
    Ok((lent, office))
}

/// Swaps alone, refused ones too: the exact sum of the entries is that of the beginning after each of
/// them, and the figures are as they were. A close then works them out.
pub fn run_swaps(c: &mut Comparison) -> Result<(), String> {
    let shape = gen::shape(&mut c.rng);
    let (sheet, items) = sheet_of_entries(c, shape);
    let (mut lent, mut office) = begin(c, sheet, &items)?;
    let (start, sum) = (lent.clone(), sum_of(&items, &lent.table));
    c.tally.swap_runs += 1;
    let most = match shape {
        Shape::Vast => 3,
        Shape::Wide => 8,
        _ => 30,
    };
    for _ in 0..c.rng.between(1, most) {
        let numbers = gen::numbers_of(&items, &lent.table);
        let (swap, before) = (gen::any_swap(&mut c.rng, &items, &numbers), lent.table.clone());
        let number = plain_swap(c, swap, &mut lent, &mut office)?.number;
        c.tally.run_swaps += 1;
        if number == 0 && c.rng.percent(10) {
            and_back(c, &swap, &before, &mut lent, &mut office)?;
            c.tally.run_swaps += 1;
        }
        if sum_of(&items, &lent.table) != sum {
            return Err(format!("{swap:?} changes the sum {sum}: {}", start.dump("from")));
        }
    }
    let mut records = start.table.chunks(RECORD).zip(lent.table.chunks(RECORD)).zip(&items);
    if records.any(|((old, new), item)| item.figure.is_some() && old != new) {
        return Err(format!("swaps change a figure: {}{}", start.dump("from"), lent.dump("to")));
    }
    plain_close(c, &mut lent, &mut office)?;
    match sum_of(&items, &lent.table) == sum {
        true => Ok(()),
        false => Err(format!("a close changes the sum {sum}: {}", lent.dump(""))),
    }
}

#[cfg(test)]
mod tests {
    use super::*;
    use crate::model::sheet::EXAMPLE;
    use crate::model::table::{encode, Cell, Mark};

    /// The example with these entries, one of them with notice.
    fn table_of(entries: [Option<i64>; 3], marked: usize) -> Vec<u8> {
        let items = read_sheet(&EXAMPLE).unwrap();
        let mut cells = entries.map(|e| Some(e.map_or(Value::Null, Value::Number))).to_vec();
        cells.extend([None, Some(Value::Null)]);
        let mark = |i| if i == marked { Mark::Notice } else { Mark::None };
        let cells = cells.into_iter().enumerate();
        encode(&items, &cells.map(|(i, stored)| Cell { stored, mark: mark(i) }).collect::<Vec<_>>())
    }

    /// Each swap counts as what it is, and as nothing else.
    #[test]
    fn swaps_are_counted() {
        let items = read_sheet(&EXAMPLE).unwrap();
        let low = Some(-LIMIT);
        let cases = [
            ([Some(1), Some(2), None], (0, 1, 1), 0, &[0][..]),
            ([Some(1), Some(2), None], (2, 1, 1), 0, &[1, 8]),
            ([Some(1), Some(2), None], (0, 2, 1), 0, &[2]),
            ([None, None, None], (0, 1, 1), 0, &[3]),
            ([Some(1), Some(2), None], (0, 1, LIMIT + 1), 13, &[22]),
            ([Some(1), low, None], (0, 1, LIMIT + 1), 0, &[0, 4, 6]),
            ([low, Some(2), None], (1, 0, LIMIT), 0, &[0, 8]),
            ([Some(3), Some(2), None], (0, 1, LIMIT - 2), 0, &[0, 5]),
            ([Some(3), Some(2), None], (5, 1, 0), 11, &[11]),
            ([Some(3), Some(2), None], (3, 9, 0), 11, &[12]),
            ([Some(3), Some(2), None], (u64::MAX, u64::MAX, 1), 11, &[13]),
            ([Some(3), Some(2), None], (6, 7, 1), 11, &[]),
            ([Some(3), Some(2), None], (3, 0, 1), 12, &[14]),
            ([Some(3), Some(2), None], (0, 4, 0), 12, &[15]),
            ([Some(3), Some(2), None], (4, 4, 0), 12, &[16]),
            ([Some(3), Some(2), None], (0, 0, 1), 18, &[17]),
            ([Some(3), Some(2), None], (0, 1, 0), 18, &[18]),
            ([Some(3), Some(2), None], (0, 1, -3), 18, &[19]),
            ([Some(3), Some(2), None], (0, 0, 0), 18, &[20]),
            ([low, Some(2), None], (0, 1, 1), 13, &[21, 24]),
            ([low, Some(LIMIT), None], (0, 1, 2), 13, &[23]),
            ([None, Some(LIMIT), None], (0, 1, i64::MAX), 13, &[23, 25]),
        ];
        for (entries, (giver, taker, quantity), number, right) in cases {
            let (mut met, table) = (Times::default(), table_of(entries, 4));
            let swap = Swap { giver, taker, quantity };
            count(&mut met, &items, &swap, number, &table);
            let met: Vec<usize> = (0..MET.len()).filter(|&at| met[at] == 1).collect();
            assert_eq!(met, right, "{entries:?} {swap:?}");
        }
        for (marked, right) in [(0, 1), (1, 1), (2, 0)] {
            let mut met = Times::default();
            let swap = Swap { giver: 0, taker: 1, quantity: 1 };
            count(&mut met, &items, &swap, 0, &table_of([Some(1); 3], marked));
            assert_eq!(met[7], right);
        }
    }

    /// The sum is exact, and of the entries alone.
    #[test]
    fn sums_are_of_entries() {
        let items = read_sheet(&EXAMPLE).unwrap();
        for (entries, right) in [
            ([None, None, None], 0),
            ([Some(5), None, Some(-7)], -2),
            ([Some(LIMIT), Some(LIMIT), Some(LIMIT)], 3 * LIMIT as i128),
        ] {
            let mut table = table_of(entries, 0);
            assert_eq!(sum_of(&items, &table), right);
            table[3 * RECORD] = 3;
            table[3 * RECORD + 2] = 9;
            assert_eq!(sum_of(&items, &table), right);
        }
    }

    /// Other tables than that of both postings are found.
    #[test]
    fn other_tables_are_found() {
        let lent = |table| Lent { sheet: EXAMPLE.to_vec(), index: vec![], table };
        let judged = |swap: &Swap, number, before: &[u8], after: &[u8]| {
            let (before, after) = (lent(before.to_vec()), lent(after.to_vec()));
            judge(&mut Times::default(), swap, number, &before, &after).is_ok()
        };
        let swap = Swap { giver: 0, taker: 1, quantity: 2 };
        let before = table_of([Some(5), None, None], 9);
        let mut after = table_of([Some(3), Some(2), None], 0);
        after[RECORD + 1] = 2;
        assert!(judged(&swap, 0, &before, &after));
        for at in 0..after.len() {
            let mut wrong = after.clone();
            wrong[at] ^= 1;
            assert!(!judged(&swap, 0, &before, &wrong), "{at}");
            wrong.clone_from(&before);
            wrong[at] ^= 1;
            assert!(!judged(&swap, 18, &before, &wrong), "{at}");
        }
        assert!(judged(&swap, 18, &before, &before));
        assert!(!judged(&swap, 0, &before, &before));
    }
}
