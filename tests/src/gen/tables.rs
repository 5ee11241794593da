//! Random numbers, tables and indexes.

use crate::model::sheet::{item_limit, Item};
use crate::model::table::{encode, owed, Cell, Mark, OWED, RECORD};
use crate::model::value::{Value, LIMIT, WHOLE};
use crate::rng::Rng;

/// A number lay from `-OLDER_LIMIT` to `OLDER_LIMIT` before the range was of grams.
pub const OLDER_LIMIT: i64 = 1_000_000_000_000;

/// Which numbers a list favours.
#[derive(Clone, Copy, Debug, PartialEq, Eq)]
pub enum Numbers {
    Any,
    /// Few and small: equal values are met.
    Small,
    /// Near the limits of the range.
    Limits,
    /// Ten-thousandths, and numbers of which they leave a remainder; for the parents of shares,
    /// also those whose product is on either side of 2^63.
    Shares,
    /// Those of an older table.
    Older,
}

pub fn choose_numbers(rng: &mut Rng) -> Numbers {
    *rng.pick(&[Numbers::Any, Numbers::Any, Numbers::Small, Numbers::Limits, Numbers::Shares])
}

/// A number in range.
pub fn number(rng: &mut Rng, numbers: Numbers) -> i64 {
    match numbers {
        Numbers::Small => rng.between(0, 4) as i64 - 2,
        Numbers::Limits => *rng.pick(&[LIMIT, LIMIT - 1, -LIMIT, 1 - LIMIT, 1, -1]),
        Numbers::Shares => {
            *rng.pick(&[-1, -7, 13, 1, WHOLE / 2, WHOLE / 3, WHOLE, 1 - WHOLE, WHOLE + 1])
        }
        Numbers::Older if rng.percent(30) => *rng.pick(&[OLDER_LIMIT, -OLDER_LIMIT, 1, 0, -1]),
        Numbers::Older => within(rng, OLDER_LIMIT),
        Numbers::Any => any_number(rng),
    }
}

/// Any number from `-most` to `most`.
fn within(rng: &mut Rng, most: i64) -> i64 {
    rng.below(2 * most as u64 + 1) as i64 - most
}

/// A number of either sign in the last twentieth before the limit.
fn near_limit(rng: &mut Rng) -> i64 {
    (LIMIT - rng.below(LIMIT as u64 / 20) as i64) * *rng.pick(&[-1, 1])
}

/// Ten-thousandths whose product with a number at the limit is on either side of 2^63.
fn near_whole(rng: &mut Rng) -> i64 {
    WHOLE - rng.below(800) as i64
}

/// The parents of a share that is a number: over all of the range, and near its limits.
pub fn share_pair(rng: &mut Rng) -> (i64, i64) {
    let first = match rng.below(4) {
        0 => any_number(rng),
        1 => near_limit(rng),
        2 => number(rng, Numbers::Limits),
        _ => within(rng, LIMIT),
    };
    let second = match rng.below(3) {
        0 => rng.below(WHOLE as u64 + 1) as i64,
        1 => near_whole(rng),
        _ => *rng.pick(&[0, 1, 2, WHOLE / 2 - 1, WHOLE / 2, WHOLE / 2 + 1, WHOLE - 1, WHOLE]),
    };
    (first, second)
}

pub fn any_number(rng: &mut Rng) -> i64 {
    match rng.below(16) {
        0..=5 => rng.between(0, 6) as i64 - 3,
        6 => *rng.pick(&[WHOLE, WHOLE + 1, WHOLE / 2, WHOLE - 1, 1]),
        7 | 8 => rng.below(WHOLE as u64 + 1) as i64,
        9 => *rng.pick(&[LIMIT / 2, LIMIT / 2 + 1, -LIMIT / 2, -LIMIT / 2 - 1]),
        10 | 11 => within(rng, 1_000_000),
        12 => power_of_ten(rng),
        _ => within(rng, LIMIT),
    }
}

/// A power of ten in range, one less or more, either sign.
fn power_of_ten(rng: &mut Rng) -> i64 {
    let mut power: i64 = 1;
    for _ in 0..rng.below(18) {
        if power <= LIMIT / 10 {
            power *= 10;
        }
    }
    let near = power + *rng.pick(&[-1, 0, 1]);
    near.min(LIMIT) * *rng.pick(&[-1, 1])
}

/// A number beyond the range.
pub fn beyond(rng: &mut Rng) -> i64 {
    match rng.below(3) {
        0 => *rng.pick(&[LIMIT + 1, -LIMIT - 1, i64::MAX, i64::MIN]),
        1 => LIMIT + 1 + rng.below((i64::MAX - LIMIT) as u64) as i64,
        _ => -(LIMIT + 1 + rng.below((i64::MAX - LIMIT) as u64) as i64),
    }
}

/// A value in range, or NULL.
fn stored_value(rng: &mut Rng, numbers: Numbers) -> Value {
    if rng.percent(25) {
        Value::Null
    } else {
        Value::Number(number(rng, numbers))
    }
}

/// A value for an entry. Where a list favours shares, the second parent of one mostly gets
/// ten-thousandths, and another entry a number near the limit.
pub fn entry_value(rng: &mut Rng, items: &[Item], entry: usize, numbers: Numbers) -> Value {
    let is_part =
        |item: &Item| item.figure.as_ref().is_some_and(|f| f.rule == 5 && f.parents[1] == entry);
    match numbers {
        Numbers::Shares if rng.percent(60) => Value::Number(match items.iter().any(is_part) {
            true => near_whole(rng),
            false => near_limit(rng),
        }),
        _ => stored_value(rng, numbers),
    }
}

/// A table that is accepted, with any marks and any stale values.
pub fn accepted_table(rng: &mut Rng, items: &[Item]) -> Vec<u8> {
    let numbers = choose_numbers(rng);
    table_with(rng, items, numbers)
}

/// The same, with numbers of the range before.
pub fn older_table(rng: &mut Rng, items: &[Item]) -> Vec<u8> {
    table_with(rng, items, Numbers::Older)
}

fn table_with(rng: &mut Rng, items: &[Item], numbers: Numbers) -> Vec<u8> {
    // Few marks on a large sheet, for the time that catching up takes.
    let often: &[u64] = if items.len() > item_limit(1) { &[0, 0, 1] } else { &[0, 10, 50, 90] };
    let (marked, stored) = (*rng.pick(often), *rng.pick(&[10, 50, 70, 100]));
    let cells: Vec<Cell> = items
        .iter()
        .enumerate()
        .map(|(i, item)| {
            let marked = rng.percent(marked);
            let notice = if marked { Mark::Notice } else { Mark::None };
            if item.figure.is_none() {
                let value = entry_value(rng, items, i, numbers);
                return Cell { stored: Some(value), mark: notice };
            }
            if !rng.percent(stored) {
                return Cell { stored: None, mark: notice };
            }
            let value = if rng.percent(10) { Value::Out } else { stored_value(rng, numbers) };
            let mark = if marked && rng.percent(50) { Mark::Refresh } else { notice };
            Cell { stored: Some(value), mark }
        })
        .collect();
    encode(items, &cells)
}

/// Makes the owed bytes of a table true of its kinds, whatever else is in it.
pub fn make_owed_true(items: &[Item], table: &mut [u8]) {
    let stored = |record: &[u8]| (record[0] != 0).then_some(Value::Null);
    let cell = |record: &[u8]| Cell { stored: stored(record), mark: Mark::None };
    let cells: Vec<Cell> = table.chunks(RECORD).map(cell).collect();
    for (record, owed) in table.chunks_mut(RECORD).zip(owed(items, &cells)) {
        record[OWED] = owed as u8;
    }
}

/// The table without its owed bytes, as it was before version 3.0.0.
pub fn narrow(table: &[u8]) -> Vec<u8> {
    table.chunks(RECORD).flat_map(|record| &record[..OWED]).copied().collect()
}

/// The table changed in one to three places, or in its length; in half of the others the owed bytes
/// are then made true of what is stored.
pub fn damaged_table(rng: &mut Rng, items: &[Item], table: &[u8]) -> Vec<u8> {
    if rng.percent(20) {
        return other_length(rng, table, RECORD);
    }
    let mut table = table.to_vec();
    for _ in 0..rng.between(1, 3) {
        let at = rng.below(items.len() as u64) as usize * RECORD;
        damage_record(rng, &mut table[at..at + RECORD]);
    }
    if rng.percent(50) {
        make_owed_true(items, &mut table);
    }
    table
}

fn damage_record(rng: &mut Rng, record: &mut [u8]) {
    match rng.below(6) {
        0 => record[0] = *rng.pick(&[0, 1, 2, 3, 4, 128, 255]),
        1 => record[1] = *rng.pick(&[0, 1, 2, 3, 128, 255]),
        2 => {
            let x = if rng.percent(50) { beyond(rng) } else { any_number(rng) };
            record[2..OWED].copy_from_slice(&x.to_le_bytes());
        }
        3 => record[rng.below(RECORD as u64) as usize] ^= 1 << rng.below(8),
        4 => record[OWED] = *rng.pick(&[0, 1, 1 - record[OWED] % 2, 2, 128, 255]),
        _ => record[rng.below(RECORD as u64) as usize] = rng.word() as u8,
    }
}

/// The index changed in a place, or in its length.
pub fn damaged_index(rng: &mut Rng, index: &[u8]) -> Vec<u8> {
    if rng.percent(35) || index.is_empty() {
        return other_length(rng, index, 4);
    }
    let mut index = index.to_vec();
    for _ in 0..rng.between(1, 3) {
        let place = rng.below(index.len() as u64) as usize;
        index[place] ^= 1 << rng.below(8);
    }
    index
}

/// The bytes cut or lengthened: by one byte, by one record, by a byte of each record, to nothing.
pub fn other_length(rng: &mut Rng, bytes: &[u8], record: usize) -> Vec<u8> {
    let mut bytes = bytes.to_vec();
    let length = match rng.below(6) {
        0 => bytes.len() + 1,
        1 => bytes.len() + record,
        2 => bytes.len().saturating_sub(1),
        3 => bytes.len().saturating_sub(record),
        4 => bytes.len() / record * (record - 1),
        _ => 0,
    };
    bytes.resize(length, 0);
    bytes
}
