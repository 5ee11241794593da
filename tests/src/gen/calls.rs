//! Random calls and day logs.

use super::tables::{any_number, beyond, choose_numbers, entry_value, Numbers};
use super::write::{raw, write_raw};
use crate::model::calls::Call;
use crate::model::sheet::Item;
use crate::model::table::RECORD;
use crate::model::value::Value;
use crate::rng::Rng;

pub fn item_number(rng: &mut Rng, items: &[Item]) -> u64 {
    let n = items.len() as u64;
    if rng.percent(95) {
        return rng.below(n);
    }
    let low = rng.below(n);
    *rng.pick(&[n, n + 1, 65_535, 65_536 + low, (1 << 32) + low, (1 << 63) + low, u64::MAX])
}

/// One of the items that a test picks out, if there is any.
fn item_where(rng: &mut Rng, items: &[Item], test: impl Fn(usize) -> bool) -> Option<u64> {
    let picked: Vec<u64> = (0..items.len()).filter(|&i| test(i)).map(|i| i as u64).collect();
    (!picked.is_empty()).then(|| *rng.pick(&picked))
}

/// A post without a cause 11 to 13. Item 0 of an accepted sheet is an entry.
pub fn good_post(rng: &mut Rng, items: &[Item], numbers: Numbers) -> Call {
    let item = item_where(rng, items, |i| items[i].figure.is_none()).unwrap();
    match entry_value(rng, items, item as usize, numbers) {
        Value::Number(number) => Call::Post { item, kind: 3, number },
        _ => Call::Post { item, kind: 1, number: 0 },
    }
}

/// A post that is refused.
pub fn bad_post(rng: &mut Rng, items: &[Item]) -> Call {
    let n = items.len() as u64;
    let entry = item_where(rng, items, |i| items[i].figure.is_none()).unwrap();
    let figure = item_where(rng, items, |i| items[i].figure.is_some()).unwrap_or(n);
    let bad_kind = *rng.pick(&[0, 2, 4, 257, 259, (1 << 32) + 3, (1 << 63) + 1, u64::MAX]);
    match rng.below(6) {
        0 => Call::Post { item: *rng.pick(&[n, 65_536 + entry, u64::MAX]), kind: 3, number: 0 },
        1 => Call::Post { item: figure, kind: *rng.pick(&[1, 3, bad_kind]), number: 0 },
        2 => Call::Post { item: entry, kind: bad_kind, number: 0 },
        3 => Call::Post { item: entry, kind: 3, number: beyond(rng) },
        4 => Call::Post { item: entry, kind: 1, number: any_number(rng).max(1) },
        _ => {
            Call::Post { item: *rng.pick(&[n, figure, entry]), kind: bad_kind, number: beyond(rng) }
        }
    }
}

/// A keep, drop, step or ask; steps mostly of an item marked in the table.
pub fn other_call(rng: &mut Rng, items: &[Item], table: &[u8]) -> Call {
    let item = item_number(rng, items);
    let figure = match item_where(rng, items, |i| items[i].figure.is_some()) {
        Some(figure) if rng.percent(85) => figure,
        _ => item,
    };
    let marked = item_where(rng, items, |i| table.get(RECORD * i + 1).is_some_and(|&m| m != 0));
    match (rng.below(100), marked) {
        (0..=11, _) => Call::Ask { item },
        (12..=38, _) => Call::Keep { item: figure },
        (39..=58, _) => Call::Drop { item: figure },
        (59..=64, _) => Call::Step { item },
        (_, Some(marked)) => Call::Step { item: marked },
        (65..=94, None) => Call::Keep { item: figure },
        (_, None) => Call::Step { item },
    }
}

/// Any of 01's five calls, refused ones included.
pub fn any_call(rng: &mut Rng, items: &[Item], table: &[u8], numbers: Numbers) -> Call {
    match rng.below(100) {
        0..=27 => good_post(rng, items, numbers),
        28..=32 => bad_post(rng, items),
        _ => other_call(rng, items, table),
    }
}

/// The day field of a call.
pub fn day_field(call: &Call) -> Vec<u8> {
    let (tag, item) = match *call {
        Call::Post { item, .. } => (16, item),
        Call::Ask { item } => (17, item),
        Call::Keep { item } => (18, item),
        Call::Drop { item } => (19, item),
        Call::Step { item } => (20, item),
    };
    let mut content = (item as u16).to_le_bytes().to_vec();
    if let Call::Post { kind, number, .. } = *call {
        content.push(kind as u8);
        content.extend(number.to_le_bytes());
    }
    write_raw(&[raw(tag, content)])
}

/// A day log of calls on these items; some have a field at fault.
pub fn day_log(rng: &mut Rng, items: &[Item], calls: usize) -> Vec<u8> {
    let (faulty, numbers) = (rng.percent(20), choose_numbers(rng));
    let mut log = Vec::new();
    for _ in 0..calls {
        let call = match rng.below(100) {
            0..=39 => good_post(rng, items, numbers),
            40..=64 => Call::Ask { item: item_number(rng, items) },
            65..=67 => {
                Call::Post { item: rng.below(items.len() as u64), kind: 3, number: beyond(rng) }
            }
            68..=69 if faulty => bad_post(rng, items),
            _ => other_call(rng, items, &[]),
        };
        log.extend(day_field(&call));
    }
    log
}
