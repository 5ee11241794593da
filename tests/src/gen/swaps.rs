//! Random swaps.

use crate::model::field::i64_at;
use crate::model::sheet::Item;
use crate::model::swap::Swap;
use crate::model::table::RECORD;
use crate::model::value::LIMIT;
use crate::rng::Rng;

/// The number of each record, 0 for NULL. Of a table that is cut, or is none, the rest holds 0.
pub fn numbers_of(items: &[Item], table: &[u8]) -> Vec<i64> {
    let mut records = table.chunks_exact(RECORD);
    let number = |_| records.next().map_or(0, |record| i64_at(record, 2));
    items.iter().map(number).collect()
}

fn entries(items: &[Item]) -> Vec<u64> {
    (0..).zip(items).filter(|(_, item)| item.figure.is_none()).map(|(i, _)| i).collect()
}

/// Two entries; the same twice only if there is no other.
fn two_entries(rng: &mut Rng, items: &[Item]) -> (u64, u64) {
    let mut entries = entries(items);
    let giver = entries.remove(rng.below(entries.len() as u64) as usize);
    match entries.is_empty() {
        true => (giver, giver),
        false => (giver, *rng.pick(&entries)),
    }
}

/// The most that can go from one entry to another, by the numbers that they hold.
fn room(held: &[i64], giver: u64, taker: u64) -> i64 {
    let limit = LIMIT as i128;
    let (from, to) = (held[giver as usize] as i128, held[taker as usize] as i128);
    (limit + from).min(limit - to).clamp(0, 2 * limit) as i64
}

/// A swap without a cause 11 to 18, of entries that hold these numbers; none if there is no other
/// entry, or no room for what was picked.
pub fn good_swap(rng: &mut Rng, items: &[Item], held: &[i64]) -> Option<Swap> {
    let (giver, taker) = two_entries(rng, items);
    let room = room(held, giver, taker);
    if giver == taker || room < 1 {
        return None;
    }
    let [from, to] = [giver, taker].map(|item| held[item as usize] as i128);
    let quantity = match rng.below(10) {
        0..=3 => rng.between(1, 3) as i64,
        4 => 1,
        // To the limit of one of them, or of both.
        5 => room,
        // All that is held, or an exchange.
        6 => from.clamp(1, room as i128) as i64,
        7 => (from - to).clamp(1, room as i128) as i64,
        _ => rng.between(1, room as u64) as i64,
    };
    Some(Swap { giver, taker, quantity: quantity.min(room) })
}

/// A swap that is refused, for one cause or more.
pub fn bad_swap(rng: &mut Rng, items: &[Item], held: &[i64]) -> Swap {
    let (giver, taker) = two_entries(rng, items);
    let n = items.len() as u64;
    let cut = *rng.pick(&[65_536, 1 << 32, 1 << 63]);
    let absent = *rng.pick(&[n, n + 1, cut + giver, cut + taker, u64::MAX]);
    let figures: Vec<u64> = (0..n).filter(|&i| items[i as usize].figure.is_some()).collect();
    let figure = if figures.is_empty() { absent } else { *rng.pick(&figures) };
    let (over, none) = (over(rng, room(held, giver, taker)), under_one(rng));
    let any = *rng.pick(&[1, over, none]);
    let sides = match rng.below(10) {
        0 | 1 => (absent, *rng.pick(&[giver, taker, figure, absent])),
        2 | 3 => (figure, *rng.pick(&[giver, taker, figure, figure])),
        4 => (giver, giver),
        5 | 6 => return Swap { giver, taker, quantity: none },
        7 | 8 => {
            // From the one that holds less there is no more room, and both results can wrap.
            let turned = held[giver as usize] > held[taker as usize] && rng.percent(70);
            let (giver, taker) = if turned { (taker, giver) } else { (giver, taker) };
            return Swap { giver, taker, quantity: over };
        }
        _ => {
            let sides = [giver, taker, figure, absent];
            let (giver, taker) = (*rng.pick(&sides), *rng.pick(&sides));
            return Swap { giver, taker, quantity: none };
        }
    };
    let (giver, taker) = if rng.percent(50) { sides } else { (sides.1, sides.0) };
    Swap { giver, taker, quantity: any }
}

fn under_one(rng: &mut Rng) -> i64 {
    match rng.below(3) {
        0 => 0,
        1 => -1 - rng.below(LIMIT as u64) as i64,
        _ => *rng.pick(&[-1, -LIMIT, i64::MIN, -i64::MAX]),
    }
}

/// More than there is room for.
fn over(rng: &mut Rng, room: i64) -> i64 {
    match rng.below(4) {
        0 => room + 1,
        1 => i64::MAX,
        2 => room + 1 + rng.below(LIMIT as u64) as i64,
        _ => room + 1 + rng.below((i64::MAX - room) as u64) as i64,
    }
}

/// Any swap; a third is refused for its arguments.
pub fn any_swap(rng: &mut Rng, items: &[Item], held: &[i64]) -> Swap {
    match good_swap(rng, items, held) {
        Some(swap) if rng.percent(67) => swap,
        _ => bad_swap(rng, items, held),
    }
}

#[cfg(test)]
mod tests {
    use super::super::{accepted_table, small_specs, write_sheet};
    use super::*;
    use crate::model::sheet::{index_of, read_sheet};
    use crate::model::swap::swap;

    /// Good swaps are accepted and bad ones refused, for each cause, on any accepted table.
    #[test]
    fn swaps_are_as_named() {
        let mut rng = Rng::new(10);
        let (mut met, mut good) = ([0; 19], 0);
        for _ in 0..3_000 {
            let sheet = write_sheet(&small_specs(&mut rng));
            let items = read_sheet(&sheet).unwrap();
            let table = accepted_table(&mut rng, &items);
            let held = numbers_of(&items, &table);
            let number = |s: Swap| swap(&s, &sheet, &index_of(&items), &mut table.clone()).number;
            if let Some(s) = good_swap(&mut rng, &items, &held) {
                assert_eq!(number(s), 0);
                good += 1;
            }
            met[number(bad_swap(&mut rng, &items, &held)) as usize] += 1;
        }
        assert!(good > 1_000, "{good}");
        assert_eq!(met[..11], [0; 11]);
        assert!([11, 12, 13, 18].iter().all(|&n| met[n] > 200), "{met:?}");
    }

    /// A table that is cut has numbers for all items.
    #[test]
    fn numbers_of_any_table() {
        let mut rng = Rng::new(11);
        let items = read_sheet(&write_sheet(&small_specs(&mut rng))).unwrap();
        let table = accepted_table(&mut rng, &items);
        for length in 0..table.len() {
            assert_eq!(numbers_of(&items, &table[..length]).len(), items.len());
        }
    }
}
