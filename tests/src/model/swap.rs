//! The swap: one entry loses a quantity and another gains it, as one act.

use super::calls::{cause, item_of, read_lent, refused, Reply, ACCEPTED};
use super::machine::Machine;
use super::sheet::{Fault, Item};
use super::table::{encode, Cell};
use super::value::{ranged, Value};

/// The arguments of a swap as given.
#[derive(Clone, Copy, PartialEq, Eq, Debug)]
pub struct Swap {
    pub giver: u64,
    pub taker: u64,
    pub quantity: i64,
}

/// A refused swap leaves every lent byte.
pub fn swap(swap: &Swap, sheet: &[u8], index: &[u8], table: &mut [u8]) -> Reply {
    match accepted_swap(swap, sheet, index, table) {
        Err(fault) => refused(fault),
        Ok(new_table) => {
            table.copy_from_slice(&new_table);
            ACCEPTED
        }
    }
}

/// The table afterwards.
fn accepted_swap(swap: &Swap, sheet: &[u8], index: &[u8], table: &[u8]) -> Result<Vec<u8>, Fault> {
    let (items, cells) = read_lent(sheet, index, table)?;
    let mut machine = Machine::new(&items, cells);
    perform_swap(swap, &items, &mut machine)?;
    Ok(encode(&items, &machine.cells))
}

/// A swap on what is lent and in form: refusals 11, 12, 18 and 13, each of both sides before the
/// next; or both results are posted, the giver's first.
pub(super) fn perform_swap(
    swap: &Swap,
    items: &[Item],
    machine: &mut Machine,
) -> Result<(), Fault> {
    let giver = item_of(items, swap.giver)?;
    let taker = item_of(items, swap.taker)?;
    is_entry(items, giver)?;
    is_entry(items, taker)?;
    if giver == taker || swap.quantity < 1 {
        return Err(cause(18));
    }
    let quantity = swap.quantity as i128;
    let given = result(held(&machine.cells[giver]) - quantity)?;
    let taken = result(held(&machine.cells[taker]) + quantity)?;
    machine.post(giver, given);
    machine.post(taker, taken);
    Ok(())
}

/// Refusal 12.
fn is_entry(items: &[Item], i: usize) -> Result<(), Fault> {
    match items[i].figure {
        Some(_) => Err(cause(12)),
        None => Ok(()),
    }
}

/// What an entry holds, NULL as 0.
fn held(cell: &Cell) -> i128 {
    match cell.stored {
        Some(Value::Number(x)) => x as i128,
        _ => 0,
    }
}

/// An exact result as a value, or refusal 13.
fn result(exact: i128) -> Result<Value, Fault> {
    match ranged(exact) {
        Value::Out => Err(cause(13)),
        value => Ok(value),
    }
}

#[cfg(test)]
mod tests {
    use super::super::calls::{call, open, Call};
    use super::super::sheet::EXAMPLE;
    use super::super::value::LIMIT;
    use super::*;

    struct Ledger {
        index: Vec<u8>,
        table: Vec<u8>,
    }

    /// The example, with a number or NULL for each entry.
    fn posted(entries: [Option<i64>; 3]) -> Ledger {
        let mut b = Ledger { index: vec![7; 20], table: vec![7; 55] };
        assert_eq!(open(false, &EXAMPLE, &mut b.index, &mut b.table), ACCEPTED);
        for (item, entry) in (0..).zip(entries) {
            let (kind, number) = entry.map_or((1, 0), |number| (3, number));
            b.post(item, kind, number);
        }
        b
    }

    impl Ledger {
        fn post(&mut self, item: u64, kind: u64, number: i64) {
            let post = Call::Post { item, kind, number };
            assert_eq!(call(&post, &EXAMPLE, &self.index, &mut self.table), ACCEPTED);
        }

        fn swap(&mut self, giver: u64, taker: u64, quantity: i64) -> Reply {
            let given = Swap { giver, taker, quantity };
            swap(&given, &EXAMPLE, &self.index, &mut self.table)
        }

        /// The number of a refusal that leaves the table as it was.
        fn refusal(&mut self, giver: u64, taker: u64, quantity: i64) -> u64 {
            let before = self.table.clone();
            let reply = self.swap(giver, taker, quantity);
            assert_eq!(self.table, before);
            assert_eq!((reply.offset, reply.kind, reply.value), (0, 0, 0));
            reply.number
        }
    }

    /// The table is that of two posts, also where NULL becomes 0 or a mark stood.
    #[test]
    fn a_swap_is_two_posts() {
        for (entries, giver, taker, quantity, given, taken) in [
            ([Some(5), Some(7), None], 0, 1, 2, 3, 9),
            ([Some(5), Some(7), None], 1, 0, 7, 0, 12),
            ([None, Some(7), None], 0, 1, 1, -1, 8),
            ([Some(5), None, None], 0, 1, 5, 0, 5),
            ([None, None, None], 2, 0, LIMIT, -LIMIT, LIMIT),
            ([Some(-LIMIT), Some(LIMIT), None], 1, 0, 2 * LIMIT, -LIMIT, LIMIT),
        ] {
            let (mut one, mut two) = (posted(entries), posted(entries));
            for ledger in [&mut one, &mut two] {
                let ask = Call::Ask { item: 4 };
                assert_eq!(call(&ask, &EXAMPLE, &ledger.index, &mut ledger.table).number, 0);
            }
            assert_eq!(one.swap(giver, taker, quantity), ACCEPTED);
            two.post(giver, 3, given);
            two.post(taker, 3, taken);
            assert_eq!(one.table, two.table);
            for (item, number) in [(giver as usize, given), (taker as usize, taken)] {
                assert_eq!(one.table[11 * item..11 * item + 2], [3, 2]);
                assert_eq!(one.table[11 * item + 2..11 * item + 10], number.to_le_bytes());
            }
            assert_eq!(one.table[0..33].chunks(11).filter(|record| record[1] == 2).count(), 2);
        }
    }

    #[test]
    fn refusals_in_order() {
        let mut b = posted([Some(LIMIT), Some(-LIMIT), None]);
        for item in [5, 65_536, 1 << 32, u64::MAX] {
            for other in [0, 3, item] {
                for quantity in [1, 0, i64::MIN, i64::MAX] {
                    assert_eq!(b.refusal(item, other, quantity), 11);
                    assert_eq!(b.refusal(other, item, quantity), 11);
                }
            }
        }
        for (giver, taker) in [(3, 0), (0, 4), (3, 3), (4, 3)] {
            for quantity in [1, 0, i64::MIN, i64::MAX] {
                assert_eq!(b.refusal(giver, taker, quantity), 12);
            }
        }
        for quantity in [1, 0, -1, i64::MIN, i64::MAX] {
            assert_eq!(b.refusal(0, 0, quantity), 18);
            assert_eq!(b.refusal(2, 2, quantity), 18);
        }
        for quantity in [0, -1, -LIMIT, i64::MIN] {
            assert_eq!(b.refusal(0, 1, quantity), 18);
            assert_eq!(b.refusal(1, 0, quantity), 18);
        }
        for (giver, taker, quantity) in
            [(1, 2, 1), (2, 0, 1), (1, 0, 1), (2, 1, LIMIT + 1), (0, 1, 2 * LIMIT + 1)]
        {
            assert_eq!(b.refusal(giver, taker, quantity), 13);
            assert_eq!(b.refusal(giver, taker, i64::MAX), 13);
        }
        assert_eq!(b.swap(0, 1, 2 * LIMIT), ACCEPTED);
        let mut b = posted([Some(-2), Some(1), None]);
        assert_eq!(b.refusal(0, 1, i64::MAX), 13);
    }

    #[test]
    fn what_is_lent_is_tested_first() {
        let mut b = posted([Some(1), None, None]);
        let (index, table) = (b.index.clone(), b.table.clone());
        b.table[54] = 1;
        assert_eq!(b.refusal(9, 9, 0), 10);
        (b.table[53], b.table[54]) = (1, 0);
        assert_eq!(b.refusal(3, 3, 0), 10);
        b.index[19] = 1;
        assert_eq!(b.refusal(9, 9, 0), 9);
        b.table.pop();
        assert_eq!(b.refusal(9, 9, 0), 8);
        let given = Swap { giver: 0, taker: 1, quantity: 1 };
        assert_eq!(swap(&given, &EXAMPLE[..45], &b.index, &mut b.table).number, 1);
        (b.index, b.table) = (index, table);
        assert_eq!(b.swap(0, 1, 1), ACCEPTED);
    }
}
