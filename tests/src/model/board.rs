//! The morning board: the values of up to 64 items by one call.

use super::calls::{cause, item_of, read_lent, refused, Reply, ACCEPTED};
use super::field::u16_at;
use super::machine::Machine;
use super::sheet::{Fault, Item};
use super::table::{encode, to_pair};
use super::value::Value;

pub const MOST_ITEMS: usize = 64;
/// The bytes of an item in the list.
pub const ITEM: usize = 2;
/// The bytes of a result: kind, number.
pub const RESULT: usize = 9;

/// The two lists that a board is lent besides sheet, index and table.
#[derive(Clone, PartialEq, Eq, Debug)]
pub struct Board {
    pub items: Vec<u8>,
    pub results: Vec<u8>,
}

/// Catches up, looks the listed items up and writes a result for each. An empty list changes
/// nothing, and a refused board leaves every lent byte.
pub fn board(
    sheet: &[u8],
    index: &[u8],
    table: &mut [u8],
    items: &[u8],
    results: &mut [u8],
) -> Reply {
    match accepted_board(sheet, index, table, items, results.len()) {
        Err(fault) => refused(fault),
        Ok((new_table, values)) => {
            table.copy_from_slice(&new_table);
            results.copy_from_slice(&encode_results(&values));
            ACCEPTED
        }
    }
}

/// The table afterwards, and the values in list order.
fn accepted_board(
    sheet: &[u8],
    index: &[u8],
    table: &[u8],
    items: &[u8],
    results_len: usize,
) -> Result<(Vec<u8>, Vec<Value>), Fault> {
    let (circuit, cells) = read_lent(sheet, index, table)?;
    lists(items, results_len)?;
    let listed = listed_items(&circuit, items)?;
    if listed.is_empty() {
        return Ok((table.to_vec(), vec![]));
    }
    let mut machine = Machine::new(&circuit, cells);
    machine.catch_up();
    let values = listed.iter().map(|&i| machine.look_up(i).0).collect();
    Ok((encode(&circuit, &machine.cells), values))
}

/// Refusal 17.
fn lists(items: &[u8], results_len: usize) -> Result<(), Fault> {
    let count = items.len() / ITEM;
    if items.len() % ITEM != 0 || count > MOST_ITEMS || results_len != RESULT * count {
        return Err(cause(17));
    }
    Ok(())
}

/// The items of a list of even length, or refusal 11 for any of them.
fn listed_items(circuit: &[Item], items: &[u8]) -> Result<Vec<usize>, Fault> {
    items.chunks(ITEM).map(|two| item_of(circuit, u16_at(two, 0) as u64)).collect()
}

/// The result list of these values.
pub fn encode_results(values: &[Value]) -> Vec<u8> {
    let mut bytes = Vec::new();
    for &value in values {
        let (kind, number) = to_pair(value);
        bytes.push(kind);
        bytes.extend(number.to_le_bytes());
    }
    bytes
}

#[cfg(test)]
mod tests {
    use super::super::calls::{call, open, Call};
    use super::super::sheet::EXAMPLE;
    use super::super::value::LIMIT;
    use super::*;

    struct Ledger {
        index: Vec<u8>,
        table: Vec<u8>,
    }

    /// The example with 1,000 and 300 posted.
    fn posted() -> Ledger {
        let mut b = Ledger { index: vec![7; 20], table: vec![7; 55] };
        assert_eq!(open(false, &EXAMPLE, &mut b.index, &mut b.table), ACCEPTED);
        for (item, number) in [(0, 1_000), (1, 300)] {
            let post = Call::Post { item, kind: 3, number };
            assert_eq!(call(&post, &EXAMPLE, &b.index, &mut b.table), ACCEPTED);
        }
        b
    }

    fn list(items: &[u16]) -> Vec<u8> {
        items.iter().flat_map(|i| i.to_le_bytes()).collect()
    }

    impl Ledger {
        fn board(&mut self, items: &[u8], results: &mut [u8]) -> Reply {
            board(&EXAMPLE, &self.index, &mut self.table, items, results)
        }

        /// The number of a refusal that leaves every byte.
        fn refusal(&mut self, items: &[u8], results_len: usize) -> u64 {
            let (before, mut results) = (self.table.clone(), vec![0xEE; results_len]);
            let reply = self.board(items, &mut results);
            assert_eq!((&self.table, results), (&before, vec![0xEE; results_len]));
            assert_eq!((reply.offset, reply.kind, reply.value), (0, 0, 0));
            reply.number
        }
    }

    #[test]
    fn values_in_list_order() {
        let mut b = posted();
        let mut results = [0xEE; 45];
        assert_eq!(b.board(&list(&[4, 2, 0, 4, 3]), &mut results), ACCEPTED);
        let right = [700, 0, 1_000, 700, 1_000].map(|x: i64| if x == 0 { (1, 0) } else { (3, x) });
        let pair = |r: &[u8]| (r[0], i64::from_le_bytes(r[1..].try_into().unwrap()));
        assert_eq!(results.chunks(9).map(pair).collect::<Vec<_>>(), right);
        // Figure 3 is kept, so that 0 and 2 are owed; figure 4 is not, and no mark stands.
        let bytes = |at: usize| b.table.chunks(11).map(|r| r[at]).collect::<Vec<u8>>();
        assert_eq!((bytes(0)[3..].to_vec(), bytes(10)), (vec![3, 0], vec![1, 0, 1, 0, 0]));
        assert_eq!(bytes(1), [0; 5]);
        let post = Call::Post { item: 0, kind: 3, number: LIMIT };
        call(&post, &EXAMPLE, &b.index, &mut b.table);
        let post = Call::Post { item: 2, kind: 3, number: 1 };
        call(&post, &EXAMPLE, &b.index, &mut b.table);
        assert_eq!(b.board(&list(&[3]), &mut results[..9]), ACCEPTED);
        assert_eq!(results[..9], [2, 0, 0, 0, 0, 0, 0, 0, 0]);
    }

    #[test]
    fn an_empty_list_changes_nothing() {
        let mut b = posted();
        let before = b.table.clone();
        assert_eq!((b.table[1], b.table[12]), (2, 2));
        assert_eq!(b.board(&[], &mut []), ACCEPTED);
        assert_eq!(b.table, before);
        assert_eq!(b.refusal(&[], 1), 17);
        assert_eq!(b.refusal(&[], 9), 17);
        b.index[0] ^= 1;
        assert_eq!(b.refusal(&[], 0), 9);
    }

    #[test]
    fn refusals_in_order() {
        let mut b = posted();
        let (most, over) = (vec![4; 64], vec![4; 65]);
        for (items, results_len) in [(64, 575), (64, 577), (64, 567), (64, 585), (65, 585)] {
            assert_eq!(b.refusal(&list(&over[..items]), results_len), 17);
        }
        for length in [1, 127, 129] {
            assert_eq!(b.refusal(&list(&over)[..length], length / 2 * 9), 17);
            assert_eq!(b.refusal(&list(&over)[..length], length.div_ceil(2) * 9), 17);
        }
        for place in [0, 31, 63] {
            for item in [5, 6, 255, 260, 65_535] {
                let mut items = most.clone();
                items[place] = item;
                assert_eq!(b.refusal(&list(&items), 576), 11);
                assert_eq!(b.refusal(&list(&items), 575), 17);
                items.push(4);
                assert_eq!(b.refusal(&list(&items), 585), 17);
            }
        }
        b.table[53] = 1;
        assert_eq!(b.refusal(&list(&over), 0), 10);
        b.index[19] = 1;
        assert_eq!(b.refusal(&list(&over), 0), 9);
        b.table.pop();
        assert_eq!(b.refusal(&[5], 0), 8);
        assert_eq!(board(&EXAMPLE[..45], &[], &mut [], &[5], &mut []).number, 1);
    }

    #[test]
    fn sixty_four_items_are_taken() {
        let mut b = posted();
        let mut results = vec![0; 576];
        assert_eq!(b.board(&list(&[4; 64]), &mut results), ACCEPTED);
        assert_eq!(results, encode_results(&[Value::Number(700); 64]));
    }
}
