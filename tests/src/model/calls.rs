//! The openings and 01's five calls on bytes, with their refusals.

use super::machine::Machine;
use super::sheet::{index_of, read_sheet, Fault, Item};
use super::table::{decode, encode, from_pair, to_pair, Cell, Mark, RECORD};
use super::value::Value;

/// What a call gives. Only an accepted ask has a kind and a value.
#[derive(Clone, Copy, PartialEq, Eq, Debug)]
pub struct Reply {
    pub number: u64,
    pub offset: u64,
    pub kind: u64,
    pub value: i64,
}

/// A call with its arguments as given.
#[derive(Clone, Copy, PartialEq, Eq, Debug)]
pub enum Call {
    Post { item: u64, kind: u64, number: i64 },
    Keep { item: u64 },
    Drop { item: u64 },
    Step { item: u64 },
    Ask { item: u64 },
}

pub(super) const ACCEPTED: Reply = Reply { number: 0, offset: 0, kind: 0, value: 0 };

pub(super) fn refused(fault: Fault) -> Reply {
    Reply { number: fault.number, offset: fault.offset, ..ACCEPTED }
}

pub(super) fn cause(number: u64) -> Fault {
    Fault { number, offset: 0 }
}

/// Opens bare (figures UNK) or full (figures NULL).
pub fn open(full: bool, sheet: &[u8], index: &mut [u8], table: &mut [u8]) -> Reply {
    let items = match read_sheet(sheet) {
        Ok(items) => items,
        Err(fault) => return refused(fault),
    };
    if let Err(fault) = lengths(&items, index, table) {
        return refused(fault);
    }
    index.copy_from_slice(&index_of(&items));
    table.copy_from_slice(&encode(&items, &opened(full, &items)));
    ACCEPTED
}

/// The cells of an opening.
pub(super) fn opened(full: bool, items: &[Item]) -> Vec<Cell> {
    let stored = |item: &Item| (item.figure.is_none() || full).then_some(Value::Null);
    items.iter().map(|item| Cell { stored: stored(item), mark: Mark::None }).collect()
}

/// Refusal 8.
fn lengths(items: &[Item], index: &[u8], table: &[u8]) -> Result<(), Fault> {
    if index.len() != 4 * items.len() || table.len() != RECORD * items.len() {
        return Err(cause(8));
    }
    Ok(())
}

/// Refusals 1 to 10.
pub(super) fn read_lent(
    sheet: &[u8],
    index: &[u8],
    table: &[u8],
) -> Result<(Vec<Item>, Vec<Cell>), Fault> {
    let items = read_sheet(sheet)?;
    lengths(&items, index, table)?;
    if index != index_of(&items) {
        return Err(cause(9));
    }
    let cells = decode(&items, table).ok_or(cause(10))?;
    Ok((items, cells))
}

/// Refusal 11.
pub(super) fn item_of(items: &[Item], item: u64) -> Result<usize, Fault> {
    if item >= items.len() as u64 {
        return Err(cause(11));
    }
    Ok(item as usize)
}

/// A figure, or refusals 11 and 12.
fn figure_of(items: &[Item], item: u64) -> Result<usize, Fault> {
    let i = item_of(items, item)?;
    items[i].figure.as_ref().map(|_| i).ok_or(cause(12))
}

/// The value that a post gives, or refusal 13.
fn posted(kind: u64, number: i64) -> Result<Value, Fault> {
    match from_pair(kind, number) {
        Some(Value::Out) | None => Err(cause(13)),
        Some(value) => Ok(value),
    }
}

/// One of 01's five calls. A refused call leaves every lent byte.
pub fn call(call: &Call, sheet: &[u8], index: &[u8], table: &mut [u8]) -> Reply {
    match accepted_call(call, sheet, index, table) {
        Err(fault) => refused(fault),
        Ok((new_table, answer)) => {
            table.copy_from_slice(&new_table);
            reply_of(Ok(answer))
        }
    }
}

/// What a call gives that is refused, or that has an ask's value or none.
pub(super) fn reply_of(answer: Result<Option<Value>, Fault>) -> Reply {
    match answer.map(|value| value.map(to_pair)) {
        Err(fault) => refused(fault),
        Ok(None) => ACCEPTED,
        Ok(Some((kind, value))) => Reply { kind: kind as u64, value, ..ACCEPTED },
    }
}

/// The table afterwards, and an ask's value.
fn accepted_call(
    call: &Call,
    sheet: &[u8],
    index: &[u8],
    table: &[u8],
) -> Result<(Vec<u8>, Option<Value>), Fault> {
    let (items, cells) = read_lent(sheet, index, table)?;
    let mut machine = Machine::new(&items, cells);
    let answer = perform(call, &items, &mut machine)?;
    Ok((encode(&items, &machine.cells), answer))
}

/// A call on what is lent and in form: refusals 11 to 14, or an ask's value.
pub(super) fn perform(
    call: &Call,
    items: &[Item],
    machine: &mut Machine,
) -> Result<Option<Value>, Fault> {
    let mut answer = None;
    match *call {
        Call::Post { item, kind, number } => {
            let i = item_of(items, item)?;
            if items[i].figure.is_some() {
                return Err(cause(12));
            }
            machine.post(i, posted(kind, number)?);
        }
        Call::Keep { item } => machine.keep(figure_of(items, item)?),
        Call::Drop { item } => machine.drop(figure_of(items, item)?),
        Call::Step { item } => {
            let i = item_of(items, item)?;
            if machine.cells[i].mark == Mark::None {
                return Err(cause(14));
            }
            machine.step(i);
        }
        Call::Ask { item } => {
            let i = item_of(items, item)?;
            answer = Some(machine.ask(i));
        }
    }
    Ok(answer)
}

#[cfg(test)]
mod tests {
    use super::super::sheet::EXAMPLE;
    use super::super::value::LIMIT;
    use super::*;

    struct Ledger {
        index: Vec<u8>,
        table: Vec<u8>,
    }

    fn ledger(full: bool) -> Ledger {
        let mut b = Ledger { index: vec![7; 20], table: vec![7; 55] };
        assert_eq!(open(full, &EXAMPLE, &mut b.index, &mut b.table), ACCEPTED);
        b
    }

    impl Ledger {
        fn give(&mut self, c: Call) -> Reply {
            call(&c, &EXAMPLE, &self.index, &mut self.table)
        }

        /// Kind, mark, number and owed.
        fn record(&self, item: usize) -> (u8, u8, i64, u8) {
            let bytes = &self.table[11 * item..11 * item + 11];
            (bytes[0], bytes[1], i64::from_le_bytes(bytes[2..10].try_into().unwrap()), bytes[10])
        }

        /// The number of a refusal that leaves the table as it was.
        fn refusal(&mut self, c: Call) -> u64 {
            let before = self.table.clone();
            let reply = self.give(c);
            assert_eq!(self.table, before);
            assert_eq!((reply.offset, reply.kind, reply.value), (0, 0, 0));
            reply.number
        }
    }

    fn post(item: u64, kind: u64, number: i64) -> Call {
        Call::Post { item, kind, number }
    }

    #[test]
    fn openings_write_index_and_table() {
        let (bare, full) = (ledger(false), ledger(true));
        assert_eq!(bare.index, [7, 0, 0, 0, 11, 0, 0, 0, 15, 0, 0, 0, 19, 0, 0, 0, 31, 0, 0, 0]);
        let bytes = |b: &Ledger, at: usize| b.table.chunks(11).map(|r| r[at]).collect::<Vec<u8>>();
        assert_eq!(bytes(&bare, 0), [1, 1, 1, 0, 0]);
        assert_eq!(bytes(&full, 0), [1; 5]);
        for at in 1..10 {
            assert_eq!((bytes(&bare, at), bytes(&full, at)), (vec![0; 5], vec![0; 5]));
        }
        assert_eq!(bytes(&bare, 10), [0; 5]);
        // Item 4 has no child.
        assert_eq!(bytes(&full, 10), [1, 1, 1, 1, 0]);
    }

    #[test]
    fn openings_refuse() {
        let (mut index, mut table) = (vec![7; 20], vec![7; 55]);
        assert_eq!(open(false, &EXAMPLE[..45], &mut index, &mut table).number, 1);
        assert_eq!(open(false, &EXAMPLE[..45], &mut index, &mut table).offset, 43);
        assert_eq!(open(true, &EXAMPLE, &mut index[1..], &mut table).number, 8);
        assert_eq!(open(true, &EXAMPLE, &mut index, &mut table[1..]).number, 8);
        assert_eq!(open(true, &EXAMPLE[..45], &mut index[1..], &mut table).number, 1);
        assert_eq!(open(false, &EXAMPLE, &mut index, &mut table[..50]).number, 8);
        assert_eq!((index, table), (vec![7; 20], vec![7; 55]));
    }

    #[test]
    fn refusals_8_to_10_in_order() {
        let b = ledger(false);
        let ask = Call::Ask { item: 99 };
        let number =
            |index: &[u8], table: &[u8]| call(&ask, &EXAMPLE, index, &mut table.to_vec()).number;
        let (mut bad_index, mut bad_table) = (b.index.clone(), b.table.clone());
        bad_index[19] = 1;
        assert_eq!(number(&b.index, &b.table), 11);
        // A number, and an owed byte.
        for at in [53, 54] {
            bad_table.clone_from(&b.table);
            bad_table[at] = 1;
            assert_eq!(number(&bad_index[..16], &bad_table), 8);
            for length in [44, 50, 54] {
                assert_eq!(number(&bad_index, &bad_table[..length]), 8);
            }
            assert_eq!(number(&bad_index, &bad_table), 9);
            assert_eq!(number(&b.index, &bad_table), 10);
        }
        let mut short = EXAMPLE[..45].to_vec();
        assert_eq!(call(&ask, &short, &bad_index, &mut bad_table).number, 1);
        short[3] = 3;
        assert_eq!(call(&ask, &short, &bad_index, &mut bad_table).number, 4);
        short[3] = 2;
        assert_eq!(call(&ask, &short, &bad_index, &mut bad_table).number, 1);
    }

    #[test]
    fn refusals_11_to_14_in_order() {
        let mut b = ledger(false);
        for item in [5, 6, 65_536, 1 << 32, u64::MAX] {
            assert_eq!(b.refusal(post(item, 2, 0)), 11);
            assert_eq!(b.refusal(Call::Keep { item }), 11);
            assert_eq!(b.refusal(Call::Drop { item }), 11);
            assert_eq!(b.refusal(Call::Step { item }), 11);
            assert_eq!(b.refusal(Call::Ask { item }), 11);
        }
        assert_eq!(b.refusal(post(3, 2, 0)), 12);
        assert_eq!(b.refusal(Call::Keep { item: 2 }), 12);
        assert_eq!(b.refusal(Call::Drop { item: 2 }), 12);
        for kind in [0, 2, 4, 257, 259, 1 << 32, u64::MAX] {
            assert_eq!(b.refusal(post(0, kind, 0)), 13);
        }
        assert_eq!(b.refusal(post(0, 1, 1)), 13);
        for number in [LIMIT + 1, -LIMIT - 1, i64::MAX, i64::MIN] {
            assert_eq!(b.refusal(post(0, 3, number)), 13);
        }
        assert_eq!(b.give(post(0, 3, LIMIT)), ACCEPTED);
        assert_eq!(b.give(post(0, 3, -LIMIT)), ACCEPTED);
        assert_eq!(b.give(post(0, 1, 0)), ACCEPTED);
        assert_eq!(b.refusal(Call::Step { item: 1 }), 14);
        assert_eq!(b.refusal(Call::Step { item: 4 }), 14);
        assert_eq!(b.give(Call::Step { item: 0 }), ACCEPTED);
    }

    #[test]
    fn a_call_at_a_time() {
        let mut b = ledger(false);
        b.give(post(0, 3, 5));
        assert_eq!(b.record(0), (3, 2, 5, 0));
        b.give(Call::Keep { item: 3 });
        assert_eq!((b.record(0), b.record(3)), ((3, 2, 5, 1), (3, 2, 5, 0)));
        b.give(Call::Step { item: 0 });
        assert_eq!((b.record(0), b.record(3)), ((3, 0, 5, 1), (3, 2, 5, 0)));
        b.give(post(2, 3, 1));
        assert_eq!(b.record(2), (3, 2, 1, 1));
        // Item 4 is UNK and not owed.
        b.give(Call::Step { item: 3 });
        assert_eq!((b.record(3), b.record(4)), ((3, 0, 5, 0), (0, 0, 0, 0)));
        b.give(Call::Step { item: 2 });
        assert_eq!(b.record(3), (3, 1, 5, 0));
        b.give(Call::Step { item: 3 });
        assert_eq!(b.record(3), (3, 2, 6, 0));
        b.give(Call::Drop { item: 3 });
        assert_eq!((b.record(3), b.record(0)), ((0, 2, 0, 0), (3, 0, 5, 0)));
        b.give(Call::Keep { item: 4 });
        assert_eq!((b.record(4), b.record(1)), ((3, 2, 6, 0), (1, 0, 0, 1)));
        // Item 3 was kept on the way, and both are marked.
        assert_eq!((b.record(3), b.record(0)), ((3, 2, 6, 1), (3, 0, 5, 1)));
        b.give(Call::Drop { item: 3 });
        assert_eq!((b.record(3), b.record(0)), ((0, 2, 0, 1), (3, 0, 5, 1)));
        let reply = b.give(Call::Ask { item: 4 });
        assert_eq!((reply.number, reply.kind, reply.value), (0, 3, 6));
        assert!(b.table.chunks(11).all(|r| r[1] == 0));
    }
}
