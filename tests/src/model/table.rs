//! The work table: one record an item, 11 bytes a record: kind, mark, number and owed.

use super::field::i64_at;
use super::sheet::Item;
use super::value::{in_range, Value};

/// The bytes of a record.
pub const RECORD: usize = 11;
/// Where the owed byte stands in a record.
pub const OWED: usize = 10;

#[derive(Clone, Copy, PartialEq, Eq, Debug)]
pub enum Mark {
    None,
    Refresh,
    Notice,
}

/// An item's stored value (None is UNK) and mark. Whether it is owed follows from all cells.
#[derive(Clone, Copy, PartialEq, Eq, Debug)]
pub struct Cell {
    pub stored: Option<Value>,
    pub mark: Mark,
}

/// A value as its kind and number.
pub fn to_pair(value: Value) -> (u8, i64) {
    match value {
        Value::Null => (1, 0),
        Value::Out => (2, 0),
        Value::Number(x) => (3, x),
    }
}

/// The value of a kind and number; none if they break the form or the range.
pub fn from_pair(kind: u64, number: i64) -> Option<Value> {
    match kind {
        1 if number == 0 => Some(Value::Null),
        2 if number == 0 => Some(Value::Out),
        3 if in_range(number as i128) => Some(Value::Number(number)),
        _ => None,
    }
}

/// Whether an item has a mark.
pub fn is_marked(table: &[u8], item: usize) -> bool {
    table[RECORD * item + 1] != 0
}

/// Whether no mark stands.
pub fn no_mark(table: &[u8]) -> bool {
    table.chunks(RECORD).all(|record| record[1] == 0)
}

/// Which items are owed: some child is stored, or is UNK and itself owed. A child has a higher
/// number than its parents, so that with the highest item first each is known before its parents.
pub fn owed(items: &[Item], cells: &[Cell]) -> Vec<bool> {
    let mut owed = vec![false; items.len()];
    for (child, item) in items.iter().enumerate().rev() {
        if let (Some(figure), true) = (&item.figure, cells[child].stored.is_some() || owed[child]) {
            figure.parents.iter().for_each(|&parent| owed[parent] = true);
        }
    }
    owed
}

/// The cells of a table of the right length; none if a record breaks its form or its range, or if
/// an owed byte is false.
pub fn decode(items: &[Item], table: &[u8]) -> Option<Vec<Cell>> {
    let records = || table.chunks(RECORD);
    let cells: Option<Vec<Cell>> =
        items.iter().zip(records()).map(|(item, bytes)| decode_cell(item, bytes)).collect();
    let cells = cells?;
    let owed = owed(items, &cells);
    let truly = records().zip(owed).all(|(bytes, owed)| bytes[OWED] == owed as u8);
    truly.then_some(cells)
}

fn decode_cell(item: &Item, bytes: &[u8]) -> Option<Cell> {
    let (kind, number) = (bytes[0], i64_at(bytes, 2));
    let mark = match bytes[1] {
        0 => Mark::None,
        1 => Mark::Refresh,
        2 => Mark::Notice,
        _ => return None,
    };
    let stored = if kind == 0 {
        if number != 0 {
            return None;
        }
        None
    } else {
        Some(from_pair(kind as u64, number)?)
    };
    let is_entry = item.figure.is_none();
    if is_entry && (stored.is_none() || stored == Some(Value::Out) || mark == Mark::Refresh) {
        return None;
    }
    if stored.is_none() && mark == Mark::Refresh {
        return None;
    }
    Some(Cell { stored, mark })
}

/// The table of these cells, with the owed bytes that are true of them.
pub fn encode(items: &[Item], cells: &[Cell]) -> Vec<u8> {
    cells.iter().zip(owed(items, cells)).flat_map(|(cell, owed)| record(cell, owed)).collect()
}

pub fn record(cell: &Cell, owed: bool) -> [u8; RECORD] {
    let (kind, number) = cell.stored.map_or((0, 0), to_pair);
    let mut bytes = [0; RECORD];
    bytes[0] = kind;
    bytes[1] = match cell.mark {
        Mark::None => 0,
        Mark::Refresh => 1,
        Mark::Notice => 2,
    };
    bytes[2..OWED].copy_from_slice(&number.to_le_bytes());
    bytes[OWED] = owed as u8;
    bytes
}

#[cfg(test)]
mod tests {
    use super::super::sheet::{read_sheet, EXAMPLE};
    use super::super::value::LIMIT;
    use super::*;
    use crate::gen;
    use crate::rng::Rng;

    fn bytes_of(kind: u8, mark: u8, number: i64) -> Vec<u8> {
        [vec![kind, mark], number.to_le_bytes().to_vec(), vec![0]].concat()
    }

    #[test]
    fn the_form_of_each_cell() {
        let items = read_sheet(&EXAMPLE).unwrap();
        let (entry, figure) = (&items[0], &items[3]);
        for kind in 0..=255u8 {
            for mark in 0..=255u8 {
                for number in [0, 1, -1, LIMIT, LIMIT + 1, -LIMIT, -LIMIT - 1, i64::MIN, i64::MAX] {
                    let number_fits =
                        if kind == 3 { (-LIMIT..=LIMIT).contains(&number) } else { number == 0 };
                    let any = kind <= 3 && mark <= 2 && number_fits;
                    let as_entry = any && kind != 0 && kind != 2 && mark != 1;
                    let as_figure = any && !(kind == 0 && mark == 1);
                    let bytes = bytes_of(kind, mark, number);
                    assert_eq!(decode_cell(entry, &bytes).is_some(), as_entry);
                    assert_eq!(decode_cell(figure, &bytes).is_some(), as_figure);
                    if let Some(c) = decode_cell(figure, &bytes) {
                        assert_eq!(record(&c, false)[..], bytes);
                    }
                }
            }
        }
    }

    /// The paper's sentence, word for word.
    fn is_owed(items: &[Item], cells: &[Cell], i: usize) -> bool {
        let is_child = |c: usize| items[c].figure.iter().any(|f| f.parents.contains(&i));
        let mut children = (0..items.len()).filter(|&c| is_child(c));
        children.any(|c| cells[c].stored.is_some() || is_owed(items, cells, c))
    }

    #[test]
    fn owed_is_as_it_is_defined() {
        let mut rng = Rng::new(12);
        let mut met = [[0; 2]; 3];
        for _ in 0..2_000 {
            let items = read_sheet(&gen::write_sheet(&gen::small_specs(&mut rng))).unwrap();
            let table = gen::accepted_table(&mut rng, &items);
            let cells = decode(&items, &table).unwrap();
            assert_eq!(encode(&items, &cells), table);
            for (i, owed) in owed(&items, &cells).into_iter().enumerate() {
                assert_eq!(owed, is_owed(&items, &cells, i));
                let kind = if items[i].figure.is_none() {
                    0
                } else {
                    1 + (table[RECORD * i] != 0) as usize
                };
                met[kind][owed as usize] += 1;
            }
        }
        assert!(met.iter().flatten().all(|&m| m > 500), "{met:?}");
    }

    /// Of the example's forms each is accepted with its true owed bytes, and with no others.
    #[test]
    fn a_false_owed_byte_breaks_the_table() {
        let items = read_sheet(&EXAMPLE).unwrap();
        let null = Cell { stored: Some(Value::Null), mark: Mark::None };
        let unk = Cell { stored: None, ..null };
        for (t, b, right) in [
            (unk, unk, [0, 0, 0, 0, 0]),
            (null, unk, [1, 0, 1, 0, 0]),
            (unk, null, [1, 1, 1, 1, 0]),
            (null, null, [1, 1, 1, 1, 0]),
        ] {
            let cells = [null, null, null, t, b];
            let table = encode(&items, &cells);
            assert_eq!(table.chunks(RECORD).map(|r| r[OWED]).collect::<Vec<u8>>(), right);
            assert_eq!(decode(&items, &table).as_deref(), Some(&cells[..]));
            for item in 0..5 {
                for byte in (0..=255).filter(|&byte| byte != right[item]) {
                    let mut table = table.clone();
                    table[RECORD * item + OWED] = byte;
                    assert_eq!(decode(&items, &table), None);
                }
            }
        }
    }
}
