//! The season-close run: all figures worked out anew and stored, in one pass.

use super::calls::{read_lent, refused, Reply, ACCEPTED};
use super::sheet::Item;
use super::table::{encode, Cell, Mark};
use super::value::{apply, Value};

/// Goes over the items once, lowest first. A refused run leaves every lent byte.
pub fn close(sheet: &[u8], index: &[u8], table: &mut [u8]) -> Reply {
    match read_lent(sheet, index, table) {
        Err(fault) => refused(fault),
        Ok((items, mut cells)) => {
            run(&items, &mut cells);
            table.copy_from_slice(&encode(&items, &cells));
            ACCEPTED
        }
    }
}

/// An entry keeps its value. A figure is worked out from its parents, which the run has passed, and
/// stored. No mark is left.
pub(super) fn run(items: &[Item], cells: &mut [Cell]) {
    for (i, item) in items.iter().enumerate() {
        if let Some(figure) = &item.figure {
            let stored = |&parent: &usize| cells[parent].stored.unwrap();
            let parents: Vec<Value> = figure.parents.iter().map(stored).collect();
            cells[i].stored = Some(apply(figure.rule, &parents));
        }
        cells[i].mark = Mark::None;
    }
}

#[cfg(test)]
mod tests {
    use super::super::calls::{call, open, Call};
    use super::super::sheet::{index_of, read_sheet, EXAMPLE};
    use super::super::value::LIMIT;
    use super::*;

    /// A record: kind, mark, number.
    type Record = (u8, u8, i64);

    /// The owed bytes of 0 to 4 are true where figure 3 or 4 is stored.
    fn table_of(records: [Record; 5]) -> Vec<u8> {
        let [t, b] = [3, 4].map(|figure: usize| (records[figure].0 != 0) as u8);
        let owed = [t | b, b, t | b, b, 0];
        let record = |((kind, mark, number), owed): (Record, u8)| {
            [vec![kind, mark], number.to_le_bytes().to_vec(), vec![owed]].concat()
        };
        records.into_iter().zip(owed).flat_map(record).collect()
    }

    fn closed(before: [Record; 5], after: [Record; 5]) {
        let index = index_of(&read_sheet(&EXAMPLE).unwrap());
        let mut table = table_of(before);
        for _ in 0..2 {
            assert_eq!(close(&EXAMPLE, &index, &mut table), ACCEPTED);
            assert_eq!(table, table_of(after), "{before:?}");
        }
    }

    #[test]
    fn every_figure_is_stored() {
        let entries = [(3, 0, 1_000), (3, 0, 300), (1, 0, 0)];
        let [a, l, s] = entries;
        let right = [a, l, s, (3, 0, 1_000), (3, 0, 700)];
        for (first, second) in [
            ((0, 0, 0), (0, 0, 0)),
            ((0, 2, 0), (0, 2, 0)),
            ((1, 1, 0), (1, 2, 0)),
            ((3, 0, 5), (2, 0, 0)),
            ((2, 2, 0), (3, 1, 700)),
            right[3..].try_into().map(|[t, b]: [Record; 2]| (t, b)).unwrap(),
        ] {
            closed([a, l, s, first, second], right);
            let marked = entries.map(|(kind, _, number)| (kind, 2, number));
            closed([marked[0], marked[1], marked[2], first, second], right);
        }
    }

    #[test]
    fn null_and_out() {
        let (null, unk) = ((1, 0, 0), (0, 0, 0));
        closed([null, null, null, unk, (3, 1, 9)], [null; 5]);
        let (most, one) = ((3, 0, LIMIT), (3, 0, 1));
        closed([most, null, null, unk, unk], [most, null, null, most, most]);
        closed([most, null, one, unk, unk], [most, null, one, (2, 0, 0), (2, 0, 0)]);
    }

    #[test]
    fn refusals_in_order() {
        let (mut index, mut table) = (vec![7; 20], vec![7; 55]);
        assert_eq!(open(false, &EXAMPLE, &mut index, &mut table), ACCEPTED);
        let post = Call::Post { item: 0, kind: 3, number: 5 };
        assert_eq!(call(&post, &EXAMPLE, &index, &mut table), ACCEPTED);
        let refusal = |sheet: &[u8], index: &[u8], table: &[u8]| {
            let mut left = table.to_vec();
            let reply = close(sheet, index, &mut left);
            assert_eq!((&left[..], reply.kind, reply.value), (table, 0, 0));
            (reply.number, reply.offset)
        };
        let (good_index, mut good_table) = (index.clone(), table.clone());
        table[54] = 1;
        assert_eq!(refusal(&EXAMPLE, &good_index, &table), (10, 0));
        (table[53], table[54]) = (1, 0);
        assert_eq!(refusal(&EXAMPLE, &good_index, &table), (10, 0));
        index[19] = 1;
        assert_eq!(refusal(&EXAMPLE, &index, &good_table), (9, 0));
        assert_eq!(refusal(&EXAMPLE, &index, &table), (9, 0));
        assert_eq!(refusal(&EXAMPLE, &index, &table[..50]), (8, 0));
        assert_eq!(refusal(&EXAMPLE, &index[..19], &table), (8, 0));
        assert_eq!(refusal(&EXAMPLE[..45], &index[..19], &table), (1, 43));
        assert_eq!(close(&EXAMPLE, &good_index, &mut good_table), ACCEPTED);
    }
}
