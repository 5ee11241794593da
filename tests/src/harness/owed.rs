//! Owed bytes: after every accepted call they are true by a definition of the harness's own, and changed
//! only as that call can change them. What calls did to them, and which false ones were refused, is
//! counted.

use super::compare::{Act, Lent};
use crate::gen::make_owed_true;
use crate::model::calls::Call;
use crate::model::sheet::{read_sheet, Item};
use crate::model::table::{decode, OWED, RECORD};

/// What must be met: what accepted calls do to owed bytes and by them, then false owed bytes in
/// tables that are refused for nothing else.
pub const MET: [&str; 19] = [
    "a keep makes an item owed",
    "an ask or a board makes one",
    "a close makes one",
    "a drop ends it",
    "an UNK figure is owed anew",
    "an UNK figure is owed no longer",
    "a step tells an owed UNK child",
    "a step passes over an UNK child",
    "a step leaves notice on an UNK child that is not owed",
    "a step stores an UNK figure",
    "of an entry, 0 for 1",
    "of an entry, 1 for 0",
    "of an entry, another byte",
    "of a stored figure, 0 for 1",
    "of a stored figure, 1 for 0",
    "of a stored figure, another byte",
    "of an UNK figure, 0 for 1",
    "of an UNK figure, 1 for 0",
    "of an UNK figure, another byte",
];
/// Where the false bytes begin.
pub const FALSE: usize = 10;

pub type Times = [u64; MET.len()];

fn parents(item: &Item) -> &[usize] {
    item.figure.as_ref().map_or(&[], |figure| &figure.parents)
}

/// The owed bytes of a table, from its stored figures: each makes its parents owed and, through
/// those that are UNK, theirs.
fn from_stored(items: &[Item], table: &[u8]) -> Vec<u8> {
    let stored = |i: usize| table[RECORD * i] != 0;
    let mut owed = vec![0; items.len()];
    for figure in (0..items.len()).filter(|&i| stored(i)) {
        let mut to: Vec<usize> = parents(&items[figure]).to_vec();
        while let Some(parent) = to.pop() {
            if owed[parent] == 0 && !stored(parent) {
                to.extend(parents(&items[parent]));
            }
            owed[parent] = 1;
        }
    }
    owed
}

/// What is known of an act by its number, and by what was lent before and after.
pub fn judge(
    met: &mut Times,
    act: &Act,
    number: u64,
    before: &Lent,
    after: &Lent,
) -> Result<(), String> {
    if number != 0 && number != 10 {
        return Ok(());
    }
    let items = read_sheet(&before.sheet).unwrap();
    if number == 10 {
        count_false(met, &items, &before.table);
        return Ok(());
    }
    let left: Vec<u8> = after.table.chunks(RECORD).map(|record| record[OWED]).collect();
    if left != from_stored(&items, &after.table) {
        return Err(format!("{act:?} leaves false owed bytes\n{}", after.dump("after")));
    }
    if !can_change(act, &before.table, &after.table) {
        let dumps = before.dump("before") + &after.dump("after");
        return Err(format!("{act:?} changes owed bytes that it cannot change\n{dumps}"));
    }
    if !matches!(act, Act::Open { .. }) && before.table != after.table {
        count_changes(met, act, &items, &before.table, &after.table);
        count_telling(met, act, &items, &before.table, &after.table);
    }
    Ok(())
}

/// Whether an act can change the owed bytes so. A post, a swap and a step change none: what a step
/// stores was owed already. Only a drop ends them, and it makes none.
fn can_change(act: &Act, before: &[u8], after: &[u8]) -> bool {
    let (makes, ends) = match act {
        Act::Open { .. } => return true,
        Act::Swap(_) | Act::Give(Call::Post { .. } | Call::Step { .. }) => (false, false),
        Act::Give(Call::Drop { .. }) => (false, true),
        _ => (true, false),
    };
    let mut records = before.chunks(RECORD).zip(after.chunks(RECORD));
    records.all(|(old, new)| match (old[OWED], new[OWED]) {
        (0, 1) => makes,
        (1, 0) => ends,
        _ => true,
    })
}

/// Counts the false owed bytes of a table that has no other fault.
fn count_false(met: &mut Times, items: &[Item], table: &[u8]) {
    let mut right = table.to_vec();
    make_owed_true(items, &mut right);
    if decode(items, &right).is_none() {
        return;
    }
    for ((record, right), item) in table.chunks(RECORD).zip(right.chunks(RECORD)).zip(items) {
        let sort = match (item.figure.is_some(), record[0]) {
            (false, _) => 0,
            (true, 0) => 2,
            (true, _) => 1,
        };
        let how = match (record[OWED], right[OWED]) {
            (a, b) if a == b => continue,
            (0, _) => 0,
            (1, _) => 1,
            _ => 2,
        };
        met[FALSE + 3 * sort + how] += 1;
    }
}

fn count_changes(met: &mut Times, act: &Act, items: &[Item], before: &[u8], after: &[u8]) {
    let (makes, ends) = match act {
        Act::Give(Call::Keep { .. }) => (Some(0), None),
        Act::Give(Call::Ask { .. }) | Act::Board(_) => (Some(1), None),
        Act::Close => (Some(2), None),
        Act::Give(Call::Drop { .. }) => (None, Some(3)),
        _ => (None, None),
    };
    let changed = |from: u8, unk: bool| {
        let mut records = before.chunks(RECORD).zip(after.chunks(RECORD)).zip(items);
        records.any(|((old, new), item)| {
            let figure = item.figure.is_some() && old[0] == 0 && new[0] == 0;
            (old[OWED], new[OWED]) == (from, 1 - from) && (figure || !unk)
        })
    };
    for (from, at) in [(0, makes), (1, ends)] {
        if let (Some(at), true) = (at, changed(from, false)) {
            met[at] += 1;
        }
    }
    met[4] += changed(0, true) as u64;
    met[5] += changed(1, true) as u64;
}

/// Counts the steps that store an UNK figure, and what a step of a notice does to the children.
fn count_telling(met: &mut Times, act: &Act, items: &[Item], before: &[u8], after: &[u8]) {
    let Act::Give(Call::Step { item: stepped }) = act else { return };
    let stepped = *stepped as usize;
    let mut records = before.chunks(RECORD).zip(after.chunks(RECORD));
    met[9] += records.any(|(old, new)| old[0] == 0 && new[0] != 0) as u64;
    if before[RECORD * stepped + 1] != 2 {
        return;
    }
    let records = before.chunks(RECORD).zip(after.chunks(RECORD)).zip(items);
    for ((old, new), _) in records.filter(|(_, item)| parents(item).contains(&stepped)) {
        let (owed, mark, new_mark) = (old[OWED] == 1, old[1], new[1]);
        let met_here = match (old[0], owed, mark, new_mark) {
            (0, true, 0, 2) => 6,
            (0, false, 0, 0) => 7,
            (0, false, 2, 2) => 8,
            _ => continue,
        };
        met[met_here] += 1;
    }
}

#[cfg(test)]
mod tests {
    use super::*;
    use crate::gen::{spec_figure, write_sheet, Spec};
    use crate::harness::compare::Comparison;
    use crate::harness::fixed::{opened, post};
    use crate::mock::{Mock, Wrong};
    use crate::model::board::Board;
    use crate::model::sheet::EXAMPLE;
    use crate::model::swap::Swap;
    use crate::rng::Rng;

    /// Entries 0 and 1, figure 2 of 1, figure 3 of 0 and 2 with spread 2, figure 4 of 3.
    fn sheet() -> Vec<u8> {
        let entry = || Spec::Entry(b"A".to_vec());
        let sum = |spread, parents: &[u16]| spec_figure(1, 0, spread, parents);
        write_sheet(&[entry(), entry(), sum(0, &[1]), sum(2, &[0, 2]), sum(0, &[3])])
    }

    /// What is counted of the last of these acts, each accepted, after a bare opening.
    fn counted(sheet: Vec<u8>, acts: &[Act]) -> Vec<usize> {
        let mut mock = Mock(Wrong::Nothing);
        let mut c = Comparison::new(&mut mock, Rng::new(1));
        let (mut lent, _) = opened(&mut c, sheet, 5, false).unwrap();
        for act in acts {
            c.tally.owed = Times::default();
            assert_eq!(c.act(act, &mut lent).unwrap().number, 0);
        }
        (0..MET.len()).filter(|&at| c.tally.owed[at] != 0).collect()
    }

    #[test]
    fn calls_are_counted() {
        let post = |number| Act::Give(post(0, number));
        let keep = |item| Act::Give(Call::Keep { item });
        let (drop, ask) = (Act::Give(Call::Drop { item: 3 }), Act::Give(Call::Ask { item: 0 }));
        let step = Act::Give(Call::Step { item: 0 });
        let cases: [(&[Act], &[usize]); 11] = [
            (&[post(4)], &[]),
            (&[keep(3)], &[0, 4]),
            (&[keep(3), drop.clone()], &[3, 5]),
            (&[keep(3), post(4), step.clone()], &[]),
            (&[keep(3), post(4), ask], &[]),
            (&[keep(3), Act::Close], &[2]),
            (&[keep(3), keep(4), post(4), step.clone()], &[]),
            (&[keep(4), post(4), step.clone()], &[6]),
            (&[post(4), step.clone()], &[7]),
            (&[keep(3), post(4), step.clone(), drop, post(5), step.clone()], &[8]),
            (&[keep(4), post(4), step.clone(), post(5), step], &[]),
        ];
        for (acts, right) in cases {
            assert_eq!(counted(sheet(), acts), right, "{acts:?}");
        }
        // Figure 3 of the example has keep 1.
        assert_eq!(counted(EXAMPLE.to_vec(), &[Act::Give(Call::Ask { item: 3 })]), [1]);
        let stored = [keep(4), Act::Give(Call::Drop { item: 3 })];
        let stepped =
            [post(4), Act::Give(Call::Step { item: 0 }), Act::Give(Call::Step { item: 3 })];
        let deferred = [Act::Give(Call::Step { item: 4 })];
        let acts = [&stored[..], &stepped, &deferred].concat();
        assert_eq!(counted(EXAMPLE.to_vec(), &acts), [9]);
    }

    /// Which acts can make an item owed, and which can end it. An opening can do both at once.
    #[test]
    fn other_changes_are_found() {
        let table =
            |owed: [u8; 2]| owed.map(|byte| [vec![1], vec![0; 9], vec![byte]].concat()).concat();
        let item = 0;
        let swap = Swap { giver: 0, taker: 1, quantity: 1 };
        let board = Board { items: vec![0, 0], results: vec![0; 9] };
        for (act, makes, ends) in [
            (Act::Open { full: true }, true, true),
            (Act::Give(post(0, 1)), false, false),
            (Act::Swap(swap), false, false),
            (Act::Give(Call::Step { item }), false, false),
            (Act::Give(Call::Drop { item }), false, true),
            (Act::Give(Call::Keep { item }), true, false),
            (Act::Give(Call::Ask { item }), true, false),
            (Act::Board(board), true, false),
            (Act::Close, true, false),
        ] {
            for (before, after, right) in [
                ([0, 1], [0, 1], true),
                ([0, 1], [1, 1], makes),
                ([0, 1], [0, 0], ends),
                ([0, 1], [1, 0], makes && ends),
            ] {
                assert_eq!(can_change(&act, &table(before), &table(after)), right, "{act:?}");
            }
        }
    }

    /// Each false byte counts as what it is; a table with another fault counts for nothing.
    #[test]
    fn false_bytes_are_counted() {
        let items = read_sheet(&EXAMPLE).unwrap();
        let record = |kind, owed| [vec![kind], vec![0; 9], vec![owed]].concat();
        // Only figure 4 is stored: all others are owed.
        let table = |figure: u8, last: u8| {
            let records = [1, 1, 1, figure, last].into_iter().zip([1, 1, 1, 1, 0]);
            records.flat_map(|(kind, owed)| record(kind, owed)).collect::<Vec<u8>>()
        };
        let cases = [
            (table(0, 1), 0, 0, 10),
            (table(0, 1), 2, 9, 12),
            (table(1, 1), 3, 0, 13),
            (table(1, 1), 4, 1, 14),
            (table(1, 1), 4, 255, 15),
            (table(0, 1), 3, 0, 16),
            (table(0, 1), 3, 2, 18),
        ];
        for (mut table, item, byte, right) in cases {
            table[RECORD * item + OWED] = byte;
            let mut met = Times::default();
            count_false(&mut met, &items, &table);
            let mut alone = Times::default();
            alone[right] = 1;
            assert_eq!(met, alone);
            table[1] = 1;
            count_false(&mut met, &items, &table);
            assert_eq!(met, alone);
        }
        // Nothing is stored, and everything but the last is said to be owed.
        let mut met = Times::default();
        count_false(&mut met, &items, &table(0, 0));
        assert_eq!((met[11], met[17], met.iter().sum::<u64>()), (3, 1, 4));
    }
}
