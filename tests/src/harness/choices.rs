//! Choices by what their parents are, counted where they are read or worked out. Tables from before
//! version 4.0.0, when any OUT parent of a choice gave OUT: they are accepted, and read right after
//! a close, or opened anew and posted to.

use super::closes::plain_close;
use super::compare::{Act, Comparison, Lent};
use super::lists::{plain_call, Office};
use super::older::{any_acts, opened_anew, takes};
use crate::engine::Engine;
use crate::gen;
use crate::guarded::Guarded;
use crate::mock::{Mock, Wrong};
use crate::model::calls::{Call, Reply};
use crate::model::field::{i64_at, u16_at, u32_at};
use crate::model::machine::Machine;
use crate::model::sheet::{read_sheet, Item};
use crate::model::table::{decode, no_mark, RECORD};
use crate::model::value::Value;
use crate::rng::Rng;

/// What calls do with a choice.
pub const WAYS: [&str; 4] = ["read", "kept", "renewed by a step", "closed"];

/// What its parents must be met as, for each of them.
pub const PARENTS: [&str; 7] = [
    "OUT first",
    "NULL first",
    "NULL first and OUT after it",
    "OUT picked",
    "NULL picked",
    "OUT passed over",
    "NULL passed over",
];

pub type Times = [[u64; PARENTS.len()]; WAYS.len()];

/// What an accepted act does, and with which items.
fn worked_on(act: &Act, before: &Lent) -> Option<(usize, Vec<usize>)> {
    let record = |item: u64| &before.table[RECORD * item as usize..][..RECORD];
    match act {
        Act::Give(Call::Ask { item }) => Some((0, vec![*item as usize])),
        Act::Board(lists) => {
            Some((0, lists.items.chunks(2).map(|two| u16_at(two, 0) as usize).collect()))
        }
        Act::Give(Call::Keep { item }) if record(*item)[0] == 0 => Some((1, vec![*item as usize])),
        Act::Give(Call::Step { item }) if record(*item)[1] == 1 => Some((2, vec![*item as usize])),
        Act::Close => Some((3, (0..before.table.len() / RECORD).collect())),
        _ => None,
    }
}

/// Whether an item is a choice, by the bytes of its field.
fn is_choice(lent: &Lent, item: usize) -> bool {
    let at = u32_at(&lent.index, 4 * item) as usize;
    (lent.sheet[at], lent.sheet[at + 3]) == (3, 6)
}

/// Counts the choices that an accepted act reads or works out, by what their parents give then.
pub fn count(met: &mut Times, act: &Act, before: &Lent, after: &Lent) {
    let Some((way, mut listed)) = worked_on(act, before) else { return };
    listed.retain(|&item| is_choice(after, item));
    if listed.is_empty() {
        return;
    }
    let items = read_sheet(&after.sheet).unwrap();
    let mut machine = Machine::new(&items, decode(&items, &after.table).unwrap());
    for item in listed {
        let parents = &items[item].figure.as_ref().unwrap().parents;
        let values = [0, 1, 2].map(|place: usize| machine.look_up(parents[place]).0);
        met[way].iter_mut().zip(are(values)).for_each(|(times, met)| *times += met as u64);
    }
}

/// Which of `PARENTS` these values are.
fn are([first, second, third]: [Value; 3]) -> [bool; PARENTS.len()] {
    let (out, null) = (Value::Out, Value::Null);
    let (picked, other) = match first {
        Value::Number(1..) => (second, third),
        Value::Number(_) => (third, second),
        _ => (first, first),
    };
    let number = first != out && first != null;
    [
        first == out,
        first == null,
        first == null && [second, third].contains(&out),
        number && picked == out,
        number && picked == null,
        number && other == out,
        number && other == null,
    ]
}

/// A table as version 3 left it after calls and closes since an opening, mostly without a mark: by a
/// mock with the choice of then.
fn strict_table(rng: &mut Rng, sheet: Vec<u8>, items: &[Item]) -> Lent {
    let mut mock = Mock(Wrong::ChoiceStrict);
    let [index, table] = [4, RECORD].map(|record| vec![0; record * items.len()]);
    let mut lent = [&sheet, &index, &table].map(|bytes| Guarded::new(bytes, 0));
    let [s, i, t] = &mut lent;
    mock.open(rng.percent(50), s, i, t);
    let numbers = gen::choose_numbers(rng);
    for _ in 0..rng.between(8, 30) {
        match rng.below(100) {
            0..=5 => mock.close(s, i, t),
            _ => mock.call(&gen::any_call(rng, items, t.bytes(), numbers), s, i, t),
        };
    }
    if rng.percent(80) {
        mock.call(&Call::Ask { item: 0 }, s, i, t);
    }
    let (index, table) = (i.bytes().to_vec(), t.bytes().to_vec());
    Lent { sheet, index, table }
}

/// An ask for a stored item gives what is stored, if no mark stands.
fn reads_stored(c: &mut Comparison, lent: &Lent) -> Result<(), String> {
    for (item, record) in (0..).zip(lent.table.chunks(RECORD)).filter(|(_, record)| record[0] != 0)
    {
        let given = c.act(&Act::Give(Call::Ask { item }), &mut lent.clone())?;
        let (kind, value) = (record[0] as u64, i64_at(record, 2));
        if given != (Reply { number: 0, offset: 0, kind, value }) {
            return Err(format!("item {item} is stored as {record:?}, and read as {given:?}"));
        }
    }
    Ok(())
}

/// A random table from before version 4.0.0.
pub fn run_choices(c: &mut Comparison) -> Result<(), String> {
    let specs = gen::guard_specs(&mut c.rng);
    let sheet = gen::write_any(&mut c.rng, &specs);
    let items = read_sheet(&sheet).unwrap();
    let lent = strict_table(&mut c.rng, sheet, &items);
    c.tally.strict_tables += 1;
    let acts = any_acts(c, &items, &lent.table);
    takes(c, &lent, &acts)?;
    opened_anew(c, &items, &lent)?;
    let mut closed = lent.clone();
    plain_close(c, &mut closed, &mut None)?;
    if no_mark(&lent.table) {
        reads_stored(c, &lent)?;
        let mut records = lent.table.chunks(RECORD).zip(closed.table.chunks(RECORD));
        c.tally.strict_values += records.any(|(old, new)| old[0] != 0 && old != new) as u64;
    }
    let mut office = Some(Office::of_table(&items, &closed.table));
    for item in 0..items.len() as u64 {
        plain_call(c, Call::Ask { item }, &mut closed, &mut office)?;
    }
    Ok(())
}

#[cfg(test)]
mod tests {
    use super::*;
    use crate::gen::{spec_figure, write_sheet, Spec};
    use crate::harness::fixed::{opened, post};
    use crate::harness::fixed_owed::{ask, board, drop, keep, posted, step};

    /// What is counted of the last of these acts, each accepted, after a bare opening: entries 0, 1 and
    /// 2, of which the first is posted, and their choice.
    fn counted(acts: &[Act]) -> Times {
        let mut mock = Mock(Wrong::Nothing);
        let mut c = Comparison::new(&mut mock, Rng::new(1));
        let mut specs = vec![Spec::Entry(b"A".to_vec()); 3];
        specs.push(spec_figure(6, 0, 0, &[0, 1, 2]));
        let (mut lent, _) = opened(&mut c, write_sheet(&specs), 4, false).unwrap();
        for act in [Act::Give(post(0, 1))].iter().chain(acts) {
            c.tally.choices = Times::default();
            assert_eq!(c.act(act, &mut lent).unwrap().number, 0);
        }
        c.tally.choices
    }

    /// NULL is picked and passed over, by each way; other acts count nothing.
    #[test]
    fn choices_are_counted() {
        let cases: [(&[Act], Option<usize>); 10] = [
            (&[ask(3)], Some(0)),
            (&[board(3)], Some(0)),
            (&[keep(3)], Some(1)),
            (&[keep(3), ask(0), posted(0, 2), step(0), step(3)], Some(2)),
            (&[Act::Close], Some(3)),
            (&[ask(2)], None),
            (&[keep(3), keep(3)], None),
            (&[keep(3), step(0)], None),
            (&[drop(3)], None),
            (&[posted(0, 2)], None),
        ];
        for (acts, way) in cases {
            let mut right = Times::default();
            if let Some(way) = way {
                (right[way][4], right[way][6]) = (1, 1);
            }
            assert_eq!(counted(acts), right, "{acts:?}");
        }
    }

    #[test]
    fn parents_are_told_apart() {
        let (out, null, [zero, one]) = (Value::Out, Value::Null, [0, 1].map(Value::Number));
        let cases: [([Value; 3], &[usize]); 10] = [
            ([out, null, out], &[0]),
            ([null, one, null], &[1]),
            ([null, one, out], &[1, 2]),
            ([null, out, one], &[1, 2]),
            ([one, out, one], &[3]),
            ([zero, null, out], &[3, 6]),
            ([one, null, out], &[4, 5]),
            ([zero, out, one], &[5]),
            ([zero, null, zero], &[6]),
            ([one, zero, one], &[]),
        ];
        for (parents, right) in cases {
            let met = are(parents);
            let met: Vec<usize> = (0..PARENTS.len()).filter(|&at| met[at]).collect();
            assert_eq!(met, right, "{parents:?}");
        }
    }
}
