//! Older tables. Without owed bytes they are refused for their length, by every call; opened anew
//! and posted to, they are read right. Their records have numbers within 10^12 and any OUT, as
//! before the range of grams: with owed bytes added such a table is accepted.

use super::compare::{Act, Comparison, Lent};
use super::fixed::{acts, expect, opened, post, reads, OUT};
use super::lists::{plain_call, Office};
use crate::gen::{self, OLDER_LIMIT};
use crate::model::calls::Call;
use crate::model::field::i64_at;
use crate::model::sheet::{index_of, read_sheet, Item, EXAMPLE};
use crate::model::table::{encode, Cell, Mark};
use crate::model::value::Value;

/// The example with a sum that was OUT: it is read as it is stored, until it is worked out anew.
/// The same posts on a table opened now give the sum.
pub fn older_example(c: &mut Comparison) -> Result<(), String> {
    let stored = [
        Some(Value::Number(OLDER_LIMIT)),
        Some(Value::Null),
        Some(Value::Number(1)),
        Some(Value::Out),
        None,
    ];
    let items = read_sheet(&EXAMPLE).unwrap();
    let table = encode(&items, &stored.map(|stored| Cell { stored, mark: Mark::None }));
    let older = Lent { sheet: EXAMPLE.to_vec(), index: index_of(&items), table };
    let narrow = without_owed(c, &older, &acts())?;
    let anew = opened_anew(c, &items, &narrow)?;
    let (mut opened, _) = opened(c, EXAMPLE.to_vec(), 5, false)?;
    for call in [post(0, OLDER_LIMIT), post(2, 1)] {
        c.act(&Act::Give(call), &mut opened)?;
    }
    let lists = [
        (&opened, None, Some(OLDER_LIMIT + 1)),
        (&anew, None, Some(OLDER_LIMIT + 1)),
        (&older, None, OUT),
        (&older, Some(Act::Give(post(2, 1))), OUT),
        (&older, Some(Act::Give(post(2, 2))), Some(OLDER_LIMIT + 2)),
        (&older, Some(Act::Give(Call::Drop { item: 3 })), Some(OLDER_LIMIT + 1)),
        (&older, Some(Act::Close), Some(OLDER_LIMIT + 1)),
    ];
    for (lent, act, right) in lists {
        let mut lent = lent.clone();
        if let Some(act) = act {
            c.act(&act, &mut lent)?;
        }
        for item in [3, 4] {
            reads(c, &mut lent, item, right)?;
        }
    }
    Ok(())
}

/// The table as it was without owed bytes, which every act refuses with 8.
fn without_owed(c: &mut Comparison, lent: &Lent, acts: &[Act]) -> Result<Lent, String> {
    let older = Lent { table: gen::narrow(&lent.table), ..lent.clone() };
    for act in acts.iter().chain(&[Act::Open { full: false }, Act::Open { full: true }]) {
        let number = c.act(act, &mut older.clone())?.number;
        expect("a call with a table of 10 bytes an item", number, 8)?;
    }
    Ok(older)
}

/// Opened anew, with the entries of the older table, whatever its records' length, posted in their
/// order. Every item is then read as the fresh office gives it.
pub fn opened_anew(c: &mut Comparison, items: &[Item], older: &Lent) -> Result<Lent, String> {
    let full = c.rng.percent(50);
    let (mut lent, _) = opened(c, older.sheet.clone(), items.len(), full)?;
    let mut office = Some(Office::new(items));
    let records = older.table.chunks(older.table.len() / items.len());
    for ((item, read), record) in (0..).zip(items).zip(records) {
        if read.figure.is_none() {
            let (kind, number) = (record[0] as u64, i64_at(record, 2));
            let post = Call::Post { item, kind, number };
            expect("a post", plain_call(c, post, &mut lent, &mut office)?.number, 0)?;
        }
    }
    let posted = lent.clone();
    for item in 0..items.len() as u64 {
        plain_call(c, Call::Ask { item }, &mut lent, &mut office)?;
    }
    Ok(posted)
}

/// Any call, any swap, any board and a close on a random older table of a small sheet: without its owed bytes,
/// and with them, when it is never refused for the table.
pub fn run_older(c: &mut Comparison) -> Result<(), String> {
    let specs = gen::small_specs(&mut c.rng);
    let sheet = gen::write_any(&mut c.rng, &specs);
    let items = read_sheet(&sheet).unwrap();
    let table = gen::older_table(&mut c.rng, &items);
    let lent = Lent { sheet, index: index_of(&items), table };
    c.tally.older_tables += 1;
    let acts = any_acts(c, &items, &lent.table);
    let older = without_owed(c, &lent, &acts)?;
    opened_anew(c, &items, &older)?;
    takes(c, &lent, &acts)
}

/// Any call, an ask, any swap, any board and a close.
pub fn any_acts(c: &mut Comparison, items: &[Item], table: &[u8]) -> [Act; 5] {
    let call = gen::any_call(&mut c.rng, items, table, gen::Numbers::Any);
    let board = gen::any_board(&mut c.rng, items);
    let swap = gen::any_swap(&mut c.rng, items, &gen::numbers_of(items, table));
    let ask = Act::Give(Call::Ask { item: 0 });
    [Act::Give(call), ask, Act::Swap(swap), Act::Board(board), Act::Close]
}

/// None of the acts is refused for what it is lent.
pub fn takes(c: &mut Comparison, lent: &Lent, acts: &[Act]) -> Result<(), String> {
    for act in acts {
        let number = c.act(act, &mut lent.clone())?.number;
        if (1..=10).contains(&number) {
            return Err(format!("{act:?} on an older table gives {number}\n{lent:?}"));
        }
    }
    Ok(())
}
