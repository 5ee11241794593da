//! Comparisons that are the same in every run: each byte of the example changed to each value,
//! each length, the limits from both sides, and the ledgers that go stale.

use super::boards::plain_board;
use super::closes::plain_close;
use super::compare::{Act, Comparison, Lent};
use super::fixed_boards::run_fixed_boards;
use super::fixed_choices::run_fixed_choices;
use super::fixed_closes::{closes_to, run_fixed_closes};
use super::fixed_editions::run_fixed_editions;
use super::fixed_orders::run_fixed_orders;
use super::fixed_owed::run_fixed_owed;
use super::fixed_spreads::run_fixed_spreads;
use super::fixed_swaps::run_fixed_swaps;
use super::lists::{plain_call, Office};
use super::older::older_example;
use super::prints::run_prints;
use super::shares::fixed_shares;
use crate::gen::{self, plain_chain, spec_figure, write_edition, write_sheet, Spec};
use crate::model::board::Board;
use crate::model::calls::Call;
use crate::model::sheet::{index_of, read_sheet, EXAMPLE, MAX_LEVEL};
use crate::model::swap::Swap;
use crate::model::table::{OWED, RECORD};
use crate::model::value::LIMIT;

/// The editions, and the most items of each.
pub const EDITIONS: [(u16, usize); 2] = [(1, 1_024), (2, 4_096)];

pub fn run_fixed(c: &mut Comparison) -> Result<(), String> {
    run_prints(c)?;
    sheet_bytes(c)?;
    index_and_table_bytes(c)?;
    lengths(c)?;
    arguments(c)?;
    limits(c)?;
    parent_counts(c)?;
    names(c)?;
    figures(c)?;
    fixed_shares(c)?;
    older_example(c)?;
    long_fields(c)?;
    stale_ledgers(c)?;
    run_fixed_boards(c)?;
    run_fixed_closes(c)?;
    run_fixed_swaps(c)?;
    run_fixed_owed(c)?;
    run_fixed_choices(c)?;
    run_fixed_orders(c)?;
    run_fixed_editions(c)?;
    run_fixed_spreads(c)
}

pub fn post(item: u64, number: i64) -> Call {
    Call::Post { item, kind: 3, number }
}

/// The five calls, a swap, a board and a close, each accepted on the example after `busy_example`.
pub fn acts() -> [Act; 8] {
    [
        Act::Give(Call::Post { item: 1, kind: 1, number: 0 }),
        Act::Give(Call::Keep { item: 4 }),
        Act::Give(Call::Drop { item: 3 }),
        Act::Give(Call::Step { item: 0 }),
        Act::Give(Call::Ask { item: 4 }),
        Act::Swap(Swap { giver: 1, taker: 2, quantity: 7 }),
        Act::Board(Board { items: vec![4, 0, 2, 0, 4, 0], results: vec![9; 27] }),
        Act::Close,
    ]
}

/// The example with values, a stored figure and marks.
pub fn busy_example(c: &mut Comparison) -> Result<Lent, String> {
    let mut lent = Lent { sheet: EXAMPLE.to_vec(), index: vec![9; 20], table: vec![9; 55] };
    c.act(&Act::Open { full: false }, &mut lent)?;
    for call in [post(0, 1_000), post(1, -300), Call::Keep { item: 3 }] {
        c.act(&Act::Give(call), &mut lent)?;
    }
    Ok(lent)
}

/// Each byte of the example sheet as each value, and each shorter sheet.
fn sheet_bytes(c: &mut Comparison) -> Result<(), String> {
    let busy = busy_example(c)?;
    let acts = acts();
    let both = |c: &mut Comparison, turn: usize, sheet: Vec<u8>| -> Result<(), String> {
        c.act(
            &Act::Open { full: turn % 2 == 0 },
            &mut Lent { sheet: sheet.clone(), ..busy.clone() },
        )?;
        c.act(&acts[turn % acts.len()], &mut Lent { sheet, ..busy.clone() })?;
        Ok(())
    };
    for at in 0..EXAMPLE.len() {
        for byte in 0..=255 {
            let mut sheet = EXAMPLE.to_vec();
            sheet[at] = byte;
            both(c, at + byte as usize, sheet)?;
        }
    }
    for length in 0..EXAMPLE.len() {
        both(c, length, EXAMPLE[..length].to_vec())?;
    }
    Ok(())
}

/// Each byte of index and table as each value.
fn index_and_table_bytes(c: &mut Comparison) -> Result<(), String> {
    let (busy, acts) = (busy_example(c)?, acts());
    for byte in 0..=255 {
        for at in 0..busy.index.len() {
            let mut lent = busy.clone();
            lent.index[at] = byte;
            c.act(&acts[(at + byte as usize) % acts.len()], &mut lent)?;
        }
        for at in 0..busy.table.len() {
            let mut lent = busy.clone();
            lent.table[at] = byte;
            c.act(&acts[(at / RECORD + byte as usize) % acts.len()], &mut lent)?;
        }
    }
    Ok(())
}

/// Indexes and tables of each length up to twice the right one.
fn lengths(c: &mut Comparison) -> Result<(), String> {
    let busy = busy_example(c)?;
    let openings = [Act::Open { full: false }, Act::Open { full: true }];
    for act in acts().iter().chain(&openings) {
        for length in 0..=110 {
            let mut lent = busy.clone();
            lent.table.resize(length, 0);
            c.act(act, &mut lent)?;
            lent = busy.clone();
            lent.index.resize(length, 0);
            c.act(act, &mut lent)?;
        }
    }
    Ok(())
}

/// Each call with each item and item numbers beyond them, and posts of each kind.
fn arguments(c: &mut Comparison) -> Result<(), String> {
    let busy = busy_example(c)?;
    let beyond = [65_535, 65_536, 1 << 32, 1 << 63, u64::MAX - 1, u64::MAX];
    for item in (0..8).chain(beyond) {
        let kinds = (0..6).chain([256, 257, 259, (1 << 32) + 3, u64::MAX]);
        let posts = kinds.flat_map(|kind| {
            [0, 7, -1, LIMIT, LIMIT + 1, -LIMIT, -LIMIT - 1].map(|number| Call::Post {
                item,
                kind,
                number,
            })
        });
        let others =
            [Call::Keep { item }, Call::Drop { item }, Call::Step { item }, Call::Ask { item }];
        for call in posts.chain(others) {
            c.act(&Act::Give(call), &mut busy.clone())?;
        }
    }
    Ok(())
}

/// Opens a sheet, with index and table of the right length for so many items.
pub fn opened(
    c: &mut Comparison,
    sheet: Vec<u8>,
    items: usize,
    full: bool,
) -> Result<(Lent, u64), String> {
    let mut lent = Lent { sheet, index: vec![9; 4 * items], table: vec![9; RECORD * items] };
    let number = c.act(&Act::Open { full }, &mut lent)?.number;
    Ok((lent, number))
}

pub fn expect(what: &str, given: u64, right: u64) -> Result<(), String> {
    match given == right {
        true => Ok(()),
        false => Err(format!("{what}: both sides give {given}, and the paper {right}")),
    }
}

fn limits(c: &mut Comparison) -> Result<(), String> {
    levels(c)?;
    item_counts(c)?;
    range(c)
}

/// A chain and a tower of sixteenfold parents, at the highest level and one above it.
fn levels(c: &mut Comparison) -> Result<(), String> {
    for levels in [MAX_LEVEL, MAX_LEVEL + 1] {
        let right = if levels > MAX_LEVEL { 7 } else { 0 };
        let mut tower = vec![Spec::Entry(b"A".to_vec())];
        tower.extend((0..levels).map(|p| spec_figure(4, 0, 1, &[p as u16; 16])));
        for (full, sheet) in [(false, plain_chain(levels as u16)), (true, write_sheet(&tower))] {
            let (mut lent, number) = opened(c, sheet, levels + 1, full)?;
            expect("levels", number, right)?;
            for call in [
                post(0, LIMIT),
                Call::Keep { item: 40 },
                Call::Drop { item: 40 },
                Call::Ask { item: 64 },
                Call::Keep { item: 64 },
                post(0, -1),
                Call::Step { item: 0 },
                Call::Ask { item: 64 },
            ] {
                c.act(&Act::Give(call), &mut lent)?;
            }
        }
    }
    Ok(())
}

/// How many spreads an edition has: 0, 1 and, in edition 1, 2.
pub const fn spreads(edition: u16) -> u8 {
    match edition {
        1 => 3,
        _ => 2,
    }
}

/// So many items, each as long as it can be: figures of all levels above one entry, with every spread
/// that the edition has.
pub fn longest_sheet(edition: u16, count: usize) -> Vec<u8> {
    let mut specs = vec![Spec::Entry(vec![b'~'; 16])];
    for i in 1..count {
        let parents = vec![(i.min(MAX_LEVEL) - 1) as u16; 16];
        let (keep, spread) = ((i / 3 % 2) as u8, (i % spreads(edition) as usize) as u8);
        specs.push(Spec::Figure { rule: 3, keep, spread, parents, name: vec![b'!'; 16] });
    }
    write_edition(edition, &specs)
}

/// The most items of edition 1, as long as they can be, and one more.
fn item_counts(c: &mut Comparison) -> Result<(), String> {
    let (edition, most) = EDITIONS[0];
    for count in [most, most + 1] {
        let (mut lent, number) = opened(c, longest_sheet(edition, count), count, true)?;
        expect("item count", number, if count > most { 4 } else { 0 })?;
        let last = most as u64 - 1;
        for call in [post(0, 5), Call::Ask { item: last }, Call::Ask { item: last + 1 }] {
            c.act(&Act::Give(call), &mut lent)?;
        }
    }
    Ok(())
}

/// The range of posts and of tables, from both sides: of the number of an entry and of a figure.
fn range(c: &mut Comparison) -> Result<(), String> {
    let items = read_sheet(&EXAMPLE).unwrap();
    let (lent, _) = opened(c, EXAMPLE.to_vec(), 5, false)?;
    for (number, right) in [(LIMIT, 0), (LIMIT + 1, 13), (-LIMIT, 0), (-LIMIT - 1, 13)] {
        let given = c.act(&Act::Give(post(0, number)), &mut lent.clone())?;
        expect("range of a post", given.number, right)?;
        for item in [0, 3] {
            let (mut table, at) = (lent.clone(), RECORD * item as usize);
            table.table[at] = 3;
            table.table[at + 2..at + OWED].copy_from_slice(&number.to_le_bytes());
            gen::make_owed_true(&items, &mut table.table);
            let given = c.act(&Act::Give(Call::Ask { item }), &mut table)?;
            expect("range of a table", given.number, if right == 0 { 0 } else { 10 })?;
        }
    }
    Ok(())
}

/// Each code of a rule, and beyond them, with each number of parents, and one beyond it.
fn parent_counts(c: &mut Comparison) -> Result<(), String> {
    for rule in 0..=9 {
        for count in 0..=17 {
            let specs = [Spec::Entry(b"A".to_vec()), spec_figure(rule, 1, 1, &vec![0; count])];
            let (_, number) = opened(c, write_sheet(&specs), 2, count % 2 == 0)?;
            let right = match rule {
                1 | 3 | 4 | 7 => (1..=16).contains(&count),
                2 | 5 | 8 => count == 2,
                6 => count == 3,
                _ => false,
            };
            expect("parents of a rule", number, if right { 0 } else { 5 })?;
        }
    }
    Ok(())
}

/// Names of each length and of each byte, of an entry and of a figure.
fn names(c: &mut Comparison) -> Result<(), String> {
    let lengths = (0..=17).map(|length| (vec![b'N'; length], (1..=16).contains(&length)));
    let bytes = (0..=255u8).map(|byte| (vec![b'N', byte, b'N'], (33..=126).contains(&byte)));
    for (name, right) in lengths.chain(bytes) {
        let entry = Spec::Entry(name.clone());
        let figure = Spec::Figure { rule: 1, keep: 0, spread: 0, parents: vec![0], name };
        for specs in [vec![entry], vec![Spec::Entry(b"A".to_vec()), figure]] {
            let (_, number) = opened(c, write_sheet(&specs), specs.len(), false)?;
            expect("a name", number, if right { 0 } else { 3 })?;
        }
    }
    Ok(())
}

/// A parent or a result: nothing recorded, or a number.
pub type Given = Option<i64>;
/// No number is this; it stands for OUT.
pub const OUT: Given = Some(i64::MIN);

/// The paper's figures to check, and the limits of the range from both sides.
const FIGURES: [(u8, &[Given], Given); 19] = [
    (1, &[None, None], None),
    (1, &[Some(5), None], Some(5)),
    (1, &[Some(LIMIT), Some(1)], OUT),
    (1, &[Some(LIMIT), Some(1), Some(-1)], Some(LIMIT)),
    (2, &[None, Some(3)], Some(-3)),
    (5, &[Some(-1), Some(5_000)], Some(-1)),
    (5, &[Some(7), Some(10_001)], OUT),
    (6, &[Some(0), Some(7), Some(9)], Some(9)),
    (7, &[None, Some(4)], Some(1)),
    (8, &[Some(3), Some(3)], Some(1)),
    (3, &[None, Some(-2)], Some(-2)),
    (1, &[Some(-LIMIT), Some(-1)], OUT),
    (1, &[Some(-LIMIT), Some(-1), Some(1)], Some(-LIMIT)),
    (1, &[Some(LIMIT); 16], OUT),
    (2, &[Some(LIMIT), Some(-1)], OUT),
    (2, &[Some(1 - LIMIT), Some(1)], Some(-LIMIT)),
    (5, &[Some(-LIMIT), Some(10_000)], Some(-LIMIT)),
    (4, &[Some(-LIMIT), None], Some(-LIMIT)),
    (7, &[Some(0); 16], Some(16)),
];

fn figures(c: &mut Comparison) -> Result<(), String> {
    for (rule, parents, right) in FIGURES {
        figure(c, rule, parents, right)?;
    }
    Ok(())
}

/// A figure of posted parents, and its sum alone: read and printed from both openings.
pub fn figure(c: &mut Comparison, rule: u8, parents: &[Given], right: Given) -> Result<(), String> {
    let count = parents.len() as u16;
    let mut specs = vec![Spec::Entry(b"A".to_vec()); parents.len()];
    specs.push(spec_figure(rule, 1, 1, &(0..count).collect::<Vec<u16>>()));
    specs.push(spec_figure(1, 0, 0, &[count]));
    for full in [false, true] {
        let (mut lent, _) = opened(c, write_sheet(&specs), specs.len(), full)?;
        for (item, number) in (0..).zip(parents) {
            c.act(&Act::Give(post_given(item, *number)), &mut lent)?;
        }
        for item in [count as u64, count as u64 + 1] {
            closes_to(c, &lent, item, right)
                .and_then(|_| reads(c, &mut lent, item, right))
                .map_err(|e| format!("rule {rule} of {parents:?}: {e}"))?;
        }
    }
    Ok(())
}

/// A post of NULL or of a number.
pub fn post_given(item: u64, given: Given) -> Call {
    given.map_or(Call::Post { item, kind: 1, number: 0 }, |number| post(item, number))
}

/// Kind and number of a result.
pub fn pair_of(given: Given) -> (u64, i64) {
    match given {
        None => (1, 0),
        OUT => (2, 0),
        Some(number) => (3, number),
    }
}

/// An ask, with what it must read.
pub fn reads(c: &mut Comparison, lent: &mut Lent, item: u64, right: Given) -> Result<(), String> {
    let given = c.act(&Act::Give(Call::Ask { item }), lent)?;
    match (given.number, (given.kind, given.value)) == (0, pair_of(right)) {
        true => Ok(()),
        false => Err(format!("item {item} is read as {given:?}")),
    }
}

/// Fields and sheets longer than any that is accepted.
fn long_fields(c: &mut Comparison) -> Result<(), String> {
    let (busy, _) = opened(c, EXAMPLE.to_vec(), 5, false)?;
    for more in [1, 3, 65_536, 70_000] {
        let mut sheet = EXAMPLE.to_vec();
        sheet.resize(EXAMPLE.len() + more, 4);
        c.act(&Act::Give(Call::Ask { item: 0 }), &mut Lent { sheet, ..busy.clone() })?;
    }
    for place in [0, 7, 19, 43] {
        for length in [65_535usize, 32_768, 256] {
            let mut sheet = EXAMPLE[..place + 1].to_vec();
            sheet.extend((length as u16).to_le_bytes());
            for content in [length - 1, length, length + 1] {
                sheet.resize(place + 3 + content, b'A');
                c.act(
                    &Act::Open { full: false },
                    &mut Lent { sheet: sheet.clone(), ..busy.clone() },
                )?;
            }
        }
    }
    Ok(())
}

/// A list on a sheet from both openings, with what its last call must read.
fn ledger(c: &mut Comparison, specs: &[Spec], calls: &[Call], last: i64) -> Result<(), String> {
    let sheet = write_sheet(specs);
    let items = read_sheet(&sheet).unwrap();
    for full in [false, true] {
        let (mut lent, _) = opened(c, sheet.clone(), items.len(), full)?;
        let mut office = Some(Office::new(&items));
        let mut value = None;
        for call in calls {
            if let Call::Ask { item } = *call {
                let board = gen::board_of(&mut c.rng, &[item as u16; 2]);
                plain_board(c, board, &mut lent.clone(), &mut office)?;
            }
            plain_close(c, &mut lent.clone(), &mut office)?;
            value = Some(plain_call(c, *call, &mut lent, &mut office)?.value);
        }
        if value != Some(last) || lent.index != index_of(&items) {
            return Err(format!("{calls:?} ends with {value:?}, not {last}"));
        }
    }
    Ok(())
}

fn stale_ledgers(c: &mut Comparison) -> Result<(), String> {
    let entry = || Spec::Entry(b"A".to_vec());
    let (keep, step, ask) =
        (|item| Call::Keep { item }, |item| Call::Step { item }, |item| Call::Ask { item });
    let chain = [entry(), spec_figure(1, 0, 0, &[0]), spec_figure(1, 0, 0, &[1])];
    ledger(c, &chain, &[post(0, 1), keep(2), post(0, 6), step(0), keep(1), ask(2)], 6)?;
    let told = [entry(), spec_figure(1, 1, 0, &[0]), spec_figure(1, 0, 1, &[1])];
    let drop = |item| Call::Drop { item };
    let calls =
        [post(0, 3), ask(2), keep(2), post(0, 4), step(0), drop(1), post(0, 5), step(1), ask(2)];
    ledger(c, &told, &calls, 5)?;
    let null = [entry(), entry(), spec_figure(1, 1, 2, &[0, 1]), spec_figure(7, 0, 0, &[2])];
    ledger(c, &null, &[keep(2), keep(3), post(1, 7), step(1), drop(3), ask(3)], 1)?;
    let share = [entry(), entry(), spec_figure(5, 1, 1, &[0, 1]), spec_figure(1, 1, 1, &[0, 0, 2])];
    ledger(c, &share, &[post(0, -1), post(1, 5_000), ask(2), ask(3), ask(2)], -1)
}
