//! Editions: sheets of edition 1, whole and damaged, beside themselves in edition 2, which refuses spread
//! 2. Large sheets of both. What every act met of editions, item counts, lengths and spreads is counted.

use super::boards::plain_board;
use super::closes::plain_close;
use super::compare::{Act, Comparison, Lent};
use super::fixed::{expect, post};
use super::lists::{any_act, changed_bytes, open, plain_call, Office};
use super::spreads::beside;
use super::swaps::plain_swap;
use crate::gen::{self, first_spread_2, in_edition, Shape, Spec};
use crate::model::calls::{Call, Reply};
use crate::model::day::MOST;
use crate::model::field::u16_at;
use crate::model::sheet::{index_of, read_sheet, Item};
use crate::model::table::RECORD;
use crate::model::value::count_fits;
use crate::rng::Rng;

/// What each function must meet: accepted sheets, then refused ones.
pub const MET: [&str; 29] = [
    "edition 1",
    "edition 2",
    "1,024 items of edition 1",
    "1,024 items of edition 2",
    "1,025 items of edition 2",
    "4,096 items of edition 2",
    "128 items",
    "129 items",
    "up to 128 items",
    "129 to 1,024 items",
    "1,025 to 4,096 items",
    "over 65,536 bytes",
    "spread 2 in edition 1",
    "no item",
    "1,025 items of edition 1",
    "4,097 items of edition 2",
    "more items than either takes",
    "edition 0",
    "edition 3",
    "edition 256",
    "edition 258",
    "a fault, up to 128 items claimed",
    "a fault, 129 to 1,024 items claimed",
    "a fault, 1,025 to 4,096 items claimed",
    "no whole head",
    "spread 2 in edition 2",
    "spread 3 in edition 1",
    "spread 3 in edition 2",
    "a higher spread",
];
/// Where the refused ones begin.
pub const REFUSED: usize = 13;

pub type Times = [u64; MET.len()];

/// The spread byte of the figure's field at an offset, if nothing else of it is refused with 5.
fn spread_at_fault(sheet: &[u8], offset: u64) -> Option<u8> {
    let &[_, _, _, rule, keep, spread, count, ..] = &sheet[offset as usize..] else { return None };
    (count_fits(rule, count as usize) && keep < 2).then_some(spread)
}

/// Counts an act by its answer and its sheet.
pub fn count(met: &mut Times, &Reply { number, offset, .. }: &Reply, sheet: &[u8]) {
    let in_form = sheet.len() >= 7 && sheet[..3] == [1, 4, 0];
    let (edition, items) = match in_form {
        true => (u16_at(sheet, 3), u16_at(sheet, 5)),
        false => (0, 0),
    };
    let (taken, limit) = (number == 0, in_form && number == 4);
    let fault = in_form && [1, 2, 3, 5, 6, 7].contains(&number);
    let sizes = [1..=128, 129..=1_024, 1_025..=4_096].map(|size| size.contains(&items));
    let known = [1, 2].contains(&edition);
    let spread = if number == 5 { spread_at_fault(sheet, offset) } else { None };
    let met_here = [
        taken && edition == 1,
        taken && edition == 2,
        taken && (edition, items) == (1, 1_024),
        taken && (edition, items) == (2, 1_024),
        taken && (edition, items) == (2, 1_025),
        taken && (edition, items) == (2, 4_096),
        taken && items == 128,
        taken && items == 129,
        taken && sizes[0],
        taken && sizes[1],
        taken && sizes[2],
        taken && sheet.len() > MOST,
        taken && edition == 1 && first_spread_2(sheet).is_some(),
        limit && known && items == 0,
        limit && (edition, items) == (1, 1_025),
        limit && (edition, items) == (2, 4_097),
        limit && known && items > 4_097,
        limit && edition == 0,
        limit && edition == 3,
        limit && edition == 256,
        limit && edition == 258,
        fault && sizes[0],
        fault && sizes[1],
        fault && sizes[2],
        number == 1 && sheet.len() < 7,
        (edition, spread) == (2, Some(2)),
        (edition, spread) == (1, Some(3)),
        (edition, spread) == (2, Some(3)),
        matches!(spread, Some(4..)),
    ];
    met.iter_mut().zip(met_here).for_each(|(times, met)| *times += met as u64);
}

/// Whether the sheet's first field has edition 1 and at most 1,024 items.
fn is_first(sheet: &[u8]) -> bool {
    sheet.len() >= 7 && sheet[..5] == [1, 4, 0, 1, 0] && u16_at(sheet, 5) <= 1_024
}

/// What an act gives; of a board its result list, too.
pub fn given(c: &mut Comparison, act: &Act, lent: &mut Lent) -> Result<(Reply, Vec<u8>), String> {
    match act {
        Act::Board(lists) => {
            let mut board = lists.clone();
            let reply = c.board(&mut board, lent)?;
            Ok((reply, board.results))
        }
        _ => Ok((c.act(act, lent)?, vec![])),
    }
}

/// Where edition 2 refuses what edition 1 has given this answer: the first figure with spread 2, unless
/// a field before it is at fault, or its own with a lower number.
fn spread_refused(sheet: &[u8], reply: &Reply) -> Option<u64> {
    let first = first_spread_2(sheet)? as u64;
    let before = match reply.number {
        1..=5 => reply.offset <= first,
        6 | 7 => reply.offset < first,
        _ => false,
    };
    (!before).then_some(first)
}

/// An act on a sheet of edition 1, and on a copy with edition 2: they give the same answer, and leave
/// the same bytes. For spread 2 edition 2 gives 5, and changes nothing.
pub fn same(c: &mut Comparison, act: &Act, lent: &mut Lent) -> Result<Reply, String> {
    let before = Lent { sheet: in_edition(2, &lent.sheet), ..lent.clone() };
    let mut second = before.clone();
    let replies = [given(c, act, lent)?, given(c, act, &mut second)?];
    let (mut right, mut reply) = (before, replies[0].clone());
    match spread_refused(&right.sheet, &replies[0].0) {
        None => {
            right = Lent { sheet: right.sheet, ..lent.clone() };
            c.tally.edition_pairs += 1;
        }
        Some(offset) => {
            reply.0 = Reply { number: 5, offset, kind: 0, value: 0 };
            if let Act::Board(lists) = act {
                reply.1.clone_from(&lists.results);
            }
            c.tally.edition_refusals += (replies[0].0.number == 0) as u64;
        }
    }
    match replies[1] == reply && second == right {
        true => Ok(replies[0].0),
        false => Err(format!(
            "{act:?} gives {:?} in edition 1, {:?} in edition 2\n{}{}",
            replies[0],
            replies[1],
            lent.dump("left in edition 1"),
            second.dump("left in edition 2")
        )),
    }
}

/// The bytes with some of them changed, the sheet still one of edition 1 with at most 1,024 items.
fn changed(c: &mut Comparison, specs: &[Spec], items: &[Item], lent: &Lent) -> Lent {
    let what = c.rng.between(1, 7);
    let mut changed = changed_bytes(c, specs, items, lent, what);
    if changed.sheet.len() >= 7 && changed.sheet[..3] == [1, 4, 0] {
        changed.sheet = in_edition(1, &changed.sheet);
        if u16_at(&changed.sheet, 5) > 1_024 {
            let count = *c.rng.pick(&[0, 1, 127, 128, 129, 1_023, 1_024]);
            changed.sheet[5..7].copy_from_slice(&u16::to_le_bytes(count));
        }
    }
    for (bytes, record) in [(&mut changed.index, 4), (&mut changed.table, RECORD)] {
        // Any bytes at all, of the right length or of another.
        if c.rng.percent(5) {
            let length = *c.rng.pick(&[record * items.len(), bytes.len(), 0, 7, 4_096 * record]);
            *bytes = c.rng.bytes(length);
        }
    }
    match is_first(&changed.sheet) {
        true => changed,
        false => Lent { sheet: lent.sheet.clone(), ..changed },
    }
}

/// What an act of a list is given to: two sheets, one beside the other.
pub type Pair = fn(&mut Comparison, &Act, &mut Lent) -> Result<Reply, String>;

/// The items of a sheet of edition 1.
pub fn first_specs(rng: &mut Rng) -> Vec<Spec> {
    let shape = match rng.below(100) {
        0..=69 => Shape::Small,
        70..=91 => Shape::Medium,
        92..=98 => Shape::Deep,
        _ => Shape::Wide,
    };
    gen::sheet(rng, shape)
}

/// A list on a sheet of edition 1, each act of it in both editions; some on changed bytes. Three
/// quarters have no spread 2.
pub fn run_editions(c: &mut Comparison) -> Result<(), String> {
    let mut specs = first_specs(&mut c.rng);
    if c.rng.percent(75) {
        specs = gen::for_edition(&mut c.rng, 2, &specs);
    }
    let pairs = c.tally.edition_pairs;
    run_list_of_pairs(c, &specs, same)?;
    c.tally.random_pairs += c.tally.edition_pairs - pairs;
    Ok(())
}

/// A list on a sheet of edition 1, from any accepted table or an opening; some acts on changed bytes.
pub fn run_list_of_pairs(c: &mut Comparison, specs: &[Spec], pair: Pair) -> Result<(), String> {
    let sheet = gen::write_sheet(specs);
    let items = read_sheet(&sheet).unwrap();
    let mut lent = match c.rng.percent(50) {
        true => {
            let table = gen::accepted_table(&mut c.rng, &items);
            Lent { sheet, index: index_of(&items), table }
        }
        false => {
            let [index, table] = [4, RECORD].map(|record| c.rng.bytes(record * items.len()));
            let mut lent = Lent { sheet, index, table };
            let full = c.rng.percent(50);
            expect("an opening", pair(c, &Act::Open { full }, &mut lent)?.number, 0)?;
            lent
        }
    };
    for _ in 0..c.rng.between(2, if items.len() > 100 { 3 } else { 8 }) {
        let act = any_act(c, &items, &lent.table);
        if c.rng.percent(50) {
            let mut changed = changed(c, specs, &items, &lent);
            pair(c, &act, &mut changed)?;
        } else {
            pair(c, &act, &mut lent)?;
        }
    }
    Ok(())
}

/// An item count at a limit of what an engine lends its own scratch for, or between two.
fn large_count(rng: &mut Rng) -> u64 {
    match rng.below(16) {
        0..=2 => 128,
        3 | 4 => *rng.pick(&[127, 129]),
        5 | 6 => 1_024,
        7 => *rng.pick(&[1_023, 1_025]),
        8..=11 => 4_096,
        12 => 4_095,
        13 => rng.between(130, 1_022),
        _ => rng.between(1_026, 4_094),
    }
}

/// A large sheet: random items, of which the last are sums of many, the very last of item 0, the
/// lowest, and of items near it.
fn large_specs(rng: &mut Rng) -> Vec<Spec> {
    let (count, level) = (large_count(rng) as usize, *rng.pick(&[2, 5, 40]));
    let entries = rng.between(20, 60);
    let mut specs = gen::random_specs(rng, count - 2, entries, level);
    for spread in [0, rng.below(3) as u8] {
        let last = specs.len() as u16;
        let mut parents: Vec<u16> = (0..14).map(|_| rng.below(last as u64) as u16).collect();
        parents.extend([0, last - 1]);
        let keep = rng.below(2) as u8;
        let name = if rng.percent(50) { vec![b'L'] } else { vec![b'L'; 16] };
        specs.push(Spec::Figure { rule: 1, keep, spread, parents, name });
    }
    if rng.percent(30) {
        // Names as long as they can be: 4,096 items have more than 65,536 bytes.
        for spec in &mut specs {
            let (Spec::Entry(name) | Spec::Figure { name, .. }) = spec;
            name.resize(16, b'n');
        }
    }
    specs
}

/// A large sheet of either edition, with a table of an opening and a close, or with any accepted one:
/// postings to items that the last ones are sums of, and then every call, and refused ones.
pub fn run_large(c: &mut Comparison) -> Result<(), String> {
    let specs = large_specs(&mut c.rng);
    let sheet = gen::write_any(&mut c.rng, &specs);
    let items = read_sheet(&sheet).unwrap();
    c.tally.large_sheets += 1;
    c.tally.vast_sheets += (items.len() > 1_024) as u64;
    let (mut lent, mut office) = match c.rng.percent(50) {
        true => {
            let table = gen::accepted_table(&mut c.rng, &items);
            (Lent { sheet, index: index_of(&items), table }, None)
        }
        false => {
            let [index, table] = [4, RECORD].map(|record| c.rng.bytes(record * items.len()));
            let mut lent = Lent { sheet, index, table };
            let office = open(c, &items, &mut lent)?;
            (lent, Some(office))
        }
    };
    if office.is_some() {
        plain_close(c, &mut lent, &mut office)?;
    }
    let (n, numbers) = (items.len() as u64, gen::Numbers::Small);
    let parents = &items[items.len() - 1].figure.as_ref().unwrap().parents;
    let entries: Vec<usize> =
        parents.iter().copied().filter(|&p| items[p].figure.is_none()).collect();
    for number in [4, 5] {
        let entry = *c.rng.pick(&entries) as u64;
        plain_call(c, post(entry, number), &mut lent, &mut office)?;
        if c.rng.percent(50) {
            plain_call(c, Call::Step { item: entry }, &mut lent, &mut office)?;
        }
        if c.rng.percent(50) {
            let item = n - 1 - c.rng.below(2);
            plain_call(c, Call::Drop { item }, &mut lent, &mut office)?;
        }
        let item = n - 1 - c.rng.below(2);
        plain_call(c, Call::Ask { item }, &mut lent, &mut office)?;
    }
    plain_call(c, Call::Keep { item: n - 1 }, &mut lent, &mut office)?;
    let held = gen::numbers_of(&items, &lent.table);
    let swap = gen::any_swap(&mut c.rng, &items, &held);
    plain_swap(c, swap, &mut lent, &mut office)?;
    let board = gen::board_of(&mut c.rng, &[n as u16 - 1, 0, n as u16 - 2]);
    plain_board(c, board, &mut lent, &mut office)?;
    refused(c, &specs, &items, &lent, &mut office)?;
    let call = gen::any_call(&mut c.rng, &items, &lent.table, numbers);
    plain_call(c, call, &mut lent, &mut office)?;
    plain_close(c, &mut lent, &mut office)
}

/// Items beyond the last, and acts on changed bytes; the sheet's head among them.
fn refused(
    c: &mut Comparison,
    specs: &[Spec],
    items: &[Item],
    lent: &Lent,
    office: &mut Option<Office>,
) -> Result<(), String> {
    let n = items.len() as u64;
    let item = *c.rng.pick(&[n, n + 1, 1_024 + n, 4_096, 8_191, 65_536]);
    if item >= n {
        let mut same = lent.clone();
        let number = plain_call(c, Call::Ask { item }, &mut same, office)?.number;
        expect("an ask for no item", number, 11)?;
    }
    let act = any_act(c, items, &lent.table);
    let mut fewer = lent.clone();
    let count = *c.rng.pick(&[n - 1, n + 1]) as u16;
    fewer.sheet[5..7].copy_from_slice(&count.to_le_bytes());
    c.act(&act, &mut fewer)?;
    last_has_spread_2(c, items, &act, lent)?;
    let what = c.rng.between(1, 7);
    let mut changed = changed_bytes(c, specs, items, lent, what);
    c.act(&act, &mut changed).map(|_| ())
}

/// With spread 2 at its last item alone a sheet of edition 2 is refused there; one of edition 1 is as
/// it is with spread 0.
fn last_has_spread_2(
    c: &mut Comparison,
    items: &[Item],
    act: &Act,
    lent: &Lent,
) -> Result<(), String> {
    let (last, mut other) = (items[items.len() - 1].offset, lent.clone());
    other.sheet[last + 5] = 2;
    if u16_at(&other.sheet, 3) == 1 {
        return beside(c, act, &mut other).map(|_| ());
    }
    let before = other.clone();
    let reply = c.act(act, &mut other)?;
    match (reply.number, reply.offset) == (5, last as u64) && other == before {
        true => Ok(()),
        false => Err(format!("{act:?} with spread 2 at the last item gives {reply:?}")),
    }
}

#[cfg(test)]
mod tests {
    use super::*;
    use crate::gen::spread_places;
    use crate::mock::{Mock, Wrong};
    use crate::model::sheet::EXAMPLE;

    fn head(edition: u16, items: u16) -> Vec<u8> {
        let mut sheet = vec![1, 4, 0];
        sheet.extend(edition.to_le_bytes());
        sheet.extend(items.to_le_bytes());
        sheet
    }

    /// What is counted of an act on this sheet that gives this number and offset.
    fn counted(sheet: &[u8], number: u64, offset: u64) -> Vec<usize> {
        let mut met = Times::default();
        count(&mut met, &Reply { number, offset, kind: 0, value: 0 }, sheet);
        (0..MET.len()).filter(|&at| met[at] == 1).collect()
    }

    /// Each sheet counts as what it is, and as nothing else.
    #[test]
    fn sheets_are_counted() {
        let mut long = head(2, 1_300);
        long.resize(MOST + 1, 0);
        let cases = [
            (head(1, 5), 0, &[0, 8][..]),
            (head(2, 128), 0, &[1, 6, 8]),
            (head(1, 129), 0, &[0, 7, 9]),
            (head(1, 1_024), 0, &[0, 2, 9]),
            (head(2, 1_024), 0, &[1, 3, 9]),
            (head(2, 1_025), 0, &[1, 4, 10]),
            (head(2, 4_096), 0, &[1, 5, 10]),
            (long, 0, &[1, 10, 11]),
            (head(2, 0), 4, &[13]),
            (head(1, 1_025), 4, &[14]),
            (head(2, 4_097), 4, &[15]),
            (head(1, 65_535), 4, &[16]),
            (head(0, 5), 4, &[17]),
            (head(3, 5), 4, &[18]),
            (head(256, 5), 4, &[19]),
            (head(258, 5), 4, &[20]),
            (head(1, 5), 2, &[21]),
            (head(2, 200), 7, &[22]),
            (head(2, 4_000), 1, &[23]),
            (head(1, 5)[..6].to_vec(), 1, &[24]),
            (head(1, 5), 8, &[]),
            (head(2, 4_096), 11, &[]),
            (vec![2; 10], 2, &[]),
        ];
        for (sheet, number, right) in cases {
            let head = &sheet[..sheet.len().min(7)];
            assert_eq!(counted(&sheet, number, 0), right, "{number} {head:?}");
        }
    }

    /// The same of the example with another spread at its first figure, and of one that is refused for its
    /// rule or its keep, too.
    #[test]
    fn spreads_are_counted() {
        let at = spread_places(&EXAMPLE)[0];
        for (edition, spread, number, right) in [
            (1, 1, 0, &[0, 8][..]),
            (1, 2, 0, &[0, 8, 12]),
            (2, 1, 0, &[1, 8]),
            (2, 2, 5, &[21, 25]),
            (1, 3, 5, &[21, 26]),
            (2, 3, 5, &[21, 27]),
            (1, 4, 5, &[21, 28]),
            (2, 255, 5, &[21, 28]),
            (2, 2, 6, &[21]),
            (1, 2, 8, &[]),
        ] {
            let mut sheet = in_edition(edition, &EXAMPLE);
            sheet[at] = spread;
            assert_eq!(counted(&sheet, number, 19), right, "{edition} {spread} {number}");
            for other in [at - 2, at - 1].iter().filter(|_| number == 5) {
                let mut sheet = sheet.clone();
                sheet[*other] = 9;
                assert_eq!(counted(&sheet, 5, 19), [21]);
            }
        }
    }

    /// Where edition 2 refuses a sheet with spread 2 at its second figure, by what edition 1 gives.
    #[test]
    fn spread_2_is_refused_at_its_place() {
        let mut sheet = EXAMPLE.to_vec();
        let accepted = Reply { number: 0, offset: 0, kind: 0, value: 0 };
        assert_eq!(spread_refused(&sheet, &accepted), None);
        sheet[spread_places(&EXAMPLE)[1]] = 2;
        for (number, offset, right) in [
            (0, 0, Some(31)),
            (4, 0, None),
            (3, 7, None),
            (6, 19, None),
            (7, 19, None),
            (1, 31, None),
            (2, 31, None),
            (3, 31, None),
            (5, 31, None),
            (6, 31, Some(31)),
            (7, 31, Some(31)),
            (2, 43, Some(31)),
            (10, 0, Some(31)),
            (11, 0, Some(31)),
        ] {
            let reply = Reply { number, offset, kind: 0, value: 0 };
            assert_eq!(spread_refused(&sheet, &reply), right, "{number} {offset}");
        }
    }

    /// Changed sheets are of edition 1 with at most 1,024 items, and refused by each number and 0.
    #[test]
    fn changed_sheets_are_of_edition_1() {
        let mut mock = Mock(Wrong::Nothing);
        let mut c = Comparison::new(&mut mock, Rng::new(3));
        let mut met = [0; 8];
        for _ in 0..3_000 {
            let specs = gen::small_specs(&mut c.rng);
            let sheet = gen::write_sheet(&specs);
            let items = read_sheet(&sheet).unwrap();
            let lent =
                Lent { sheet, index: index_of(&items), table: vec![0; RECORD * items.len()] };
            let sheet = changed(&mut c, &specs, &items, &lent).sheet;
            assert!(is_first(&sheet));
            met[read_sheet(&sheet).map_or_else(|fault| fault.number, |_| 0) as usize] += 1;
        }
        assert!(met.iter().all(|&times| times > 10), "{met:?}");
    }

    /// An engine that does otherwise in edition 2 is found, unless it does so only with more items.
    #[test]
    fn other_answers_are_found() {
        assert!(is_first(&EXAMPLE) && !is_first(&in_edition(2, &EXAMPLE)));
        let with_more = [
            Wrong::SecondTakes4097,
            Wrong::SecondRefuses4096,
            Wrong::SecondRefuses1025,
            Wrong::SecondTakesAnyCount,
            Wrong::SecondTakesSpread2Beyond1024,
        ];
        let is = |wrong: &Wrong, edition: &str| format!("{wrong:?}").starts_with(edition);
        let editions = Wrong::EDITIONS.iter().filter(|wrong| is(wrong, "Second"));
        let spreads = Wrong::SPREADS.iter().filter(|wrong| !is(wrong, "First"));
        for wrong in editions.chain(spreads).filter(|wrong| !with_more.contains(wrong)) {
            let mut mock = Mock(*wrong);
            let found = (0..2_000).find_map(|part| {
                let mut c = Comparison::new(&mut mock, Rng::part(4, part));
                run_editions(&mut c).err()
            });
            assert!(found.is_some(), "{wrong:?} was not found");
        }
    }
}
