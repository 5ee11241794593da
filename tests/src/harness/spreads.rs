//! Spread bytes: sheets of edition 1 with spread 2, whole and damaged, beside themselves with spread 0 and
//! with any spreads. Tables as version 4.3.0 left them, when a figure with spread 2 forgot: they are
//! accepted, read right, and gone on with.

use super::boards::plain_board;
use super::closes::plain_close;
use super::compare::{Act, Comparison, Lent};
use super::editions::{first_specs, given, run_list_of_pairs};
use super::lists::{plain_call, Office};
use super::older::{any_acts, takes};
use super::swaps::{fresh_swap, plain_swap};
use crate::engine::Engine;
use crate::gen::{self, deferring, with_spreads, Numbers, Spec};
use crate::guarded::Guarded;
use crate::mock::{Mock, Wrong};
use crate::model::board::Board;
use crate::model::calls::{Call, Reply};
use crate::model::fresh::FreshOffice;
use crate::model::sheet::{index_of, read_sheet, Item};
use crate::model::table::{from_pair, RECORD};
use crate::rng::Rng;

/// An act on a sheet of edition 1, and on a copy with 0 for each spread 2: they give the same answer,
/// and leave the same bytes; neither sheet changes.
pub fn beside(c: &mut Comparison, act: &Act, lent: &mut Lent) -> Result<Reply, String> {
    let sheets = [lent.sheet.clone(), deferring(&lent.sheet)];
    let mut plain = Lent { sheet: sheets[1].clone(), ..lent.clone() };
    let replies = [given(c, act, lent)?, given(c, act, &mut plain)?];
    c.tally.spread_pairs += (sheets[0] != sheets[1]) as u64;
    let same =
        lent.sheet == sheets[0] && plain == Lent { sheet: sheets[1].clone(), ..lent.clone() };
    match replies[0] == replies[1] && same {
        true => Ok(replies[0].0),
        false => Err(format!(
            "{act:?} gives {:?} with spread 2, {:?} with spread 0\n{}{}",
            replies[0],
            replies[1],
            lent.dump("left with spread 2"),
            plain.dump("left with spread 0")
        )),
    }
}

/// The same act on a copy with other spreads of edition 1: it is accepted, or refused with the same number.
fn with_others(c: &mut Comparison, act: &Act, lent: &mut Lent) -> Result<Reply, String> {
    let rng = &mut c.rng;
    let any = |byte| if byte <= 2 { rng.below(3) as u8 } else { byte };
    let mut other = Lent { sheet: with_spreads(&lent.sheet, any), ..lent.clone() };
    let differs = other.sheet != lent.sheet;
    let reply = beside(c, act, lent)?;
    let second = c.act(act, &mut other)?;
    let for_table = differs && (8..=10).contains(&reply.number);
    c.tally.other_spreads += differs as u64;
    c.tally.other_spreads_refused += for_table as u64;
    match (reply.number, reply.offset) == (second.number, second.offset) {
        true => Ok(reply),
        false => Err(format!("{act:?} gives {reply:?}, and with other spreads {second:?}")),
    }
}

/// The items with spread 2 for about every second figure.
fn with_spread_2(rng: &mut Rng, mut specs: Vec<Spec>) -> Vec<Spec> {
    for spec in &mut specs {
        if let Spec::Figure { spread, .. } = spec {
            *spread = if rng.percent(50) { 2 } else { *spread };
        }
    }
    specs
}

/// A list on a sheet of edition 1 with spread 2, each act of it with other spreads too.
pub fn run_spreads(c: &mut Comparison) -> Result<(), String> {
    let specs = first_specs(&mut c.rng);
    let specs = with_spread_2(&mut c.rng, specs);
    let pairs = c.tally.spread_pairs;
    run_list_of_pairs(c, &specs, with_others)?;
    c.tally.random_spread_pairs += c.tally.spread_pairs - pairs;
    Ok(())
}

/// An engine with what it is lent, and what was posted to it.
struct Written<'i> {
    mock: Mock,
    lent: [Guarded; 3],
    items: &'i [Item],
    fresh: FreshOffice<'i>,
}

impl<'i> Written<'i> {
    fn open(wrong: Wrong, full: bool, sheet: &[u8], items: &'i [Item]) -> Self {
        let [index, table] = [4, RECORD].map(|record| vec![0; record * items.len()]);
        let mut lent = [sheet, &index, &table].map(|bytes| Guarded::new(bytes, 0));
        let (mut mock, [sheet, index, table]) = (Mock(wrong), &mut lent);
        mock.open(full, sheet, index, table);
        Written { mock, lent, items, fresh: FreshOffice::new(items) }
    }

    fn table(&self) -> &[u8] {
        self.lent[2].bytes()
    }

    /// Gives an act, and feeds the fresh office what it posts.
    fn give(&mut self, act: &Act) {
        let [sheet, index, table] = &mut self.lent;
        match act {
            Act::Give(call) => {
                self.fresh.feed(call);
                self.mock.call(call, sheet, index, table);
            }
            Act::Swap(swap) => {
                for (entry, (kind, number)) in fresh_swap(self.items, &self.fresh, swap).1 {
                    let value = from_pair(kind as u64, number).unwrap();
                    self.fresh.posting(entry as usize, value);
                }
                self.mock.swap(swap, sheet, index, table);
            }
            Act::Board(Board { items, results }) => {
                let [mut items, mut results] = [items, results].map(|b| Guarded::new(b, 0));
                self.mock.board(sheet, index, table, &mut items, &mut results);
            }
            Act::Close => {
                self.mock.close(sheet, index, table);
            }
            Act::Open { .. } => unreachable!(),
        }
    }
}

/// Any act but an opening, mostly a call.
fn next_act(rng: &mut Rng, items: &[Item], table: &[u8], numbers: Numbers) -> Act {
    match rng.below(100) {
        0..=2 => Act::Close,
        3..=6 => Act::Board(gen::any_board(rng, items)),
        7..=14 => Act::Swap(gen::any_swap(rng, items, &gen::numbers_of(items, table))),
        _ => Act::Give(gen::any_call(rng, items, table, numbers)),
    }
}

/// A table as version 4.3.0 left it after a list since an opening, by a mock with the telling of then;
/// what was posted; and whether the list leaves another table now.
fn forgotten_table<'i>(
    rng: &mut Rng,
    sheet: &[u8],
    items: &'i [Item],
) -> (Vec<u8>, FreshOffice<'i>, bool) {
    let full = rng.percent(60);
    let mut then = Written::open(Wrong::FirstSpread2Forgets, full, sheet, items);
    let mut now = Written::open(Wrong::Nothing, full, sheet, items);
    let numbers = gen::choose_numbers(rng);
    for _ in 0..rng.between(5, 25) {
        let act = next_act(rng, items, then.table(), numbers);
        then.give(&act);
        now.give(&act);
    }
    let others = then.table() != now.table();
    (then.table().to_vec(), then.fresh, others)
}

/// A random table of version 4.3.0: no act refuses it, every ask gives what the fresh office gives that was
/// posted the same, and so does a list that goes on.
pub fn run_forgotten(c: &mut Comparison) -> Result<(), String> {
    let specs = match c.rng.percent(50) {
        true => gen::small_specs(&mut c.rng),
        false => gen::guard_specs(&mut c.rng),
    };
    let sheet = gen::write_sheet(&with_spread_2(&mut c.rng, specs));
    let items = read_sheet(&sheet).unwrap();
    let (table, fresh, others) = forgotten_table(&mut c.rng, &sheet, &items);
    let mut lent = Lent { sheet, index: index_of(&items), table };
    c.tally.forgotten_tables += 1;
    c.tally.forgotten_others += others as u64;
    let acts = any_acts(c, &items, &lent.table);
    takes(c, &lent, &acts)?;
    let mut office = Some(Office::with(&items, fresh));
    for item in 0..items.len() as u64 {
        plain_call(c, Call::Ask { item }, &mut lent.clone(), &mut office)?;
    }
    let numbers = gen::choose_numbers(&mut c.rng);
    for _ in 0..c.rng.between(5, 15) {
        match next_act(&mut c.rng, &items, &lent.table, numbers) {
            Act::Give(call) => plain_call(c, call, &mut lent, &mut office).map(|_| ())?,
            Act::Swap(swap) => plain_swap(c, swap, &mut lent, &mut office).map(|_| ())?,
            Act::Board(board) => plain_board(c, board, &mut lent, &mut office).map(|_| ())?,
            _ => plain_close(c, &mut lent, &mut office)?,
        }
    }
    plain_close(c, &mut lent, &mut office)
}

#[cfg(test)]
mod tests {
    use super::*;
    use crate::gen::{in_edition, spec_figure, write_sheet};
    use crate::harness::closes::table_of;
    use crate::harness::fixed::opened;
    use crate::harness::fixed_owed::{ask, keep, posted, step};
    use crate::model::sheet::EXAMPLE;
    use crate::model::swap::Swap;
    use crate::model::value::Value;

    /// An entry, a figure of it and one of that, both with spread 2.
    fn sheet() -> Vec<u8> {
        let sum = |parent| spec_figure(1, 0, 2, &[parent]);
        write_sheet(&[Spec::Entry(b"A".to_vec()), sum(0), sum(1)])
    }

    /// Kind, mark, number and owed of each item, after these acts since a bare opening.
    fn left(wrong: Wrong, acts: &[Act]) -> Vec<[u8; 4]> {
        let (sheet, items) = (sheet(), read_sheet(&sheet()).unwrap());
        let mut written = Written::open(wrong, false, &sheet, &items);
        acts.iter().for_each(|act| written.give(act));
        written.table().chunks(RECORD).map(|r| [r[0], r[1], r[2], r[10]]).collect()
    }

    /// What is told became UNK with notice, owed or not, and is marked refresh now.
    #[test]
    fn figures_forgot() {
        let (then, now) = (Wrong::FirstSpread2Forgets, Wrong::Nothing);
        let both = [keep(1), keep(2), posted(0, 5), step(0)];
        assert_eq!(left(then, &both), [[3, 0, 5, 1], [0, 2, 0, 1], [1, 0, 0, 0]]);
        assert_eq!(left(now, &both), [[3, 0, 5, 1], [1, 1, 0, 1], [1, 0, 0, 0]]);
        let one = [keep(1), posted(0, 5), step(0)];
        assert_eq!(left(then, &one), [[3, 0, 5, 0], [0, 2, 0, 0], [0, 0, 0, 0]]);
        assert_eq!(left(now, &one), [[3, 0, 5, 1], [1, 1, 0, 0], [0, 0, 0, 0]]);
        let asked = [&both[..], &[ask(0)]].concat();
        assert_eq!(left(then, &asked), [[3, 0, 5, 0], [0, 0, 0, 0], [0, 0, 0, 0]]);
        assert_eq!(left(now, &asked), [[3, 0, 5, 1], [3, 0, 5, 1], [3, 0, 5, 0]]);
    }

    /// What was posted is fed to the fresh office, a swap's postings too; what was refused is not.
    #[test]
    fn postings_are_fed() {
        let items = read_sheet(&EXAMPLE).unwrap();
        let mut written = Written::open(Wrong::Nothing, true, &EXAMPLE, &items);
        let swap = |quantity| Act::Swap(Swap { giver: 0, taker: 1, quantity });
        let board = Act::Board(Board { items: vec![4, 0], results: vec![0; 9] });
        for act in [posted(0, 5), posted(3, 9), swap(2), swap(0), board, Act::Close] {
            written.give(&act);
        }
        let values: Vec<Option<i64>> = (0..5)
            .map(|item| match written.fresh.asked(item) {
                Some(Value::Number(number)) => Some(number),
                _ => None,
            })
            .collect();
        assert_eq!(values, [Some(3), Some(2), None, Some(3), Some(1)]);
        assert_eq!(written.table(), table_of(&items, &written.fresh));
    }

    /// Other answers are found: those of edition 2, which has no spread 2.
    #[test]
    fn other_answers_are_found() {
        let mut mock = Mock(Wrong::Nothing);
        let mut c = Comparison::new(&mut mock, Rng::new(1));
        let (mut lent, number) = opened(&mut c, sheet(), 3, false).unwrap();
        assert_eq!(number, 0);
        for act in [Act::Open { full: true }, ask(2), Act::Close] {
            assert_eq!(beside(&mut c, &act, &mut lent).unwrap().number, 0);
        }
        assert_eq!(c.tally.spread_pairs, 3);
        lent.sheet = in_edition(2, &lent.sheet);
        for act in [Act::Open { full: true }, ask(2), Act::Close] {
            assert!(beside(&mut c, &act, &mut lent.clone()).is_err());
        }
    }
}
