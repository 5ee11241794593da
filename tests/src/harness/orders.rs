//! Steps in every order: from each table of a small sheet, whoever wrote it, all sequences of steps
//! are followed to their ends.

use super::arrivals::Since;
use super::compare::{Act, Comparison, Lent};
use super::sequences::{run_ladder, run_sequences};
use super::small::{tables, Small, Values, FEW, FOUR, MANY, THREE};
use crate::model::board::Board;
use crate::model::calls::{Call, Reply};
use crate::model::field::u32_at;
use crate::model::sheet::{index_of, read_sheet};
use crate::model::table::{is_marked, no_mark, OWED, RECORD};
use std::collections::{HashMap, HashSet};

/// The most items of a sheet that is explored.
pub const MOST: usize = 4;

/// A sheet of more items is large.
pub const LARGE: usize = 100;

/// The orders that an office may have, each with a name.
pub const ORDERS: [&str; 4] = ["lowest first", "highest first", "any marked item", "in rounds"];

/// What accepted steps must be met to do.
pub const DONE: [&str; 13] = [
    "a refresh finds the same value",
    "a refresh finds another",
    "an entry's notice",
    "a stored figure's notice",
    "an UNK figure's notice",
    "an UNK figure is stepped, and stored",
    "a child gets refresh",
    "a child loses refresh",
    "another item gets notice",
    "a child with spread 2 gets refresh",
    "a child with spread 2 and notice gets another value",
    "a look-up stores a figure",
    "a look-up stores a figure with notice",
];

/// What was explored, and how the sequences of larger sheets ended.
#[derive(Default, Clone, Debug, PartialEq, Eq)]
pub struct Times {
    /// Sheets explored from all their tables, and the tables that were met.
    pub sheets: u64,
    pub tables: u64,
    /// Steps in every order.
    pub steps: u64,
    /// Those where there is no mark.
    pub refused: u64,
    /// The longest sequence of steps, by the number of items.
    pub longest: [u64; MOST + 1],
    /// Sheets explored from an opening, by all calls, and what these left.
    pub opened: u64,
    pub opened_tables: u64,
    /// Those without a mark.
    pub quiet: u64,
    /// Sequences of larger sheets that came to an end after some steps, by their order, and those that
    /// were not followed to it.
    pub ended: [u64; ORDERS.len()],
    pub interrupted: [u64; ORDERS.len()],
    /// Those that ended on sheets of more items than `LARGE`.
    pub large: u64,
    /// The most steps that one of them had, and how many all of them had.
    pub most: u64,
    pub taken: u64,
    /// How often each of `DONE` was met, in any comparison.
    pub done: [u64; DONE.len()],
}

impl Times {
    fn add(&mut self, explored: &Explored) {
        self.steps += explored.steps;
        self.refused += explored.refused;
        let found = explored.known.values().filter_map(|known| known.longest).max();
        let longest = &mut self.longest[explored.items];
        *longest = found.unwrap_or(0).max(*longest);
    }

    /// What must be met, with how often it was.
    pub fn all(&self) -> impl Iterator<Item = (String, u64)> + '_ {
        let named = DONE.iter().zip(self.done).chain(ORDERS.iter().zip(self.ended));
        let longest = self.longest.iter().enumerate().skip(1);
        let others =
            [("interrupted", self.interrupted.iter().sum()), ("until no mark is left", self.quiet)];
        named
            .map(|(name, times)| (name.to_string(), times))
            .chain(longest.map(|(n, &times)| (format!("in every order of {n} items"), times)))
            .chain(others.map(|(name, times)| (name.to_string(), times)))
    }

    /// Counts an accepted step by its sort and by what it does, from the table before and after.
    pub fn count_step(&mut self, lent: &Lent, item: usize, after: &[u8]) {
        let records = || lent.table.chunks(RECORD).zip(after.chunks(RECORD));
        let (old, new) = records().nth(item).unwrap();
        let entry = lent.sheet[u32_at(&lent.index, 4 * item) as usize] == 2;
        let notice = old[1] == 2;
        let any = |test: fn(&[u8], &[u8]) -> bool| {
            records().enumerate().any(|(i, (old, new))| i != item && test(old, new))
        };
        let spread_2 = |i: usize| {
            let at = u32_at(&lent.index, 4 * i) as usize;
            lent.sheet[at] == 3 && lent.sheet[at + 5] == 2
        };
        let any_2 = |test: fn(&[u8], &[u8]) -> bool| {
            records().enumerate().any(|(i, (old, new))| i != item && test(old, new) && spread_2(i))
        };
        let met = [
            !notice && new[1] == 0,
            !notice && new[1] == 2,
            notice && entry,
            notice && !entry && old[0] != 0,
            notice && old[0] == 0,
            notice && old[0] == 0 && new[0] != 0,
            any(|old, new| old[1] == 0 && new[1] == 1),
            any(|old, new| old[1] == 1 && new[1] == 0),
            any(|old, new| old[1] != 2 && new[1] == 2),
            any_2(|old, new| old[1] == 0 && new[1] == 1),
            any_2(|old, new| old[0] != 0 && old[1] == 2 && old[..OWED] != new[..OWED]),
            any(|old, new| old[0] == 0 && new[0] != 0 && new[1] == 0),
            any(|old, new| old[0] == 0 && new[0] != 0 && new[1] == 2),
        ];
        self.done.iter_mut().zip(met).for_each(|(times, met)| *times += met as u64);
    }
}

/// What acts are given to: both sides, or, in tests, a mock alone.
pub trait Acts {
    fn act(&mut self, act: &Act, lent: &mut Lent) -> Result<Reply, String>;

    /// A board, which fills its results.
    fn board(&mut self, board: &mut Board, lent: &mut Lent) -> Result<Reply, String>;
}

impl Acts for Comparison<'_> {
    fn act(&mut self, act: &Act, lent: &mut Lent) -> Result<Reply, String> {
        Comparison::act(self, act, lent)
    }

    fn board(&mut self, board: &mut Board, lent: &mut Lent) -> Result<Reply, String> {
        Comparison::board(self, board, lent)
    }
}

pub fn power(base: u64, items: usize) -> u64 {
    base.pow(items as u32)
}

/// What is known of a table.
struct Known {
    /// None while the sequences from it are followed.
    longest: Option<u64>,
    next: Vec<Vec<u8>>,
}

/// The tables of a sheet that were met, with the steps from each.
pub struct Explored {
    /// The sheet and its index; its table is empty.
    sheet: Lent,
    items: usize,
    known: HashMap<Vec<u8>, Known>,
    steps: u64,
    refused: u64,
}

impl Explored {
    pub fn new(sheet: &[u8]) -> Self {
        let items = read_sheet(sheet).unwrap();
        let sheet = Lent { sheet: sheet.to_vec(), index: index_of(&items), table: vec![] };
        Explored { sheet, items: items.len(), known: HashMap::new(), steps: 0, refused: 0 }
    }

    /// Follows all sequences of steps from all tables with these values.
    fn from_all(acts: &mut dyn Acts, sheet: &[u8], values: &Values) -> Result<Self, String> {
        let mut explored = Explored::new(sheet);
        for table in tables(sheet, values) {
            explored.longest(acts, &table, 0)?;
        }
        Ok(explored)
    }

    pub fn lent(&self, table: &[u8]) -> Lent {
        Lent { table: table.to_vec(), ..self.sheet.clone() }
    }

    /// What the steps from a table leave.
    pub fn next(&self, table: &[u8]) -> &[Vec<u8>] {
        &self.known[table].next
    }

    /// The longest sequence of steps from a table, after so many that led to it.
    pub fn longest(
        &mut self,
        acts: &mut dyn Acts,
        table: &[u8],
        before: u64,
    ) -> Result<u64, String> {
        match self.known.get(table).map(|known| known.longest) {
            Some(Some(longest)) => return Ok(longest),
            Some(None) => return Err(self.lent(table).dump("steps lead back to the same table")),
            None => self.is_short(table, before)?,
        }
        self.known.insert(table.to_vec(), Known { longest: None, next: vec![] });
        let (mut longest, mut next) = (0, vec![]);
        for item in 0..self.items {
            if let Some(left) = self.step(acts, table, item)? {
                longest = longest.max(1 + self.longest(acts, &left, before + 1)?);
                next.push(left);
            }
        }
        self.is_short(table, before + longest)?;
        self.known.insert(table.to_vec(), Known { longest: Some(longest), next });
        Ok(longest)
    }

    fn is_short(&self, table: &[u8], steps: u64) -> Result<(), String> {
        match steps < power(3, self.items) {
            true => Ok(()),
            false => Err(self.lent(table).dump("as many steps as 3^n, by way of a table")),
        }
    }

    /// What a step leaves: it is accepted if its item is marked. Else 14 is given, and nothing changes.
    fn step(
        &mut self,
        acts: &mut dyn Acts,
        table: &[u8],
        item: usize,
    ) -> Result<Option<Vec<u8>>, String> {
        let before = self.lent(table);
        let mut after = before.clone();
        let number = acts.act(&Act::Give(Call::Step { item: item as u64 }), &mut after)?.number;
        match (is_marked(table, item), number) {
            (true, 0) => {
                self.steps += 1;
                Ok(Some(after.table))
            }
            (false, 14) if after == before => {
                self.refused += 1;
                Ok(None)
            }
            _ => Err(before.dump(&format!("a step of item {item} gives {number}"))),
        }
    }
}

/// All sequences of steps from all tables of a sheet with these values. How many tables were met.
pub fn try_orders(c: &mut Comparison, sheet: &[u8], values: &Values) -> Result<u64, String> {
    let explored = Explored::from_all(c, sheet, values)?;
    c.tally.orders.add(&explored);
    Ok(explored.known.len() as u64)
}

/// The same of a sheet that is met nowhere else, so that its tables can be counted.
pub fn explore(c: &mut Comparison, sheet: &[u8], values: &Values) -> Result<(), String> {
    c.tally.orders.tables += try_orders(c, sheet, values)?;
    c.tally.orders.sheets += 1;
    Ok(())
}

/// All that calls leave since the openings of a sheet, with these values posted: all tables.
pub fn try_lists(
    c: &mut Comparison,
    sheet: &[u8],
    posted: &[(u8, i64)],
) -> Result<HashSet<Vec<u8>>, String> {
    let since = Since::explore(c, sheet, posted)?;
    c.tally.orders.add(&since.explored);
    Ok(since.met)
}

/// The same of a sheet that is met nowhere else, so that its tables can be counted.
pub fn since_openings(
    c: &mut Comparison,
    sheet: &[u8],
    posted: &[(u8, i64)],
) -> Result<(), String> {
    let met = try_lists(c, sheet, posted)?;
    c.tally.orders.opened += 1;
    c.tally.orders.opened_tables += met.len() as u64;
    c.tally.orders.quiet += met.iter().filter(|table| no_mark(table)).count() as u64;
    Ok(())
}

/// The sheet of a turn, each of them in one of its ways; none once all have had their turn.
pub fn chosen(small: &[Small], turn: u64) -> Option<Vec<u8>> {
    let all: u64 = small.iter().map(Small::ways).sum();
    // 31 is a prime, and goes into no number of sheets: its multiples meet each of them once.
    let mut at = turn * 31 % all;
    for sheets in small {
        if at < sheets.ways() {
            return (turn < all).then(|| sheets.sheet(at));
        }
        at -= sheets.ways();
    }
    None
}

/// Two sheets of three items and one of four from all tables, one of three, and sometimes one of four,
/// from the openings.
pub fn run_small(c: &mut Comparison, part: u64) -> Result<(), String> {
    for sheet in [2 * part, 2 * part + 1].iter().filter_map(|&turn| chosen(&THREE, turn)) {
        explore(c, &sheet, &MANY)?;
    }
    if let Some(sheet) = chosen(&FOUR, part) {
        explore(c, &sheet, &FEW)?;
    }
    if let Some(sheet) = chosen(&THREE, part) {
        since_openings(c, &sheet, MANY.entries)?;
    }
    match chosen(&FOUR, part / 4) {
        Some(sheet) if part % 4 == 3 => since_openings(c, &sheet, FEW.figures),
        _ => Ok(()),
    }
}

/// A part: small sheets in every order, and an office's orders on sheets of any size. One has the
/// highest ladder, whose figures list 16 parents at most: it takes too long for a memory checker.
pub fn run_orders(c: &mut Comparison, part: u64) -> Result<(), String> {
    run_small(c, part)?;
    if part == 1 {
        run_ladder(c, 17)?;
    }
    (0..4).try_for_each(|_| run_sequences(c))
}

#[cfg(test)]
mod tests {
    use super::super::small::{ONE, TWO};
    use super::*;
    use crate::engine::Engine;
    use crate::gen::{make_owed_true, plain_chain, spec_figure, write_sheet, Spec};
    use crate::guarded::Guarded;
    use crate::harness::fixed::post;
    use crate::mock::{Mock, Wrong};
    use crate::rng::Rng;

    /// A mock without the model beside it, so that only what is promised of steps can find it.
    struct Alone(Mock);

    impl Acts for Alone {
        fn act(&mut self, act: &Act, lent: &mut Lent) -> Result<Reply, String> {
            let mut handed =
                [&lent.sheet, &lent.index, &lent.table].map(|bytes| Guarded::new(bytes, 0));
            let [sheet, index, table] = &mut handed;
            let reply = match act {
                Act::Open { full } => self.0.open(*full, sheet, index, table),
                Act::Give(call) => self.0.call(call, sheet, index, table),
                Act::Swap(swap) => self.0.swap(swap, sheet, index, table),
                Act::Close => self.0.close(sheet, index, table),
                Act::Board(board) => return self.board(&mut board.clone(), lent),
            };
            [lent.sheet, lent.index, lent.table] = handed.map(|bytes| bytes.bytes().to_vec());
            Ok(reply)
        }

        fn board(&mut self, board: &mut Board, lent: &mut Lent) -> Result<Reply, String> {
            let lists = [&lent.sheet, &lent.index, &lent.table, &board.items, &board.results];
            let mut handed = lists.map(|bytes| Guarded::new(bytes, 0));
            let [sheet, index, table, items, results] = &mut handed;
            let reply = self.0.board(sheet, index, table, items, results);
            (lent.table, board.results) = (table.bytes().to_vec(), results.bytes().to_vec());
            Ok(reply)
        }
    }

    /// What is promised of steps, on the sheets of two items and on some of three.
    fn promises(wrong: Wrong) -> Result<(), String> {
        let mut alone = Alone(Mock(wrong));
        let two = TWO.iter().flat_map(|small| (0..small.ways()).map(|way| small.sheet(way)));
        let three = (0..16).filter_map(|turn| chosen(&THREE, turn));
        for sheet in two.chain(three) {
            Explored::from_all(&mut alone, &sheet, &FEW)?;
            Since::explore(&mut alone, &sheet, FEW.figures)?;
        }
        Ok(())
    }

    /// The mocks with wrong steps are found by the promises alone, but for those that keep them:
    /// these end and arrive, by other steps than they must.
    #[test]
    fn broken_promises_are_found() {
        promises(Wrong::Nothing).unwrap();
        let mut kept = Vec::new();
        for wrong in Wrong::STEPS {
            match promises(wrong) {
                Ok(()) => kept.push(wrong),
                Err(found) => println!("{wrong:?}: {}", found.lines().next().unwrap()),
            }
        }
        let right = [
            Wrong::ClearsMarkBeforeTelling,
            Wrong::StepGoesOnToTelling,
            Wrong::StepNotesEqual,
            Wrong::StepForgetsChanged,
            Wrong::StepOfNoticeStores,
            Wrong::StepTakesTheLowest,
            Wrong::StepTakesTheHighest,
            Wrong::StepTakesAllMarked,
            Wrong::StepTakesThoseBelowFirst,
            Wrong::StepCatchesUp,
            Wrong::TellsHighestFirst,
            Wrong::TellsGrandchildren,
            Wrong::TellsDeferByForgetting,
            Wrong::TellsRenewAsDefer,
            Wrong::TellsRenewOfEqual,
        ];
        assert_eq!(kept, right);
    }

    /// Steps that lead nowhere else, and steps that are too many.
    #[test]
    fn steps_that_do_not_end_are_found() {
        /// Adds so much to a byte of the last number at each step.
        struct Adds(i64);
        impl Acts for Adds {
            fn act(&mut self, _: &Act, lent: &mut Lent) -> Result<Reply, String> {
                lent.table[13] = lent.table[13].wrapping_add(self.0 as u8);
                Ok(Reply { number: 0, offset: 0, kind: 0, value: 0 })
            }

            fn board(&mut self, _: &mut Board, _: &mut Lent) -> Result<Reply, String> {
                unreachable!()
            }
        }
        let table = [[3, 2, 0, 0, 0, 0, 0, 0, 0, 0, 0]; 2].concat();
        for (adds, right) in
            [(0, "steps lead back"), (128, "steps lead back"), (1, "as many steps")]
        {
            let mut explored = Explored::new(&plain_chain(1));
            let found = explored.longest(&mut Adds(adds), &table, 0).unwrap_err();
            assert!(found.starts_with(right), "{adds}: {found}");
        }
    }

    /// The longest sequence of a table that is followed by hand: a post to the entry of a chain, whose
    /// figures are stored.
    #[test]
    fn a_chain_is_followed() {
        let mut alone = Alone(Mock(Wrong::Nothing));
        for (full, right) in [(false, 1), (true, 5)] {
            let mut explored = Explored::new(&plain_chain(2));
            let mut lent = explored.lent(&[9; 3 * RECORD]);
            for act in [Act::Open { full }, Act::Give(post(0, 5))] {
                assert_eq!(alone.act(&act, &mut lent).unwrap().number, 0);
            }
            assert_eq!(explored.longest(&mut alone, &lent.table, 0), Ok(right));
            // One item is marked in each table of the sequence.
            assert_eq!(explored.known.len() as u64, right + 1);
            assert_eq!((explored.steps, explored.refused), (right, 2 * right + 3));
        }
    }

    /// The turns have each sheet once, and the first of them each keep and spread of each figure.
    #[test]
    fn every_sheet_has_its_turn() {
        for (small, count, first) in [(&THREE[..], 270, 60), (&FOUR, 1_404, 216)] {
            let turns = |count| (0..count).filter_map(|turn| chosen(small, turn));
            let all: Vec<_> =
                small.iter().flat_map(|s| (0..s.ways()).map(|way| s.sheet(way))).collect();
            assert_eq!(all.len(), count);
            assert_eq!(turns(2 * count as u64).count(), count);
            assert_eq!(turns(count as u64).collect::<HashSet<_>>(), all.into_iter().collect());
            let figures: Vec<_> = turns(first).map(|s| read_sheet(&s).unwrap()).collect();
            for item in 1..figures[0].len() {
                for (keep, spread) in [0, 1, 2].iter().flat_map(|s| [(false, s), (true, s)]) {
                    let mut met = figures.iter().filter_map(|items| items[item].figure.as_ref());
                    assert!(met.any(|f| (f.keep, &f.spread_byte) == (keep, spread)));
                }
            }
        }
        assert_eq!((chosen(&ONE, 0), chosen(&ONE, 1)), (Some(ONE[0].sheet(0)), None));
    }

    /// What is counted of a step: the values and marks of an entry, a figure of it with keep 1, and a
    /// figure of that with a spread.
    fn counted(spread: u8, values: [(u8, i64); 3], marks: [u8; 3], item: u64) -> Vec<usize> {
        let figures = [spec_figure(1, 1, 0, &[0]), spec_figure(1, 0, spread, &[1])];
        let sheet = write_sheet(&[vec![Spec::Entry(b"A".to_vec())], figures.to_vec()].concat());
        let record = |((kind, number), mark): ((u8, i64), u8)| {
            [vec![kind, mark], number.to_le_bytes().to_vec(), vec![0]].concat()
        };
        let mut table: Vec<u8> = values.into_iter().zip(marks).flat_map(record).collect();
        make_owed_true(&read_sheet(&sheet).unwrap(), &mut table);
        let mut mock = Mock(Wrong::Nothing);
        let mut c = Comparison::new(&mut mock, Rng::new(1));
        let mut lent = Explored::new(&sheet).lent(&table);
        assert_eq!(c.act(&Act::Give(Call::Step { item }), &mut lent).unwrap().number, 0);
        (0..DONE.len()).filter(|&at| c.tally.orders.done[at] != 0).collect()
    }

    /// Each step counts as what it does, and as nothing else.
    #[test]
    fn steps_are_counted() {
        let (unk, one, two) = ((0, 0), (3, 1), (3, 2));
        let (defer, renew) = (2, 1);
        let right = |met: Vec<usize>, right: &[usize]| assert_eq!(met, right);
        right(counted(renew, [one, one, one], [0, 1, 0], 1), &[0]);
        right(counted(renew, [one, two, one], [0, 1, 0], 1), &[1]);
        right(counted(renew, [one, one, one], [2, 1, 0], 0), &[2]);
        right(counted(renew, [one, one, one], [2, 0, 0], 0), &[2, 6]);
        right(counted(renew, [one, one, one], [0, 2, 1], 1), &[3, 7]);
        right(counted(renew, [one, one, two], [0, 2, 1], 1), &[3, 8]);
        right(counted(renew, [one, one, unk], [0, 2, 0], 1), &[3]);
        right(counted(renew, [one, unk, unk], [0, 2, 0], 1), &[4]);
        right(counted(renew, [one, unk, two], [0, 2, 0], 1), &[4, 5, 8]);
        right(counted(0, [one, one, one], [0, 2, 0], 1), &[3, 6]);
        right(counted(0, [one, one, two], [0, 2, 2], 1), &[3]);
        right(counted(defer, [one, one, one], [0, 2, 0], 1), &[3, 6, 9]);
        right(counted(defer, [one, one, two], [0, 2, 2], 1), &[3, 10]);
        right(counted(defer, [one, one, one], [0, 2, 2], 1), &[3]);
        right(counted(renew, [one, unk, one], [0, 0, 1], 2), &[0, 11]);
        right(counted(renew, [one, unk, one], [2, 0, 1], 2), &[0, 8, 12]);
    }
}
