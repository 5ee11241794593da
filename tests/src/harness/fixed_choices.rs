//! Choices that are the same in every run: each value in each place, with the result written out, by
//! every way of reading and working out; what a look-up of a choice stores and flags, spelled out;
//! branches that change; and tables that hold what the choice of before gave.

use super::closes::as_keeps;
use super::compare::{Act, Comparison, Lent};
use super::fixed::{expect, opened, pair_of, post_given, reads, Given, OUT};
use super::fixed_closes::closes_to;
use super::fixed_owed::{ask, board, drop, entry, keep, posted, sum};
use super::lists::{plain_call, Office};
use super::older::opened_anew;
use crate::gen::{spec_figure, write_sheet, Spec};
use crate::model::board::Board;
use crate::model::calls::Call;
use crate::model::sheet::read_sheet;
use crate::model::table::{OWED, RECORD};
use crate::model::value::LIMIT;

pub fn run_fixed_choices(c: &mut Comparison) -> Result<(), String> {
    every_triple(c)?;
    figures(c)?;
    others_stay_strict(c)?;
    looked_up(c)?;
    flips(c)?;
    values_of_before(c)
}

/// The values of a parent, each with the place whose value is the result where it is the first's.
const VALUES: [(Given, usize); 8] = [
    (None, 0),
    (OUT, 0),
    (Some(-1_000_000_000_000_000), 2),
    (Some(-1), 2),
    (Some(0), 2),
    (Some(1), 1),
    (Some(2), 1),
    (Some(1_000_000_000_000_000), 1),
];

/// Worked figures of each case; the last is the paper's.
const FIGURES: [([Given; 3], Given); 8] = [
    ([OUT, Some(1), Some(2)], OUT),
    ([None, OUT, OUT], None),
    ([Some(1), Some(7), OUT], Some(7)),
    ([Some(0), OUT, Some(9)], Some(9)),
    ([Some(1), OUT, Some(9)], OUT),
    ([Some(2), None, Some(9)], None),
    ([Some(-1), Some(4), None], None),
    ([Some(0), Some(7), Some(9)], Some(9)),
];

/// Rule of the parents, keep and spread of the choice.
type Form = (u8, u8, u8);
const FORMS: [Form; 6] = [(1, 0, 0), (5, 1, 1), (1, 0, 2), (5, 1, 0), (1, 0, 1), (5, 1, 2)];

/// The parents of a choice as 6, 7 and 8, each of two entries; the choice is 9, and 10 its sum.
const CHOICE: u64 = 9;

fn sheet_of((rule, keep, spread): Form) -> Vec<u8> {
    let mut specs = vec![entry(); 6];
    specs.extend([0, 2, 4].map(|first| spec_figure(rule, keep, spread, &[first, first + 1])));
    specs.push(spec_figure(6, keep, spread, &[6, 7, 8]));
    specs.push(sum(0, spread, &[9]));
    write_sheet(&specs)
}

/// The two entries of a sum, or of a share, that gives a value.
fn made_of(rule: u8, value: Given) -> [Given; 2] {
    match (rule, value) {
        (1, OUT) => [Some(LIMIT), Some(1)],
        (1, _) => [value, None],
        (_, OUT) => [Some(7), Some(10_001)],
        _ => [value, Some(10_000)],
    }
}

/// Posts what the parents of the choice are made of.
fn post_triple(
    c: &mut Comparison,
    lent: &mut Lent,
    rule: u8,
    parents: [Given; 3],
) -> Result<(), String> {
    let entries = parents.into_iter().flat_map(|value| made_of(rule, value));
    for (item, value) in (0..).zip(entries) {
        expect("a post", c.act(&Act::Give(post_given(item, value)), lent)?.number, 0)?;
    }
    Ok(())
}

/// Each triple of the values, with what a choice of it gives.
fn triples() -> impl Iterator<Item = ([Given; 3], Given)> {
    (0..512).map(|turn| {
        let [(first, place), (second, _), (third, _)] =
            [turn / 64, turn / 8 % 8, turn % 8].map(|at: usize| VALUES[at]);
        let parents = [first, second, third];
        (parents, parents[place])
    })
}

/// Each triple follows another on a table of one of the forms, where the choice is stored.
fn every_triple(c: &mut Comparison) -> Result<(), String> {
    let mut tables = Vec::new();
    for (form, full) in FORMS.into_iter().zip([false, true, false, false, true, true]) {
        let (mut lent, _) = opened(c, sheet_of(form), 11, full)?;
        c.act(&keep(CHOICE), &mut lent)?;
        tables.push((form, lent));
    }
    for (turn, (parents, right)) in triples().enumerate() {
        // Another form for the same place each time.
        let ((rule, _, _), lent) = &mut tables[(turn + turn / 8 + turn / 64) % 6];
        triple(c, lent, *rule, parents, right).map_err(|e| format!("choice{parents:?}: {e}"))?;
    }
    Ok(())
}

fn figures(c: &mut Comparison) -> Result<(), String> {
    for (at, form) in FORMS.into_iter().enumerate() {
        let (mut lent, _) = opened(c, sheet_of(form), 11, at % 2 == 1)?;
        for (parents, right) in FIGURES {
            triple(c, &mut lent, form.0, parents, right)
                .map_err(|e| format!("choice{parents:?}: {e}"))?;
        }
    }
    Ok(())
}

/// A choice of these parents, and the sum of it: by a close, by steps and keeps, on a board, by asks,
/// and by a keep after a drop. It is stored afterwards.
fn triple(
    c: &mut Comparison,
    lent: &mut Lent,
    rule: u8,
    parents: [Given; 3],
    right: Given,
) -> Result<(), String> {
    post_triple(c, lent, rule, parents)?;
    closes_to(c, lent, CHOICE, right)?;
    let mut closed = lent.clone();
    c.act(&Act::Close, &mut closed)?;
    as_keeps(c, lent, &closed)?;
    shows(c, lent, &[CHOICE, CHOICE + 1], right)?;
    reads(c, lent, CHOICE, right)?;
    reads(c, lent, CHOICE + 1, right)?;
    c.act(&drop(CHOICE), lent)?;
    c.act(&keep(CHOICE), lent)?;
    holds(lent, CHOICE, 0, right)
}

/// A board of these items, each of which must be read so. The bytes are kept.
fn shows(c: &mut Comparison, lent: &Lent, items: &[u64], right: Given) -> Result<(), String> {
    let listed = items.iter().flat_map(|&item| (item as u16).to_le_bytes()).collect();
    let mut lists = Board { items: listed, results: vec![7; 9 * items.len()] };
    expect("a board", c.board(&mut lists, &mut lent.clone())?.number, 0)?;
    let (kind, number) = pair_of(right);
    let result = [vec![kind as u8], number.to_le_bytes().to_vec()].concat();
    match lists.results == result.repeat(items.len()) {
        true => Ok(()),
        false => Err(format!("a board of {items:?} gives {:?}", lists.results)),
    }
}

/// What an item's record must hold.
fn holds(lent: &Lent, item: u64, mark: u8, right: Given) -> Result<(), String> {
    let record = &lent.table[RECORD * item as usize..][..OWED];
    match record == &record_of(Some(right), mark, 0)[..OWED] {
        true => Ok(()),
        false => Err(format!("item {item} is stored as {record:?}")),
    }
}

/// A record of a stored value, or of none.
fn record_of(stored: Option<Given>, mark: u8, owed: u8) -> Vec<u8> {
    let (kind, number) = stored.map_or((0, 0), pair_of);
    [vec![kind as u8, mark], number.to_le_bytes().to_vec(), vec![owed]].concat()
}

/// An OUT parent of the seven other rules, in each place, beside NULL, a number or OUT.
fn others_stay_strict(c: &mut Comparison) -> Result<(), String> {
    let (null, number, out) = (0, 1, 3);
    let pairs = [[out, null], [null, out], [out, number], [number, out], [out, out]];
    // The share of 7 and 10,001 is item 3.
    let mut specs = vec![entry(), entry(), entry(), spec_figure(5, 1, 1, &[1, 2])];
    for (turn, rule) in [1, 2, 3, 4, 5, 7, 8].into_iter().enumerate() {
        let form = |at: usize| (((turn + at) % 2) as u8, ((turn + at) % 3) as u8);
        for (at, parents) in pairs.iter().enumerate() {
            specs.push(spec_figure(rule, form(at).0, form(at).1, parents));
        }
        if ![2, 5, 8].contains(&rule) {
            specs.push(spec_figure(rule, 0, 0, &[out]));
            specs.push(spec_figure(rule, 1, 1, &[null, number, out, null]));
        }
    }
    for full in [false, true] {
        let (mut lent, _) = opened(c, write_sheet(&specs), specs.len(), full)?;
        for act in [posted(1, 7), posted(2, 10_001)] {
            c.act(&act, &mut lent)?;
        }
        let figures: Vec<u64> = (4..specs.len() as u64).collect();
        shows(c, &lent, &figures, OUT)?;
        for item in figures {
            closes_to(c, &lent, item, OUT)?;
            reads(c, &mut lent, item, OUT)?;
        }
    }
    Ok(())
}

/// What is posted for the first parent and what it then is, with the place that it picks.
const FIRSTS: [(Given, Given, usize); 5] = [
    (Some(3), Some(6), 1),
    (Some(-1), Some(-2), 2),
    (Some(0), Some(0), 2),
    (None, None, 0),
    (Some(LIMIT), OUT, 0),
];

/// The same of the second parent and of the third.
const BRANCHES: [[(Given, Given); 2]; 4] = [
    [(Some(7), Some(14)), (Some(9), Some(18))],
    [(Some(LIMIT), OUT), (Some(9), Some(18))],
    [(Some(7), Some(14)), (Some(LIMIT), OUT)],
    [(None, None), (Some(LIMIT), OUT)],
];

/// A choice of three figures, each of which is an entry twice, with each keep byte of the four: all
/// three are looked up, and each flags it.
struct LookUp {
    keeps: [u8; 4],
    entries: [Given; 3],
    /// What the parents are.
    parents: [Given; 3],
    right: Given,
}

fn looked_up(c: &mut Comparison) -> Result<(), String> {
    for pattern in 0..16u8 {
        let keeps = [0, 1, 2, 3].map(|bit| pattern >> bit & 1);
        for (turn, (first, is_first, place)) in FIRSTS.into_iter().enumerate() {
            let [second, third] = BRANCHES[(pattern as usize + turn) % 4];
            let parents = [is_first, second.1, third.1];
            let entries = [first, second.0, third.0];
            let case = LookUp { keeps, entries, parents, right: parents[place] };
            case.read(c)
                .and_then(|_| case.kept(c, None))
                .and_then(|_| (0..3).try_for_each(|late| case.kept(c, Some(late))))
                .map_err(|e| format!("{parents:?} with keep {keeps:?}: {e}"))?;
        }
    }
    Ok(())
}

impl LookUp {
    fn open(&self, c: &mut Comparison) -> Result<Lent, String> {
        let mut specs = vec![entry(); 3];
        specs.extend([0, 1, 2].map(|k| sum(self.keeps[k as usize], 0, &[k, k])));
        specs.push(spec_figure(6, self.keeps[3], 0, &[3, 4, 5]));
        Ok(opened(c, write_sheet(&specs), 7, false)?.0)
    }

    /// The table after a look-up of the choice: the parents with keep 1 are stored, whichever is
    /// picked. An entry may be marked; what it flags has notice where it is stored.
    fn left(&self, marked: [bool; 3], stored: bool) -> Vec<u8> {
        let mark = |flagged: bool, stored: bool| if flagged && stored { 2 } else { 0 };
        let (kept, choice) = (self.keeps.map(|keep| keep == 1), stored as u8);
        let entry = |k: usize| {
            record_of(Some(self.entries[k]), mark(marked[k], true), self.keeps[k] | choice)
        };
        let figure = |k: usize| {
            let value = kept[k].then_some(self.parents[k]);
            record_of(value, mark(marked[k], kept[k]), choice)
        };
        let flagged = marked.contains(&true);
        let last = record_of(stored.then_some(self.right), mark(flagged, stored), 0);
        (0..3).map(entry).chain((0..3).map(figure)).chain([last]).flatten().collect()
    }

    fn leaves(&self, lent: &Lent, marked: [bool; 3], stored: bool) -> Result<(), String> {
        let right = Lent { table: self.left(marked, stored), ..lent.clone() };
        match *lent == right {
            true => Ok(()),
            false => Err(format!("{}{}", lent.dump("left"), right.dump("must be left"))),
        }
    }

    /// An ask and a board of the choice, after which no mark stands.
    fn read(&self, c: &mut Comparison) -> Result<(), String> {
        let mut lent = self.open(c)?;
        for (item, value) in (0..).zip(self.entries) {
            c.act(&Act::Give(post_given(item, value)), &mut lent)?;
        }
        let mut shown = lent.clone();
        for (act, lent) in [(ask(6), &mut lent), (board(6), &mut shown)] {
            expect("a reading", c.act(&act, lent)?.number, 0)?;
            self.leaves(lent, [false; 3], self.keeps[3] == 1)?;
        }
        reads(c, &mut lent, 6, self.right)
    }

    /// A keep of the choice: with marks on what was posted, or on the one entry that was posted
    /// another value since the others were told. Then an ask.
    fn kept(&self, c: &mut Comparison, late: Option<usize>) -> Result<(), String> {
        let mut lent = self.open(c)?;
        for (k, value) in self.entries.into_iter().enumerate() {
            let value = if late == Some(k) { Some(50) } else { value };
            c.act(&Act::Give(post_given(k as u64, value)), &mut lent)?;
        }
        let mut marked = self.entries.map(|value| value.is_some());
        if let Some(k) = late {
            c.act(&ask(0), &mut lent)?;
            c.act(&Act::Give(post_given(k as u64, self.entries[k])), &mut lent)?;
            marked = [0, 1, 2].map(|entry| entry == k);
        }
        c.act(&keep(6), &mut lent)?;
        self.leaves(&lent, marked, true)?;
        reads(c, &mut lent, 6, self.right)?;
        self.leaves(&lent, [false; 3], true)
    }
}

/// A posted entry, and what the choice is then: entry 0 picks, 1 is a pool and 2 its parts; figure 3
/// is the share of them, 4 the whole pool, 5 the choice of 0, 3 and 4, and 6 its sum.
const FLIPS: [(u64, Given, Given); 15] = [
    (1, Some(1_000), None),
    (2, Some(10_001), None),
    (0, Some(0), Some(1_000)),
    (0, Some(1), OUT),
    (0, Some(-1), Some(1_000)),
    (2, Some(5_000), Some(1_000)),
    (0, Some(2), Some(500)),
    (2, None, None),
    (0, None, None),
    (2, Some(-1), None),
    (0, Some(1), OUT),
    (2, Some(10_000), Some(1_000)),
    (1, None, None),
    (0, Some(0), None),
    (1, Some(LIMIT), Some(LIMIT)),
];

/// Branches that change with each spread of the choice and of its branches, at two offices: one
/// steps each marked item, the lowest or the highest first, and keeps what it reads; the other asks.
fn flips(c: &mut Comparison) -> Result<(), String> {
    for turn in 0..18 {
        let (of_branches, of_choice, keeps) = (turn % 3, turn / 3 % 3, turn / 9);
        let mut specs = vec![entry(); 3];
        specs.push(spec_figure(5, keeps, of_branches, &[1, 2]));
        specs.push(sum(keeps, of_branches, &[1]));
        specs.push(spec_figure(6, 1 - keeps, of_choice, &[0, 3, 4]));
        specs.push(sum(keeps, of_choice, &[5]));
        flip(c, &specs, turn % 2 == 0).map_err(|e| format!("{specs:?}: {e}"))?;
    }
    Ok(())
}

fn flip(c: &mut Comparison, specs: &[Spec], lowest: bool) -> Result<(), String> {
    let sheet = write_sheet(specs);
    let items = read_sheet(&sheet).unwrap();
    let (mut one, _) = opened(c, sheet.clone(), 7, false)?;
    let (mut two, _) = opened(c, sheet, 7, true)?;
    let mut offices = [0, 1].map(|_| Some(Office::new(&items)));
    for (item, value, right) in FLIPS {
        let post = post_given(item, value);
        plain_call(c, post, &mut one, &mut offices[0])?;
        plain_call(c, post, &mut two, &mut offices[1])?;
        while let Some(item) = marked_item(&one, lowest) {
            plain_call(c, Call::Step { item }, &mut one, &mut offices[0])?;
        }
        for item in [5, 6] {
            plain_call(c, Call::Keep { item }, &mut one, &mut offices[0])?;
            reads(c, &mut one, item, right)?;
            plain_call(c, Call::Ask { item }, &mut two, &mut offices[1])?;
            reads(c, &mut two, item, right)?;
        }
    }
    Ok(())
}

fn marked_item(lent: &Lent, lowest: bool) -> Option<u64> {
    let mut records = lent.table.chunks(RECORD);
    let found = if lowest {
        records.position(|record| record[1] != 0)
    } else {
        records.rposition(|record| record[1] != 0)
    };
    found.map(|item| item as u64)
}

/// Each triple of which the choice of before was OUT, and is no longer.
fn values_of_before(c: &mut Comparison) -> Result<(), String> {
    let other = |(parents, right): &([Given; 3], Given)| parents.contains(&OUT) && *right != OUT;
    for (turn, (parents, right)) in triples().filter(other).enumerate() {
        let form = FORMS[turn % 6];
        let (mut lent, _) = opened(c, sheet_of(form), 11, false)?;
        post_triple(c, &mut lent, form.0, parents)?;
        c.act(&Act::Close, &mut lent)?;
        for item in [9, 10] {
            let record = &mut lent.table[RECORD * item..][..RECORD];
            record.copy_from_slice(&record_of(Some(OUT), 0, record[OWED]));
        }
        value_of_before(c, &lent, right).map_err(|e| format!("choice{parents:?}: {e}"))?;
    }
    Ok(())
}

/// A choice and its sum that are stored as OUT: they are read so, until they are worked out anew.
fn value_of_before(c: &mut Comparison, older: &Lent, right: Given) -> Result<(), String> {
    let items = read_sheet(&older.sheet).unwrap();
    let (choice, above) = (CHOICE, CHOICE + 1);
    shows(c, older, &[choice, above], OUT)?;
    closes_to(c, older, choice, right)?;
    closes_to(c, older, above, right)?;
    let anew = opened_anew(c, &items, older)?;
    let dropped = [drop(choice), drop(above)];
    let lists: [(&Lent, &[Act], [Given; 2]); 5] = [
        (older, &[], [OUT, OUT]),
        (older, &[Act::Close], [right, right]),
        (older, &dropped[..1], [right, OUT]),
        (older, &dropped, [right, right]),
        (&anew, &[], [right, right]),
    ];
    for (lent, acts, [of_choice, of_sum]) in lists {
        let mut lent = lent.clone();
        for act in acts {
            expect("a call", c.act(act, &mut lent)?.number, 0)?;
        }
        reads(c, &mut lent, choice, of_choice)?;
        reads(c, &mut lent, above, of_sum)?;
    }
    Ok(())
}

#[cfg(test)]
mod tests {
    use super::*;
    use crate::mock::{Mock, Wrong};
    use crate::rng::Rng;

    fn try_choices(wrong: Wrong) -> Result<(), String> {
        run_fixed_choices(&mut Comparison::new(&mut Mock(wrong), Rng::new(1)))
    }

    /// Each mock that is wrong about choices is found by these alone.
    #[test]
    fn wrong_choices_are_found() {
        try_choices(Wrong::Nothing).unwrap();
        assert_eq!(Wrong::choices().count(), 28);
        for wrong in Wrong::choices() {
            assert!(try_choices(wrong).is_err(), "{wrong:?} was not found");
        }
    }
}
