//! Readings are those of before: lists of calls since an opening, given also to the calls as they
//! were before tables had an owed byte. What is read must be the same; marks may differ, and with
//! them whether a step is refused.

use super::boards::plain_board;
use super::closes::plain_close;
use super::compare::{Act, Comparison, Lent};
use super::fixed::expect;
use super::lists::{list_length, plain_call};
use super::swaps::plain_swap;
use crate::gen::{self, Numbers};
use crate::model::before::Before;
use crate::model::board::encode_results;
use crate::model::calls::Call;
use crate::model::field::i64_at;
use crate::model::sheet::{read_sheet, Item};
use crate::model::table::{decode, is_marked, to_pair, RECORD};
use crate::rng::Rng;

/// Both sides of a list.
struct Sides<'i> {
    items: &'i [Item],
    lent: Lent,
    before: Before<'i>,
}

pub fn run_before(c: &mut Comparison) -> Result<(), String> {
    let (shape, numbers) = (gen::shape(&mut c.rng), gen::choose_numbers(&mut c.rng));
    let specs = gen::sheet(&mut c.rng, shape);
    let sheet = gen::write_any(&mut c.rng, &specs);
    let items = read_sheet(&sheet).unwrap();
    let (index, table) = (c.rng.bytes(4 * items.len()), c.rng.bytes(RECORD * items.len()));
    let (mut lent, full) = (Lent { sheet, index, table }, c.rng.percent(40));
    expect("an opening", c.act(&Act::Open { full }, &mut lent)?.number, 0)?;
    let before = Before::open(full, &items);
    let mut sides = Sides { items: &items, lent, before };
    c.tally.before_lists += 1;
    for _ in 0..list_length(&mut c.rng, shape) {
        match c.rng.below(100) {
            0..=3 => sides.board(c)?,
            4..=5 => sides.close(c)?,
            6..=11 => sides.swap(c)?,
            _ => {
                let call = sides.next_call(&mut c.rng, numbers);
                sides.give(c, &call)?;
            }
        }
        let cells = decode(&items, &sides.lent.table).unwrap();
        c.tally.before_tables += (cells != sides.before.cells()) as u64;
    }
    let asked = c.rng.below(items.len() as u64);
    sides.give(c, &Call::Ask { item: asked })
}

impl Sides<'_> {
    /// Any call, some of them steps of an item that is marked on one side alone.
    fn next_call(&self, rng: &mut Rng, numbers: Numbers) -> Call {
        let one_side = |&i: &usize| is_marked(&self.lent.table, i) != self.before.is_marked(i);
        let marked: Vec<usize> = (0..self.items.len()).filter(one_side).collect();
        if !marked.is_empty() && rng.percent(30) {
            return Call::Step { item: *rng.pick(&marked) as u64 };
        }
        gen::any_call(rng, self.items, &self.lent.table, numbers)
    }

    fn give(&mut self, c: &mut Comparison, call: &Call) -> Result<(), String> {
        let now = plain_call(c, *call, &mut self.lent, &mut None)?;
        let then = self.before.give(call);
        match call {
            Call::Step { .. } if now != then => c.tally.before_steps += 1,
            _ if now != then => {
                return Err(format!("{call:?} gives {now:?}, and gave {then:?} before"));
            }
            Call::Ask { .. } => c.tally.before_readings += (now.number == 0) as u64,
            _ => {}
        }
        Ok(())
    }

    fn swap(&mut self, c: &mut Comparison) -> Result<(), String> {
        let held = gen::numbers_of(self.items, &self.lent.table);
        let swap = gen::any_swap(&mut c.rng, self.items, &held);
        let now = plain_swap(c, swap, &mut self.lent, &mut None)?;
        let then = self.before.swap(&swap);
        match now == then {
            true => Ok(()),
            false => Err(format!("{swap:?} gives {now:?}, and gave {then:?} before")),
        }
    }

    fn board(&mut self, c: &mut Comparison) -> Result<(), String> {
        let board = gen::good_board(&mut c.rng, self.items);
        let item = |two: &[u8]| u16::from_le_bytes([two[0], two[1]]) as usize;
        let listed: Vec<usize> = board.items.chunks(2).map(item).collect();
        let (_, results) = plain_board(c, board, &mut self.lent, &mut None)?;
        c.tally.before_readings += listed.len() as u64;
        let then = match listed.is_empty() {
            true => vec![],
            false => encode_results(&self.before.board(&listed)),
        };
        match results == then {
            true => Ok(()),
            false => Err(format!("a board of {listed:?} gives {results:?}, before {then:?}")),
        }
    }

    fn close(&mut self, c: &mut Comparison) -> Result<(), String> {
        plain_close(c, &mut self.lent, &mut None)?;
        let then: Vec<(u8, i64)> = self.before.close().into_iter().map(to_pair).collect();
        let now: Vec<(u8, i64)> =
            self.lent.table.chunks(RECORD).map(|r| (r[0], i64_at(r, 2))).collect();
        c.tally.before_readings += now.len() as u64;
        match now == then {
            true => Ok(()),
            false => Err(format!("a close leaves {now:?}, before {then:?}")),
        }
    }
}

#[cfg(test)]
mod tests {
    use super::*;
    use crate::harness::fixed::{opened, post};
    use crate::mock::{Mock, Wrong};
    use crate::model::sheet::EXAMPLE;

    /// Other readings are found, by an ask, a board or a close.
    #[test]
    fn other_readings_are_found() {
        let mut mock = Mock(Wrong::Nothing);
        let mut c = Comparison::new(&mut mock, Rng::new(1));
        let items = read_sheet(&EXAMPLE).unwrap();
        for turn in 0..6 {
            let (lent, _) = opened(&mut c, EXAMPLE.to_vec(), 5, false).unwrap();
            let mut sides = Sides { items: &items, lent, before: Before::open(false, &items) };
            for entry in 0..3 {
                sides.give(&mut c, &post(entry, 7)).unwrap();
            }
            let same = turn < 3;
            // Every board and every item reads one of these.
            for entry in (0..3).filter(|_| !same) {
                sides.before.give(&post(entry, 8 + entry as i64));
            }
            let found = match turn % 3 {
                0 => sides.give(&mut c, &Call::Ask { item: 4 }),
                1 => (0..20).try_for_each(|_| sides.board(&mut c)),
                _ => sides.close(&mut c),
            };
            assert_eq!(found.is_ok(), same, "{found:?}");
        }
    }
}
