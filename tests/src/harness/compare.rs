//! One call on both sides, and every byte afterwards.

use super::choices;
use super::closes::solves;
use super::owed;
use super::swaps;
use super::tally::Tally;
use crate::engine::Engine;
use crate::guarded::Guarded;
use crate::model::board::{self, Board};
use crate::model::calls::{self, Call, Reply};
use crate::model::close;
use crate::model::printer;
use crate::model::swap::{self, Swap};
use crate::rng::Rng;

/// The bytes lent to a call.
#[derive(Clone, PartialEq, Eq, Debug)]
pub struct Lent {
    pub sheet: Vec<u8>,
    pub index: Vec<u8>,
    pub table: Vec<u8>,
}

#[derive(Clone, Debug)]
pub enum Act {
    Open { full: bool },
    Give(Call),
    Swap(Swap),
    Close,
    Board(Board),
}

pub fn hex(bytes: &[u8]) -> String {
    bytes.iter().map(|b| format!("{b:02x}")).collect()
}

impl Lent {
    pub fn dump(&self, title: &str) -> String {
        let (s, i, t) = (hex(&self.sheet), hex(&self.index), hex(&self.table));
        format!("{title}\n  sheet {s}\n  index {i}\n  table {t}\n")
    }
}

fn dump_lists(board: &Board) -> String {
    format!("  items {}\n  results {}\n", hex(&board.items), hex(&board.results))
}

/// Sheet, index and table as an engine gets them.
struct Handed {
    sheet: Guarded,
    index: Guarded,
    table: Guarded,
}

impl Handed {
    fn lent(&self) -> Lent {
        Lent {
            sheet: self.sheet.bytes().to_vec(),
            index: self.index.bytes().to_vec(),
            table: self.table.bytes().to_vec(),
        }
    }

    fn guards(&self) -> [bool; 3] {
        [&self.sheet, &self.index, &self.table].map(|g| g.guards_hold())
    }
}

pub struct Comparison<'a> {
    pub engine: &'a mut dyn Engine,
    pub rng: Rng,
    pub tally: Tally,
    /// Whether slices are lent in blocks of their own, without guards, for a memory checker.
    pub alone: bool,
}

impl<'a> Comparison<'a> {
    pub fn new(engine: &'a mut dyn Engine, rng: Rng) -> Self {
        Comparison { engine, rng, tally: Tally::default(), alone: false }
    }

    fn lend(&mut self, bytes: &[u8]) -> Guarded {
        let shift = self.rng.below(8) as usize;
        match self.alone {
            true => Guarded::alone(bytes),
            false => Guarded::new(bytes, shift),
        }
    }

    /// Performs the act on both sides, prints what an ask has read, and sees that owed bytes are
    /// true and that a close has left the solution. The lent bytes become what both leave.
    pub fn act(&mut self, act: &Act, lent: &mut Lent) -> Result<Reply, String> {
        let before = matches!(act, Act::Close).then(|| lent.clone());
        let reply = self.act_only(act, lent)?;
        match (act, before) {
            _ if reply.number != 0 => {}
            (Act::Give(Call::Ask { .. }), _) => {
                let length = self.rng.between(20, 26) as usize;
                let scratch = self.rng.bytes(length);
                self.print(reply.kind, reply.value, &scratch)?;
            }
            (_, Some(before)) => solves(&mut self.tally, &before, lent)?,
            _ => {}
        }
        Ok(reply)
    }

    fn hand(&mut self, lent: &Lent) -> Handed {
        let (sheet, index) = (self.lend(&lent.sheet), self.lend(&lent.index));
        Handed { sheet, index, table: self.lend(&lent.table) }
    }

    fn act_only(&mut self, act: &Act, lent: &mut Lent) -> Result<Reply, String> {
        let before = lent.clone();
        let reply = match act {
            Act::Board(board) => return self.board(&mut board.clone(), lent),
            Act::Open { full } => calls::open(*full, &lent.sheet, &mut lent.index, &mut lent.table),
            Act::Give(call) => calls::call(call, &lent.sheet, &lent.index, &mut lent.table),
            Act::Swap(swap) => swap::swap(swap, &lent.sheet, &lent.index, &mut lent.table),
            Act::Close => close::close(&lent.sheet, &lent.index, &mut lent.table),
        };
        self.tally.count_act(act, &reply, &before.sheet);
        let mut handed = self.hand(&before);
        let Handed { sheet, index, table } = &mut handed;
        let given = match act {
            Act::Give(call) => self.engine.call(call, sheet, index, table),
            Act::Swap(swap) => self.engine.swap(swap, sheet, index, table),
            Act::Close => self.engine.close(sheet, index, table),
            _ => self.engine.open(matches!(act, Act::Open { full: true }), sheet, index, table),
        };
        let (after, guards) = (handed.lent(), handed.guards());
        if given == reply && after == *lent && guards == [true; 3] {
            self.judge(act, reply.number, &before, lent)?;
            return Ok(reply);
        }
        Err(format!(
            "{act:?}\n{}model {reply:?}\nengine {given:?}\n{}{}guards of sheet, index, table hold: {guards:?}",
            before.dump("before"),
            lent.dump("after, model"),
            after.dump("after, engine"),
        ))
    }

    /// Sees to the owed bytes and to swaps, and counts what was done with them, with choices and by
    /// steps.
    fn judge(&mut self, act: &Act, number: u64, before: &Lent, after: &Lent) -> Result<(), String> {
        owed::judge(&mut self.tally.owed, act, number, before, after)?;
        if let Act::Swap(swap) = act {
            swaps::judge(&mut self.tally.swaps, swap, number, before, after)?;
        }
        if number == 0 {
            choices::count(&mut self.tally.choices, act, before, after);
        }
        if let (Act::Give(Call::Step { item }), 0) = (act, number) {
            self.tally.orders.count_step(before, *item as usize, &after.table);
        }
        Ok(())
    }

    /// A board on both sides. The result list, too, becomes what both leave.
    pub fn board(&mut self, board: &mut Board, lent: &mut Lent) -> Result<Reply, String> {
        let (before, lists) = (lent.clone(), board.clone());
        let Board { items, results } = board;
        let reply = board::board(&lent.sheet, &lent.index, &mut lent.table, items, results);
        self.tally.count_board(&lists, &reply, &before.sheet);
        let mut handed = self.hand(&before);
        let Handed { sheet, index, table } = &mut handed;
        let (mut items, mut results) = (self.lend(&lists.items), self.lend(&lists.results));
        let given = self.engine.board(sheet, index, table, &mut items, &mut results);
        let (after, guards) = (handed.lent(), handed.guards());
        let left = Board { items: items.bytes().to_vec(), results: results.bytes().to_vec() };
        let list_guards = [items.guards_hold(), results.guards_hold()];
        let same = given == reply && after == *lent && left == *board;
        if same && guards == [true; 3] && list_guards == [true; 2] {
            self.judge(&Act::Board(lists), reply.number, &before, lent)?;
            return Ok(reply);
        }
        Err(format!(
            "board\n{}{}model {reply:?}\nengine {given:?}\n{}{}{}{}guards of sheet, index, table hold: {guards:?}\n\
             guards of items, results hold: {list_guards:?}",
            before.dump("before"),
            dump_lists(&lists),
            lent.dump("after, model"),
            dump_lists(board),
            after.dump("after, engine"),
            dump_lists(&left),
        ))
    }

    /// Prints a value on both sides.
    pub fn print(&mut self, kind: u64, number: i64, scratch: &[u8]) -> Result<(), String> {
        let mut right = scratch.to_vec();
        let written = printer::print(kind, number, &mut right);
        let mut lent = self.lend(scratch);
        let given = self.engine.print(kind, number, &mut lent);
        self.tally.count_print(kind, written, &right);
        if given == written && lent.bytes() == right && lent.guards_hold() {
            return Ok(());
        }
        Err(format!(
            "print kind {kind} number {number}\n  scratch before {}\n  model gives {written}, leaves {}\n  \
             engine gives {given}, leaves {}\n  guards hold: {}",
            hex(scratch),
            hex(&right),
            hex(lent.bytes()),
            lent.guards_hold()
        ))
    }
}
