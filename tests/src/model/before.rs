//! The calls as they were before tables had an owed byte: telling passes over no child. On cells,
//! from an opening, for readings alone.

use super::calls::{opened, perform, reply_of, Call, Reply};
use super::close::run;
use super::machine::{Machine, Telling};
use super::sheet::Item;
use super::swap::{perform_swap, Swap};
use super::table::{Cell, Mark};
use super::value::Value;

pub struct Before<'a> {
    items: &'a [Item],
    machine: Machine<'a>,
}

impl<'a> Before<'a> {
    pub fn open(full: bool, items: &'a [Item]) -> Self {
        let machine = Machine::new(items, opened(full, items)).telling(Telling::All);
        Before { items, machine }
    }

    pub fn cells(&self) -> &[Cell] {
        &self.machine.cells
    }

    pub fn is_marked(&self, item: usize) -> bool {
        self.machine.cells[item].mark != Mark::None
    }

    /// What one of 01's five calls gives.
    pub fn give(&mut self, call: &Call) -> Reply {
        reply_of(perform(call, self.items, &mut self.machine))
    }

    /// What a swap gives.
    pub fn swap(&mut self, swap: &Swap) -> Reply {
        reply_of(perform_swap(swap, self.items, &mut self.machine).map(|_| None))
    }

    /// The values of a board of these items, which are not none.
    pub fn board(&mut self, listed: &[usize]) -> Vec<Value> {
        self.machine.catch_up();
        listed.iter().map(|&item| self.machine.look_up(item).0).collect()
    }

    /// The values that a season-close run leaves.
    pub fn close(&mut self) -> Vec<Value> {
        run(self.items, &mut self.machine.cells);
        self.machine.cells.iter().map(|cell| cell.stored.unwrap()).collect()
    }
}
