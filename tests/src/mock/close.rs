//! The mock's season-close run, and how it can be wrong.

use super::{By, Mock, Sweep, Where, Wrong};
use crate::gen::make_owed_true;
use crate::guarded::Guarded;
use crate::model::calls::Reply;
use crate::model::close;
use crate::model::sheet::{read_sheet, Item};
use crate::model::table::{decode, Cell, Mark, RECORD};
use crate::model::value::Value;
use std::cell::RefCell;

impl Wrong {
    /// Those that close otherwise than they must; their names say so.
    pub fn closes() -> impl Iterator<Item = Wrong> {
        Wrong::ALL.iter().copied().filter(|wrong| format!("{wrong:?}").contains("Close"))
    }

    /// Whether a figure with this cell is worked out anew.
    fn works_out(self, cell: &Cell) -> bool {
        match self {
            Wrong::CloseLeavesStored => cell.stored.is_none(),
            Wrong::CloseLeavesUnmarked => cell.stored.is_none() || cell.mark != Mark::None,
            Wrong::CloseLeavesOut => cell.stored != Some(Value::Out),
            _ => true,
        }
    }

    /// The items with their parents as a wrong run takes them.
    fn with_parents(self, items: &[Item]) -> Vec<Item> {
        let mut items = items.to_vec();
        for figure in items.iter_mut().filter_map(|item| item.figure.as_mut()) {
            match (self, figure.rule) {
                (Wrong::CloseSortsParents, _) => figure.parents.sort(),
                (Wrong::CloseTakesParentsOnce, 1 | 3 | 4 | 7) => figure.parents.dedup(),
                _ => {}
            }
        }
        items
    }

    /// What is left of an item whose cell was `old`, and whose value is right.
    fn left(self, item: &Item, old: Cell, value: Value) -> Cell {
        let (entry, keep) = (item.figure.is_none(), item.figure.as_ref().is_some_and(|f| f.keep));
        let stays = match self {
            Wrong::CloseLeavesEntryMarks => entry,
            Wrong::CloseLeavesNotice => !entry && old.mark == Mark::Notice,
            Wrong::CloseLeavesRefresh => old.mark == Mark::Refresh,
            _ => false,
        };
        let changed = self == Wrong::CloseMarksWhatChanged && old.stored != Some(value);
        let stored = match self {
            Wrong::CloseLeavesKeep0Unstored if !keep => old.stored.map(|_| value),
            Wrong::CloseForgetsKeep0 if !entry && !keep => None,
            Wrong::CloseClearsEntries if entry => Some(Value::Null),
            _ => Some(value),
        };
        let mark = if stays { old.mark } else { Mark::None };
        Cell { stored, mark: if changed { Mark::Notice } else { mark } }
    }

    /// How many items a run goes over.
    fn passed(self, cells: &[Cell], values: &[Value]) -> usize {
        let stop = match self {
            Wrong::CloseStopsAtTheFirstMark => cells.iter().position(|c| c.mark != Mark::None),
            Wrong::CloseStopsAtOut => values.iter().position(|&v| v == Value::Out),
            Wrong::CloseMissesTheLastItem => Some(cells.len() - 1),
            _ => None,
        };
        stop.unwrap_or(cells.len())
    }
}

impl Sweep<'_> {
    /// Forgets what is to be worked out anew, and fills every cell from the whole solution.
    fn close(&mut self) {
        let old = self.cells.clone();
        for (cell, item) in self.cells.iter_mut().zip(self.items) {
            if item.figure.is_some() && self.wrong.works_out(cell) {
                cell.stored = None;
            }
        }
        let values = self.closing_values(&old);
        let passed = self.wrong.passed(&old, &values);
        self.cells.copy_from_slice(&old);
        for i in 0..passed {
            self.cells[i] = self.wrong.left(&self.items[i], old[i], values[i]);
        }
        match self.wrong {
            Wrong::CloseLeavesOwed => {}
            Wrong::CloseOwesAll => self.owed.fill(true),
            _ => self.reckon(),
        }
    }

    fn closing_values(&self, old: &[Cell]) -> Vec<Value> {
        let stored = |cell: &Cell| (cell.stored.unwrap_or(Value::Null), false);
        let given = match self.wrong {
            // Of a parent nothing but its old record is there.
            Wrong::CloseFromTheTop => old.iter().map(stored).collect(),
            Wrong::CloseFromTheOldTable => {
                let (cells, owed, scratch) = (old.to_vec(), self.owed.clone(), RefCell::default());
                Sweep { cells, owed, scratch, ..*self }.all(old.len() - 1)
            }
            _ => return self.all(old.len() - 1).iter().map(|g| g.0).collect(),
        };
        let value = |i: usize| match self.items[i].figure {
            Some(_) => self.by_parents(i, &given, Where::LookUp).0,
            None => given[i].0,
        };
        (0..old.len()).map(value).collect()
    }

    /// By the calls from before the run.
    fn close_by_calls(&mut self) {
        if self.wrong != Wrong::CloseOnlyKeeps {
            self.sweep();
        }
        for i in 0..self.items.len() {
            if self.cells[i].stored.is_none() && self.wrong != Wrong::CloseOnlyCatchesUp {
                let given = self.look_up(i);
                self.store(i, given, By::Keep);
            }
        }
    }
}

/// The table with nothing stored for its figures, so that nothing is owed.
fn without_figures(items: &[Item], table: &[u8]) -> Vec<u8> {
    let mut table = table.to_vec();
    for (item, record) in items.iter().zip(table.chunks_mut(RECORD)) {
        if item.figure.is_some() {
            record.fill(0);
        }
    }
    make_owed_true(items, &mut table);
    table
}

/// The number that a wrong mock gives in place of the right one.
fn wrong_number(wrong: Wrong, number: u64, sheet: &[u8], table: &[u8]) -> u64 {
    let Ok(items) = read_sheet(sheet) else { return number };
    let marked = table.chunks(RECORD).any(|record| record.get(1).is_some_and(|&mark| mark != 0));
    let in_form = number > 8 && decode(&items, table).is_some();
    let entries_fit = number == 10 && decode(&items, &without_figures(&items, table)).is_some();
    match (wrong, number) {
        (Wrong::CloseRefusesMarks, 0) if marked => 14,
        (Wrong::CloseRefusesEntriesAlone, 0) if items.iter().all(|i| i.figure.is_none()) => 12,
        (Wrong::CloseTakesAnyIndex, 9) if in_form => 0,
        (Wrong::CloseTakesBrokenFigures, 10) if entries_fit => 0,
        (Wrong::CloseSays10Before9, 9) if !in_form => 10,
        _ => number,
    }
}

impl Mock {
    pub(super) fn give_close(
        &self,
        sheet: &[u8],
        index: &mut Guarded,
        table: &mut Guarded,
    ) -> Reply {
        let wrong = self.0;
        let mut taken = wrong.taken(sheet, table.bytes());
        // The model is asked only whether the run is refused.
        let mut reply = close::close(sheet, index.bytes(), &mut taken.clone());
        reply.number = wrong_number(wrong, reply.number, sheet, &taken);
        if reply.number != 0 {
            let records = table.bytes_mut().chunks_mut(RECORD);
            let marks = records.filter_map(|record| record.get_mut(1));
            marks.filter(|_| wrong == Wrong::RefusedCloseClearsMarks).for_each(|mark| *mark = 0);
            return reply;
        }
        let items = read_sheet(sheet).unwrap();
        if decode(&items, &taken).is_none() {
            taken = without_figures(&items, &taken);
        }
        let listed = wrong.with_parents(&items);
        let here = wrong.here(Where::Close);
        let mut machine = Sweep { items: &listed, ..Sweep::new(&items, &taken, here) };
        match wrong {
            Wrong::CloseOnlyCatchesUp | Wrong::CloseCatchesUpAndKeeps | Wrong::CloseOnlyKeeps => {
                machine.close_by_calls()
            }
            _ => machine.close(),
        }
        machine.write(table.bytes_mut());
        match wrong {
            Wrong::CloseChangesIndex => index.bytes_mut()[0] ^= 1,
            Wrong::CloseWritesPastTheTable => table.break_guard(),
            _ => {}
        }
        reply
    }
}
