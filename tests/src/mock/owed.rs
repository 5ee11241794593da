//! The mock's owed bytes: read from the table, and mended at each change of what is stored. How
//! they can be wrong, and the telling that goes by them.

use super::{Sweep, Wrong};
use crate::gen::{make_owed_true, narrow};
use crate::model::sheet::{read_sheet, Item};
use crate::model::table::{decode, record, Cell, Mark, OWED, RECORD};
use crate::model::value::Value;
use std::cell::RefCell;

/// What changes a cell.
#[derive(Clone, Copy, PartialEq, Eq, Debug)]
pub(super) enum By {
    LookUp,
    Keep,
    Drop,
    Tell,
    Defer,
    Renew,
}

impl Wrong {
    /// Those that are about owed bytes, or about a notice without them; their names say so.
    pub fn owed() -> impl Iterator<Item = Wrong> {
        Wrong::ALL.iter().copied().filter(|wrong| {
            let name = format!("{wrong:?}");
            ["Owed", "owed", "Owes"].iter().any(|word| name.contains(word))
        })
    }

    /// The table as this mock takes it: the owed bytes that it does not test are made true.
    pub(super) fn taken(self, sheet: &[u8], table: &[u8]) -> Vec<u8> {
        let mut taken = table.to_vec();
        let Ok(items) = read_sheet(sheet) else { return taken };
        let narrow = table.len() == OWED * items.len();
        if narrow && self == Wrong::TakesTablesWithoutOwed {
            taken = table.chunks(OWED).flat_map(|r| [r, &[0]].concat()).collect();
            make_owed_true(&items, &mut taken);
        }
        if taken.len() == RECORD * items.len() {
            let mut right = taken.clone();
            make_owed_true(&items, &mut right);
            let records = taken.chunks_mut(RECORD).zip(right.chunks(RECORD));
            for ((record, right), item) in records.zip(&items) {
                if self.takes(record, right[OWED], item) {
                    record[OWED] = right[OWED];
                }
            }
        }
        taken
    }

    /// Whether a record's owed byte is taken that may be false.
    fn takes(self, record: &[u8], right: u8, item: &Item) -> bool {
        let (entry, stored) = (item.figure.is_none(), record[0] != 0);
        match self {
            Wrong::TakesFalseOwed => true,
            Wrong::TakesOwedAboveOne => record[OWED] > 1 && right == 1,
            Wrong::TakesOwedForUnowed => (record[OWED], right) == (1, 0),
            Wrong::TakesUnowedForOwed => (record[OWED], right) == (0, 1),
            Wrong::TakesFalseOwedOfEntries => entry,
            Wrong::TakesFalseOwedOfStored => !entry && stored,
            Wrong::TakesFalseOwedOfUnk => !entry && !stored,
            _ => false,
        }
    }

    /// What a wrong opening writes to the owed bytes.
    pub(super) fn spoil_opening(self, full: bool, sheet: &[u8], table: &mut [u8]) {
        let items = read_sheet(sheet).unwrap();
        for (i, record) in table.chunks_mut(RECORD).enumerate() {
            match self {
                Wrong::OpenFullOwesAll if full => record[OWED] = 1,
                Wrong::OpenFullOwesNothing if full => record[OWED] = 0,
                Wrong::OpenBareOwes if !full => {
                    record[OWED] = items.iter().any(|item| lists(item, i)) as u8;
                }
                _ => {}
            }
        }
        if self == Wrong::OwedBeforeTheNumber {
            table.chunks_mut(RECORD).for_each(|record| record[2..].rotate_right(1));
        }
    }
}

fn lists(item: &Item, parent: usize) -> bool {
    item.figure.as_ref().is_some_and(|figure| figure.parents.contains(&parent))
}

impl<'a> Sweep<'a> {
    /// The machine of a table that is in form.
    pub(super) fn new(items: &'a [Item], table: &[u8], wrong: Wrong) -> Self {
        let owed = table.chunks(RECORD).map(|record| record[OWED] == 1).collect();
        let cells = decode(items, table).unwrap();
        Sweep { items, cells, owed, scratch: RefCell::default(), wrong }
    }

    /// Whether a child makes its parents owed.
    fn counts(&self, child: usize) -> bool {
        let (stored, owed) = (self.cells[child].stored, self.owed[child]);
        match self.wrong {
            Wrong::OwedWithoutStored => stored.is_none() && owed,
            Wrong::OwedWithoutNull => stored.map_or(owed, |value| value != Value::Null),
            Wrong::OwedByAnyUnk => true,
            Wrong::OwedByStoredOnly => stored.is_some(),
            _ => stored.is_some() || owed,
        }
    }

    pub(super) fn children(&self, i: usize) -> impl Iterator<Item = usize> + '_ {
        let n = self.items.len();
        let end = if self.wrong.loses_last(n) { n - 1 } else { n };
        (i + 1..end).filter(move |&child| lists(&self.items[child], i))
    }

    pub(super) fn parents(&self, i: usize) -> &'a [usize] {
        self.items[i].figure.as_ref().map_or(&[], |figure| &figure.parents)
    }

    /// Every change of what is stored, and the refresh of what defers.
    pub(super) fn put(&mut self, i: usize, cell: Cell, by: By) {
        let counted = self.counts(i);
        self.cells[i] = cell;
        let changed = counted != self.counts(i) || self.wrong == Wrong::OwedByAnyUnk;
        match (self.wrong, by) {
            (Wrong::DropLeavesOwed, By::Drop)
            | (Wrong::KeepLeavesUnowed, By::Keep)
            | (Wrong::LookUpLeavesUnowed, By::LookUp) => {}
            (Wrong::DropEndsAllOwed, By::Drop)
            | (Wrong::RenewEndsOwed, By::Renew)
            | (Wrong::DeferEndsOwed, By::Defer) => {
                self.parents(i).iter().for_each(|&parent| self.owed[parent] = false);
            }
            (Wrong::DropEndsOwedOneLevel, By::Drop) if changed => self.mend(i, 1),
            (Wrong::KeepMakesOwedOneLevel, By::Keep) if changed => self.mend(i, 1),
            _ if changed => self.mend(i, self.items.len()),
            _ => {}
        }
    }

    /// Sees to the owed bytes of the parents, then of theirs, up to so many levels.
    fn mend(&mut self, i: usize, levels: usize) {
        for &parent in self.parents(i) {
            let first = if self.wrong == Wrong::OwedByTheLowestChild { 1 } else { usize::MAX };
            let owed = self.children(parent).take(first).any(|child| self.counts(child));
            if self.owed[parent] == owed {
                continue;
            }
            let counted = self.counts(parent);
            self.owed[parent] = owed;
            if levels > 1 && counted != self.counts(parent) {
                self.mend(parent, levels - 1);
            }
        }
    }

    /// Whether telling leaves a child as it is.
    pub(super) fn passes_over(&self, child: usize) -> bool {
        let unk = self.cells[child].stored.is_none();
        unk && match self.wrong {
            Wrong::TellingPassesOverOwed => true,
            Wrong::TellingMarksUnowed => false,
            _ => !self.owed[child],
        }
    }

    /// Owed bytes of a table in which what is stored has changed anywhere: from each stored figure
    /// up, as far as there is nothing stored.
    pub(super) fn reckon(&mut self) {
        self.owed.fill(false);
        for i in (0..self.items.len()).filter(|&i| self.cells[i].stored.is_some()) {
            let mut below: Vec<usize> = self.parents(i).to_vec();
            while let Some(parent) = below.pop() {
                if !self.owed[parent] && self.cells[parent].stored.is_none() {
                    below.extend(self.parents(parent));
                }
                self.owed[parent] = true;
            }
        }
    }

    /// Writes the table, in the length that it was lent with.
    pub(super) fn write(&self, table: &mut [u8]) {
        let mut written = Vec::new();
        for (i, (cell, &owed)) in self.cells.iter().zip(&self.owed).enumerate() {
            let mut cell = *cell;
            let mut shown = owed;
            match self.wrong {
                Wrong::UnowedLosesNotice if cell.stored.is_none() && !owed => {
                    cell.mark = Mark::None
                }
                Wrong::OwedOfFiguresOnly => shown &= self.items[i].figure.is_some(),
                _ => {}
            }
            written.extend(record(&cell, shown));
        }
        if table.len() < written.len() {
            written = narrow(&written);
        }
        table.copy_from_slice(&written);
        if self.wrong == Wrong::OwedBeforeTheNumber {
            table.chunks_mut(RECORD).for_each(|record| record[2..].rotate_right(1));
        }
    }
}
