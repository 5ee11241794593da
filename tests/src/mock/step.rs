//! How the mock's steps, and the telling in them, can be wrong.

use super::{By, Sweep, Wrong};
use crate::model::calls::{Call, Reply};
use crate::model::sheet::Spread;
use crate::model::table::{Cell, Mark, RECORD};
use crate::model::value::Value;

impl Wrong {
    /// Those that step or tell otherwise than they must.
    pub const STEPS: [Wrong; 41] = [
        Wrong::ClearsMarkBeforeTelling,
        Wrong::DeferIgnoresNotice,
        Wrong::RenewClearsNotice,
        Wrong::StepGoesOnToTelling,
        Wrong::StepKeepsRefreshOfChanged,
        Wrong::StepKeepsRefreshOfEqual,
        Wrong::StepNotesEqual,
        Wrong::StepStoresWithoutNotice,
        Wrong::StepNotesWithoutStoring,
        Wrong::StepForgetsChanged,
        Wrong::StepKeepsNoticeOfEntries,
        Wrong::StepKeepsNoticeOfStored,
        Wrong::StepKeepsNoticeOfUnk,
        Wrong::StepKeepsNoticeOfChildless,
        Wrong::StepTurnsNoticeToRefresh,
        Wrong::StepOfNoticeForgets,
        Wrong::StepOfNoticeStores,
        Wrong::StepTakesTheLowest,
        Wrong::StepTakesTheHighest,
        Wrong::StepTakesAllMarked,
        Wrong::StepTakesThoseBelowFirst,
        Wrong::StepCatchesUp,
        Wrong::StepClearsAllMarks,
        Wrong::StepTakesUnmarked,
        Wrong::StepRefusesItem0,
        Wrong::StepRefusesUnk,
        Wrong::StepRefusesAboveAMark,
        Wrong::RefusedStepMarks,
        Wrong::TellsFirstChildOnly,
        Wrong::TellsLastChildOnly,
        Wrong::TellsHighestFirst,
        Wrong::TellsGrandchildren,
        Wrong::TellsOwnParents,
        Wrong::TellsParentsOfChildren,
        Wrong::TellsItemBelow,
        Wrong::TellsDeferWithNotice,
        Wrong::TellsDeferByForgetting,
        Wrong::TellsRenewAsDefer,
        Wrong::TellsRenewOfEqual,
        Wrong::TellsMarkedNothing,
        Wrong::AskStepsEachOnce,
    ];

    /// The mark that a refresh leaves where the value is equal.
    pub(super) fn mark_of_equal(self) -> Mark {
        match self {
            Wrong::StepKeepsRefreshOfEqual => Mark::Refresh,
            Wrong::StepNotesEqual => Mark::Notice,
            _ => Mark::None,
        }
    }

    /// What a refresh leaves where the value is another.
    pub(super) fn renewed(self, old: Cell, value: Value) -> Cell {
        let stored = match self {
            Wrong::StepNotesWithoutStoring => old.stored,
            Wrong::StepForgetsChanged => None,
            _ => Some(value),
        };
        let mark = match self {
            Wrong::StepKeepsRefreshOfChanged => Mark::Refresh,
            Wrong::StepStoresWithoutNotice => Mark::None,
            _ => Mark::Notice,
        };
        Cell { stored, mark }
    }

    /// The mark of a child that defers.
    pub(super) fn deferred(self) -> Mark {
        match self {
            Wrong::TellsDeferWithNotice => Mark::Notice,
            _ => Mark::Refresh,
        }
    }

    /// The spread that a child is told by.
    pub(super) fn spread(self, spread: Spread, mark: Mark) -> Spread {
        match (self, spread) {
            (Wrong::TellsRenewAsDefer, Spread::Renew) if mark != Mark::Notice => Spread::Defer,
            _ => spread,
        }
    }

    /// Whether catching up steps an item once, also where it has a mark afterwards.
    pub(super) fn steps_once(self) -> bool {
        let once = [
            Wrong::AskStepsEachOnce,
            Wrong::StepKeepsRefreshOfChanged,
            Wrong::StepKeepsRefreshOfEqual,
            Wrong::StepKeepsNoticeOfEntries,
            Wrong::StepKeepsNoticeOfStored,
            Wrong::StepKeepsNoticeOfUnk,
            Wrong::StepKeepsNoticeOfChildless,
            Wrong::StepTurnsNoticeToRefresh,
        ];
        once.contains(&self)
    }

    /// The number of a step that is accepted.
    pub(super) fn step_refusal(self, call: &Call, cells: &[Cell]) -> Option<u64> {
        let Call::Step { item } = *call else { return None };
        let item = item as usize;
        let refuses = match self {
            Wrong::StepRefusesItem0 => item == 0,
            Wrong::StepRefusesUnk => cells[item].stored.is_none(),
            Wrong::StepRefusesAboveAMark => cells[..item].iter().any(|c| c.mark != Mark::None),
            _ => false,
        };
        refuses.then_some(14)
    }

    /// A call that is refused; a step where there is no mark may be taken, or mark the item.
    pub(super) fn refused_step(self, call: &Call, refusal: Reply, table: &mut [u8]) -> Reply {
        match (self, call, refusal.number) {
            (Wrong::StepTakesUnmarked, _, 14) => Reply { number: 0, ..refusal },
            (Wrong::RefusedStepMarks, Call::Step { item }, 14) => {
                table[RECORD * *item as usize + 1] = 2;
                refusal
            }
            _ => refusal,
        }
    }
}

impl Sweep<'_> {
    fn is_marked(&self, i: usize) -> bool {
        self.cells[i].mark != Mark::None
    }

    fn marked(&self) -> Vec<usize> {
        (0..self.items.len()).filter(|&i| self.is_marked(i)).collect()
    }

    /// A step of a marked item that a call names.
    pub(super) fn give_step(&mut self, i: usize) {
        let marked = self.marked();
        match self.wrong {
            Wrong::StepTakesTheLowest => self.step(marked[0]),
            Wrong::StepTakesTheHighest => self.step(marked[marked.len() - 1]),
            Wrong::StepTakesAllMarked => self.step_each(&marked),
            Wrong::StepTakesThoseBelowFirst => {
                self.step_each(&marked[..marked.iter().position(|&m| m == i).unwrap() + 1])
            }
            Wrong::StepCatchesUp => self.sweep(),
            Wrong::StepClearsAllMarks => {
                self.step(i);
                self.cells.iter_mut().for_each(|cell| cell.mark = Mark::None);
            }
            _ => self.step(i),
        }
    }

    /// Steps each of these that is then still marked.
    fn step_each(&mut self, items: &[usize]) {
        for &i in items {
            if self.is_marked(i) {
                self.step(i);
            }
        }
    }

    /// The children that are told, in their order. Whatever else a wrong telling marks, it marks first.
    pub(super) fn told(&mut self, i: usize) -> Vec<usize> {
        let mut children: Vec<usize> = self.children(i).collect();
        match self.wrong {
            Wrong::TellsFirstChildOnly => children.truncate(1),
            Wrong::TellsLastChildOnly => drop(children.drain(..children.len().saturating_sub(1))),
            Wrong::TellsHighestFirst => children.reverse(),
            Wrong::TellsGrandchildren => {
                let more: Vec<usize> = children.iter().flat_map(|&c| self.children(c)).collect();
                children.extend(more);
                children.sort();
                children.dedup();
            }
            Wrong::TellsOwnParents => self.note(self.parents(i).to_vec()),
            Wrong::TellsParentsOfChildren => {
                let parents = children.iter().flat_map(|&c| self.parents(c)).copied();
                self.note(parents.filter(|&p| p != i).collect());
            }
            Wrong::TellsItemBelow => self.note(i.checked_sub(1).into_iter().collect()),
            _ => {}
        }
        children
    }

    fn note(&mut self, items: Vec<usize>) {
        items.iter().for_each(|&i| self.cells[i].mark = Mark::Notice);
    }

    /// After a notice has told the children.
    pub(super) fn end_notice(&mut self, i: usize) {
        let Cell { stored, .. } = self.cells[i];
        let entry = self.items[i].figure.is_none();
        let keeps = match self.wrong {
            Wrong::StepKeepsNoticeOfEntries => entry,
            Wrong::StepKeepsNoticeOfStored => !entry && stored.is_some(),
            Wrong::StepKeepsNoticeOfUnk => stored.is_none(),
            Wrong::StepKeepsNoticeOfChildless => self.children(i).next().is_none(),
            _ => false,
        };
        if keeps {
            return;
        }
        self.cells[i].mark = Mark::None;
        match self.wrong {
            Wrong::TellingEndsOwed => self.owed[i] = false,
            Wrong::StepTurnsNoticeToRefresh if !entry && stored.is_some() => {
                self.cells[i].mark = Mark::Refresh;
            }
            Wrong::StepOfNoticeForgets if !entry => {
                self.put(i, Cell { stored: None, mark: Mark::None }, By::Tell);
            }
            Wrong::StepOfNoticeStores if stored.is_none() => {
                let value = self.work_out(i);
                self.put(i, Cell { stored: Some(value), mark: Mark::None }, By::Renew);
            }
            _ => {}
        }
    }
}
