//! How the mock can be wrong about spread bytes: it takes them as others, tests spread 2 elsewhere than
//! in edition 2 or in another order, or tells what has it otherwise than what has spread 0.

use super::edition::head;
use super::{Mock, Sweep, Wrong};
use crate::gen::{deferring, first_spread_2, last_spread_2, spread_places, with_spreads};
use crate::guarded::Guarded;
use crate::model::calls::Reply;
use crate::model::sheet::{read_sheet, Fault, Spread};
use crate::model::table::Mark;

/// What is called, where a mock is wrong in one of them.
#[derive(Clone, Copy, PartialEq, Eq, Debug)]
pub(super) enum Function {
    Open,
    Call,
    Swap,
    Board,
    Close,
}

impl Wrong {
    /// Those that are about spread bytes.
    pub const SPREADS: &'static [Wrong] = &[
        Wrong::SecondTakesSpread2,
        Wrong::SecondSpread2Renews,
        Wrong::SecondTakesSpread3,
        Wrong::FirstRefusesSpread2,
        Wrong::FirstSpread2Renews,
        Wrong::FirstTakesSpread3,
        Wrong::FirstTakesAnySpread,
        Wrong::SpreadIn2Bits,
        Wrong::SpreadEditionsExchanged,
        Wrong::SecondTakesSpread2InOpenings,
        Wrong::SecondTakesSpread2InCalls,
        Wrong::SecondTakesSpread2InExchanges,
        Wrong::SecondTakesSpread2OnBoards,
        Wrong::SecondTakesSpread2InRuns,
        Wrong::SecondTakesSpread2UpTo1024,
        Wrong::SecondTakesSpread2Beyond1024,
        Wrong::Spread2InFirstFigureOnly,
        Wrong::Spread2InLastFigureOnly,
        Wrong::Spread2After6,
        Wrong::Spread2After7,
        Wrong::Spread2TestedLast,
        Wrong::Spread2Before3,
        Wrong::Spread2AtTheLast,
        Wrong::Spread2At0,
        Wrong::Spread2Says4,
        Wrong::FirstSpread2Forgets,
        Wrong::FirstSpread2ForgetsWithoutKeep,
        Wrong::FirstSpread2IgnoresNotice,
        Wrong::FirstSpread2TellsNothing,
        Wrong::FirstSpread2IsNotKept,
        Wrong::RefusesStoredSpread2,
        Wrong::OpeningClearsSpread2,
        Wrong::CallClearsSpread2,
    ];

    /// Whether spread 2 of edition 2 is refused: in one of so many figures, the first as 0.
    fn refuses_2(self, function: Function, items: usize, figure: usize, figures: usize) -> bool {
        match self {
            Wrong::SecondTakesSpread2 | Wrong::SpreadEditionsExchanged => false,
            Wrong::SecondTakesSpread2InOpenings => function != Function::Open,
            Wrong::SecondTakesSpread2InCalls => function != Function::Call,
            Wrong::SecondTakesSpread2InExchanges => function != Function::Swap,
            Wrong::SecondTakesSpread2OnBoards => function != Function::Board,
            Wrong::SecondTakesSpread2InRuns => function != Function::Close,
            Wrong::SecondTakesSpread2UpTo1024 => items > 1_024,
            Wrong::SecondTakesSpread2Beyond1024 => items <= 1_024,
            Wrong::Spread2InFirstFigureOnly => figure == 0,
            Wrong::Spread2InLastFigureOnly => figure + 1 == figures,
            _ => true,
        }
    }

    /// The sheet with the spread bytes that the right reader takes as this mock takes them.
    fn spreads_taken(self, function: Function, sheet: &[u8]) -> Vec<u8> {
        let Some((edition, items)) = head(sheet) else { return sheet.to_vec() };
        let figures = spread_places(sheet).len();
        let mut places = 0..figures;
        with_spreads(sheet, |byte| {
            let figure = places.next().unwrap();
            match (self, edition, byte) {
                (Wrong::SpreadIn2Bits, _, _) => byte & 3,
                (Wrong::SecondSpread2Renews, 2, 2) => 1,
                (Wrong::SecondTakesSpread3, 2, 3) => 0,
                (Wrong::FirstRefusesSpread2 | Wrong::SpreadEditionsExchanged, 1, 2) => 3,
                (Wrong::FirstSpread2Renews, 1, 2) => 1,
                (Wrong::FirstTakesSpread3, 1, 3) => 0,
                (Wrong::FirstTakesAnySpread, 1, 3..) => 0,
                (_, 2, 2) if !self.refuses_2(function, items, figure, figures) => 0,
                _ => byte,
            }
        })
    }

    /// What a sheet of edition 2 with spread 2 is refused with, where it is not the right answer.
    fn spread_fault(self, sheet: &[u8]) -> Option<Fault> {
        let first = first_spread_2(sheet).filter(|_| head(sheet).is_some_and(|h| h.0 == 2))?;
        let right = read_sheet(sheet).err()?;
        let here = right.offset as usize;
        if here == first && self == Wrong::Spread2Before3 && right.number == 3 {
            return Some(Fault { number: 5, ..right });
        }
        if (right.number, here) != (5, first) {
            return None;
        }
        let after = read_sheet(&deferring(sheet)).err();
        let same_field = after.filter(|fault| fault.offset == right.offset);
        match self {
            Wrong::Spread2After6 => same_field.filter(|fault| fault.number == 6),
            Wrong::Spread2After7 => same_field.filter(|fault| fault.number > 5),
            Wrong::Spread2TestedLast => after,
            Wrong::Spread2AtTheLast => {
                last_spread_2(sheet).map(|at| Fault { offset: at as u64, ..right })
            }
            Wrong::Spread2At0 => Some(Fault { offset: 0, ..right }),
            Wrong::Spread2Says4 => Some(Fault { number: 4, offset: 0 }),
            _ => None,
        }
    }

    /// Whether an accepted act writes 0 for each spread 2 of the sheet.
    fn clears_spreads(self, function: Function) -> bool {
        match self {
            Wrong::OpeningClearsSpread2 => function == Function::Open,
            Wrong::CallClearsSpread2 => function == Function::Call,
            _ => false,
        }
    }
}

impl Sweep<'_> {
    /// Whether the sheet has spread 2 for a figure.
    fn has_spread_2(&self, i: usize) -> bool {
        self.items[i].figure.as_ref().is_some_and(|figure| figure.spread_byte == 2)
    }

    /// Whether a stored child that is told becomes UNK with notice, as with spread 2 once.
    pub(super) fn forgets(&self, child: usize) -> bool {
        let figure = self.items[child].figure.as_ref().unwrap();
        match self.wrong {
            Wrong::TellsDeferByForgetting => figure.spread == Spread::Defer,
            Wrong::FirstSpread2Forgets => self.has_spread_2(child),
            Wrong::FirstSpread2ForgetsWithoutKeep => self.has_spread_2(child) && !figure.keep,
            _ => false,
        }
    }

    /// Whether a child that defers gets refresh, and is not renewed.
    pub(super) fn defers(&self, child: usize) -> bool {
        let ignores = match self.wrong {
            Wrong::DeferIgnoresNotice => true,
            Wrong::FirstSpread2IgnoresNotice => self.has_spread_2(child),
            _ => false,
        };
        ignores || self.cells[child].mark != Mark::Notice
    }

    /// Whether telling leaves a stored child as it is.
    pub(super) fn tells_nothing(&self, child: usize) -> bool {
        match self.wrong {
            Wrong::TellsMarkedNothing => self.cells[child].mark != Mark::None,
            Wrong::FirstSpread2TellsNothing => {
                self.has_spread_2(child) && self.cells[child].stored.is_some()
            }
            _ => false,
        }
    }

    /// Whether a look-up stores a figure.
    pub(super) fn keeps(&self, i: usize) -> bool {
        let not_kept = self.wrong == Wrong::FirstSpread2IsNotKept && self.has_spread_2(i);
        self.items[i].figure.as_ref().unwrap().keep && !not_kept
    }

    /// Whether a table is refused for a stored figure.
    pub(super) fn refuses_stored(&self) -> bool {
        let stored = |i: &usize| self.has_spread_2(*i) && self.cells[*i].stored.is_some();
        self.wrong == Wrong::RefusesStoredSpread2 && (0..self.items.len()).any(|i| stored(&i))
    }
}

impl Mock {
    /// An act on the sheet with its spread bytes as they are taken.
    pub(super) fn with_spreads(
        &self,
        function: Function,
        sheet: &mut Guarded,
        give: impl FnOnce(&Mock, &mut Guarded) -> Reply,
    ) -> Reply {
        let wrong = self.0;
        if let Some(Fault { number, offset }) = wrong.spread_fault(sheet.bytes()) {
            return Reply { number, offset, kind: 0, value: 0 };
        }
        let mut taken = Guarded::new(&wrong.spreads_taken(function, sheet.bytes()), 0);
        let reply = give(self, &mut taken);
        if reply.number == 0 && wrong.clears_spreads(function) {
            let cleared = deferring(sheet.bytes());
            sheet.bytes_mut().copy_from_slice(&cleared);
        }
        reply
    }
}
