//! A mock of the engine, to try the comparison itself: the model's reader with another
//! machine, which fills cells from a whole solution, catches up in one ascending sweep and mends
//! the owed bytes at each change, and another printer. It can be made wrong in one respect.

/// An enum with `ALL`, the list of its variants after the first.
macro_rules! with_all {
    ($(#[$derive:meta])* pub enum $name:ident { $first:ident, $($variant:ident,)* }) => {
        $(#[$derive])*
        pub enum $name {
            $first,
            $($variant,)*
        }

        impl $name {
            pub const ALL: &'static [$name] = &[$($name::$variant),*];
        }
    };
}

mod board;
mod choice;
mod close;
mod day;
mod edition;
mod older;
mod owed;
mod printer;
mod spread;
mod step;
mod swap;

use crate::engine::Engine;
use crate::guarded::Guarded;
use crate::model::calls::{self, Call, Reply};
use crate::model::sheet::{read_sheet, Item, Spread};
use crate::model::swap::Swap;
use crate::model::table::{to_pair, Cell, Mark};
use crate::model::value::{apply, in_range, Value, WHOLE};
use choice::Where;
pub use day::{MockDay, WrongDay};
use owed::By;
use spread::Function;
use std::cell::RefCell;

with_all! {
    #[derive(Clone, Copy, PartialEq, Eq, Debug)]
    pub enum Wrong {
        Nothing,
        RoundsTowardZero,
        ShareWrapsAt64Bits,
        ShareInFloatingPoint,
        ShareOfRoundedFirst,
        PostsInOlderRange,
        TablesInOlderRange,
        ResultsInOlderRange,
        PrinterInOlderRange,
        RefusesStoredOut,
        WorksOutStoredOut,
        TestsRangeAtEachAddition,
        ClearsMarkBeforeTelling,
        WorksOutStoredNull,
        KeepLosesNotice,
        DeferIgnoresNotice,
        RenewClearsNotice,
        StepGoesOnToTelling,
        AskLooksUpFirst,
        PostAlwaysMarks,
        Says14BeforeTheTable,
        CutsItemTo32Bits,
        RefusedOpeningWrites,
        AskChangesSheet,
        WritesPastTheTable,
        PrinterClearsTheRest,
        PrinterSays15First,
        PrinterDividesBy100,
        PrinterDividesBelowZero,
        PrinterCutsTo32Bits,
        PrinterOneDigitTooFew,
        PrinterOneDigitTooMany,
        PrinterZeroHasNoDigit,
        PrinterPadsWithZeros,
        PrinterReversesDigits,
        PrinterLeavesOutZeros,
        PrinterLosesTheSign,
        PrinterOnePlaceLate,
        PrinterTouchesTheByteAfter,
        PrinterWorksAtTheEnd,
        RefusedPrinterWrites,
        EmptyBoardCatchesUp,
        BoardSays11Before17,
        BoardSays17BeforeTheTable,
        BoardTakes65Items,
        BoardTakesOddLength,
        BoardTakesLongerResults,
        BoardWritesNumberFirst,
        BoardDoesNotCatchUp,
        BoardStoresNothing,
        BoardStoresAll,
        BoardChangesItems,
        BoardWritesPastResults,
        RefusedBoardWritesResults,
        RefusedBoardCatchesUp,
        CloseLeavesStored,
        CloseLeavesUnmarked,
        CloseLeavesOut,
        CloseFromTheTop,
        CloseFromTheOldTable,
        CloseSortsParents,
        CloseTakesParentsOnce,
        CloseOnlyCatchesUp,
        CloseCatchesUpAndKeeps,
        CloseOnlyKeeps,
        CloseLeavesKeep0Unstored,
        CloseForgetsKeep0,
        CloseLeavesEntryMarks,
        CloseLeavesNotice,
        CloseLeavesRefresh,
        CloseMarksWhatChanged,
        CloseClearsEntries,
        CloseStopsAtTheFirstMark,
        CloseStopsAtOut,
        CloseMissesTheLastItem,
        CloseRefusesMarks,
        CloseRefusesEntriesAlone,
        CloseTakesAnyIndex,
        CloseTakesBrokenFigures,
        CloseSays10Before9,
        CloseChangesIndex,
        CloseWritesPastTheTable,
        RefusedCloseClearsMarks,
        CloseLeavesOwed,
        CloseOwesAll,
        OwedWithoutStored,
        OwedWithoutNull,
        OwedByAnyUnk,
        OwedByStoredOnly,
        OwedByTheLowestChild,
        OwedOfFiguresOnly,
        OwedBeforeTheNumber,
        TellingPassesOverOwed,
        TellingMarksUnowed,
        TellingStopsAtUnowed,
        UnowedLosesNotice,
        DropLeavesOwed,
        DropEndsAllOwed,
        DropEndsOwedOneLevel,
        KeepLeavesUnowed,
        KeepMakesOwedOneLevel,
        LookUpLeavesUnowed,
        TellingEndsOwed,
        RenewEndsOwed,
        DeferEndsOwed,
        OpenFullOwesAll,
        OpenFullOwesNothing,
        OpenBareOwes,
        TakesFalseOwed,
        TakesOwedAboveOne,
        TakesOwedForUnowed,
        TakesUnowedForOwed,
        TakesFalseOwedOfEntries,
        TakesFalseOwedOfStored,
        TakesFalseOwedOfUnk,
        TakesTablesWithoutOwed,
        RefusesUnowedNotice,
        ChoiceStrict,
        ChoiceStrictInSecond,
        ChoiceStrictInThird,
        ChoiceStrictInCalls,
        ChoiceStrictOnBoards,
        ChoiceStrictInRuns,
        ChoiceStrictInLookUps,
        ChoiceStrictInRenewals,
        ChoiceOutFirstGivesNull,
        ChoiceOutFirstPicksSecond,
        ChoiceOutFirstPicksThird,
        ChoiceNullFirstPicksThird,
        ChoiceExchanged,
        ChoicePicksSecondAt0,
        ChoicePicksSecondBelow0,
        ChoicePicksThirdAt1,
        ChoicePickedOutGivesNull,
        ChoicePickedNullGives0,
        ChoiceLooksUpPickedOnly,
        ChoiceStoresPickedOnly,
        ChoiceLeavesSecond,
        ChoiceLeavesThird,
        ChoiceStopsAtNullOrOut,
        ChoiceFlaggedByPickedOnly,
        ChoiceNotFlaggedByFirst,
        OthersTakeOutAsNull,
        OthersStrictInFirst,
        OthersNullBeforeOut,
        StepKeepsRefreshOfChanged,
        StepKeepsRefreshOfEqual,
        StepNotesEqual,
        StepStoresWithoutNotice,
        StepNotesWithoutStoring,
        StepForgetsChanged,
        StepKeepsNoticeOfEntries,
        StepKeepsNoticeOfStored,
        StepKeepsNoticeOfUnk,
        StepKeepsNoticeOfChildless,
        StepTurnsNoticeToRefresh,
        StepOfNoticeForgets,
        StepOfNoticeStores,
        StepTakesTheLowest,
        StepTakesTheHighest,
        StepTakesAllMarked,
        StepTakesThoseBelowFirst,
        StepCatchesUp,
        StepClearsAllMarks,
        StepTakesUnmarked,
        StepRefusesItem0,
        StepRefusesUnk,
        StepRefusesAboveAMark,
        RefusedStepMarks,
        TellsFirstChildOnly,
        TellsLastChildOnly,
        TellsHighestFirst,
        TellsGrandchildren,
        TellsOwnParents,
        TellsParentsOfChildren,
        TellsItemBelow,
        TellsDeferWithNotice,
        TellsDeferByForgetting,
        TellsRenewAsDefer,
        TellsRenewOfEqual,
        TellsMarkedNothing,
        AskStepsEachOnce,
        SwapTakesZero,
        SwapTakesBelow0,
        SwapTakesAmountBelow0,
        SwapWants2,
        SwapTakesSameEntry,
        SwapTestsGiverOnly,
        SwapTestsTakerOnly,
        SwapTestsNothing,
        SwapTestsQuantity,
        SwapTestsGiverFirst,
        SwapRefusesAtTheLimit,
        SwapTakesOneBeyond,
        SwapRefusesNull,
        SwapRefusesDebt,
        SwapRefusesMarked,
        SwapInOlderRange,
        SwapWrapsAt64Bits,
        SwapCutsGiverTo32Bits,
        SwapCutsTakerTo16Bits,
        SwapCutsQuantityTo32Bits,
        SwapToAbsentTaker,
        SwapFromAbsentGiver,
        SwapTakesFigureAsTaker,
        SwapTakesFigureAsGiver,
        SwapSays12Before11,
        SwapSays18Before11,
        SwapSays18Before12,
        SwapSays13Before12,
        SwapSays13Before18,
        SwapSays18BeforeTheTable,
        SwapGiverGains,
        SwapLeavesNull,
        SwapStoresGiverOnly,
        SwapStoresTakerOnly,
        SwapMarksGiverOnly,
        SwapMarksTakerOnly,
        SwapWithoutNotice,
        SwapCatchesUp,
        SwapTellsChildren,
        SwapChangesSheet,
        SwapChangesIndex,
        SwapWritesPastTheTable,
        RefusedSwapStoresGiver,
        RefusedSwapStoresTaker,
        RefusedSwapMarks,
        RefusedSwapMakesNull0,
        RefusedSwapClearsMarks,
        FirstTakes1025,
        FirstRefuses1024,
        FirstTakes4096,
        SecondTakes4097,
        SecondRefuses4096,
        SecondRefuses1025,
        SecondTakesAnyCount,
        SecondTakesNoItems,
        SecondRefused,
        TakesEdition0,
        TakesEdition3,
        EditionInOneByte,
        CountIn12Bits,
        CountIn10Bits,
        ItemsIn12Bits,
        ItemsIn10Bits,
        ParentsIn12Bits,
        ParentsIn10Bits,
        LosesLastOf128,
        LosesLastOf1024,
        LosesLastOf4096,
        StaleScratchTo128,
        StaleScratchTo1024,
        StaleScratchTo4096,
        FaultBeyond128At0,
        FaultBeyond1024At0,
        LongSheetsRefused,
        LongSheetsCut,
        SecondOpensOtherwise,
        SecondPostAlwaysMarks,
        SecondExchangeUnmarked,
        SecondKeepLosesNotice,
        SecondDropLeavesBytes,
        SecondStepCatchesUp,
        SecondAskLooksUpFirst,
        SecondBoardStoresNothing,
        SecondRunLeavesNotice,
        SecondChoiceStrict,
        SecondTakesSpread2,
        SecondSpread2Renews,
        SecondTakesSpread3,
        FirstRefusesSpread2,
        FirstSpread2Renews,
        FirstTakesSpread3,
        FirstTakesAnySpread,
        SpreadIn2Bits,
        SpreadEditionsExchanged,
        SecondTakesSpread2InOpenings,
        SecondTakesSpread2InCalls,
        SecondTakesSpread2InExchanges,
        SecondTakesSpread2OnBoards,
        SecondTakesSpread2InRuns,
        SecondTakesSpread2UpTo1024,
        SecondTakesSpread2Beyond1024,
        Spread2InFirstFigureOnly,
        Spread2InLastFigureOnly,
        Spread2After6,
        Spread2After7,
        Spread2TestedLast,
        Spread2Before3,
        Spread2AtTheLast,
        Spread2At0,
        Spread2Says4,
        FirstSpread2Forgets,
        FirstSpread2ForgetsWithoutKeep,
        FirstSpread2IgnoresNotice,
        FirstSpread2TellsNothing,
        FirstSpread2IsNotKept,
        RefusesStoredSpread2,
        OpeningClearsSpread2,
        CallClearsSpread2,
    }
}

pub struct Mock(pub Wrong);

/// The share of two numbers, of which the second is within 0 to 10,000.
fn share(wrong: Wrong, first: i128, second: i128) -> Value {
    let whole = WHOLE as i128;
    Value::Number(match wrong {
        Wrong::RoundsTowardZero => (first * second / whole) as i64,
        Wrong::ShareWrapsAt64Bits => ((first * second) as i64).div_euclid(WHOLE),
        Wrong::ShareInFloatingPoint => (first as f64 * second as f64 / WHOLE as f64).floor() as i64,
        Wrong::ShareOfRoundedFirst => (first.div_euclid(whole) * second) as i64,
        _ => (first * second).div_euclid(whole) as i64,
    })
}

struct Sweep<'a> {
    items: &'a [Item],
    cells: Vec<Cell>,
    owed: Vec<bool>,
    /// What was looked up in the call before, if that is kept.
    scratch: RefCell<Vec<Option<(Value, bool)>>>,
    wrong: Wrong,
}

/// A rule on its parents' values.
fn rule(wrong: Wrong, rule: u8, parents: &[Value]) -> Value {
    if rule == 6 {
        return wrong.result(wrong.choice(parents));
    }
    let parents = wrong.others(rule, parents);
    let numbers: Vec<i128> = parents
        .iter()
        .filter_map(|v| if let Value::Number(x) = v { Some(*x as i128) } else { None })
        .collect();
    let right = apply(rule, &parents);
    match (wrong, rule) {
        (_, 5) if matches!(right, Value::Number(_)) => {
            wrong.result(share(wrong, numbers[0], numbers[1]))
        }
        (Wrong::TestsRangeAtEachAddition, 1) => {
            let mut sum = 0;
            for x in numbers {
                sum += x;
                if !in_range(sum) {
                    return Value::Out;
                }
            }
            right
        }
        _ => wrong.result(right),
    }
}

impl Sweep<'_> {
    fn unstored(&self, i: usize) -> bool {
        let null = self.wrong == Wrong::WorksOutStoredNull
            && self.items[i].figure.is_some()
            && self.cells[i] == Cell { stored: Some(Value::Null), mark: Mark::None };
        let out = self.wrong == Wrong::WorksOutStoredOut && older::is_out(&self.cells[i]);
        null || out || self.cells[i].stored.is_none()
    }

    /// What a look-up of each item up to one of them gives.
    fn all(&self, last: usize) -> Vec<(Value, bool)> {
        let mut given: Vec<(Value, bool)> = Vec::new();
        for i in 0..=last {
            let notice = self.cells[i].mark == Mark::Notice;
            given.push(if self.unstored(i) {
                self.remembered(i).unwrap_or_else(|| {
                    let (value, flagged) = self.by_parents(i, &given, Where::LookUp);
                    (value, flagged || notice)
                })
            } else {
                (self.cells[i].stored.unwrap(), notice)
            });
        }
        if self.wrong.keeps_scratch(self.items.len()) {
            let mut scratch = self.scratch.borrow_mut();
            scratch.resize(self.items.len(), None);
            scratch.iter_mut().zip(&given).for_each(|(kept, &now)| *kept = kept.or(Some(now)));
        }
        given
    }

    /// What a scratch that is not begun anew has for an unstored item.
    fn remembered(&self, i: usize) -> Option<(Value, bool)> {
        *self.scratch.borrow().get(i)?
    }

    fn by_parents(&self, i: usize, given: &[(Value, bool)], place: Where) -> (Value, bool) {
        let figure = self.items[i].figure.as_ref().unwrap();
        let values: Vec<Value> = figure.parents.iter().map(|&p| given[p].0).collect();
        let value = rule(self.wrong.here(place), figure.rule, &values);
        (value, self.flagging(i, given).iter().any(|&p| given[p].1))
    }

    /// Stores each unstored figure with keep 1 that a look-up of these items reaches.
    fn fill(&mut self, from: &[usize], given: &[(Value, bool)]) {
        let mut reached = vec![false; given.len()];
        from.iter().for_each(|&i| reached[i] = true);
        for i in (0..given.len()).rev() {
            if !reached[i] || !self.unstored(i) {
                continue;
            }
            self.looked_up(i, given).iter().for_each(|&p| reached[p] = true);
            if self.keeps(i) {
                self.store(i, given[i], By::LookUp);
            }
        }
    }

    fn store(&mut self, i: usize, (value, flagged): (Value, bool), by: By) {
        let marks = flagged && self.wrong != Wrong::KeepLosesNotice;
        let mark = if marks { Mark::Notice } else { self.cells[i].mark };
        self.put(i, Cell { stored: Some(value), mark }, by);
    }

    fn look_up(&mut self, i: usize) -> (Value, bool) {
        let given = self.all(i);
        self.fill(&[i], &given);
        given[i]
    }

    fn work_out(&mut self, i: usize) -> Value {
        let parents = &self.items[i].figure.as_ref().unwrap().parents;
        let given = self.all(*parents.iter().max().unwrap());
        self.fill(&self.looked_up(i, &given), &given);
        self.by_parents(i, &given, Where::Renewal).0
    }

    fn step(&mut self, i: usize) {
        if self.cells[i].mark == Mark::Refresh {
            let value = self.work_out(i);
            if self.cells[i].stored == Some(value) {
                self.cells[i].mark = self.wrong.mark_of_equal();
                return;
            }
            self.put(i, self.wrong.renewed(self.cells[i], value), By::Renew);
            if self.wrong != Wrong::StepGoesOnToTelling {
                return;
            }
        }
        if self.wrong == Wrong::ClearsMarkBeforeTelling {
            self.cells[i].mark = Mark::None;
        }
        for child in self.told(i) {
            if !self.passes_over(child) {
                self.tell(child);
            } else if self.wrong == Wrong::TellingStopsAtUnowed {
                break;
            }
        }
        if self.wrong != Wrong::ClearsMarkBeforeTelling {
            self.end_notice(i);
        }
    }

    fn tell(&mut self, child: usize) {
        let Cell { stored, mark } = self.cells[child];
        if self.tells_nothing(child) {
            return;
        }
        let spread = self.wrong.spread(self.items[child].figure.as_ref().unwrap().spread, mark);
        if stored.is_none() || self.forgets(child) {
            self.put(child, Cell { stored: None, mark: Mark::Notice }, By::Tell);
        } else if spread == Spread::Defer && self.defers(child) {
            let mark = self.wrong.deferred();
            self.put(child, Cell { stored, mark }, By::Defer);
        } else {
            let value = self.work_out(child);
            if stored != Some(value) || self.wrong == Wrong::TellsRenewOfEqual {
                self.put(child, Cell { stored: Some(value), mark: Mark::Notice }, By::Renew);
            } else if mark == Mark::Refresh || self.wrong == Wrong::RenewClearsNotice {
                self.cells[child].mark = Mark::None;
            }
        }
    }

    fn sweep(&mut self) {
        for i in 0..self.items.len() {
            while self.cells[i].mark != Mark::None {
                self.step(i);
                if self.wrong.steps_once() {
                    break;
                }
            }
        }
    }

    fn give(&mut self, call: &Call) -> Reply {
        let accepted = Reply { number: 0, offset: 0, kind: 0, value: 0 };
        match *call {
            Call::Post { item, kind, number } => {
                let cell = &mut self.cells[item as usize];
                let value = if kind == 1 { Value::Null } else { Value::Number(number) };
                if cell.stored != Some(value) || self.wrong == Wrong::PostAlwaysMarks {
                    *cell = Cell { stored: Some(value), mark: Mark::Notice };
                }
            }
            Call::Keep { item } => {
                let i = item as usize;
                if self.cells[i].stored.is_none() {
                    let given = self.look_up(i);
                    self.store(i, given, By::Keep);
                }
            }
            Call::Drop { item } => {
                let i = item as usize;
                let marked = self.cells[i].mark != Mark::None;
                let mark = if marked { Mark::Notice } else { Mark::None };
                self.put(i, Cell { stored: None, mark }, By::Drop);
            }
            Call::Step { item } => self.give_step(item as usize),
            Call::Ask { item } => {
                let early = self.wrong == Wrong::AskLooksUpFirst;
                let first = if early { Some(self.look_up(item as usize)) } else { None };
                self.sweep();
                let last = self.look_up(item as usize);
                let (kind, value) = to_pair(first.unwrap_or(last).0);
                return Reply { kind: kind as u64, value, ..accepted };
            }
        }
        accepted
    }
}

/// The call with another item.
fn with_item(call: &Call, cut: impl Fn(u64) -> u64) -> Call {
    match *call {
        Call::Post { item, kind, number } => Call::Post { item: cut(item), kind, number },
        Call::Keep { item } => Call::Keep { item: cut(item) },
        Call::Drop { item } => Call::Drop { item: cut(item) },
        Call::Step { item } => Call::Step { item: cut(item) },
        Call::Ask { item } => Call::Ask { item: cut(item) },
    }
}

impl Mock {
    fn give_open(
        &self,
        full: bool,
        sheet: &mut Guarded,
        index: &mut Guarded,
        table: &mut Guarded,
    ) -> Reply {
        let reply = calls::open(full, sheet.bytes(), index.bytes_mut(), table.bytes_mut());
        if reply.number != 0 && self.0 == Wrong::RefusedOpeningWrites {
            index.bytes_mut().fill(0);
        }
        if reply.number == 0 {
            self.0.spoil_opening(full, sheet.bytes(), table.bytes_mut());
        }
        reply
    }

    fn give_call(
        &self,
        call: &Call,
        sheet: &mut Guarded,
        index: &mut Guarded,
        table: &mut Guarded,
    ) -> Reply {
        let wrong = self.0;
        let call = &match wrong {
            Wrong::CutsItemTo32Bits => with_item(call, |item| item & 0xFFFF_FFFF),
            _ => wrong.call_taken(call),
        };
        let taken = wrong.taken(sheet.bytes(), table.bytes());
        // The model is asked only whether the call is refused.
        let refusal = calls::call(call, sheet.bytes(), index.bytes(), &mut taken.clone());
        if refusal.number == 10 && wrong == Wrong::Says14BeforeTheTable {
            return match call {
                Call::Step { .. } => Reply { number: 14, ..refusal },
                _ => refusal,
            };
        }
        if refusal.number != 0 {
            return wrong.refused_step(call, refusal, table.bytes_mut());
        }
        let items = read_sheet(sheet.bytes()).unwrap();
        let mut machine = Sweep::new(&items, &taken, wrong.here(Where::Call));
        let refused = wrong.refusal(call, &machine.cells, &machine.owed);
        if let Some(number) = refused.or(machine.refuses_stored().then_some(10)) {
            return Reply { number, offset: 0, kind: 0, value: 0 };
        }
        let reply = machine.give(call);
        machine.write(table.bytes_mut());
        match (wrong, call) {
            (Wrong::AskChangesSheet, Call::Ask { .. }) => sheet.bytes_mut()[0] = 9,
            (Wrong::WritesPastTheTable, Call::Drop { .. }) => table.break_guard(),
            _ => {}
        }
        reply
    }
}

impl Engine for Mock {
    fn open(
        &mut self,
        full: bool,
        sheet: &mut Guarded,
        index: &mut Guarded,
        table: &mut Guarded,
    ) -> Reply {
        let lengths = [index.length(), table.length()];
        self.as_taken(Function::Open, sheet, lengths, |mock, sheet| {
            mock.give_open(full, sheet, index, table)
        })
    }

    fn call(
        &mut self,
        call: &Call,
        sheet: &mut Guarded,
        index: &mut Guarded,
        table: &mut Guarded,
    ) -> Reply {
        let lengths = [index.length(), table.length()];
        self.as_taken(Function::Call, sheet, lengths, |mock, sheet| {
            mock.give_call(call, sheet, index, table)
        })
    }

    fn swap(
        &mut self,
        swap: &Swap,
        sheet: &mut Guarded,
        index: &mut Guarded,
        table: &mut Guarded,
    ) -> Reply {
        let lengths = [index.length(), table.length()];
        self.as_taken(Function::Swap, sheet, lengths, |mock, sheet| {
            mock.give_swap(swap, sheet, index, table)
        })
    }

    fn close(&mut self, sheet: &mut Guarded, index: &mut Guarded, table: &mut Guarded) -> Reply {
        let lengths = [index.length(), table.length()];
        self.as_taken(Function::Close, sheet, lengths, |mock, sheet| {
            mock.give_close(sheet.bytes(), index, table)
        })
    }

    fn board(
        &mut self,
        sheet: &mut Guarded,
        index: &mut Guarded,
        table: &mut Guarded,
        items: &mut Guarded,
        results: &mut Guarded,
    ) -> Reply {
        let lengths = [index.length(), table.length()];
        self.as_taken(Function::Board, sheet, lengths, |mock, sheet| {
            mock.give_board(sheet.bytes(), index.bytes(), table.bytes_mut(), items, results)
        })
    }

    fn print(&mut self, kind: u64, number: i64, scratch: &mut Guarded) -> i64 {
        self.give_print(kind, number, scratch)
    }
}
