//! How the mock can be wrong about editions, item limits and large sheets: it takes the sheet as other
//! bytes, or is wrong in another respect where the sheet's edition is 2.

use super::{Function, Mock, Wrong};
use crate::gen::deferring;
use crate::guarded::Guarded;
use crate::model::board::ITEM;
use crate::model::calls::{Call, Reply};
use crate::model::field::{field_at, u16_at};
use crate::model::sheet::{item_limit, read_limited};
use crate::model::swap::Swap;
use crate::model::table::RECORD;
use std::ops::RangeInclusive;

impl Wrong {
    /// Those that are about editions, limits and large sheets.
    pub const EDITIONS: &'static [Wrong] = &[
        Wrong::FirstTakes1025,
        Wrong::FirstRefuses1024,
        Wrong::FirstTakes4096,
        Wrong::SecondTakes4097,
        Wrong::SecondRefuses4096,
        Wrong::SecondRefuses1025,
        Wrong::SecondTakesAnyCount,
        Wrong::SecondTakesNoItems,
        Wrong::SecondRefused,
        Wrong::TakesEdition0,
        Wrong::TakesEdition3,
        Wrong::EditionInOneByte,
        Wrong::CountIn12Bits,
        Wrong::CountIn10Bits,
        Wrong::ItemsIn12Bits,
        Wrong::ItemsIn10Bits,
        Wrong::ParentsIn12Bits,
        Wrong::ParentsIn10Bits,
        Wrong::LosesLastOf128,
        Wrong::LosesLastOf1024,
        Wrong::LosesLastOf4096,
        Wrong::StaleScratchTo128,
        Wrong::StaleScratchTo1024,
        Wrong::StaleScratchTo4096,
        Wrong::FaultBeyond128At0,
        Wrong::FaultBeyond1024At0,
        Wrong::LongSheetsRefused,
        Wrong::LongSheetsCut,
        Wrong::SecondOpensOtherwise,
        Wrong::SecondPostAlwaysMarks,
        Wrong::SecondExchangeUnmarked,
        Wrong::SecondKeepLosesNotice,
        Wrong::SecondDropLeavesBytes,
        Wrong::SecondStepCatchesUp,
        Wrong::SecondAskLooksUpFirst,
        Wrong::SecondBoardStoresNothing,
        Wrong::SecondRunLeavesNotice,
        Wrong::SecondChoiceStrict,
    ];

    /// Those that need a sheet of 128 items or more that is right but for its head.
    pub const LARGE: &'static [Wrong] = &[
        Wrong::ParentsIn10Bits,
        Wrong::LosesLastOf128,
        Wrong::LosesLastOf1024,
        Wrong::LosesLastOf4096,
        Wrong::StaleScratchTo1024,
        Wrong::StaleScratchTo4096,
        Wrong::FaultBeyond1024At0,
        Wrong::LongSheetsRefused,
        Wrong::LongSheetsCut,
        Wrong::SecondTakesSpread2Beyond1024,
    ];

    /// What is wrong where the edition is 2, for those that are right elsewhere.
    fn second(self) -> Option<Wrong> {
        Some(match self {
            Wrong::SecondOpensOtherwise => Wrong::OpenFullOwesNothing,
            Wrong::SecondPostAlwaysMarks => Wrong::PostAlwaysMarks,
            Wrong::SecondExchangeUnmarked => Wrong::SwapWithoutNotice,
            Wrong::SecondKeepLosesNotice => Wrong::KeepLosesNotice,
            Wrong::SecondDropLeavesBytes => Wrong::DropLeavesOwed,
            Wrong::SecondStepCatchesUp => Wrong::StepCatchesUp,
            Wrong::SecondAskLooksUpFirst => Wrong::AskLooksUpFirst,
            Wrong::SecondBoardStoresNothing => Wrong::BoardStoresNothing,
            Wrong::SecondRunLeavesNotice => Wrong::CloseLeavesNotice,
            Wrong::SecondChoiceStrict => Wrong::ChoiceStrict,
            _ => return None,
        })
    }

    /// The item counts that are taken of an edition.
    fn counts_taken(self, edition: u16) -> RangeInclusive<usize> {
        match (self, edition) {
            (Wrong::FirstTakes1025, 1) => 1..=1_025,
            (Wrong::FirstRefuses1024, 1) => 1..=1_023,
            (Wrong::FirstTakes4096, 1) => 1..=4_096,
            (Wrong::SecondTakes4097, 2) => 1..=4_097,
            (Wrong::SecondRefuses4096, 2) => 1..=4_095,
            (Wrong::SecondRefuses1025, 2) => 1..=1_024,
            (Wrong::SecondTakesAnyCount, 2) => 1..=65_535,
            (Wrong::SecondTakesNoItems, 2) => 0..=4_096,
            (Wrong::SecondRefused, 2) => 1..=item_limit(0),
            (Wrong::TakesEdition0, 0) => 1..=1_024,
            (Wrong::TakesEdition3, 3) => 1..=4_096,
            (Wrong::EditionInOneByte, _) => 1..=item_limit(edition & 0xFF),
            _ => 1..=item_limit(edition),
        }
    }

    /// A number that is read from a sheet or an argument, cut to fewer bits.
    fn cut(self, in_12: Wrong, in_10: Wrong, number: u64) -> u64 {
        match self {
            _ if self == in_12 => number & 0xFFF,
            _ if self == in_10 => number & 0x3FF,
            _ => number,
        }
    }

    fn cut_item(self, item: u64) -> u64 {
        self.cut(Wrong::ItemsIn12Bits, Wrong::ItemsIn10Bits, item)
    }

    pub(super) fn call_taken(self, call: &Call) -> Call {
        super::with_item(call, |item| self.cut_item(item))
    }

    pub(super) fn exchange_taken(self, swap: &Swap) -> Swap {
        let [giver, taker] = [swap.giver, swap.taker].map(|item| self.cut_item(item));
        Swap { giver, taker, ..*swap }
    }

    /// The item list of a board as it is taken.
    pub(super) fn list_taken(self, items: &[u8]) -> Vec<u8> {
        let mut items = items.to_vec();
        for item in items.chunks_exact_mut(ITEM) {
            let cut = self.cut_item(u16_at(item, 0) as u64) as u16;
            item.copy_from_slice(&cut.to_le_bytes());
        }
        items
    }

    /// Whether the last item of a sheet is no child of its parents.
    pub(super) fn loses_last(self, items: usize) -> bool {
        match self {
            Wrong::LosesLastOf128 => items == 128,
            Wrong::LosesLastOf1024 => items == 1_024,
            Wrong::LosesLastOf4096 => items == 4_096,
            _ => false,
        }
    }

    /// Whether what a call has looked up once is taken for right until its end.
    pub(super) fn keeps_scratch(self, items: usize) -> bool {
        match self {
            Wrong::StaleScratchTo128 => items <= 128,
            Wrong::StaleScratchTo1024 => (129..=1_024).contains(&items),
            Wrong::StaleScratchTo4096 => items > 1_024,
            _ => false,
        }
    }

    /// The figures' fields with their parents as they are taken, as far as they can be cut.
    fn change_figures(self, sheet: &mut [u8]) {
        let mut at = 0;
        while let Some(field) = field_at(sheet, at) {
            let (tag, length, next) = (field.tag, field.content.len(), field.end());
            let content = &mut sheet[at + 3..next];
            if tag == 3 && length > 4 {
                let count = content[3] as usize;
                for parent in content[4..].chunks_exact_mut(2).take(count) {
                    let number = u16_at(parent, 0) as u64;
                    let cut = self.cut(Wrong::ParentsIn12Bits, Wrong::ParentsIn10Bits, number);
                    parent.copy_from_slice(&(cut as u16).to_le_bytes());
                }
            }
            at = next;
        }
    }

    /// The sheet as bytes that the right reader takes as this mock takes the sheet.
    fn sheet_taken(self, sheet: &[u8]) -> Vec<u8> {
        let mut taken = sheet.to_vec();
        if self == Wrong::LongSheetsCut {
            taken.truncate(65_536);
        }
        let Some((edition, count)) = head(sheet) else { return taken };
        let cut = self.cut(Wrong::CountIn12Bits, Wrong::CountIn10Bits, count as u64);
        taken[5..7].copy_from_slice(&(cut as u16).to_le_bytes());
        let right = (1..=item_limit(edition)).contains(&(cut as usize));
        match (self.counts_taken(edition).contains(&(cut as usize)), right) {
            // Edition 2 takes as many items, and refuses what edition 1 defers.
            (true, false) if edition == 1 => {
                taken = deferring(&taken);
                taken[3..5].copy_from_slice(&[2, 0]);
            }
            (true, false) => taken[3..5].copy_from_slice(&[2, 0]),
            (false, true) => taken[3..5].copy_from_slice(&[0, 0]),
            _ => {}
        }
        self.change_figures(&mut taken);
        taken
    }

    /// The answer for a sheet of more items than any reader takes, or of none.
    fn taken_beyond(self, sheet: &[u8], lengths: [usize; 2]) -> Option<Reply> {
        let (edition, count) = head(sheet)?;
        let beyond = count == 0 || count > item_limit(2);
        if !beyond || !self.counts_taken(edition).contains(&count) {
            return None;
        }
        let (number, offset) = match read_limited(sheet, &|edition| self.counts_taken(edition)) {
            Err(fault) => (fault.number, fault.offset),
            Ok(items) if lengths != [4, RECORD].map(|bytes| bytes * items.len()) => (8, 0),
            Ok(_) => (0, 0),
        };
        Some(Reply { number, offset, kind: 0, value: 0 })
    }

    /// The answer with the offset that this mock gives it.
    fn answer(self, sheet: &[u8], reply: Reply) -> Reply {
        let beyond = match self {
            Wrong::FaultBeyond128At0 => 128,
            Wrong::FaultBeyond1024At0 => 1_024,
            _ => return reply,
        };
        let claims = head(sheet).is_some_and(|(_, count)| count > beyond);
        Reply { offset: if claims { 0 } else { reply.offset }, ..reply }
    }
}

/// Edition and item count of a head that is in form.
pub(super) fn head(sheet: &[u8]) -> Option<(u16, usize)> {
    let field = field_at(sheet, 0).filter(|field| field.tag == 1 && field.content.len() == 4)?;
    Some((u16_at(field.content, 0), u16_at(field.content, 2) as usize))
}

impl Mock {
    /// An act on the sheet as it is taken, by the mock that is then at work.
    pub(super) fn as_taken(
        &self,
        function: Function,
        sheet: &mut Guarded,
        lengths: [usize; 2],
        give: impl FnOnce(&Mock, &mut Guarded) -> Reply,
    ) -> Reply {
        let wrong = self.0;
        if Wrong::SPREADS.contains(&wrong) {
            return self.with_spreads(function, sheet, give);
        }
        if !Wrong::EDITIONS.contains(&wrong) {
            return give(self, sheet);
        }
        if wrong == Wrong::LongSheetsRefused && sheet.length() > 65_536 {
            return Reply { number: 19, offset: 0, kind: 0, value: 0 };
        }
        if let Some(reply) = wrong.taken_beyond(sheet.bytes(), lengths) {
            return reply;
        }
        let second = head(sheet.bytes()).is_some_and(|(edition, _)| edition == 2);
        let mock = Mock(match wrong.second() {
            Some(other) if second => other,
            Some(_) => Wrong::Nothing,
            None => wrong,
        });
        let mut taken = Guarded::new(&wrong.sheet_taken(sheet.bytes()), 0);
        let reply = give(&mock, &mut taken);
        wrong.answer(sheet.bytes(), reply)
    }
}
