//! The mock's swap, by the room that each entry has up to the limits, and how it can be wrong.

use super::older::beyond;
use super::{By, Mock, Sweep, Where, Wrong};
use crate::guarded::Guarded;
use crate::model::calls::Reply;
use crate::model::close;
use crate::model::sheet::{read_sheet, Item};
use crate::model::swap::Swap;
use crate::model::table::{Cell, Mark, RECORD};
use crate::model::value::{Value, LIMIT};

impl Wrong {
    /// Those that swap otherwise than they must; their names say so.
    pub fn swaps() -> impl Iterator<Item = Wrong> {
        Wrong::ALL.iter().copied().filter(|wrong| format!("{wrong:?}").contains("Swap"))
    }

    /// The arguments as a wrong mock takes them.
    fn swap_taken(self, swap: &Swap) -> Swap {
        let Swap { giver, taker, quantity } = *swap;
        match self {
            Wrong::SwapCutsGiverTo32Bits => Swap { giver: giver & 0xFFFF_FFFF, ..*swap },
            Wrong::SwapCutsTakerTo16Bits => Swap { taker: taker & 0xFFFF, ..*swap },
            Wrong::SwapCutsQuantityTo32Bits => Swap { quantity: quantity as i32 as i64, ..*swap },
            Wrong::SwapTakesAmountBelow0 => Swap { quantity: quantity.saturating_abs(), ..*swap },
            _ => *swap,
        }
    }

    /// The numbers in the order in which they are tested.
    fn order_of_swap(self) -> [u64; 4] {
        match self {
            Wrong::SwapSays12Before11 => [12, 11, 18, 13],
            Wrong::SwapSays18Before11 => [18, 11, 12, 13],
            Wrong::SwapSays18Before12 => [11, 18, 12, 13],
            Wrong::SwapSays13Before12 => [11, 13, 12, 18],
            Wrong::SwapSays13Before18 => [11, 12, 13, 18],
            _ => [11, 12, 18, 13],
        }
    }

    /// The sides of which an absent item or a figure is refused.
    fn sides_tested(self, number: u64) -> &'static [usize] {
        match (self, number) {
            (Wrong::SwapToAbsentTaker, 11) | (Wrong::SwapTakesFigureAsTaker, 12) => &[0],
            (Wrong::SwapFromAbsentGiver, 11) | (Wrong::SwapTakesFigureAsGiver, 12) => &[1],
            _ => &[0, 1],
        }
    }

    /// Refusal 18.
    fn no_swap(self, swap: &Swap) -> bool {
        let same = swap.giver == swap.taker && self != Wrong::SwapTakesSameEntry;
        let least = match self {
            Wrong::SwapTakesZero => 0,
            Wrong::SwapTakesBelow0 => i64::MIN,
            Wrong::SwapWants2 => 2,
            _ => 1,
        };
        same || swap.quantity < least
    }

    /// Whether a result has no room: `held` is what is there, NULL as none; `sign` -1 or 1.
    fn no_room(self, held: Option<i64>, sign: i64, quantity: i64) -> bool {
        let number = held.unwrap_or(0);
        let wrapped = number.wrapping_add(sign.wrapping_mul(quantity));
        // How far the entry can go. A quantity is not below 1, and moves it one way only.
        let room = LIMIT + sign * -number;
        let over = |room: i64| quantity > room;
        match (self, sign) {
            (Wrong::SwapTestsGiverOnly, 1) | (Wrong::SwapTestsTakerOnly, -1) => false,
            (Wrong::SwapTestsNothing, _) => false,
            (Wrong::SwapRefusesAtTheLimit, _) => over(room - 1),
            (Wrong::SwapTakesOneBeyond, _) => over(room + 1),
            (Wrong::SwapTestsQuantity, _) => over(room) || quantity > LIMIT,
            (Wrong::SwapRefusesNull, _) => over(room) || held.is_none(),
            (Wrong::SwapRefusesDebt, -1) => over(number),
            (Wrong::SwapInOlderRange, _) => over(room) || beyond(wrapped),
            (Wrong::SwapWrapsAt64Bits, -1) => wrapped < -LIMIT,
            (Wrong::SwapWrapsAt64Bits, _) => wrapped > LIMIT,
            _ => over(room),
        }
    }
}

/// What an item's cell holds: none for NULL, for UNK and for no item.
fn held(cells: &[Cell], item: u64) -> Option<i64> {
    match cells.get(item as usize)?.stored {
        Some(Value::Number(number)) => Some(number),
        _ => None,
    }
}

impl Sweep<'_> {
    /// The number of a swap on what is in form.
    fn swap_number(&self, swap: &Swap) -> u64 {
        let wrong = self.wrong;
        let sides = [swap.giver, swap.taker];
        let is = |number: u64, test: &dyn Fn(&Sweep, u64) -> bool| {
            wrong.sides_tested(number).iter().any(|&side| test(self, sides[side]))
        };
        let absent = |machine: &Sweep, item: u64| item >= machine.items.len() as u64;
        let figure = |machine: &Sweep, item: u64| {
            machine.items.get(item as usize).is_some_and(|item: &Item| item.figure.is_some())
        };
        if wrong == Wrong::SwapTestsGiverFirst && figure(self, swap.giver) {
            return 12;
        }
        let full = |side: usize, sign: i64| {
            wrong.no_room(held(&self.cells, sides[side]), sign, swap.quantity)
        };
        let faults = wrong.order_of_swap().into_iter().find(|&number| match number {
            11 => is(11, &absent),
            12 => is(12, &figure),
            18 => wrong.no_swap(swap),
            _ => full(0, -1) || full(1, 1),
        });
        let marked = |item: u64| self.cells[item as usize].mark != Mark::None;
        match faults {
            None if wrong == Wrong::SwapRefusesMarked && sides.iter().any(|&i| marked(i)) => 14,
            _ => faults.unwrap_or(0),
        }
    }

    /// Stores the result of one side, if it is an item; a figure too.
    fn settle(&mut self, item: u64, sign: i64, quantity: i64) {
        let (wrong, i) = (self.wrong, item as usize);
        let null = self.cells.get(i).is_some_and(|cell| cell.stored == Some(Value::Null));
        if i >= self.items.len() || null && wrong == Wrong::SwapLeavesNull {
            return;
        }
        let sign = if wrong == Wrong::SwapGiverGains { -sign } else { sign };
        let number = held(&self.cells, item).unwrap_or(0);
        let stored = Some(Value::Number(number.wrapping_add(sign.wrapping_mul(quantity))));
        let marks = match wrong {
            Wrong::SwapMarksGiverOnly => sign < 0,
            Wrong::SwapMarksTakerOnly => sign > 0,
            Wrong::SwapWithoutNotice => false,
            _ => true,
        };
        let mark = if marks { Mark::Notice } else { self.cells[i].mark };
        self.put(i, Cell { stored, mark }, By::Keep);
    }

    /// Both sides one after the other, so that one entry on both ends as it was.
    fn swap(&mut self, swap: &Swap) {
        let Swap { giver, taker, quantity } = *swap;
        if self.wrong == Wrong::SwapCatchesUp {
            self.sweep();
        }
        if self.wrong != Wrong::SwapStoresTakerOnly {
            self.settle(giver, -1, quantity);
        }
        if self.wrong != Wrong::SwapStoresGiverOnly {
            self.settle(taker, 1, quantity);
        }
        if self.wrong == Wrong::SwapTellsChildren {
            self.step(giver as usize);
            self.step(taker as usize);
        }
    }

    /// What a wrong mock does where it refuses.
    fn refused_swap(&mut self, swap: &Swap, number: u64) {
        let Swap { giver, taker, quantity } = *swap;
        let full = |item, sign| self.wrong.no_room(held(&self.cells, item), sign, quantity);
        match (self.wrong, number) {
            (Wrong::RefusedSwapStoresGiver, 13) if !full(giver, -1) => {
                self.settle(giver, -1, quantity)
            }
            (Wrong::RefusedSwapStoresTaker, 13) if !full(taker, 1) => {
                self.settle(taker, 1, quantity)
            }
            (Wrong::RefusedSwapMarks, 13 | 18) => self.cells[giver as usize].mark = Mark::Notice,
            (Wrong::RefusedSwapMakesNull0, 13 | 18) => self.settle(giver, -1, 0),
            _ => {}
        }
    }
}

impl Mock {
    pub(super) fn give_swap(
        &self,
        swap: &Swap,
        sheet: &mut Guarded,
        index: &mut Guarded,
        table: &mut Guarded,
    ) -> Reply {
        let wrong = self.0;
        let swap = wrong.exchange_taken(&wrong.swap_taken(swap));
        let taken = wrong.taken(sheet.bytes(), table.bytes());
        // The model is asked only whether what is lent is refused; a close has no other refusals.
        let lent = close::close(sheet.bytes(), index.bytes(), &mut taken.clone());
        let early = wrong == Wrong::SwapSays18BeforeTheTable && wrong.no_swap(&swap);
        if lent.number != 0 {
            let number = if early && lent.number == 10 { 18 } else { lent.number };
            return Reply { number, ..lent };
        }
        let items = read_sheet(sheet.bytes()).unwrap();
        let mut machine = Sweep::new(&items, &taken, wrong.here(Where::Call));
        let (number, before) = (machine.swap_number(&swap), machine.cells.clone());
        match number {
            0 => machine.swap(&swap),
            _ => machine.refused_swap(&swap, number),
        }
        if machine.cells != before {
            machine.write(table.bytes_mut());
        }
        match (wrong, number) {
            (Wrong::SwapChangesSheet, 0) => sheet.bytes_mut()[0] = 9,
            (Wrong::SwapChangesIndex, 0) => index.bytes_mut()[0] ^= 1,
            (Wrong::SwapWritesPastTheTable, 0) => table.break_guard(),
            (Wrong::RefusedSwapClearsMarks, 1..) => {
                table.bytes_mut().chunks_mut(RECORD).for_each(|record| record[1] = 0);
            }
            _ => {}
        }
        Reply { number, ..lent }
    }
}
