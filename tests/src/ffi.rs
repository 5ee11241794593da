//! The proved library through its C boundary.

use crate::engine::Engine;
use crate::guarded::Guarded;
use crate::model::calls::{Call, Reply};
use crate::model::swap::Swap;

/// `rozhinal_answer`
#[repr(C)]
#[derive(Clone, Copy)]
struct Answer {
    number: u64,
    offset: u64,
}

/// `rozhinal_reading`
#[repr(C)]
#[derive(Clone, Copy)]
struct Reading {
    number: u64,
    offset: u64,
    kind: u64,
    value: i64,
}

extern "C" {
    fn rozhinal_open_bare(
        sheet: *const u8,
        sheet_len: usize,
        index: *mut u8,
        index_len: usize,
        table: *mut u8,
        table_len: usize,
    ) -> Answer;
    fn rozhinal_open_full(
        sheet: *const u8,
        sheet_len: usize,
        index: *mut u8,
        index_len: usize,
        table: *mut u8,
        table_len: usize,
    ) -> Answer;
    fn rozhinal_post(
        sheet: *const u8,
        sheet_len: usize,
        index: *const u8,
        index_len: usize,
        table: *mut u8,
        table_len: usize,
        item: u64,
        kind: u64,
        number: i64,
    ) -> Answer;
    fn rozhinal_swap(
        sheet: *const u8,
        sheet_len: usize,
        index: *const u8,
        index_len: usize,
        table: *mut u8,
        table_len: usize,
        giver: u64,
        taker: u64,
        quantity: i64,
    ) -> Answer;
    fn rozhinal_keep(
        sheet: *const u8,
        sheet_len: usize,
        index: *const u8,
        index_len: usize,
        table: *mut u8,
        table_len: usize,
        item: u64,
    ) -> Answer;
    fn rozhinal_drop(
        sheet: *const u8,
        sheet_len: usize,
        index: *const u8,
        index_len: usize,
        table: *mut u8,
        table_len: usize,
        item: u64,
    ) -> Answer;
    fn rozhinal_step(
        sheet: *const u8,
        sheet_len: usize,
        index: *const u8,
        index_len: usize,
        table: *mut u8,
        table_len: usize,
        item: u64,
    ) -> Answer;
    fn rozhinal_ask(
        sheet: *const u8,
        sheet_len: usize,
        index: *const u8,
        index_len: usize,
        table: *mut u8,
        table_len: usize,
        item: u64,
    ) -> Reading;
    fn rozhinal_close(
        sheet: *const u8,
        sheet_len: usize,
        index: *const u8,
        index_len: usize,
        table: *mut u8,
        table_len: usize,
    ) -> Answer;
    fn rozhinal_board(
        sheet: *const u8,
        sheet_len: usize,
        index: *const u8,
        index_len: usize,
        table: *mut u8,
        table_len: usize,
        items: *const u8,
        items_len: usize,
        results: *mut u8,
        results_len: usize,
    ) -> Answer;
    fn rozhinal_print(kind: u64, number: i64, scratch: *mut u8, scratch_len: usize) -> i64;
}

pub struct Linked;

fn reply(answer: Answer) -> Reply {
    Reply { number: answer.number, offset: answer.offset, kind: 0, value: 0 }
}

impl Engine for Linked {
    fn open(
        &mut self,
        full: bool,
        sheet: &mut Guarded,
        index: &mut Guarded,
        table: &mut Guarded,
    ) -> Reply {
        let (s, sl) = (sheet.pointer() as *const u8, sheet.length());
        let (i, il) = (index.pointer(), index.length());
        let (t, tl) = (table.pointer(), table.length());
        // Safety: each pointer is good for its length, and no two overlap.
        reply(unsafe {
            if full {
                rozhinal_open_full(s, sl, i, il, t, tl)
            } else {
                rozhinal_open_bare(s, sl, i, il, t, tl)
            }
        })
    }

    fn call(
        &mut self,
        call: &Call,
        sheet: &mut Guarded,
        index: &mut Guarded,
        table: &mut Guarded,
    ) -> Reply {
        let (s, sl) = (sheet.pointer() as *const u8, sheet.length());
        let (i, il) = (index.pointer() as *const u8, index.length());
        let (t, tl) = (table.pointer(), table.length());
        // Safety: as above.
        unsafe {
            match *call {
                Call::Post { item, kind, number } => {
                    reply(rozhinal_post(s, sl, i, il, t, tl, item, kind, number))
                }
                Call::Keep { item } => reply(rozhinal_keep(s, sl, i, il, t, tl, item)),
                Call::Drop { item } => reply(rozhinal_drop(s, sl, i, il, t, tl, item)),
                Call::Step { item } => reply(rozhinal_step(s, sl, i, il, t, tl, item)),
                Call::Ask { item } => {
                    let r = rozhinal_ask(s, sl, i, il, t, tl, item);
                    Reply { number: r.number, offset: r.offset, kind: r.kind, value: r.value }
                }
            }
        }
    }

    fn swap(
        &mut self,
        swap: &Swap,
        sheet: &mut Guarded,
        index: &mut Guarded,
        table: &mut Guarded,
    ) -> Reply {
        let (s, sl) = (sheet.pointer() as *const u8, sheet.length());
        let (i, il) = (index.pointer() as *const u8, index.length());
        let (t, tl) = (table.pointer(), table.length());
        let Swap { giver, taker, quantity } = *swap;
        // Safety: as above.
        reply(unsafe { rozhinal_swap(s, sl, i, il, t, tl, giver, taker, quantity) })
    }

    fn close(&mut self, sheet: &mut Guarded, index: &mut Guarded, table: &mut Guarded) -> Reply {
        let (s, sl) = (sheet.pointer() as *const u8, sheet.length());
        let (i, il) = (index.pointer() as *const u8, index.length());
        let (t, tl) = (table.pointer(), table.length());
        // Safety: as above.
        reply(unsafe { rozhinal_close(s, sl, i, il, t, tl) })
    }

    fn board(
        &mut self,
        sheet: &mut Guarded,
        index: &mut Guarded,
        table: &mut Guarded,
        items: &mut Guarded,
        results: &mut Guarded,
    ) -> Reply {
        let (s, sl) = (sheet.pointer() as *const u8, sheet.length());
        let (i, il) = (index.pointer() as *const u8, index.length());
        let (t, tl) = (table.pointer(), table.length());
        let (l, ll) = (items.pointer() as *const u8, items.length());
        let (r, rl) = (results.pointer(), results.length());
        // Safety: as above.
        reply(unsafe { rozhinal_board(s, sl, i, il, t, tl, l, ll, r, rl) })
    }

    fn print(&mut self, kind: u64, number: i64, scratch: &mut Guarded) -> i64 {
        let (p, l) = (scratch.pointer(), scratch.length());
        // Safety: the pointer is good for its length.
        unsafe { rozhinal_print(kind, number, p, l) }
    }
}
