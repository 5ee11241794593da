//! The second implementation behind the functions of `include/rozhinal.h`, as a static library.
//! It stands in for the proved one wherever C programs are tested without it.

#![allow(clippy::missing_safety_doc, clippy::too_many_arguments)]

// The model's source itself, so that no other part of the tests, nor a linked engine, is in the archive.
#[allow(dead_code)]
#[path = "../../src/model/mod.rs"]
mod model;

use model::board::board;
use model::calls::{call, open, Call, Reply};
use model::close::close;
use model::swap::{swap, Swap};
use std::slice::{from_raw_parts, from_raw_parts_mut};

/// `rozhinal_answer`
#[repr(C)]
pub struct Answer {
    number: u64,
    offset: u64,
}

/// `rozhinal_reading`
#[repr(C)]
pub struct Reading {
    number: u64,
    offset: u64,
    kind: u64,
    value: i64,
}

fn answer(reply: Reply) -> Answer {
    Answer { number: reply.number, offset: reply.offset }
}

/// What a caller lends for reading. The pointer may be null if the length is 0.
unsafe fn read<'a>(bytes: *const u8, length: usize) -> &'a [u8] {
    if length == 0 {
        &[]
    } else {
        from_raw_parts(bytes, length)
    }
}

/// What a caller lends for writing.
unsafe fn write<'a>(bytes: *mut u8, length: usize) -> &'a mut [u8] {
    if length == 0 {
        &mut []
    } else {
        from_raw_parts_mut(bytes, length)
    }
}

#[no_mangle]
pub unsafe extern "C" fn rozhinal_open_bare(
    sheet: *const u8,
    sheet_len: usize,
    index: *mut u8,
    index_len: usize,
    table: *mut u8,
    table_len: usize,
) -> Answer {
    let (index, table) = (write(index, index_len), write(table, table_len));
    answer(open(false, read(sheet, sheet_len), index, table))
}

#[no_mangle]
pub unsafe extern "C" fn rozhinal_open_full(
    sheet: *const u8,
    sheet_len: usize,
    index: *mut u8,
    index_len: usize,
    table: *mut u8,
    table_len: usize,
) -> Answer {
    let (index, table) = (write(index, index_len), write(table, table_len));
    answer(open(true, read(sheet, sheet_len), index, table))
}

#[no_mangle]
pub unsafe extern "C" fn rozhinal_post(
    sheet: *const u8,
    sheet_len: usize,
    index: *const u8,
    index_len: usize,
    table: *mut u8,
    table_len: usize,
    item: u64,
    kind: u64,
    number: i64,
) -> Answer {
    let (index, table) = (read(index, index_len), write(table, table_len));
    answer(call(&Call::Post { item, kind, number }, read(sheet, sheet_len), index, table))
}

#[no_mangle]
pub unsafe extern "C" fn rozhinal_swap(
    sheet: *const u8,
    sheet_len: usize,
    index: *const u8,
    index_len: usize,
    table: *mut u8,
    table_len: usize,
    giver: u64,
    taker: u64,
    quantity: i64,
) -> Answer {
    let (index, table) = (read(index, index_len), write(table, table_len));
    answer(swap(&Swap { giver, taker, quantity }, read(sheet, sheet_len), index, table))
}

/// The calls that take an item alone and give an answer.
macro_rules! item_call {
    ($name:ident, $call:ident) => {
        #[no_mangle]
        pub unsafe extern "C" fn $name(
            sheet: *const u8,
            sheet_len: usize,
            index: *const u8,
            index_len: usize,
            table: *mut u8,
            table_len: usize,
            item: u64,
        ) -> Answer {
            let (index, table) = (read(index, index_len), write(table, table_len));
            answer(call(&Call::$call { item }, read(sheet, sheet_len), index, table))
        }
    };
}

item_call!(rozhinal_keep, Keep);
item_call!(rozhinal_drop, Drop);
item_call!(rozhinal_step, Step);

#[no_mangle]
pub unsafe extern "C" fn rozhinal_ask(
    sheet: *const u8,
    sheet_len: usize,
    index: *const u8,
    index_len: usize,
    table: *mut u8,
    table_len: usize,
    item: u64,
) -> Reading {
    let (index, table) = (read(index, index_len), write(table, table_len));
    let reply = call(&Call::Ask { item }, read(sheet, sheet_len), index, table);
    Reading { number: reply.number, offset: reply.offset, kind: reply.kind, value: reply.value }
}

#[no_mangle]
pub unsafe extern "C" fn rozhinal_close(
    sheet: *const u8,
    sheet_len: usize,
    index: *const u8,
    index_len: usize,
    table: *mut u8,
    table_len: usize,
) -> Answer {
    let (index, table) = (read(index, index_len), write(table, table_len));
    answer(close(read(sheet, sheet_len), index, table))
}

#[no_mangle]
pub unsafe extern "C" fn rozhinal_board(
    sheet: *const u8,
    sheet_len: usize,
    index: *const u8,
    index_len: usize,
    table: *mut u8,
    table_len: usize,
    items: *const u8,
    items_len: usize,
    results: *mut u8,
    results_len: usize,
) -> Answer {
    let (index, table) = (read(index, index_len), write(table, table_len));
    let (items, results) = (read(items, items_len), write(results, results_len));
    answer(board(read(sheet, sheet_len), index, table, items, results))
}

#[no_mangle]
pub unsafe extern "C" fn rozhinal_print(
    kind: u64,
    number: i64,
    scratch: *mut u8,
    scratch_len: usize,
) -> i64 {
    model::printer::print(kind, number, write(scratch, scratch_len))
}
