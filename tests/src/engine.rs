//! What is compared with the model: the C boundary, and the day program.

use crate::guarded::Guarded;
use crate::model::calls::{Call, Reply};
use crate::model::swap::Swap;

pub trait Engine {
    fn open(
        &mut self,
        full: bool,
        sheet: &mut Guarded,
        index: &mut Guarded,
        table: &mut Guarded,
    ) -> Reply;

    fn call(
        &mut self,
        call: &Call,
        sheet: &mut Guarded,
        index: &mut Guarded,
        table: &mut Guarded,
    ) -> Reply;

    fn swap(
        &mut self,
        swap: &Swap,
        sheet: &mut Guarded,
        index: &mut Guarded,
        table: &mut Guarded,
    ) -> Reply;

    /// The season-close run.
    fn close(&mut self, sheet: &mut Guarded, index: &mut Guarded, table: &mut Guarded) -> Reply;

    /// The morning board, with its item list and its result list.
    fn board(
        &mut self,
        sheet: &mut Guarded,
        index: &mut Guarded,
        table: &mut Guarded,
        items: &mut Guarded,
        results: &mut Guarded,
    ) -> Reply;

    fn print(&mut self, kind: u64, number: i64, scratch: &mut Guarded) -> i64;
}

/// The day program: the printed bytes for two files, each of which may be missing.
pub trait DayProgram {
    fn run(&mut self, sheet: Option<&[u8]>, day: Option<&[u8]>) -> Result<Vec<u8>, String>;
}
