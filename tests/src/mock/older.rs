//! How the mock can still be of the older range, or refuse what an engine leaves in a table.

use super::Wrong;
use crate::gen::OLDER_LIMIT;
use crate::model::calls::Call;
use crate::model::table::{Cell, Mark};
use crate::model::value::Value;

pub(super) fn beyond(number: i64) -> bool {
    !(-OLDER_LIMIT..=OLDER_LIMIT).contains(&number)
}

pub(super) fn is_out(cell: &Cell) -> bool {
    cell.stored == Some(Value::Out)
}

impl Wrong {
    /// The number of a call that is accepted.
    pub(super) fn refusal(self, call: &Call, cells: &[Cell], owed: &[bool]) -> Option<u64> {
        let wide = |c: &Cell| matches!(c.stored, Some(Value::Number(x)) if beyond(x));
        let idle =
            |(c, &owed): (&Cell, &bool)| *c == Cell { stored: None, mark: Mark::Notice } && !owed;
        match (self, call) {
            (Wrong::PostsInOlderRange, Call::Post { number, .. }) if beyond(*number) => Some(13),
            (Wrong::TablesInOlderRange, _) if cells.iter().any(wide) => Some(10),
            (Wrong::RefusesStoredOut, _) if cells.iter().any(is_out) => Some(10),
            (Wrong::RefusesUnowedNotice, _) if cells.iter().zip(owed).any(idle) => Some(10),
            _ => self.step_refusal(call, cells),
        }
    }

    /// What a rule gives in place of the right result.
    pub(super) fn result(self, right: Value) -> Value {
        match right {
            Value::Number(x) if self == Wrong::ResultsInOlderRange && beyond(x) => Value::Out,
            _ => right,
        }
    }
}
