//! The mock's choice, by the place that the first value picks, and how it can be wrong.

use super::{Sweep, Wrong};
use crate::model::value::Value;

/// Where a figure is worked out.
#[derive(Clone, Copy, PartialEq, Eq, Debug)]
pub(super) enum Where {
    Call,
    Board,
    Close,
    LookUp,
    /// A stored figure, by a step of a refresh or by telling.
    Renewal,
}

impl Wrong {
    /// Those that choose otherwise than they must, or have the other rules no longer strict; their
    /// names say so.
    pub fn choices() -> impl Iterator<Item = Wrong> {
        Wrong::ALL.iter().copied().filter(|wrong| {
            let name = format!("{wrong:?}");
            name.starts_with("Choice") || name.starts_with("Others")
        })
    }

    /// What is wrong here, of an engine that has the choice more than once.
    pub(super) fn here(self, place: Where) -> Wrong {
        match (self, place) {
            (Wrong::ChoiceStrictInCalls, Where::Call)
            | (Wrong::ChoiceStrictOnBoards, Where::Board)
            | (Wrong::ChoiceStrictInRuns, Where::Close)
            | (Wrong::ChoiceStrictInLookUps, Where::LookUp)
            | (Wrong::ChoiceStrictInRenewals, Where::Renewal) => Wrong::ChoiceStrict,
            // The mock's run has its values by looking up, and another engine's looks nothing up.
            (Wrong::ChoiceStrictInLookUps, Where::Close) => Wrong::Nothing,
            _ => self,
        }
    }

    pub(super) fn choice(self, parents: &[Value]) -> Value {
        let strict: &[usize] = match self {
            Wrong::ChoiceStrict => &[1, 2],
            Wrong::ChoiceStrictInSecond => &[1],
            Wrong::ChoiceStrictInThird => &[2],
            _ => &[],
        };
        if strict.iter().any(|&place| parents[place] == Value::Out) {
            return Value::Out;
        }
        let picked = self.picks(parents[0]);
        match (self, picked, parents[picked]) {
            (Wrong::ChoiceOutFirstGivesNull, 0, Value::Out) => Value::Null,
            (Wrong::ChoicePickedOutGivesNull, 1 | 2, Value::Out) => Value::Null,
            (Wrong::ChoicePickedNullGives0, 1 | 2, Value::Null) => Value::Number(0),
            (_, _, value) => value,
        }
    }

    /// The place of the value that is the result. OUT and NULL pick their own.
    fn picks(self, first: Value) -> usize {
        let (above, other) = if self == Wrong::ChoiceExchanged { (2, 1) } else { (1, 2) };
        match (self, first) {
            (Wrong::ChoiceOutFirstPicksSecond, Value::Out) => above,
            (Wrong::ChoiceOutFirstPicksThird, Value::Out) => other,
            (Wrong::ChoiceNullFirstPicksThird, Value::Null) => other,
            (Wrong::ChoicePicksSecondAt0, Value::Number(0)) => above,
            (Wrong::ChoicePicksSecondBelow0, Value::Number(..=-1)) => above,
            (Wrong::ChoicePicksThirdAt1, Value::Number(1)) => other,
            (_, Value::Number(1..)) => above,
            (_, Value::Number(_)) => other,
            _ => 0,
        }
    }

    /// Whether a choice looks up its parent in a place.
    fn looks_up(self, place: usize, picked: usize) -> bool {
        let beside = place != 0 && place != picked;
        match self {
            Wrong::ChoiceLooksUpPickedOnly | Wrong::ChoiceStoresPickedOnly => !beside,
            Wrong::ChoiceLeavesSecond => !(beside && place == 1),
            Wrong::ChoiceLeavesThird => !(beside && place == 2),
            Wrong::ChoiceStopsAtNullOrOut => place == 0 || picked != 0,
            _ => true,
        }
    }

    /// Whether a choice is flagged if its parent in a place is.
    fn is_flagged_by(self, place: usize, picked: usize) -> bool {
        match self {
            Wrong::ChoiceFlaggedByPickedOnly => place == 0 || place == picked,
            Wrong::ChoiceNotFlaggedByFirst => place != 0,
            _ => self.looks_up(place, picked) || self == Wrong::ChoiceStoresPickedOnly,
        }
    }

    /// The parents of one of the other rules: OUT may pass for NULL.
    pub(super) fn others(self, rule: u8, parents: &[Value]) -> Vec<Value> {
        let passes = match self {
            Wrong::OthersTakeOutAsNull => true,
            Wrong::OthersStrictInFirst => parents[0] != Value::Out,
            Wrong::OthersNullBeforeOut => [5, 8].contains(&rule) && parents.contains(&Value::Null),
            _ => false,
        };
        let taken =
            |&value: &Value| if passes && value == Value::Out { Value::Null } else { value };
        parents.iter().map(taken).collect()
    }
}

impl Sweep<'_> {
    /// The parents of a figure; of a choice, those in the places that a test takes.
    fn parents_in(
        &self,
        i: usize,
        given: &[(Value, bool)],
        test: fn(Wrong, usize, usize) -> bool,
    ) -> Vec<usize> {
        let figure = self.items[i].figure.as_ref().unwrap();
        if figure.rule != 6 {
            return figure.parents.clone();
        }
        let picked = self.wrong.picks(given[figure.parents[0]].0);
        let places = figure.parents.iter().enumerate();
        places.filter(|&(at, _)| test(self.wrong, at, picked)).map(|(_, &p)| p).collect()
    }

    pub(super) fn looked_up(&self, i: usize, given: &[(Value, bool)]) -> Vec<usize> {
        self.parents_in(i, given, Wrong::looks_up)
    }

    pub(super) fn flagging(&self, i: usize, given: &[(Value, bool)]) -> Vec<usize> {
        self.parents_in(i, given, Wrong::is_flagged_by)
    }
}
