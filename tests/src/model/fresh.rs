//! The fresh office: one value an entry, and nothing stored for figures.

use super::calls::Call;
use super::sheet::Item;
use super::value::{apply, in_range, Value};

pub struct FreshOffice<'a> {
    items: &'a [Item],
    /// The values of the entries; figures have none.
    entries: Vec<Option<Value>>,
}

impl<'a> FreshOffice<'a> {
    pub fn new(items: &'a [Item]) -> Self {
        let entries = items.iter().map(|i| i.figure.is_none().then_some(Value::Null)).collect();
        FreshOffice { items, entries }
    }

    /// Only a post changes anything, and only when it has no cause 11, 12 or 13.
    pub fn feed(&mut self, call: &Call) {
        let Call::Post { item, kind, number } = *call else {
            return;
        };
        if item >= self.items.len() as u64 || self.items[item as usize].figure.is_some() {
            return;
        }
        let value = match kind {
            1 if number == 0 => Value::Null,
            3 if in_range(number as i128) => Value::Number(number),
            _ => return,
        };
        self.entries[item as usize] = Some(value);
    }

    /// A posting that a call made, of any value. Nothing is tested.
    pub fn posting(&mut self, entry: usize, value: Value) {
        self.entries[entry] = Some(value);
    }

    /// The value of each item, lowest first: parents come before their figures.
    pub fn all(&self) -> Vec<Value> {
        let mut values: Vec<Value> = Vec::new();
        for (item, entry) in self.items.iter().zip(&self.entries) {
            values.push(match &item.figure {
                None => entry.unwrap(),
                Some(figure) => {
                    let parents: Vec<Value> = figure.parents.iter().map(|&p| values[p]).collect();
                    apply(figure.rule, &parents)
                }
            });
        }
        values
    }

    /// The item's value; none for item n or more.
    pub fn asked(&self, item: u64) -> Option<Value> {
        if item >= self.items.len() as u64 {
            return None;
        }
        Some(self.all()[item as usize])
    }
}

#[cfg(test)]
mod tests {
    use super::super::sheet::{read_sheet, EXAMPLE};
    use super::super::value::LIMIT;
    use super::*;

    #[test]
    fn the_example() {
        let items = read_sheet(&EXAMPLE).unwrap();
        let mut office = FreshOffice::new(&items);
        assert_eq!(office.asked(4), Some(Value::Null));
        let post = |item, kind, number| Call::Post { item, kind, number };
        office.feed(&post(0, 3, 1000));
        office.feed(&post(1, 3, 300));
        assert_eq!(office.asked(4), Some(Value::Number(700)));
        office.feed(&post(2, 3, -200));
        for call in [
            post(5, 3, 1),
            post(3, 3, 1),
            post(0, 2, 0),
            post(0, 1, 1),
            post(0, 3, LIMIT + 1),
            Call::Drop { item: 3 },
            Call::Keep { item: 3 },
            Call::Step { item: 0 },
            Call::Ask { item: 4 },
        ] {
            office.feed(&call);
        }
        assert_eq!(office.asked(4), Some(Value::Number(500)));
        assert_eq!(office.asked(5), None);
        assert_eq!(office.asked(u64::MAX), None);
        office.posting(2, Value::Number(100));
        assert_eq!(office.asked(4), Some(Value::Number(800)));
    }
}
