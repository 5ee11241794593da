//! Looking up, telling and stepping, on cells.

use super::sheet::{Figure, Item, Spread};
use super::table::{owed, Cell, Mark};
use super::value::{apply, Value};

/// Which children without a stored value are told.
#[derive(Clone, Copy, PartialEq, Eq, Debug)]
pub enum Telling {
    /// Those that are owed.
    Owed,
    /// All of them, as it was before tables had an owed byte.
    All,
}

pub struct Machine<'a> {
    items: &'a [Item],
    pub cells: Vec<Cell>,
    telling: Telling,
    /// What an unstored figure gave earlier in the same look-up pass. Within one pass cells are
    /// only filled with what they gave, so a second look-up gives the same again. Off: plain
    /// recursion, which on doubled parents takes time exponential in the level.
    remember: bool,
    seen: Vec<Option<(Value, bool)>>,
    /// Which items are owed, until what is stored changes.
    owed: Option<Vec<bool>>,
}

/// Above this many paths from an item up the circuit, results are remembered.
const PLAIN_PATHS: u64 = 500;

impl<'a> Machine<'a> {
    pub fn new(items: &'a [Item], cells: Vec<Cell>) -> Self {
        let remember = most_paths(items) > PLAIN_PATHS;
        Machine::with(items, cells, remember)
    }

    pub fn with(items: &'a [Item], cells: Vec<Cell>, remember: bool) -> Self {
        let seen = vec![None; items.len()];
        Machine { items, cells, telling: Telling::Owed, remember, seen, owed: None }
    }

    pub fn telling(self, telling: Telling) -> Self {
        Machine { telling, ..self }
    }

    fn figure(&self, i: usize) -> &'a Figure {
        self.items[i].figure.as_ref().unwrap()
    }

    /// The item's value, and whether it is flagged.
    pub fn look_up(&mut self, i: usize) -> (Value, bool) {
        self.forget_seen();
        self.look_up_again(i)
    }

    /// A stored or unstored figure worked out from its parents.
    fn work_out(&mut self, i: usize) -> Value {
        self.forget_seen();
        self.work_out_again(i).0
    }

    fn forget_seen(&mut self) {
        if self.remember {
            self.seen.fill(None);
        }
    }

    fn look_up_again(&mut self, i: usize) -> (Value, bool) {
        if let Some(value) = self.cells[i].stored {
            return (value, self.cells[i].mark == Mark::Notice);
        }
        if let (true, Some(known)) = (self.remember, self.seen[i]) {
            return known;
        }
        let (value, parent_flagged) = self.work_out_again(i);
        let flagged = parent_flagged || self.cells[i].mark == Mark::Notice;
        if self.figure(i).keep {
            self.store_looked_up(i, value, flagged);
        }
        self.seen[i] = Some((value, flagged));
        (value, flagged)
    }

    /// The rule on the parents looked up in their listed order; whether any was flagged.
    fn work_out_again(&mut self, i: usize) -> (Value, bool) {
        let figure = self.figure(i);
        let looked_up: Vec<(Value, bool)> =
            figure.parents.iter().map(|&p| self.look_up_again(p)).collect();
        let values: Vec<Value> = looked_up.iter().map(|l| l.0).collect();
        (apply(figure.rule, &values), looked_up.iter().any(|l| l.1))
    }

    /// Every change of what is stored passes through here.
    fn store(&mut self, i: usize, stored: Option<Value>, mark: Mark) {
        if self.cells[i].stored.is_some() != stored.is_some() {
            self.owed = None;
        }
        self.cells[i] = Cell { stored, mark };
    }

    /// Whether the item is owed by the cells as they are now.
    fn is_owed(&mut self, i: usize) -> bool {
        let (items, cells) = (self.items, &self.cells);
        self.owed.get_or_insert_with(|| owed(items, cells))[i]
    }

    fn store_looked_up(&mut self, i: usize, value: Value, flagged: bool) {
        let mark = if flagged { Mark::Notice } else { self.cells[i].mark };
        self.store(i, Some(value), mark);
    }

    pub fn post(&mut self, i: usize, value: Value) {
        if self.cells[i].stored != Some(value) {
            self.store(i, Some(value), Mark::Notice);
        }
    }

    pub fn keep(&mut self, i: usize) {
        if self.cells[i].stored.is_none() {
            let (value, flagged) = self.look_up(i);
            self.store_looked_up(i, value, flagged);
        }
    }

    pub fn drop(&mut self, i: usize) {
        let mark = match self.cells[i].mark {
            Mark::Refresh => Mark::Notice,
            mark => mark,
        };
        self.store(i, None, mark);
    }

    /// One step of a marked item.
    pub fn step(&mut self, i: usize) {
        match self.cells[i].mark {
            Mark::None => panic!("item {i} has no mark"),
            Mark::Refresh => {
                let value = self.work_out(i);
                if self.cells[i].stored == Some(value) {
                    self.cells[i].mark = Mark::None;
                } else {
                    self.store(i, Some(value), Mark::Notice);
                }
            }
            Mark::Notice => {
                for child in 0..self.items.len() {
                    if self.lists(child, i) {
                        self.tell(child);
                    }
                }
                self.cells[i].mark = Mark::None;
            }
        }
    }

    /// Whether a child lists item i as a parent.
    fn lists(&self, child: usize, i: usize) -> bool {
        self.items[child].figure.as_ref().is_some_and(|f| f.parents.contains(&i))
    }

    fn tell(&mut self, child: usize) {
        let cell = self.cells[child];
        if cell.stored.is_none() {
            if self.telling == Telling::All || self.is_owed(child) {
                self.cells[child].mark = Mark::Notice;
            }
            return;
        }
        match self.figure(child).spread {
            Spread::Defer if cell.mark != Mark::Notice => self.cells[child].mark = Mark::Refresh,
            Spread::Defer | Spread::Renew => self.renew(child),
        }
    }

    fn renew(&mut self, child: usize) {
        let value = self.work_out(child);
        if self.cells[child].stored != Some(value) {
            self.store(child, Some(value), Mark::Notice);
        } else if self.cells[child].mark == Mark::Refresh {
            self.cells[child].mark = Mark::None;
        }
    }

    /// Step the lowest marked item until none is marked.
    pub fn catch_up(&mut self) {
        while let Some(lowest) = self.cells.iter().position(|c| c.mark != Mark::None) {
            self.step(lowest);
        }
    }

    pub fn ask(&mut self, i: usize) -> Value {
        self.catch_up();
        self.look_up(i).0
    }
}

/// The most paths that plain recursion could walk from one item.
fn most_paths(items: &[Item]) -> u64 {
    let mut paths: Vec<u64> = Vec::new();
    for item in items {
        let above = item.figure.iter().flat_map(|f| &f.parents).map(|&p| paths[p]);
        let all = above.fold(1, u64::saturating_add);
        paths.push(all);
    }
    paths.into_iter().max().unwrap_or(0)
}

#[cfg(test)]
mod tests {
    use super::super::sheet::read_sheet;
    use super::super::table::decode;
    use super::*;
    use crate::gen;
    use crate::rng::Rng;

    const NULL: Cell = Cell { stored: Some(Value::Null), mark: Mark::None };
    const UNK: Cell = Cell { stored: None, mark: Mark::None };

    fn entry() -> gen::Spec {
        gen::Spec::Entry(b"A".to_vec())
    }

    fn numbered(x: i64) -> Option<Value> {
        Some(Value::Number(x))
    }

    /// Entry 0, figure 1 = sum of item 0, figure 2 = sum of item 1.
    #[test]
    fn a_late_keep_carries_notice() {
        let sheet = gen::plain_chain(2);
        let items = read_sheet(&sheet).unwrap();
        let mut m = Machine::new(&items, vec![NULL, UNK, UNK]);
        m.post(0, Value::Number(1));
        m.keep(2);
        m.post(0, Value::Number(6));
        m.step(0);
        m.keep(1);
        assert_eq!(m.cells[1], Cell { stored: numbered(6), mark: Mark::Notice });
        assert_eq!(m.cells[2].stored, numbered(1));
        assert_eq!(m.ask(2), Value::Number(6));
        assert_eq!(m.cells[2], Cell { stored: numbered(6), mark: Mark::None });
    }

    /// An UNK figure with keep 1 that its own telling stores ends the step without a mark.
    #[test]
    fn a_step_clears_the_mark_last() {
        let sheet = gen::write_sheet(&[
            entry(),
            gen::spec_figure(1, 1, 0, &[0]),
            gen::spec_figure(1, 0, 1, &[1]),
        ]);
        let items = read_sheet(&sheet).unwrap();
        let start = vec![
            Cell { stored: numbered(4), mark: Mark::Notice },
            Cell { stored: None, mark: Mark::Notice },
            Cell { stored: numbered(3), mark: Mark::None },
        ];
        let mut m = Machine::new(&items, start);
        m.step(1);
        assert_eq!(m.cells[1], Cell { stored: numbered(4), mark: Mark::None });
        assert_eq!(m.cells[2], Cell { stored: numbered(4), mark: Mark::Notice });
        assert_eq!(m.cells[0].mark, Mark::Notice);
    }

    #[test]
    fn a_stored_null_is_not_worked_out_again() {
        let sheet = gen::plain_chain(2);
        let items = read_sheet(&sheet).unwrap();
        let start = vec![
            Cell { stored: numbered(4), mark: Mark::None },
            Cell { stored: Some(Value::Null), mark: Mark::None },
            Cell { stored: None, mark: Mark::None },
        ];
        let mut m = Machine::new(&items, start);
        assert_eq!(m.ask(2), Value::Null);
    }

    /// Entry 0 with the children 1 and 2; 3 is a child of 1, and 4 of 2. Only 4 is stored.
    #[test]
    fn telling_passes_over_what_is_not_owed() {
        let figure = |parent| gen::spec_figure(1, 0, 0, &[parent]);
        let specs = [entry(), figure(0), figure(0), figure(1), figure(2)];
        let items = read_sheet(&gen::write_sheet(&specs)).unwrap();
        for (telling, first) in [(Telling::Owed, Mark::None), (Telling::All, Mark::Notice)] {
            let mut m = Machine::new(&items, vec![NULL, UNK, UNK, UNK, NULL]).telling(telling);
            m.post(0, Value::Number(6));
            m.step(0);
            let marks = [1, 2, 3, 4].map(|i| m.cells[i].mark);
            assert_eq!(marks, [first, Mark::Notice, Mark::None, Mark::None]);
            assert_eq!(m.ask(4), Value::Number(6));
        }
    }

    /// Entries 0 and 1, figure 2 of 1, figure 3 of 0 and 2. The only stored child of 2 has spread 2: it
    /// stays stored, so that 2 is still owed, and told. With notice it acts as renew, as spread 0 does.
    #[test]
    fn spread_2_defers() {
        let sum = |spread, parents: &[u16]| gen::spec_figure(1, 0, spread, parents);
        for spread in [0, 2] {
            let specs = [entry(), entry(), sum(0, &[1]), sum(spread, &[0, 2])];
            let items = read_sheet(&gen::write_sheet(&specs)).unwrap();
            let mut m = Machine::new(&items, vec![NULL, NULL, UNK, NULL]);
            assert!(m.is_owed(2));
            m.post(0, Value::Number(6));
            m.post(1, Value::Number(1));
            m.step(0);
            assert_eq!(m.cells[3], Cell { mark: Mark::Refresh, ..NULL });
            m.step(1);
            assert_eq!(m.cells[2], Cell { mark: Mark::Notice, ..UNK });
            m.step(3);
            assert_eq!(m.cells[3], Cell { stored: numbered(7), mark: Mark::Notice });
            m.post(1, Value::Number(2));
            m.step(2);
            assert_eq!(m.cells[3], Cell { stored: numbered(8), mark: Mark::Notice });
            assert_eq!(m.ask(3), Value::Number(8));
        }
    }

    /// Entries 0 and 1, figure 2 of 1, figure 3 of 2. When 3 is dropped, 2 is no longer owed, and passed
    /// over.
    #[test]
    fn owed_is_of_the_moment() {
        let figure = |parent| gen::spec_figure(1, 0, 0, &[parent]);
        let specs = [entry(), entry(), figure(1), figure(2)];
        let items = read_sheet(&gen::write_sheet(&specs)).unwrap();
        let mut m = Machine::new(&items, vec![NULL, NULL, UNK, NULL]);
        assert!(m.is_owed(2));
        m.drop(3);
        m.post(1, Value::Number(1));
        m.step(1);
        assert_eq!((m.cells[2], m.is_owed(2)), (UNK, false));
        assert_eq!(m.ask(3), Value::Number(1));
    }

    /// A notice on a figure that is not owed stays until it is stepped.
    #[test]
    fn a_notice_that_is_not_owed_stays() {
        let items = read_sheet(&gen::plain_chain(1)).unwrap();
        let mut m = Machine::new(&items, vec![NULL, Cell { mark: Mark::Notice, ..UNK }]);
        m.post(0, Value::Number(6));
        m.step(0);
        assert_eq!(m.cells[1], Cell { mark: Mark::Notice, ..UNK });
        m.step(1);
        assert_eq!(m.cells[1], UNK);
    }

    /// Remembering within a pass changes nothing.
    #[test]
    fn remembering_is_plain_recursion() {
        let mut rng = Rng::new(11);
        let mut compared = 0;
        while compared < 3_000 {
            let specs = gen::small_specs(&mut rng);
            let items = read_sheet(&gen::write_sheet(&specs)).unwrap();
            if most_paths(&items) > 20_000 {
                continue;
            }
            compared += 1;
            let table = gen::accepted_table(&mut rng, &items);
            let cells = decode(&items, &table).unwrap();
            let mut plain = Machine::with(&items, cells.clone(), false);
            let mut quick = Machine::with(&items, cells, true);
            for _ in 0..12 {
                let i = rng.below(items.len() as u64) as usize;
                let is_figure = items[i].figure.is_some();
                match rng.below(6) {
                    0 if is_figure => {
                        plain.keep(i);
                        quick.keep(i);
                    }
                    1 if is_figure => {
                        plain.drop(i);
                        quick.drop(i);
                    }
                    2 => assert_eq!(plain.ask(i), quick.ask(i)),
                    3 => assert_eq!(plain.look_up(i), quick.look_up(i)),
                    4 if !is_figure => {
                        plain.post(i, Value::Number(7));
                        quick.post(i, Value::Number(7));
                    }
                    _ if plain.cells[i].mark != Mark::None => {
                        plain.step(i);
                        quick.step(i);
                    }
                    _ => {}
                }
                assert_eq!(plain.cells, quick.cells);
                assert!((0..items.len()).all(|i| quick.is_owed(i) == owed(&items, &plain.cells)[i]));
            }
        }
    }
}
