//! Lists of calls, from an opening or from any accepted table.

use super::boards::{fresh_board, plain_board};
use super::closes::{fresh_of, plain_close, table_of};
use super::compare::{hex, Act, Comparison, Lent};
use super::swaps::{fresh_swap, made, plain_swap, STAYS};
use crate::gen::{self, Numbers, Shape};
use crate::model::board::Board;
use crate::model::calls::{Call, Reply};
use crate::model::field::{i64_at, u16_at};
use crate::model::fresh::FreshOffice;
use crate::model::sheet::{index_of, read_sheet, Item};
use crate::model::swap::Swap;
use crate::model::table::{from_pair, no_mark, to_pair, RECORD};
use crate::rng::Rng;
use std::fmt::Debug;

/// One list of calls, compared after every call: from an opening, or from any accepted table.
pub fn run_list(c: &mut Comparison, from_table: bool) -> Result<(), String> {
    let (shape, numbers) = (gen::shape(&mut c.rng), gen::choose_numbers(&mut c.rng));
    let specs = gen::sheet(&mut c.rng, shape);
    let sheet = gen::write_any(&mut c.rng, &specs);
    let items = read_sheet(&sheet).unwrap();
    let (mut lent, mut office) = begin(c, sheet, &items, from_table)?;
    for _ in 0..list_length(&mut c.rng, shape) {
        match c.rng.below(1000) {
            0..=119 => changed_call(c, &specs, &items, &mut lent, &mut office)?,
            120..=124 => office = Some(open(c, &items, &mut lent)?),
            125..=149 => random_print(c)?,
            150..=299 if office.is_none() => {
                lent.table = gen::accepted_table(&mut c.rng, &items);
            }
            300..=379 => {
                let board = gen::any_board(&mut c.rng, &items);
                plain_board(c, board, &mut lent, &mut office)?;
            }
            380..=419 => {
                plain_close(c, &mut lent, &mut office)?;
                if office.is_none() && c.rng.percent(50) {
                    office = Some(Office::of_table(&items, &lent.table));
                }
            }
            420..=479 => {
                let held = gen::numbers_of(&items, &lent.table);
                let swap = gen::any_swap(&mut c.rng, &items, &held);
                plain_swap(c, swap, &mut lent, &mut office)?;
            }
            _ => {
                let call = gen::any_call(&mut c.rng, &items, &lent.table, numbers);
                plain_call(c, call, &mut lent, &mut office)?;
            }
        }
    }
    Ok(())
}

/// What a list begins with; a fresh office goes with an opening.
fn begin<'i>(
    c: &mut Comparison,
    sheet: Vec<u8>,
    items: &'i [Item],
    from_table: bool,
) -> Result<(Lent, Option<Office<'i>>), String> {
    c.tally.lists += 1;
    if from_table {
        c.tally.lists_from_tables += 1;
        let table = gen::accepted_table(&mut c.rng, items);
        return Ok((Lent { sheet, index: index_of(items), table }, None));
    }
    let (index, table) = (c.rng.bytes(4 * items.len()), c.rng.bytes(RECORD * items.len()));
    let mut lent = Lent { sheet, index, table };
    let office = open(c, items, &mut lent)?;
    Ok((lent, Some(office)))
}

pub fn list_length(rng: &mut Rng, shape: Shape) -> u64 {
    match shape {
        Shape::Small | Shape::Medium if rng.percent(2) => rng.between(200, 500),
        Shape::Small | Shape::Medium => rng.between(5, 60),
        Shape::Deep => rng.between(5, 25),
        Shape::Wide => rng.between(2, 8),
        Shape::Vast => rng.between(1, 4),
    }
}

/// An accepted opening. The fresh office and what must stay stored begin anew.
pub fn open<'i>(
    c: &mut Comparison,
    items: &'i [Item],
    lent: &mut Lent,
) -> Result<Office<'i>, String> {
    let full = c.rng.percent(50);
    let reply = c.act(&Act::Open { full }, lent)?;
    if reply.number != 0 {
        return Err(format!("an opening is refused: {reply:?}"));
    }
    Ok(Office::new(items))
}

/// A call with the lent bytes as they are, judged by what is known of the list.
pub fn plain_call(
    c: &mut Comparison,
    call: Call,
    lent: &mut Lent,
    office: &mut Option<Office>,
) -> Result<Reply, String> {
    let before = lent.table.clone();
    let reply = c.act(&Act::Give(call), lent)?;
    if let Some(office) = office {
        office.judge(c, &call, &reply, &before, &lent.table)?;
    }
    Ok(reply)
}

/// The bytes with table (1), index (2) and sheet (4) changed, as the bits of `what` say.
pub fn changed_bytes(
    c: &mut Comparison,
    specs: &[gen::Spec],
    items: &[Item],
    lent: &Lent,
    what: u64,
) -> Lent {
    let mut changed = lent.clone();
    if what & 1 != 0 {
        changed.table = gen::damaged_table(&mut c.rng, items, &lent.table);
    }
    if what & 2 != 0 {
        changed.index = gen::damaged_index(&mut c.rng, &lent.index);
    }
    if what & 4 != 0 {
        changed.sheet = match c.rng.below(7) {
            0 | 1 => gen::bad_sheet(&mut c.rng),
            2 | 3 => gen::damaged_sheet(&mut c.rng, specs),
            4 | 5 => gen::damaged(&mut c.rng, &lent.sheet),
            _ => gen::in_edition(3 - u16_at(&lent.sheet, 3), &lent.sheet),
        };
        if let (Ok(others), true) = (read_sheet(&changed.sheet), c.rng.percent(50)) {
            // Another sheet with its own index: the table may fit it.
            changed.index = index_of(&others);
            changed.table.resize(RECORD * others.len(), 0);
            gen::make_owed_true(&others, &mut changed.table);
        }
    }
    changed
}

/// An opening, a board, a close, a swap or one of 01's five calls.
pub fn any_act(c: &mut Comparison, items: &[Item], table: &[u8]) -> Act {
    match c.rng.below(100) {
        0..=19 => Act::Open { full: c.rng.percent(50) },
        20..=34 => Act::Board(gen::any_board(&mut c.rng, items)),
        35..=49 => Act::Close,
        50..=64 => {
            let held = gen::numbers_of(items, table);
            Act::Swap(gen::any_swap(&mut c.rng, items, &held))
        }
        _ => Act::Give(gen::any_call(&mut c.rng, items, table, Numbers::Any)),
    }
}

/// A call or opening on changed bytes. Afterwards the list goes on with the bytes before it,
/// unless only the table was changed and the call was accepted.
fn changed_call(
    c: &mut Comparison,
    specs: &[gen::Spec],
    items: &[Item],
    lent: &mut Lent,
    office: &mut Option<Office>,
) -> Result<(), String> {
    let what = c.rng.between(1, 7);
    let mut changed = changed_bytes(c, specs, items, lent, what);
    let act = any_act(c, items, &lent.table);
    let reply = c.act(&act, &mut changed)?;
    let only_table = what == 1 && !matches!(act, Act::Open { .. });
    if only_table && reply.number == 0 && changed.table != lent.table {
        *lent = changed;
        *office = None;
    }
    Ok(())
}

/// The printer on anything.
fn random_print(c: &mut Comparison) -> Result<(), String> {
    let rng = &mut c.rng;
    let kind = match rng.below(10) {
        0 => 1,
        1 => 2,
        2 => *rng.pick(&[0, 4, 257, 258, 259, (1 << 32) + 3, u64::MAX]),
        _ => 3,
    };
    let number = match rng.below(10) {
        0 | 1 => gen::beyond(rng),
        _ if kind != 3 && rng.percent(70) => 0,
        _ => gen::number(rng, Numbers::Any),
    };
    let length = *rng.pick(&[0, 1, 17, 18, 19, 20, 20, 20, 21, 24, 100]);
    let scratch = rng.bytes(length);
    c.print(kind, number, &scratch)
}

/// What is known of a list since its opening, or since a close, beside the model's table.
pub struct Office<'i> {
    pub items: &'i [Item],
    pub fresh: FreshOffice<'i>,
    /// Items that must be stored, with the value that they must hold: those stored when last no mark
    /// stood, but for the entries posted since, what these lead to, and what was dropped since.
    stays: Vec<Option<(u8, i64)>>,
}

impl<'i> Office<'i> {
    pub fn new(items: &'i [Item]) -> Self {
        Office { items, fresh: FreshOffice::new(items), stays: vec![None; items.len()] }
    }

    /// Begins with the table that a close has left.
    pub fn of_table(items: &'i [Item], table: &[u8]) -> Self {
        Office::with(items, fresh_of(items, table))
    }

    /// Begins with what a fresh office holds.
    pub fn with(items: &'i [Item], fresh: FreshOffice<'i>) -> Self {
        Office { fresh, ..Office::new(items) }
    }

    /// What is stored where no mark stands must stay.
    fn note(&mut self, before: &[u8]) {
        if no_mark(before) {
            self.stays = stored(before);
        }
    }

    fn judge(
        &mut self,
        c: &mut Comparison,
        call: &Call,
        reply: &Reply,
        before: &[u8],
        after: &[u8],
    ) -> Result<(), String> {
        self.note(before);
        self.fresh.feed(call);
        match *call {
            Call::Post { item, .. } if reply.number == 0 => self.posted(item as usize),
            Call::Drop { item } if reply.number == 0 => self.stays[item as usize] = None,
            Call::Ask { item } => {
                c.tally.judged += 1;
                let right = self.fresh.asked(item).map(to_pair);
                let given = (reply.number == 0).then_some((reply.kind as u8, reply.value));
                if given != right {
                    return Err(format!("{call:?} gives {reply:?}, the fresh office {right:?}"));
                }
                if reply.number == 0 {
                    unmarked(call, after)?;
                }
            }
            _ => {}
        }
        self.still_stored(call, after)
    }

    /// After a posting to an entry, it and what it leads to need not stay.
    fn posted(&mut self, entry: usize) {
        for (stays, led) in self.stays.iter_mut().zip(led_to(self.items, entry)) {
            *stays = stays.filter(|_| !led);
        }
        self.stays[entry] = None;
    }

    /// The number of a swap and its postings follow from what the fresh office holds, which is then fed
    /// the postings that were made.
    pub fn judge_swap(
        &mut self,
        c: &mut Comparison,
        swap: &Swap,
        reply: &Reply,
        before: &[u8],
        after: &[u8],
    ) -> Result<(), String> {
        self.note(before);
        let right = fresh_swap(self.items, &self.fresh, swap);
        let made = if reply.number == 0 { made(swap, after) } else { vec![] };
        if (reply.number, &made) != (right.0, &right.1) {
            return Err(format!("{swap:?} gives {reply:?}, by the fresh office {right:?}"));
        }
        c.tally.judged += made.len() as u64;
        for &(entry, (kind, number)) in &made {
            self.fresh.posting(entry as usize, from_pair(kind as u64, number).unwrap());
            self.posted(entry as usize);
        }
        let mut figures = self.items.iter().zip(&self.stays).filter(|(i, _)| i.figure.is_some());
        let stays = reply.number == 0 && no_mark(before) && figures.any(|(_, s)| s.is_some());
        c.tally.swaps[STAYS] += stays as u64;
        self.still_stored(swap, after)
    }

    /// A board posts and drops nothing. An empty one, or one refused, leaves the table as it was.
    pub fn judge_board(
        &mut self,
        c: &mut Comparison,
        lists: &Board,
        results: &[u8],
        reply: &Reply,
        before: &[u8],
        after: &[u8],
    ) -> Result<(), String> {
        self.note(before);
        let right = fresh_board(&self.fresh, lists);
        if (reply.number, results) != (right.0, &right.1[..]) {
            return Err(format!("{lists:?} gives {reply:?}, by the fresh office {right:?}"));
        }
        if reply.number == 0 && !lists.items.is_empty() {
            c.tally.judged += lists.items.len() as u64 / 2;
            unmarked(lists, after)?;
        } else if before != after {
            return Err(format!("{lists:?} changes the table"));
        }
        self.still_stored(lists, after)
    }

    /// A close posts and drops nothing. It leaves what the fresh office gives for each item.
    pub fn judge_close(
        &mut self,
        c: &mut Comparison,
        before: &[u8],
        after: &[u8],
    ) -> Result<(), String> {
        self.note(before);
        c.tally.judged += self.items.len() as u64;
        let right = table_of(self.items, &self.fresh);
        if after != right {
            return Err(format!("a close leaves {}, the fresh office {}", hex(after), hex(&right)));
        }
        self.still_stored(&Act::Close, after)
    }

    fn still_stored(&self, call: &dyn Debug, after: &[u8]) -> Result<(), String> {
        let now = stored(after);
        let lost = |&i: &usize| self.stays[i].is_some() && self.stays[i] != now[i];
        match (0..self.items.len()).find(lost) {
            Some(i) => Err(format!("after {call:?} item {i} is no longer stored as it was")),
            None => Ok(()),
        }
    }
}

/// Kind and number of the stored items of a table.
fn stored(table: &[u8]) -> Vec<Option<(u8, i64)>> {
    table.chunks(RECORD).map(|t| (t[0] != 0).then(|| (t[0], i64_at(t, 2)))).collect()
}

fn unmarked(call: &dyn Debug, after: &[u8]) -> Result<(), String> {
    match no_mark(after) {
        true => Ok(()),
        false => Err(format!("a mark stands after {call:?}")),
    }
}

/// The figures that an entry leads to.
fn led_to(items: &[Item], entry: usize) -> Vec<bool> {
    let mut led = vec![false; items.len()];
    for (i, item) in items.iter().enumerate() {
        let parents = item.figure.iter().flat_map(|f| &f.parents);
        led[i] = parents.into_iter().any(|&p| p == entry || led[p]);
    }
    led
}

#[cfg(test)]
mod tests {
    use super::*;
    use crate::engine::Engine;
    use crate::guarded::Guarded;
    use crate::mock::{Mock, Wrong};
    use crate::model::table::decode;
    use crate::model::value::{in_range, Value};

    /// Whether each cause from 8 to 10 is there on an accepted sheet, each tested as far as it goes.
    fn lent_tests(items: &[Item], index: &[u8], table: &[u8]) -> Vec<(usize, bool)> {
        let long = (index.len() == 4 * items.len(), table.len() == RECORD * items.len());
        vec![
            (8, long != (true, true)),
            (9, long.0 && index != index_of(items)),
            (10, long.1 && decode(items, table).is_none()),
        ]
    }

    /// The same of a call, from 8 to 14.
    fn call_tests(call: &Call, items: &[Item], index: &[u8], table: &[u8]) -> Vec<(usize, bool)> {
        let n = items.len();
        let item = match *call {
            Call::Post { item, .. } | Call::Keep { item } | Call::Drop { item } => item,
            Call::Step { item } | Call::Ask { item } => item,
        };
        let figure = items.get(item as usize).map(|i| i.figure.is_some());
        let marked = table.get(RECORD * (item as usize % 4096) + 1).is_some_and(|&m| m != 0);
        let sort = match call {
            Call::Post { .. } => figure == Some(true),
            Call::Keep { .. } | Call::Drop { .. } => figure == Some(false),
            _ => false,
        };
        let posted = match *call {
            Call::Post { kind, number, .. } => {
                matches!(from_pair(kind, number), None | Some(Value::Out))
            }
            _ => false,
        };
        let whole = table.len() == RECORD * n;
        let step = matches!(call, Call::Step { .. }) && item < n as u64 && whole;
        let own = [(11, item >= n as u64), (12, sort), (13, posted), (14, step && !marked)];
        [lent_tests(items, index, table), own.to_vec()].concat()
    }

    /// The same of a board, from 8 to 17 in the order of the tests.
    fn board_tests(
        lists: &Board,
        items: &[Item],
        index: &[u8],
        table: &[u8],
    ) -> Vec<(usize, bool)> {
        let mut listed = lists.items.chunks_exact(2).map(|i| u16::from_le_bytes([i[0], i[1]]));
        let half = lists.items.len() % 2 != 0;
        let own = [
            (17, half || listed.len() > 64 || lists.results.len() != 9 * listed.len()),
            (11, listed.any(|i| i as usize >= items.len())),
        ];
        [lent_tests(items, index, table), own.to_vec()].concat()
    }

    /// The same of a swap, from 8 to 13 in the order of the tests.
    fn swap_tests(swap: &Swap, items: &[Item], index: &[u8], table: &[u8]) -> Vec<(usize, bool)> {
        let sides = [swap.giver, swap.taker];
        let figure = |i: u64| items.get(i as usize).is_some_and(|item| item.figure.is_some());
        let beyond = |i: u64, change: i128| {
            let record = table.chunks_exact(RECORD).nth(i as usize % 4096);
            let number = record.map_or(0, |record| i64_at(record, 2) as i128);
            record.is_some() && !in_range(number + change)
        };
        let quantity = swap.quantity as i128;
        let own = [
            (11, sides.iter().any(|&i| i >= items.len() as u64)),
            (12, sides.iter().any(|&i| figure(i))),
            (18, swap.giver == swap.taker || swap.quantity < 1),
            (13, beyond(swap.giver, -quantity) || beyond(swap.taker, quantity)),
        ];
        [lent_tests(items, index, table), own.to_vec()].concat()
    }

    /// How often one call has two causes, the given one first.
    type Pairs = [[u64; 19]; 19];

    struct Recorder {
        met: Pairs,
        /// Of swaps alone, and of closes.
        swaps: Pairs,
        closes: Pairs,
    }

    fn record(pairs: &mut Pairs, reply: Reply, tests: Option<Vec<(usize, bool)>>) -> Reply {
        if let Some(tests) = tests {
            let causes: Vec<usize> = tests.iter().filter(|t| t.1).map(|t| t.0).collect();
            assert_eq!(reply.number, causes.first().map_or(0, |&n| n as u64));
            causes.iter().for_each(|&b| pairs[reply.number as usize][b] += 1);
        }
        reply
    }

    impl Engine for Recorder {
        fn open(
            &mut self,
            full: bool,
            sheet: &mut Guarded,
            index: &mut Guarded,
            table: &mut Guarded,
        ) -> Reply {
            Mock(Wrong::Nothing).open(full, sheet, index, table)
        }

        fn call(
            &mut self,
            call: &Call,
            sheet: &mut Guarded,
            index: &mut Guarded,
            table: &mut Guarded,
        ) -> Reply {
            let items = read_sheet(sheet.bytes()).ok();
            let tests = items.map(|i| call_tests(call, &i, index.bytes(), table.bytes()));
            record(&mut self.met, Mock(Wrong::Nothing).call(call, sheet, index, table), tests)
        }

        fn swap(
            &mut self,
            swap: &Swap,
            sheet: &mut Guarded,
            index: &mut Guarded,
            table: &mut Guarded,
        ) -> Reply {
            let items = read_sheet(sheet.bytes()).ok();
            let tests = items.map(|i| swap_tests(swap, &i, index.bytes(), table.bytes()));
            record(&mut self.swaps, Mock(Wrong::Nothing).swap(swap, sheet, index, table), tests)
        }

        fn close(
            &mut self,
            sheet: &mut Guarded,
            index: &mut Guarded,
            table: &mut Guarded,
        ) -> Reply {
            let items = read_sheet(sheet.bytes()).ok();
            let tests = items.map(|i| lent_tests(&i, index.bytes(), table.bytes()));
            record(&mut self.closes, Mock(Wrong::Nothing).close(sheet, index, table), tests)
        }

        fn board(
            &mut self,
            sheet: &mut Guarded,
            index: &mut Guarded,
            table: &mut Guarded,
            items: &mut Guarded,
            results: &mut Guarded,
        ) -> Reply {
            let circuit = read_sheet(sheet.bytes()).ok();
            let lists = Board { items: items.bytes().to_vec(), results: results.bytes().to_vec() };
            let tests = circuit.map(|c| board_tests(&lists, &c, index.bytes(), table.bytes()));
            let reply = Mock(Wrong::Nothing).board(sheet, index, table, items, results);
            record(&mut self.met, reply, tests)
        }

        fn print(&mut self, kind: u64, number: i64, scratch: &mut Guarded) -> i64 {
            Mock(Wrong::Nothing).print(kind, number, scratch)
        }
    }

    /// Calls with two causes are met, so that the order of the numbers is compared.
    #[test]
    fn pairs_of_causes_are_met() {
        let none = [[0; 19]; 19];
        let mut recorder = Recorder { met: none, swaps: none, closes: none };
        for list in 0..1_500 {
            let mut c = Comparison::new(&mut recorder, Rng::part(7, list));
            run_list(&mut c, list % 5 == 0).unwrap();
        }
        for low in 8..=11 {
            for high in low + 1..=14 {
                // An item of n or more is neither entry nor figure, and has no mark.
                if low == 11 && high != 13 {
                    continue;
                }
                let met = recorder.met[low][high];
                assert!(met >= 3, "{low} with {high}: {met}");
            }
        }
        for (first, second) in [(12, 13), (8, 17), (9, 17), (10, 17), (17, 11)] {
            let met = recorder.met[first][second];
            assert!(met >= 3, "{first} with {second}: {met}");
        }
        let swaps = [8, 9, 10].map(|first| [11, 12, 18, 13].map(|second| (first, second))).concat();
        let own = [(11, 12), (11, 18), (11, 13), (12, 18), (12, 13), (18, 13)];
        for (first, second) in swaps.into_iter().chain(own) {
            let met = recorder.swaps[first][second];
            assert!(met >= 3, "a swap, {first} with {second}: {met}");
        }
        for (first, second) in [(8, 9), (8, 10), (9, 10)] {
            let met = recorder.closes[first][second];
            assert!(met >= 3, "a close, {first} with {second}: {met}");
        }
    }
}
