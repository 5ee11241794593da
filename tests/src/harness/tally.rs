//! How much was compared.

use super::choices;
use super::compare::Act;
use super::editions;
use super::orders::{self, power, DONE, LARGE, ORDERS};
use super::owed;
use super::prints::MOST_DIGITS;
use super::swaps;
use crate::model::board::{Board, ITEM, MOST_ITEMS, RESULT};
use crate::model::calls::{Call, Reply};
use crate::model::sheet::{Item, MAX_LEVEL};
use crate::model::table::{decode, Cell, Mark};
use crate::model::value::Value;
use std::fmt;
use std::ops::Range;

/// The functions compared, and the refusals that each can give.
pub const FUNCTIONS: [(&str, &[usize]); 11] = [
    ("open bare", &[1, 2, 3, 4, 5, 6, 7, 8]),
    ("open full", &[1, 2, 3, 4, 5, 6, 7, 8]),
    ("post", &[1, 2, 3, 4, 5, 6, 7, 8, 9, 10, 11, 12, 13]),
    ("keep", &[1, 2, 3, 4, 5, 6, 7, 8, 9, 10, 11, 12]),
    ("drop", &[1, 2, 3, 4, 5, 6, 7, 8, 9, 10, 11, 12]),
    ("step", &[1, 2, 3, 4, 5, 6, 7, 8, 9, 10, 11, 14]),
    ("ask", &[1, 2, 3, 4, 5, 6, 7, 8, 9, 10, 11]),
    ("board", &[1, 2, 3, 4, 5, 6, 7, 8, 9, 10, 17, 11]),
    ("close", &[1, 2, 3, 4, 5, 6, 7, 8, 9, 10]),
    ("swap", &[1, 2, 3, 4, 5, 6, 7, 8, 9, 10, 11, 12, 18, 13]),
    ("print", &[10, 15]),
];

const BOARD: usize = 7;
const CLOSE: usize = 8;
const SWAP: usize = 9;
const PRINT: usize = 10;

/// The lists of boards that must be met: of accepted ones, then of those refused with 17.
pub const BOARDS: [&str; 8] = [
    "no item",
    "64 items",
    "an item twice",
    "odd length",
    "65 items",
    "results for one item more or less",
    "results a byte short",
    "results a byte long",
];

/// What accepted closes must find or do: in their tables, then in their sheets.
pub const CLOSES: [&str; 12] = [
    "an entry marked",
    "a figure marked refresh",
    "a figure marked notice",
    "an unstored figure without keep",
    "an unstored figure with keep",
    "an unmarked figure gets another value",
    "OUT becomes another value",
    "another value becomes OUT",
    "nothing changes",
    "1,024 items",
    "4,096 items",
    "64 levels",
];

/// Printed numbers, not below 0 and below it, which must be met with each count of digits.
const DIGITS: [&str; 2] = ["digits of numbers not below 0", "digits of numbers below 0"];

/// What tables from before version 4.0.0 must often hold.
const STRICT: &str = "a value of the choice of before";

/// What tables of version 4.3.0 must often be.
const FORGOTTEN: &str = "other bytes than now";

/// What a share in the older range never had.
const WIDE: &str = "a product beyond a signed 64-bit number";

/// The refusals in the lines of a day, by the line's first word.
pub const LINES: [(&str, &[usize]); 3] =
    [("NO", &[11, 12, 13, 14]), ("SHEET", &[1, 2, 3, 4, 5, 6, 7, 19]), ("DAY", &[16])];

#[derive(Default, Clone, Debug)]
pub struct Tally {
    /// How often each function gave each number; 0 is accepted.
    pub given: [[u64; 19]; FUNCTIONS.len()],
    /// How often each function but the printer met each of `editions::MET`.
    pub editions: [editions::Times; PRINT],
    /// Calls that gave the same in both editions, and those of random lists.
    pub edition_pairs: u64,
    pub random_pairs: u64,
    /// Calls that edition 1 accepts, and edition 2 refuses for spread 2.
    pub edition_refusals: u64,
    /// Calls on sheets of edition 1 with spread 2, made also with spread 0, and those of random lists.
    pub spread_pairs: u64,
    pub random_spread_pairs: u64,
    /// Calls that gave the same number with other spreads, and those refused with 8, 9 or 10.
    pub other_spreads: u64,
    pub other_spreads_refused: u64,
    /// Tables of version 4.3.0, and those that have other bytes now, with the same calls.
    pub forgotten_tables: u64,
    pub forgotten_others: u64,
    /// Runs on large sheets, and those of more than 1,024 items.
    pub large_sheets: u64,
    pub vast_sheets: u64,
    /// Printed numbers of each of `DIGITS` by how many digits they have.
    pub digits: [[u64; MOST_DIGITS + 1]; 2],
    /// How often each of `BOARDS` was met.
    pub boards: [u64; BOARDS.len()],
    /// Accepted boards held against asks one after another.
    pub boards_as_asks: u64,
    /// How often each of `swaps::MET` was met.
    pub swaps: swaps::Times,
    /// Accepted swaps held against two posts.
    pub swaps_as_posts: u64,
    /// Runs of swaps alone, and the swaps in them.
    pub swap_runs: u64,
    pub run_swaps: u64,
    /// How often each of `CLOSES` was met.
    pub closes: [u64; CLOSES.len()],
    /// Closes held against asks for each item, before and after.
    pub closes_as_asks: u64,
    /// Closes held against steps and keeps.
    pub closes_as_keeps: u64,
    /// Accepted tables of no opening that were closed, to go on from.
    pub closed_tables: u64,
    /// How often each of `owed::MET` was met.
    pub owed: owed::Times,
    /// How often each of `choices::WAYS` met each of `choices::PARENTS`.
    pub choices: choices::Times,
    /// Tables from before version 4.0.0.
    pub strict_tables: u64,
    /// Those without a mark in which a stored value is no longer right.
    pub strict_values: u64,
    /// What was stepped in every order, and in an office's orders.
    pub orders: orders::Times,
    /// Lists that were also given to the calls as they were before owed bytes.
    pub before_lists: u64,
    /// Values that these read on both sides.
    pub before_readings: u64,
    /// Their steps that one side alone took, or that did another step.
    pub before_steps: u64,
    /// How often their tables then differed in kind, number or mark.
    pub before_tables: u64,
    pub lists: u64,
    /// Lists that begin with an accepted table of no opening.
    pub lists_from_tables: u64,
    pub offices: u64,
    /// Pairs of which the share was asked for.
    pub pairs: u64,
    /// Those with a product that a signed 64-bit number does not hold.
    pub wide_pairs: u64,
    pub older_tables: u64,
    /// Values held against the fresh office.
    pub judged: u64,
    pub days: u64,
    pub random_days: u64,
    /// Random days of which the sheet or the log was changed.
    pub damaged_days: u64,
    pub day_lines: u64,
    /// How often each of `LINES` had each number.
    pub printed: [[u64; 20]; LINES.len()],
}

impl Tally {
    pub fn count_act(&mut self, act: &Act, reply: &Reply, sheet: &[u8]) {
        let function = match act {
            Act::Open { full: false } => 0,
            Act::Open { full: true } => 1,
            Act::Give(Call::Post { .. }) => 2,
            Act::Give(Call::Keep { .. }) => 3,
            Act::Give(Call::Drop { .. }) => 4,
            Act::Give(Call::Step { .. }) => 5,
            Act::Give(Call::Ask { .. }) => 6,
            Act::Swap(_) => SWAP,
            Act::Board(_) => BOARD,
            Act::Close => CLOSE,
        };
        self.count(function, reply, sheet);
    }

    fn count(&mut self, function: usize, reply: &Reply, sheet: &[u8]) {
        self.given[function][reply.number as usize] += 1;
        editions::count(&mut self.editions[function], reply, sheet);
    }

    /// Counts a board by its lists as lent.
    pub fn count_board(&mut self, lists: &Board, reply: &Reply, sheet: &[u8]) {
        self.count(BOARD, reply, sheet);
        let number = reply.number;
        let (items, results) = (&lists.items, lists.results.len());
        let (count, even) = (items.len() / ITEM, items.len() % ITEM == 0);
        let within = even && count <= MOST_ITEMS;
        let right = RESULT * count;
        let mut listed = items.chunks(ITEM).enumerate();
        let mut twice = || listed.any(|(k, item)| items.chunks(ITEM).take(k).any(|i| i == item));
        let met = [
            number == 0 && count == 0,
            number == 0 && count == MOST_ITEMS,
            number == 0 && twice(),
            number == 17 && !even,
            number == 17 && even && count == MOST_ITEMS + 1 && results == right,
            number == 17 && within && results.abs_diff(right) == RESULT,
            number == 17 && within && results + 1 == right,
            number == 17 && within && results == right + 1,
        ];
        self.boards.iter_mut().zip(met).for_each(|(times, met)| *times += met as u64);
    }

    /// Counts an accepted close by its sheet, and by its table before and after.
    pub fn count_close(&mut self, items: &[Item], before: &[u8], after: &[u8]) {
        let (old, new) = (decode(items, before).unwrap(), decode(items, after).unwrap());
        let any = |test: fn(&Item, Cell, Cell) -> bool| {
            (0..items.len()).any(|i| test(&items[i], old[i], new[i]))
        };
        let met = [
            any(|item, old, _| item.figure.is_none() && old.mark == Mark::Notice),
            any(|_, old, _| old.mark == Mark::Refresh),
            any(|item, old, _| item.figure.is_some() && old.mark == Mark::Notice),
            any(|item, old, _| old.stored.is_none() && !keeps(item)),
            any(|item, old, _| old.stored.is_none() && keeps(item)),
            any(|_, old, new| changes(old, new) && old.mark == Mark::None),
            any(|_, old, new| changes(old, new) && old.stored == Some(Value::Out)),
            any(|_, old, new| changes(old, new) && new.stored == Some(Value::Out)),
            before == after,
            items.len() == 1_024,
            items.len() == 4_096,
            items.iter().any(|item| item.level == MAX_LEVEL),
        ];
        self.closes.iter_mut().zip(met).for_each(|(times, met)| *times += met as u64);
    }

    /// Counts a print by what it gives, and by the digits at the front of the scratch.
    pub fn count_print(&mut self, kind: u64, written: i64, scratch: &[u8]) {
        self.given[PRINT][written.min(0).unsigned_abs() as usize] += 1;
        if kind == 3 && written > 0 {
            let below = scratch.starts_with(b"-") as usize;
            self.digits[below][written as usize - below] += 1;
        }
    }

    pub fn prints(&self) -> u64 {
        self.given[PRINT].iter().sum()
    }

    /// Counts the parents of a share that was asked for.
    pub fn count_pair(&mut self, first: i64, second: i64) {
        self.pairs += 1;
        self.wide_pairs += first.checked_mul(second).is_none() as u64;
    }

    /// Counts a line of a day, without its end.
    pub fn count_line(&mut self, line: &str) {
        self.day_lines += 1;
        let mut words = line.split(' ');
        let first = words.next();
        if let Some(at) = LINES.iter().position(|l| Some(l.0) == first) {
            let number: usize = words.next().and_then(|n| n.parse().ok()).unwrap();
            self.printed[at][number] += 1;
        }
    }

    /// Openings and calls; prints are counted apart.
    pub fn calls(&self) -> u64 {
        self.given[..PRINT].iter().flatten().sum()
    }

    /// The refusals that some function can give, or a day print, the editions and item counts that each
    /// function but the printer is lent, the lists of boards, the tables and sheets of closes, what is
    /// done to owed bytes and false ones, the entries and causes of swaps, the parents of choices, what
    /// steps do and their orders, and numbers of each length in print, that were never met; also products
    /// of shares beyond a signed 64-bit number, values of the choice of before, and tables that are others
    /// since nothing forgets, if they were fewer than one in twenty.
    pub fn never_met(&self) -> Vec<String> {
        let mut missing = Vec::new();
        for ((name, numbers), given) in FUNCTIONS.iter().zip(&self.given) {
            for &number in numbers.iter().chain(&[0]).filter(|&&n| given[n] == 0) {
                missing.push(format!("{name} {number}"));
            }
        }
        for ((function, _), met) in FUNCTIONS.iter().zip(&self.editions) {
            for (name, _) in editions::MET.iter().zip(met).filter(|(_, &times)| times == 0) {
                missing.push(format!("{function}, {name}"));
            }
        }
        for (what, names, met) in [
            ("board", &BOARDS[..], &self.boards[..]),
            ("close", &CLOSES, &self.closes),
            ("owed", &owed::MET, &self.owed),
            ("swap", &swaps::MET, &self.swaps),
        ] {
            for (name, _) in names.iter().zip(met).filter(|(_, &times)| times == 0) {
                missing.push(format!("{what}, {name}"));
            }
        }
        for (way, met) in choices::WAYS.iter().zip(&self.choices) {
            for (name, _) in choices::PARENTS.iter().zip(met).filter(|(_, &times)| times == 0) {
                missing.push(format!("choice {way}, {name}"));
            }
        }
        for (name, _) in self.orders.all().filter(|met| met.1 == 0) {
            missing.push(format!("steps, {name}"));
        }
        for (name, digits) in DIGITS.iter().zip(&self.digits) {
            for length in (1..=MOST_DIGITS).filter(|&length| digits[length] == 0) {
                missing.push(format!("{name} {length}"));
            }
        }
        if 20 * self.wide_pairs < self.pairs {
            missing.push(format!("{WIDE} in one pair of twenty"));
        }
        if 20 * self.strict_values < self.strict_tables {
            missing.push(format!("{STRICT} in one table of twenty"));
        }
        if 20 * self.forgotten_others < self.forgotten_tables {
            missing.push(format!("{FORGOTTEN} in one table of twenty"));
        }
        for ((word, numbers), printed) in LINES.iter().zip(&self.printed) {
            for &number in numbers.iter().filter(|&&n| self.days > 0 && printed[n] == 0) {
                missing.push(format!("{word} {number}"));
            }
        }
        missing
    }
}

fn keeps(item: &Item) -> bool {
    item.figure.as_ref().is_some_and(|figure| figure.keep)
}

/// Whether a stored value becomes another.
fn changes(old: Cell, new: Cell) -> bool {
    old.stored.is_some() && old.stored != new.stored
}

/// Each of the names, and how often it was met.
fn named(names: &[&str], met: &[u64]) -> String {
    let named = names.iter().zip(met).map(|(name, times)| format!("{name}: {times}"));
    named.collect::<Vec<String>>().join(", ")
}

/// Each number that was met, and how often.
fn times(met: &[u64]) -> String {
    let met = met.iter().enumerate().filter(|(_, &times)| times > 0);
    met.map(|(number, times)| format!(" {number}:{times}")).collect()
}

impl Tally {
    fn write_choices(&self, f: &mut fmt::Formatter) -> fmt::Result {
        for (way, met) in choices::WAYS.iter().zip(&self.choices) {
            writeln!(f, "choices {way}, by their parents: {}", named(&choices::PARENTS, met))?;
        }
        writeln!(
            f,
            "tables from before 4.0.0: {} ({} without a mark and with {STRICT})",
            self.strict_tables, self.strict_values
        )
    }

    fn write_editions(&self, f: &mut fmt::Formatter) -> fmt::Result {
        let (taken, refused) = (0..editions::REFUSED, editions::REFUSED..editions::MET.len());
        let least = |at: usize| self.editions.iter().map(|met| met[at]).min().unwrap();
        let met = |part: Range<usize>| {
            named(&editions::MET[part.clone()], &part.map(least).collect::<Vec<u64>>())
        };
        writeln!(f, "sheets accepted, the fewest by a function: {}", met(taken))?;
        writeln!(f, "sheets refused, the fewest by a function: {}", met(refused))?;
        writeln!(
            f,
            "calls made in both editions: {} ({} in random lists)",
            self.edition_pairs, self.random_pairs
        )?;
        writeln!(
            f,
            "runs on large sheets: {} ({} of more than 1,024 items)",
            self.large_sheets, self.vast_sheets
        )
    }

    fn write_spreads(&self, f: &mut fmt::Formatter) -> fmt::Result {
        writeln!(
            f,
            "calls that edition 1 accepts and edition 2 refuses for spread 2: {}",
            self.edition_refusals
        )?;
        writeln!(
            f,
            "calls made with spread 2 and with spread 0: {} ({} in random lists)",
            self.spread_pairs, self.random_spread_pairs
        )?;
        writeln!(
            f,
            "calls made with other spreads: {} ({} refused with 8, 9 or 10)",
            self.other_spreads, self.other_spreads_refused
        )?;
        writeln!(
            f,
            "tables of 4.3.0: {} ({} with {FORGOTTEN})",
            self.forgotten_tables, self.forgotten_others
        )
    }

    fn write_boards_and_closes(&self, f: &mut fmt::Formatter) -> fmt::Result {
        writeln!(f, "boards by their lists: {}", named(&BOARDS, &self.boards))?;
        writeln!(f, "boards held against asks one after another: {}", self.boards_as_asks)?;
        writeln!(f, "closes by what they find and do: {}", named(&CLOSES, &self.closes))?;
        writeln!(
            f,
            "closes held against asks for each item: {}; against steps and keeps: {}",
            self.closes_as_asks, self.closes_as_keeps
        )?;
        writeln!(f, "tables of no opening closed, and gone on with: {}", self.closed_tables)
    }

    fn write_swaps(&self, f: &mut fmt::Formatter) -> fmt::Result {
        let (accepted, refused) = (0..swaps::REFUSED, swaps::REFUSED..swaps::MET.len());
        let swaps = |part: Range<usize>| named(&swaps::MET[part.clone()], &self.swaps[part]);
        writeln!(f, "swaps compared: {}", self.given[SWAP].iter().sum::<u64>())?;
        writeln!(f, "swaps accepted: {} ({})", self.given[SWAP][0], swaps(accepted))?;
        writeln!(f, "swaps refused, by their cause: {}", swaps(refused))?;
        writeln!(f, "swaps held against two posts: {}", self.swaps_as_posts)?;
        writeln!(f, "runs of swaps alone: {} ({} swaps)", self.swap_runs, self.run_swaps)
    }

    fn write_orders(&self, f: &mut fmt::Formatter) -> fmt::Result {
        let o = &self.orders;
        writeln!(f, "tables stepped in every order: {} of {} small sheets", o.tables, o.sheets)?;
        writeln!(
            f,
            "tables since an opening, by every call: {} of {} small sheets ({} without a mark)",
            o.opened_tables, o.opened, o.quiet
        )?;
        writeln!(f, "steps in every order: {}; where there is no mark: {}", o.steps, o.refused)?;
        for (n, longest) in o.longest.iter().enumerate().skip(1) {
            let (s, three, four) = (if n == 1 { "" } else { "s" }, power(3, n), power(4, n));
            writeln!(
                f,
                "longest sequence of steps, {n} item{s}: {longest} (3^n {three}, 4^n {four})"
            )?;
        }
        let (ended, others) = (o.ended.iter().sum::<u64>(), o.interrupted.iter().sum::<u64>());
        writeln!(f, "steps by what they do: {}", named(&DONE, &o.done))?;
        writeln!(f, "sequences of steps ended: {ended} ({})", named(&ORDERS, &o.ended))?;
        writeln!(f, "those of more than {LARGE} items: {}", o.large)?;
        writeln!(
            f,
            "sequences of steps interrupted: {others} ({}); {} steps, at most {}",
            named(&ORDERS, &o.interrupted),
            o.taken,
            o.most
        )
    }

    fn write_owed(&self, f: &mut fmt::Formatter) -> fmt::Result {
        let (done, at_fault) = (0..owed::FALSE, owed::FALSE..owed::MET.len());
        let owed = |part: Range<usize>| named(&owed::MET[part.clone()], &self.owed[part]);
        writeln!(f, "owed bytes, by what calls do: {}", owed(done))?;
        writeln!(f, "false owed bytes refused: {}", owed(at_fault))?;
        writeln!(
            f,
            "lists held against the telling of before: {} ({} values read; other marks in {} tables, at {} steps)",
            self.before_lists, self.before_readings, self.before_tables, self.before_steps
        )
    }
}

impl fmt::Display for Tally {
    fn fmt(&self, f: &mut fmt::Formatter) -> fmt::Result {
        writeln!(f, "calls compared: {}", self.calls())?;
        writeln!(f, "prints compared: {}", self.prints())?;
        for (name, digits) in DIGITS.iter().zip(&self.digits) {
            writeln!(f, "{name}:{}", times(digits))?;
        }
        writeln!(f, "numbers given:")?;
        for ((name, _), given) in FUNCTIONS.iter().zip(&self.given) {
            writeln!(f, "  {name:9}{}", times(given))?;
        }
        self.write_editions(f)?;
        self.write_spreads(f)?;
        self.write_boards_and_closes(f)?;
        self.write_owed(f)?;
        self.write_choices(f)?;
        self.write_swaps(f)?;
        self.write_orders(f)?;
        writeln!(
            f,
            "lists: {} ({} from a table of no opening); pairs of offices: {}",
            self.lists, self.lists_from_tables, self.offices
        )?;
        writeln!(f, "share pairs: {} ({} with {WIDE})", self.pairs, self.wide_pairs)?;
        writeln!(f, "older tables: {}", self.older_tables)?;
        write!(f, "values held against the fresh office: {}", self.judged)?;
        if self.days == 0 {
            return Ok(());
        }
        write!(
            f,
            "\ndays compared: {} ({} random, {} of them damaged), {} lines",
            self.days, self.random_days, self.damaged_days, self.day_lines
        )?;
        for ((word, _), printed) in LINES.iter().zip(&self.printed) {
            write!(f, "\n  {word:9}{}", times(printed))?;
        }
        Ok(())
    }
}

#[cfg(test)]
mod tests {
    use super::*;
    use crate::model::sheet::{read_sheet, EXAMPLE};
    use crate::model::table::encode;
    use crate::model::value::LIMIT;

    /// Everything that must be met, met once.
    fn full() -> Tally {
        let mut tally = Tally { days: 1, ..Tally::default() };
        (tally.boards, tally.closes) = ([1; BOARDS.len()], [1; CLOSES.len()]);
        (tally.owed, tally.swaps) = ([1; owed::MET.len()], [1; swaps::MET.len()]);
        tally.editions.iter_mut().for_each(|met| met.fill(1));
        tally.choices.iter_mut().for_each(|met| met.fill(1));
        let orders = &mut tally.orders;
        (orders.done, orders.ended) = ([1; DONE.len()], [1; ORDERS.len()]);
        (orders.longest, orders.quiet, orders.interrupted[1]) = ([1; orders::MOST + 1], 1, 1);
        for ((_, numbers), given) in FUNCTIONS.iter().zip(&mut tally.given) {
            numbers.iter().chain(&[0]).for_each(|&n| given[n] = 1);
        }
        for (word, numbers) in LINES {
            numbers.iter().for_each(|n| tally.count_line(&format!("{word} {n}")));
        }
        tally.digits.iter_mut().for_each(|digits| digits[1..].fill(1));
        tally
    }

    /// Each refusal of each function and of each line is missed if it alone was never met.
    #[test]
    fn each_refusal_is_missed() {
        assert_eq!(full().never_met(), [""; 0]);
        for (at, (name, numbers)) in FUNCTIONS.iter().enumerate() {
            for &number in numbers.iter().chain(&[0]) {
                let mut tally = full();
                tally.given[at][number] = 0;
                assert_eq!(tally.never_met(), [format!("{name} {number}")]);
            }
        }
        for (at, (word, numbers)) in LINES.iter().enumerate() {
            for &number in *numbers {
                let mut tally = full();
                tally.printed[at][number] = 0;
                assert_eq!(tally.never_met(), [format!("{word} {number}")]);
            }
        }
    }

    /// The same of each sort of board, close, owed byte, swap, sheet and choice.
    #[test]
    fn each_sort_is_missed() {
        for (at, name) in BOARDS.iter().enumerate() {
            let mut tally = full();
            tally.boards[at] = 0;
            assert_eq!(tally.never_met(), [format!("board, {name}")]);
        }
        for (at, name) in CLOSES.iter().enumerate() {
            let mut tally = full();
            tally.closes[at] = 0;
            assert_eq!(tally.never_met(), [format!("close, {name}")]);
        }
        for (at, name) in owed::MET.iter().enumerate() {
            let mut tally = full();
            tally.owed[at] = 0;
            assert_eq!(tally.never_met(), [format!("owed, {name}")]);
        }
        for (at, name) in swaps::MET.iter().enumerate() {
            let mut tally = full();
            tally.swaps[at] = 0;
            assert_eq!(tally.never_met(), [format!("swap, {name}")]);
        }
        for (function, (does, _)) in FUNCTIONS[..PRINT].iter().enumerate() {
            for (at, name) in editions::MET.iter().enumerate() {
                let mut tally = full();
                tally.editions[function][at] = 0;
                assert_eq!(tally.never_met(), [format!("{does}, {name}")]);
            }
        }
        for (way, does) in choices::WAYS.iter().enumerate() {
            for (at, name) in choices::PARENTS.iter().enumerate() {
                let mut tally = full();
                tally.choices[way][at] = 0;
                assert_eq!(tally.never_met(), [format!("choice {does}, {name}")]);
            }
        }
    }

    /// Each count of digits is missed if it alone was never printed, of either sign.
    #[test]
    fn each_length_in_print_is_missed() {
        for (below, name) in DIGITS.iter().enumerate() {
            for length in 1..=MOST_DIGITS {
                let mut tally = full();
                tally.digits[below][length] = 0;
                assert_eq!(tally.never_met(), [format!("{name} {length}")]);
            }
        }
        let mut tally = Tally::default();
        for (kind, written, front) in
            [(3, 1, "0?"), (3, 3, "-10?"), (1, 1, "-?"), (2, 3, "OUT?"), (3, -10, "-?")]
        {
            tally.count_print(kind, written, front.as_bytes());
        }
        assert_eq!((tally.digits[0][1], tally.digits[1][2]), (1, 1));
        assert_eq!((tally.digits.iter().flatten().sum::<u64>(), tally.prints()), (2, 5));
    }

    /// Each thing that steps do and each order is met, sheets of each number of items are stepped in every
    /// order, and some sequences not to their ends.
    #[test]
    fn orders_are_missed() {
        for (at, name) in DONE.iter().enumerate() {
            let mut tally = full();
            tally.orders.done[at] = 0;
            assert_eq!(tally.never_met(), [format!("steps, {name}")]);
        }
        for (at, name) in ORDERS.iter().enumerate() {
            let mut tally = full();
            tally.orders.ended[at] = 0;
            assert_eq!(tally.never_met(), [format!("steps, {name}")]);
        }
        for n in 1..=orders::MOST {
            let mut tally = full();
            tally.orders.longest[n] = 0;
            assert_eq!(tally.never_met(), [format!("steps, in every order of {n} items")]);
        }
        let mut tally = full();
        (tally.orders.interrupted, tally.orders.quiet) = ([0; ORDERS.len()], 0);
        assert_eq!(tally.never_met(), ["steps, interrupted", "steps, until no mark is left"]);
    }

    /// One pair in twenty must have a product beyond signed 64 bits.
    #[test]
    fn wide_pairs_are_missed() {
        let mut tally = full();
        (0..19).for_each(|_| tally.count_pair(LIMIT, 9_223));
        tally.count_pair(-LIMIT, 9_224);
        assert_eq!((tally.pairs, tally.wide_pairs), (20, 1));
        assert_eq!(tally.never_met(), [""; 0]);
        tally.count_pair(0, 0);
        assert_eq!(tally.never_met(), [format!("{WIDE} in one pair of twenty")]);
    }

    /// One table in twenty from before version 4.0.0 must hold a value of then.
    #[test]
    fn values_of_before_are_missed() {
        let tally = Tally { strict_tables: 20, strict_values: 1, ..full() };
        assert_eq!(tally.never_met(), [""; 0]);
        let tally = Tally { strict_tables: 21, ..tally };
        assert_eq!(tally.never_met(), [format!("{STRICT} in one table of twenty")]);
    }

    /// One table in twenty of version 4.3.0 must be another now.
    #[test]
    fn forgotten_figures_are_missed() {
        let tally = Tally { forgotten_tables: 20, forgotten_others: 1, ..full() };
        assert_eq!(tally.never_met(), [""; 0]);
        let tally = Tally { forgotten_tables: 21, ..tally };
        assert_eq!(tally.never_met(), [format!("{FORGOTTEN} in one table of twenty")]);
    }

    /// Each number of the paper's table is asked for somewhere.
    #[test]
    fn every_number_is_asked_for() {
        let tables = FUNCTIONS.iter().chain(&LINES);
        let mut numbers: Vec<usize> = tables.flat_map(|t| t.1).copied().collect();
        numbers.sort();
        numbers.dedup();
        assert_eq!(numbers, (1..=19).collect::<Vec<usize>>());
    }

    /// Each of the lists counts as what it is, and as nothing else.
    #[test]
    fn boards_are_counted() {
        let cases = [
            (0, 0, 0, 0),
            (128, 576, 0, 1),
            (4, 18, 0, 2),
            (127, 567, 17, 3),
            (130, 585, 17, 4),
            (4, 27, 17, 5),
            (4, 9, 17, 5),
            (0, 9, 17, 5),
            (4, 17, 17, 6),
            (0, 1, 17, 7),
        ];
        for (items, results, number, at) in cases {
            let mut tally = Tally::default();
            let list = (0..items).map(|i| if items == 4 { 0 } else { i as u8 }).collect();
            let reply = Reply { number, offset: 0, kind: 0, value: 0 };
            tally.count_board(&Board { items: list, results: vec![0; results] }, &reply, &EXAMPLE);
            let mut right = [0; BOARDS.len()];
            right[at] = 1;
            assert_eq!((tally.boards, tally.given[BOARD][number as usize]), (right, 1));
        }
    }

    /// Each table before and after counts as what it is, and as nothing else.
    #[test]
    fn closes_are_counted() {
        let items = read_sheet(&EXAMPLE).unwrap();
        let one = Cell { stored: Some(Value::Number(1)), mark: Mark::None };
        let (unk, out) = (Cell { stored: None, ..one }, Cell { stored: Some(Value::Out), ..one });
        let with = |mark| Cell { mark, ..one };
        let cases = [
            (0, with(Mark::Notice), one, 0),
            (3, with(Mark::Refresh), one, 1),
            (4, with(Mark::Notice), one, 2),
            (4, unk, one, 3),
            (3, unk, one, 4),
            (3, Cell { stored: Some(Value::Null), ..one }, one, 5),
            (3, out, one, 6),
            (3, one, out, 7),
            (3, one, one, 8),
        ];
        for (item, old, new, at) in cases {
            let (mut before, mut after) = ([one; 5], [one; 5]);
            (before[item], after[item]) = (old, new);
            let mut tally = Tally::default();
            tally.count_close(&items, &encode(&items, &before), &encode(&items, &after));
            let mut right = [0; CLOSES.len()];
            right[at] = 1;
            // An unmarked OUT is an unmarked value, too.
            right[5] |= [6, 7].contains(&at) as u64;
            assert_eq!(tally.closes, right);
        }
    }

    #[test]
    fn lines_are_counted() {
        let mut tally = Tally::default();
        for line in ["OK", "ASK 4 700", "NO 12", "SHEET 2 46", "SHEET 19 0", "DAY 16 0"] {
            tally.count_line(line);
        }
        assert_eq!(tally.day_lines, 6);
        assert_eq!((tally.printed[0][12], tally.printed[2][16]), (1, 1));
        assert_eq!((tally.printed[1][2], tally.printed[1][19]), (1, 1));
        assert_eq!(tally.printed.iter().flatten().sum::<u64>(), 4);
    }
}
