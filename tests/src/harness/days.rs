//! Whole days, by their printed bytes.

use super::compare::hex;
use super::fixed::{longest_sheet, post, EDITIONS};
use super::fixed_editions::sheet_of_bytes;
use super::tally::Tally;
use crate::engine::DayProgram;
use crate::gen::{self, in_edition, Shape};
use crate::model::calls::Call;
use crate::model::day::{run_day, MOST};
use crate::model::sheet::{read_sheet, EXAMPLE, MAX_LEVEL};
use crate::model::value::LIMIT;
use crate::rng::Rng;
use std::path::{Path, PathBuf};
use std::process::Command;

/// The day program as a binary, run in a folder of its own.
pub struct DayBinary {
    binary: PathBuf,
    folder: PathBuf,
}

impl DayBinary {
    pub fn new(binary: &Path) -> Result<Self, String> {
        let binary = binary.canonicalize().map_err(|e| format!("{}: {e}", binary.display()))?;
        let folder = std::env::temp_dir().join(format!("rozhinal-day-{}", std::process::id()));
        std::fs::create_dir_all(&folder).map_err(|e| format!("{}: {e}", folder.display()))?;
        Ok(DayBinary { binary, folder })
    }

    fn put(&self, name: &str, bytes: Option<&[u8]>) -> Result<(), String> {
        let path = self.folder.join(name);
        let done = match bytes {
            Some(bytes) => std::fs::write(&path, bytes),
            None if path.exists() => std::fs::remove_file(&path),
            None => Ok(()),
        };
        done.map_err(|e| format!("{}: {e}", path.display()))
    }
}

impl DayProgram for DayBinary {
    fn run(&mut self, sheet: Option<&[u8]>, day: Option<&[u8]>) -> Result<Vec<u8>, String> {
        self.put("sheet.bin", sheet)?;
        self.put("day.bin", day)?;
        let run = Command::new(&self.binary).current_dir(&self.folder).output();
        let output = run.map_err(|e| format!("{}: {e}", self.binary.display()))?;
        match output.status.success() {
            true => Ok(output.stdout),
            false => Err(format!("the day program ended with {}", output.status)),
        }
    }
}

impl Drop for DayBinary {
    fn drop(&mut self) {
        // The folder holds nothing but the two files.
        let _ = std::fs::remove_dir_all(&self.folder);
    }
}

/// One random day, compared.
pub fn compare_random_day(
    program: &mut dyn DayProgram,
    rng: &mut Rng,
    tally: &mut Tally,
) -> Result<(), String> {
    let (sheet, day, damaged) = random_day(rng);
    tally.random_days += 1;
    tally.damaged_days += damaged as u64;
    // A missing file counts as empty.
    let no_sheet = sheet.is_empty() && rng.percent(50);
    let no_day = day.is_empty() && rng.percent(50);
    compare_day(program, (!no_sheet).then_some(&sheet), (!no_day).then_some(&day), tally)
}

/// The example day, each shorter one, each byte of its log changed, days at the limits and with
/// figures that are owed or not, faults far in a log, and sheets of both editions and of each length.
pub fn compare_fixed_days(program: &mut dyn DayProgram, tally: &mut Tally) -> Result<(), String> {
    let (sheet, log) = (EXAMPLE.to_vec(), example_log());
    for (log, output) in
        [(&log, EXAMPLE_OUTPUT), (&limits_log(), LIMITS_OUTPUT), (&owed_log(), OWED_OUTPUT)]
    {
        if run_day(&sheet, log) != output.as_bytes() {
            return Err(format!("the model does not print {output:?}"));
        }
        compare_day(program, Some(&sheet), Some(log), tally)?;
    }
    for present in [(None, None), (Some(&sheet), None), (None, Some(&log))] {
        compare_day(program, present.0, present.1, tally)?;
    }
    for length in 0..log.len() {
        compare_day(program, Some(&sheet), Some(&log[..length].to_vec()), tally)?;
    }
    for length in 0..sheet.len() {
        compare_day(program, Some(&sheet[..length].to_vec()), Some(&log), tally)?;
    }
    for sheet in refused_sheets() {
        compare_day(program, Some(&sheet), Some(&log), tally)?;
    }
    for log in faults_far_in() {
        compare_day(program, Some(&sheet), Some(&log), tally)?;
    }
    for at in 0..log.len() {
        for byte in [0, 1, 2, 3, 4, 12, 15, 16, 18, 20, 21, 255] {
            let mut changed = log.clone();
            changed[at] = byte;
            compare_day(program, Some(&sheet), Some(&changed), tally)?;
        }
    }
    for log in logs_at_the_limit(&log) {
        compare_day(program, Some(&sheet), Some(&log), tally)?;
    }
    for (sheet, log, output) in editions_and_lengths() {
        if run_day(&sheet, &log) != output.as_bytes() {
            return Err(format!("the model does not print {output:?}"));
        }
        compare_day(program, Some(&sheet), Some(&log), tally)?;
    }
    // Whatever the day is.
    let long = sheet_of_bytes(2, MOST + 1);
    compare_day(program, Some(&long), None, tally)?;
    logs_at_the_limit(&log)
        .iter()
        .try_for_each(|log| compare_day(program, Some(&long), Some(log), tally))
}

/// What a day program prints for a sheet that is too long.
const TOO_LONG: &str = "SHEET 19 0\n";

/// Days on sheets of both editions, at the limit of items and of bytes, and one beyond, with what they
/// print.
fn editions_and_lengths() -> Vec<(Vec<u8>, Vec<u8>, &'static str)> {
    let (log, lines) = (log_of(&[post(0, 7), ask(0)]), "OK\nASK 0 7\n");
    let mut days = vec![(in_edition(2, &EXAMPLE), example_log(), EXAMPLE_OUTPUT)];
    for edition in [0, 3, 256, 257, 258] {
        days.push((in_edition(edition, &EXAMPLE), example_log(), "SHEET 4 0\n"));
    }
    days.extend(days_with_spreads());
    // Entries, and a sum of the first and of the last of them.
    for (edition, most) in EDITIONS {
        let mut specs = vec![gen::Spec::Entry(b"A".to_vec()); most - 1];
        specs.push(gen::spec_figure(1, 1, 0, &[0, most as u16 - 2]));
        let calls = |last: u64| {
            let (ask, step) = (|item| Call::Ask { item }, |item| Call::Step { item });
            let (first, second) = ([post(0, 5), post(last - 1, 7)], [step(0), ask(last)]);
            log_of(
                &[&first[..], &second, &[post(last, 1), ask(last + 1), post(0, 6), ask(last)]]
                    .concat(),
            )
        };
        let output = match edition {
            1 => "OK\nOK\nOK\nASK 1023 12\nNO 12\nNO 11\nOK\nASK 1023 13\n",
            _ => "OK\nOK\nOK\nASK 4095 12\nNO 12\nNO 11\nOK\nASK 4095 13\n",
        };
        let last = most as u64 - 1;
        days.push((gen::write_edition(edition, &specs), calls(last), output));
        specs.push(gen::Spec::Entry(b"A".to_vec()));
        days.push((gen::write_edition(edition, &specs), calls(last), "SHEET 4 0\n"));
        if edition == 1 {
            days.push((gen::write_edition(2, &specs), calls(last), output_of_1025()));
        }
    }
    for bytes in [MOST - 1, MOST] {
        days.push((sheet_of_bytes(2, bytes), log.clone(), lines));
    }
    days.push((sheet_of_bytes(2, MOST + 1), log.clone(), TOO_LONG));
    days.push((sheet_of_bytes(2, 70_000), log.clone(), TOO_LONG));
    days.push((longest_sheet(2, 4_096), log.clone(), TOO_LONG));
    days.push((longest_sheet(1, 1_024), log.clone(), lines));
    // A whole sheet, and then a byte: within the bytes that are read, and beyond them.
    let mut after = sheet_of_bytes(2, MOST - 1);
    after.push(0);
    days.push((after, log.clone(), "SHEET 2 65535\n"));
    let mut after = sheet_of_bytes(2, MOST);
    after.push(0);
    days.push((after, log.clone(), TOO_LONG));
    // Faults near the end, and without a last field.
    let mut cut = sheet_of_bytes(2, MOST + 3);
    cut.truncate(MOST);
    days.push((cut, log.clone(), "SHEET 1 65536\n"));
    // Each fault, in a file that is too long for any to be read.
    for mut sheet in refused_sheets() {
        sheet.resize(MOST + 1, 0);
        days.push((sheet, log.clone(), TOO_LONG));
    }
    for bytes in [1, 2, 3, 4, 255] {
        days.push((vec![bytes; MOST + 1], log.clone(), TOO_LONG));
        days.push((vec![bytes; 2 * MOST], vec![], TOO_LONG));
    }
    let faulty = |length| {
        let mut sheet = EXAMPLE.to_vec();
        sheet.resize(length, 0);
        sheet
    };
    days.push((faulty(MOST), log.clone(), "SHEET 2 46\n"));
    days.push((faulty(MOST + 1), log, TOO_LONG));
    days
}

/// The example with spreads of both its figures, in both editions; and a day on which figures with spread
/// 2 are told: they get refresh, and stay stored.
fn days_with_spreads() -> Vec<(Vec<u8>, Vec<u8>, &'static str)> {
    let mut days = Vec::new();
    for (spreads, in_1, in_2) in [
        ([2, 2], EXAMPLE_OUTPUT, "SHEET 5 19\n"),
        ([0, 2], EXAMPLE_OUTPUT, "SHEET 5 31\n"),
        ([2, 1], EXAMPLE_OUTPUT, "SHEET 5 19\n"),
        ([1, 0], EXAMPLE_OUTPUT, EXAMPLE_OUTPUT),
        ([2, 3], "SHEET 5 31\n", "SHEET 5 19\n"),
        ([3, 2], "SHEET 5 19\n", "SHEET 5 19\n"),
    ] {
        let mut spreads = spreads.into_iter();
        let sheet = gen::with_spreads(&EXAMPLE, |_| spreads.next().unwrap());
        for (edition, output) in [(1, in_1), (2, in_2)] {
            days.push((in_edition(edition, &sheet), example_log(), output));
        }
    }
    let (keep, step) = (|item| Call::Keep { item }, |item| Call::Step { item });
    let told = [post(0, 6), step(0), step(1), step(1), step(1), step(2), ask(2)];
    let log = log_of(&[&[post(0, 5), ask(0), keep(1), keep(2)][..], &told].concat());
    for (edition, spread, output) in [(1, 0, DEFERS), (1, 2, DEFERS), (2, 2, "SHEET 5 11\n")] {
        let entry = gen::Spec::Entry(b"A".to_vec());
        let [first, second] = [0, 1].map(|parent| gen::spec_figure(1, 0, spread, &[parent]));
        days.push((gen::write_edition(edition, &[entry, first, second]), log.clone(), output));
    }
    days
}

const DEFERS: &str = "OK\nASK 0 5\nOK\nOK\nOK\nOK\nOK\nOK\nNO 14\nOK\nASK 2 6\n";

/// The same calls on 1,025 items of edition 2, where item 1,024 is an entry.
fn output_of_1025() -> &'static str {
    "OK\nOK\nOK\nASK 1023 12\nNO 12\nASK 1024 -\nOK\nASK 1023 13\n"
}

/// Logs that end at the limit of a file, with a whole field or within one.
fn logs_at_the_limit(log: &[u8]) -> Vec<Vec<u8>> {
    let mut logs = Vec::new();
    for more in 0..6 {
        let mut long = log[..14].repeat(4);
        long.extend([17, 2, 0, 4, 0].repeat((MOST - long.len()) / 5));
        long.extend(&log[..more]);
        logs.extend([long[more..].to_vec(), long]);
    }
    logs
}

/// A sheet for each refusal from 1 to 7.
pub fn refused_sheets() -> Vec<Vec<u8>> {
    let mut sheets = vec![EXAMPLE[..45].to_vec()];
    for (at, byte) in [(7, 9), (10, 32), (3, 3), (22, 9), (26, 3)] {
        let mut sheet = EXAMPLE.to_vec();
        sheet[at] = byte;
        sheets.push(sheet);
    }
    sheets.push(gen::plain_chain(MAX_LEVEL as u16 + 1));
    sheets
}

/// Logs with a field at fault on both sides of each power of ten: after asks, and a post where they
/// do not come out even.
fn faults_far_in() -> Vec<Vec<u8>> {
    let log_to = |offset: usize| {
        let posts = (offset % 5 == 4) as usize;
        let mut calls = vec![post(0, 1); posts];
        calls.resize(posts + (offset - 14 * posts) / 5, ask(0));
        let mut log = log_of(&calls);
        log.extend([21, 0, 0]);
        log
    };
    [10, 99, 100, 999, 1_000, 9_999, 10_000].map(log_to).to_vec()
}

fn log_of(calls: &[Call]) -> Vec<u8> {
    calls.iter().flat_map(gen::day_field).collect()
}

fn ask(item: u64) -> Call {
    Call::Ask { item }
}

/// The example day of the paper.
pub fn example_log() -> Vec<u8> {
    log_of(&[
        post(0, 1000),
        post(1, 300),
        ask(4),
        post(2, -200),
        ask(4),
        Call::Drop { item: 0 },
        ask(9),
    ])
}

/// A day at the limits of the range, from both sides.
fn limits_log() -> Vec<u8> {
    log_of(&[
        post(0, LIMIT),
        post(0, LIMIT + 1),
        ask(3),
        post(2, 1),
        ask(3),
        post(0, -LIMIT),
        post(0, -LIMIT - 1),
        ask(4),
        post(1, 2),
        ask(4),
    ])
}

/// Steps of figure 3 while it is UNK: a step of its parent passes it over, then, with figure 4 stored,
/// tells it, and passes it over when figure 4 is dropped.
fn owed_log() -> Vec<u8> {
    let (drop, step) = (|item| Call::Drop { item }, |item| Call::Step { item });
    let told = |number| [post(0, number), step(0), step(3)];
    let with_figure_4 = [Call::Keep { item: 4 }, drop(3)];
    let without = [step(4), ask(4), drop(3), drop(4)];
    log_of(
        &[&told(5)[..], &with_figure_4, &told(6), &without, &told(7), &[step(4), ask(4)]].concat(),
    )
}

const OWED_OUTPUT: &str = "OK\nOK\nNO 14\nOK\nOK\nOK\nOK\nOK\nOK\nASK 4 6\nOK\nOK\n\
                           OK\nOK\nNO 14\nNO 14\nASK 4 7\n";

const LIMITS_OUTPUT: &str = "OK\nNO 13\nASK 3 1000000000000000\nOK\nASK 3 OUT\nOK\nNO 13\n\
                             ASK 4 -999999999999999\nOK\nASK 4 OUT\n";

const EXAMPLE_OUTPUT: &str = "OK\nOK\nASK 4 700\nOK\nASK 4 500\nNO 12\nNO 11\n";

/// One day on both sides; a file may be missing.
fn compare_day(
    program: &mut dyn DayProgram,
    sheet: Option<&Vec<u8>>,
    day: Option<&Vec<u8>>,
    tally: &mut Tally,
) -> Result<(), String> {
    let bytes = |file: Option<&Vec<u8>>| file.cloned().unwrap_or_default();
    let right = run_day(&bytes(sheet), &bytes(day));
    let given = program.run(sheet.map(|s| &s[..]), day.map(|d| &d[..]));
    tally.days += 1;
    String::from_utf8_lossy(&right).lines().for_each(|line| tally.count_line(line));
    let trouble = match given {
        Ok(given) if given == right => return Ok(()),
        Ok(given) => String::from_utf8_lossy(&given).into_owned(),
        Err(trouble) => trouble,
    };
    let dump = |file: Option<&Vec<u8>>| file.map_or("missing".to_string(), |bytes| hex(bytes));
    Err(format!(
        "day\n  sheet.bin {}\n  day.bin {}\nmodel prints\n{}\nday program prints\n{trouble}",
        dump(sheet),
        dump(day),
        String::from_utf8_lossy(&right)
    ))
}

/// Sheet and log, and whether one of them was changed.
fn random_day(rng: &mut Rng) -> (Vec<u8>, Vec<u8>, bool) {
    let shape = if rng.percent(1) { Shape::Vast } else { gen::shape(rng) };
    let specs = gen::sheet(rng, shape);
    let mut sheet = gen::write_any(rng, &specs);
    let items = read_sheet(&sheet).unwrap();
    let calls = match (shape, rng.below(100)) {
        (Shape::Wide | Shape::Vast, _) => rng.below(12),
        (_, 0) => MOST as u64 / 6,
        (_, 1..=9) => rng.below(500),
        _ => rng.below(50),
    };
    let mut day = gen::day_log(rng, &items, calls as usize);
    let change = rng.below(100);
    match change {
        0..=24 => day = gen::damaged(rng, &day),
        25..=34 => sheet = gen::damaged_sheet(rng, &specs),
        35..=39 => sheet = gen::bad_sheet(rng),
        40 | 50 => {
            let edition = *rng.pick(&[0, 1, 1, 2, 2, 3]);
            sheet = in_edition(edition, &sheet);
            sheet.resize(MOST + rng.below(10) as usize - 4, 4);
        }
        41 => day.resize(MOST + rng.below(10) as usize - 5, 0),
        42 => sheet.clear(),
        43..=44 => day.clear(),
        45 => {
            // Asks up to the limit of the file, and a little past it.
            sheet = EXAMPLE.to_vec();
            let fields = MOST / 5 + rng.below(4) as usize;
            day = [17, 2, 0, 4, 0].repeat(fields);
        }
        // A whole sheet of about as many bytes as there may be, and one of which the end is cut.
        46..=48 => {
            sheet = sheet_of_bytes(2, MOST + rng.below(5) as usize - 1);
            if rng.percent(20) {
                day.clear();
            }
        }
        49 => {
            sheet = sheet_of_bytes(2, MOST + rng.below(40) as usize);
            sheet.truncate(MOST + rng.below(5) as usize - 2);
        }
        _ => {}
    }
    (sheet, day, change <= 41 || change == 50)
}

#[cfg(test)]
mod tests {
    use super::*;
    use crate::mock::{MockDay, WrongDay};

    #[test]
    fn refused_sheets_have_each_number() {
        let numbers: Vec<u64> =
            refused_sheets().iter().map(|s| read_sheet(s).unwrap_err().number).collect();
        assert_eq!(numbers, [1, 2, 3, 4, 5, 6, 7]);
    }

    #[test]
    fn faults_are_far_in() {
        let printed: Vec<Vec<u8>> = faults_far_in().iter().map(|l| run_day(&EXAMPLE, l)).collect();
        for (lines, offset) in printed.iter().zip([10, 99, 100, 999, 1_000, 9_999, 10_000]) {
            assert!(lines.ends_with(format!("\nDAY 16 {offset}\n").as_bytes()), "{offset}");
        }
    }

    /// Each program that is wrong about the length of its files is found.
    #[test]
    fn wrong_lengths_are_found() {
        let try_program =
            |wrong| compare_fixed_days(&mut MockDay(wrong), &mut Tally::default()).err();
        assert_eq!(try_program(WrongDay::Nothing), None);
        assert_eq!(WrongDay::ALL.len(), 17);
        for &wrong in WrongDay::ALL {
            let found = try_program(wrong).unwrap_or_default();
            assert!(found.starts_with("day\n"), "{wrong:?}: {found}");
        }
    }

    /// A day program that writes each number of a line, but the values, in its own way.
    struct Misprints(fn(&str) -> String);

    impl DayProgram for Misprints {
        fn run(&mut self, sheet: Option<&[u8]>, day: Option<&[u8]>) -> Result<Vec<u8>, String> {
            let right = run_day(sheet.unwrap_or(&[]), day.unwrap_or(&[]));
            let mut output = String::new();
            for line in String::from_utf8(right).unwrap().lines() {
                let mut words: Vec<String> = line.split(' ').map(str::to_string).collect();
                let numbers = if words[0] == "ASK" { 1..2 } else { 1..words.len() };
                words[numbers].iter_mut().for_each(|word| *word = (self.0)(word));
                output += &(words.join(" ") + "\n");
            }
            Ok(output.into_bytes())
        }
    }

    /// A day program is found that writes items, causes and offsets wrong, if only at powers of ten.
    #[test]
    fn misprints_are_found() {
        let try_program = |write| {
            compare_fixed_days(&mut Misprints(write), &mut Tally::default())
                .err()
                .unwrap_or_default()
        };
        assert_eq!(try_program(|word| word.to_string()), "");
        let wrong: [fn(&str) -> String; 6] = [
            |word| format!("{word:0>5}"),
            |word| word.chars().rev().collect(),
            |word| word.strip_prefix("100").map_or(word.to_string(), |rest| format!("00{rest}")),
            |word| if word == "10000" { "0000".to_string() } else { word.to_string() },
            |word| if word == "9999" { "09999".to_string() } else { word.to_string() },
            |word| word.strip_prefix('0').unwrap_or(word).to_string(),
        ];
        for write in wrong {
            let found = try_program(write);
            assert!(found.starts_with("day\n"), "{found}");
        }
    }
}
