//! The mock as a day program, and how that can be wrong about the length of its files.

use super::Mock;
use crate::engine::DayProgram;
use crate::model::day::{lines, run_day, MOST};
use crate::model::field::u16_at;
use crate::model::sheet::read_sheet;

with_all! {
    #[derive(Clone, Copy, PartialEq, Eq, Debug)]
    pub enum WrongDay {
        Nothing,
        Refuses65536,
        Takes65537,
        TakesLongSheets,
        CutsLongSheets,
        CutsLongSheetsOfEdition1,
        ReadsTheSheetFirst,
        ReadsTheCutSheetFirst,
        TestsTheHeadFirst,
        RefusesAfterTheDay,
        RefusesLongDays,
        RefusesBothTogether,
        OffsetOfTheLimit,
        OffsetOfTheLength,
        Number4,
        OnADayLine,
        PrintsNothing,
        PrintsNothingForNoDay,
    }
}

/// A day program that is wrong in one respect.
pub struct MockDay(pub WrongDay);

const REFUSED: &[u8] = b"SHEET 19 0\n";

fn run_long(sheet: &[u8], day: &[u8]) -> Vec<u8> {
    lines(sheet, is_cut(day)).into_bytes()
}

/// As much of a file as was always read.
fn is_cut(file: &[u8]) -> &[u8] {
    &file[..file.len().min(MOST)]
}

impl WrongDay {
    fn lines(self, sheet: &[u8], day: &[u8]) -> Vec<u8> {
        let long = sheet.len() > MOST;
        let first = sheet.len() > 5 && u16_at(sheet, 3) == 1;
        let head = sheet.len() > 6 && sheet[..3] == [1, 4, 0] && [1, 2].contains(&u16_at(sheet, 3));
        match self {
            WrongDay::Refuses65536 if sheet.len() == MOST => REFUSED.to_vec(),
            WrongDay::Takes65537 if sheet.len() == MOST + 1 => run_day(is_cut(sheet), day),
            WrongDay::TakesLongSheets if long => run_long(sheet, day),
            WrongDay::CutsLongSheets => run_day(is_cut(sheet), day),
            WrongDay::CutsLongSheetsOfEdition1 if first => run_day(is_cut(sheet), day),
            WrongDay::ReadsTheSheetFirst if long && read_sheet(sheet).is_err() => {
                run_long(sheet, day)
            }
            WrongDay::ReadsTheCutSheetFirst if long && read_sheet(is_cut(sheet)).is_err() => {
                run_day(is_cut(sheet), day)
            }
            WrongDay::TestsTheHeadFirst if long && !head => run_day(is_cut(sheet), day),
            WrongDay::RefusesAfterTheDay if long => {
                [run_long(sheet, day), REFUSED.to_vec()].concat()
            }
            WrongDay::RefusesLongDays if day.len() > MOST => REFUSED.to_vec(),
            WrongDay::RefusesBothTogether if sheet.len() + day.len() > MOST => REFUSED.to_vec(),
            WrongDay::OffsetOfTheLimit if long => b"SHEET 19 65536\n".to_vec(),
            WrongDay::OffsetOfTheLength if long => format!("SHEET 19 {}\n", sheet.len()).into(),
            WrongDay::Number4 if long => b"SHEET 4 0\n".to_vec(),
            WrongDay::OnADayLine if long => b"DAY 19 0\n".to_vec(),
            WrongDay::PrintsNothing if long => vec![],
            WrongDay::PrintsNothingForNoDay if long && day.is_empty() => vec![],
            _ => run_day(sheet, day),
        }
    }
}

impl DayProgram for MockDay {
    fn run(&mut self, sheet: Option<&[u8]>, day: Option<&[u8]>) -> Result<Vec<u8>, String> {
        Ok(self.0.lines(sheet.unwrap_or(&[]), day.unwrap_or(&[])))
    }
}

impl DayProgram for Mock {
    fn run(&mut self, sheet: Option<&[u8]>, day: Option<&[u8]>) -> Result<Vec<u8>, String> {
        MockDay(WrongDay::Nothing).run(sheet, day)
    }
}
