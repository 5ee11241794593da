//! The day program: the whole output for a sheet and a day log.

use super::calls::{call, open, Call};
use super::field::{field_at, i64_at, u16_at, Field};
use super::printer::text_of;
use super::sheet::read_sheet;
use super::table::{from_pair, RECORD};

/// A sheet of more bytes is refused, and so many of the day are read.
pub const MOST: usize = 65_536;

pub fn run_day(sheet: &[u8], day: &[u8]) -> Vec<u8> {
    if sheet.len() > MOST {
        return b"SHEET 19 0\n".to_vec();
    }
    lines(sheet, &day[..day.len().min(MOST)]).into_bytes()
}

/// The lines for these bytes, however many.
pub fn lines(sheet: &[u8], day: &[u8]) -> String {
    let count = match read_sheet(sheet) {
        Ok(items) => items.len(),
        Err(fault) => return format!("SHEET {} {}\n", fault.number, fault.offset),
    };
    let (mut index, mut table) = (vec![0; 4 * count], vec![0; RECORD * count]);
    assert_eq!(open(false, sheet, &mut index, &mut table).number, 0);
    let mut output = String::new();
    let mut offset = 0;
    while offset < day.len() {
        let field = field_at(day, offset);
        let Some((next, end)) = field.and_then(|f| Some((read_call(&f)?, f.end()))) else {
            return output + &format!("DAY 16 {offset}\n");
        };
        let reply = call(&next, sheet, &index, &mut table);
        output += &match next {
            _ if reply.number != 0 => format!("NO {}\n", reply.number),
            Call::Ask { item } => {
                let value = from_pair(reply.kind, reply.value).unwrap();
                format!("ASK {item} {}\n", text_of(value))
            }
            _ => "OK\n".to_string(),
        };
        offset = end;
    }
    output
}

/// The call of a day field; none if tag, length, posted kind or kind 1's number is wrong.
fn read_call(field: &Field) -> Option<Call> {
    let content = field.content;
    let length = if field.tag == 16 { 11 } else { 2 };
    if content.len() != length {
        return None;
    }
    let item = u16_at(content, 0) as u64;
    match field.tag {
        16 => {
            let (kind, number) = (content[2] as u64, i64_at(content, 3));
            let right = kind == 3 || (kind == 1 && number == 0);
            right.then_some(Call::Post { item, kind, number })
        }
        17 => Some(Call::Ask { item }),
        18 => Some(Call::Keep { item }),
        19 => Some(Call::Drop { item }),
        20 => Some(Call::Step { item }),
        _ => None,
    }
}

#[cfg(test)]
mod tests {
    use super::super::sheet::EXAMPLE;
    use super::super::value::LIMIT;
    use super::*;

    fn post(item: u16, kind: u8, number: i64) -> Vec<u8> {
        let mut bytes = vec![16, 11, 0];
        bytes.extend(item.to_le_bytes());
        bytes.push(kind);
        bytes.extend(number.to_le_bytes());
        bytes
    }

    fn other(tag: u8, item: u16) -> Vec<u8> {
        let mut bytes = vec![tag, 2, 0];
        bytes.extend(item.to_le_bytes());
        bytes
    }

    fn day(fields: &[Vec<u8>]) -> String {
        String::from_utf8(run_day(&EXAMPLE, &fields.concat())).unwrap()
    }

    #[test]
    fn the_example_day() {
        let output = day(&[
            post(0, 3, 1000),
            post(1, 3, 300),
            other(17, 4),
            post(2, 3, -200),
            other(17, 4),
            other(19, 0),
            other(17, 9),
        ]);
        assert_eq!(output, "OK\nOK\nASK 4 700\nOK\nASK 4 500\nNO 12\nNO 11\n");
    }

    #[test]
    fn each_line() {
        assert_eq!(day(&[]), "");
        assert_eq!(day(&[other(17, 0), other(17, 3)]), "ASK 0 -\nASK 3 -\n");
        assert_eq!(day(&[post(0, 3, LIMIT), post(2, 3, 1), other(17, 4)]), "OK\nOK\nASK 4 OUT\n");
        assert_eq!(day(&[post(0, 3, LIMIT + 1), post(0, 3, -LIMIT)]), "NO 13\nOK\n");
        assert_eq!(day(&[other(18, 3), other(20, 0), other(20, 5)]), "OK\nNO 14\nNO 11\n");
    }

    #[test]
    fn day_fields_at_fault() {
        let good = post(0, 1, 0);
        let bad = [
            post(0, 1, 1),
            post(0, 0, 0),
            post(0, 2, 0),
            post(0, 4, 0),
            other(15, 0),
            other(21, 0),
            other(16, 0),
            vec![17, 1, 0, 0],
            vec![17, 3, 0, 0, 0, 0],
            vec![16, 12, 0, 0, 0, 1, 0, 0, 0, 0, 0, 0, 0, 0, 0],
        ];
        for field in bad {
            assert_eq!(day(&[good.clone(), field, good.clone()]), "OK\nDAY 16 14\n");
        }
        for length in 1..good.len() {
            let short = good[..length].to_vec();
            assert_eq!(day(&[good.clone(), short]), "OK\nDAY 16 14\n");
        }
    }

    #[test]
    fn a_day_is_cut_at_its_limit() {
        let asks = other(17, 0).repeat(MOST / 5 + 10);
        let output = String::from_utf8(run_day(&EXAMPLE, &asks)).unwrap();
        assert_eq!(output.lines().count(), MOST / 5 + 1);
        assert!(output.ends_with(&format!("DAY 16 {}\n", MOST / 5 * 5)));
        assert_eq!(run_day(&[], &asks), b"SHEET 1 0\n");
    }

    /// Entries and one name that is longer, so that the sheet has so many bytes.
    fn sheet_of(bytes: usize) -> Vec<u8> {
        let items = bytes - 10;
        let count = items.div_ceil(19);
        let mut sheet = vec![1, 4, 0, 2, 0];
        sheet.extend((count as u16).to_le_bytes());
        for k in 0..count {
            let name = items / count + (k < items % count) as usize - 3;
            sheet.extend([2, name as u8, 0]);
            sheet.extend(vec![b'A'; name]);
        }
        sheet.extend([4, 0, 0]);
        assert_eq!(sheet.len(), bytes);
        assert!(read_sheet(&sheet).is_ok());
        sheet
    }

    /// By the length of the file alone, whatever is in it, and whatever the day is.
    #[test]
    fn a_sheet_is_refused_above_its_limit() {
        let day = [post(0, 3, 7), other(17, 0)].concat();
        assert_eq!(run_day(&sheet_of(MOST - 1), &day), b"OK\nASK 0 7\n");
        assert_eq!(run_day(&sheet_of(MOST), &day), b"OK\nASK 0 7\n");
        assert_eq!(run_day(&sheet_of(MOST + 1), &day), b"SHEET 19 0\n");
        let mut long = EXAMPLE.to_vec();
        long.resize(MOST, 0);
        assert_eq!(run_day(&long, &day), b"SHEET 2 46\n");
        for byte in 0..=255 {
            long.push(byte);
            for day in [&day[..], &[], &[99]] {
                assert_eq!(run_day(&long, day), b"SHEET 19 0\n");
            }
        }
        assert_eq!(run_day(&vec![0; MOST], &day), b"SHEET 2 0\n");
        assert_eq!(run_day(&vec![0; MOST + 1], &day), b"SHEET 19 0\n");
    }
}
