//! The sheet: its items, or the first field at fault.

use super::field::{field_at, u16_at, Field};
use super::value::count_fits;
use std::ops::RangeInclusive;

pub const MAX_LEVEL: usize = 64;

/// The most items of a sheet of this edition; none of an edition that is not known.
pub const fn item_limit(edition: u16) -> usize {
    match edition {
        1 => 1_024,
        2 => 4_096,
        _ => 0,
    }
}

/// A refusal: its number and the offset that goes with it.
#[derive(Clone, Copy, PartialEq, Eq, Debug)]
pub struct Fault {
    pub number: u64,
    pub offset: u64,
}

#[derive(Clone, Debug, PartialEq, Eq)]
pub struct Item {
    /// Where the item's field begins in the sheet.
    pub offset: usize,
    pub name: Vec<u8>,
    pub level: usize,
    /// None for an entry.
    pub figure: Option<Figure>,
}

#[derive(Clone, Debug, PartialEq, Eq)]
pub struct Figure {
    pub rule: u8,
    pub keep: bool,
    /// The sheet's byte, and what it is treated as.
    pub spread_byte: u8,
    pub spread: Spread,
    pub parents: Vec<usize>,
}

#[derive(Clone, Copy, Debug, PartialEq, Eq)]
pub enum Spread {
    Defer,
    Renew,
}

/// What a spread byte is treated as in a sheet of this edition; none if it is refused there.
pub const fn spread_of(edition: u16, byte: u8) -> Option<Spread> {
    match (edition, byte) {
        (_, 0) => Some(Spread::Defer),
        (_, 1) => Some(Spread::Renew),
        // It was forget.
        (1, 2) => Some(Spread::Defer),
        _ => None,
    }
}

/// The items of a sheet, or the first field at fault with its lowest number.
pub fn read_sheet(bytes: &[u8]) -> Result<Vec<Item>, Fault> {
    read_limited(bytes, &|edition| 1..=item_limit(edition))
}

/// The same, with the item counts that each edition may have.
pub fn read_limited(
    bytes: &[u8],
    counts: &dyn Fn(u16) -> RangeInclusive<usize>,
) -> Result<Vec<Item>, Fault> {
    let head = cut(bytes, 0)?;
    let (edition, count) = read_head(&head, counts).map_err(|number| fault(number, 0))?;
    let mut items: Vec<Item> = Vec::new();
    let mut offset = head.end();
    for _ in 0..count {
        let field = cut(bytes, offset)?;
        let item = read_item(edition, &field, &items).map_err(|number| fault(number, offset))?;
        items.push(item);
        offset = field.end();
    }
    let last = cut(bytes, offset)?;
    if last.tag != 4 {
        return Err(fault(2, offset));
    }
    if !last.content.is_empty() {
        return Err(fault(3, offset));
    }
    if last.end() != bytes.len() {
        return Err(fault(2, last.end()));
    }
    Ok(items)
}

fn fault(number: u64, offset: usize) -> Fault {
    Fault { number, offset: offset as u64 }
}

/// The field at an offset, or refusal 1.
fn cut(bytes: &[u8], offset: usize) -> Result<Field<'_>, Fault> {
    field_at(bytes, offset).ok_or(fault(1, offset))
}

/// The edition and the item count.
fn read_head(
    field: &Field,
    counts: &dyn Fn(u16) -> RangeInclusive<usize>,
) -> Result<(u16, usize), u64> {
    if field.tag != 1 {
        return Err(2);
    }
    if field.content.len() != 4 {
        return Err(3);
    }
    let edition = u16_at(field.content, 0);
    let count = u16_at(field.content, 2) as usize;
    if !counts(edition).contains(&count) {
        return Err(4);
    }
    Ok((edition, count))
}

/// The next item, after those before it.
fn read_item(edition: u16, field: &Field, before: &[Item]) -> Result<Item, u64> {
    match field.tag {
        2 => Ok(Item {
            offset: field.offset,
            name: read_name(field.content)?,
            level: 0,
            figure: None,
        }),
        3 => read_figure(edition, field, before),
        _ => Err(2),
    }
}

fn read_name(bytes: &[u8]) -> Result<Vec<u8>, u64> {
    let right = (1..=16).contains(&bytes.len()) && bytes.iter().all(|b| (33..=126).contains(b));
    if right {
        Ok(bytes.to_vec())
    } else {
        Err(3)
    }
}

fn read_figure(edition: u16, field: &Field, before: &[Item]) -> Result<Item, u64> {
    let content = field.content;
    if content.len() < 4 {
        return Err(3);
    }
    let (rule, keep, spread_byte, count) =
        (content[0], content[1], content[2], content[3] as usize);
    if content.len() < 4 + 2 * count {
        return Err(3);
    }
    let name = read_name(&content[4 + 2 * count..])?;
    if !count_fits(rule, count) || keep > 1 {
        return Err(5);
    }
    let spread = spread_of(edition, spread_byte).ok_or(5u64)?;
    let parents: Vec<usize> = (0..count).map(|k| u16_at(content, 4 + 2 * k) as usize).collect();
    if parents.iter().any(|&p| p >= before.len()) {
        return Err(6);
    }
    let level = 1 + parents.iter().map(|&p| before[p].level).max().unwrap();
    if level > MAX_LEVEL {
        return Err(7);
    }
    let figure = Figure { rule, keep: keep == 1, spread_byte, spread, parents };
    Ok(Item { offset: field.offset, name, level, figure: Some(figure) })
}

/// The index as an opening writes it.
pub fn index_of(items: &[Item]) -> Vec<u8> {
    items.iter().flat_map(|item| (item.offset as u32).to_le_bytes()).collect()
}

/// The example sheet of the paper.
pub const EXAMPLE: [u8; 46] = [
    0x01, 0x04, 0x00, 0x01, 0x00, 0x05, 0x00, 0x02, 0x01, 0x00, 0x41, 0x02, 0x01, 0x00, 0x4C, 0x02,
    0x01, 0x00, 0x53, 0x03, 0x09, 0x00, 0x01, 0x01, 0x00, 0x02, 0x00, 0x00, 0x02, 0x00, 0x54, 0x03,
    0x09, 0x00, 0x02, 0x00, 0x00, 0x02, 0x03, 0x00, 0x01, 0x00, 0x42, 0x04, 0x00, 0x00,
];

#[cfg(test)]
mod tests {
    use super::*;

    /// A field in bytes.
    fn field(tag: u8, content: &[u8]) -> Vec<u8> {
        let mut bytes = vec![tag];
        bytes.extend((content.len() as u16).to_le_bytes());
        bytes.extend(content);
        bytes
    }

    fn head(edition: u16, count: u16) -> Vec<u8> {
        let mut content = edition.to_le_bytes().to_vec();
        content.extend(count.to_le_bytes());
        field(1, &content)
    }

    fn entry() -> Vec<u8> {
        field(2, b"A")
    }

    fn figure(rule: u8, keep: u8, spread: u8, parents: &[u16], name: &[u8]) -> Vec<u8> {
        let mut content = vec![rule, keep, spread, parents.len() as u8];
        content.extend(parents.iter().flat_map(|p| p.to_le_bytes()));
        content.extend(name);
        field(3, &content)
    }

    fn end() -> Vec<u8> {
        field(4, &[])
    }

    fn refused(parts: &[Vec<u8>]) -> (u64, u64) {
        let f = read_sheet(&parts.concat()).unwrap_err();
        (f.number, f.offset)
    }

    fn accepted(parts: &[Vec<u8>]) -> Vec<Item> {
        read_sheet(&parts.concat()).unwrap()
    }

    #[test]
    fn the_example() {
        let items = read_sheet(&EXAMPLE).unwrap();
        let offsets: Vec<usize> = items.iter().map(|i| i.offset).collect();
        assert_eq!(offsets, [7, 11, 15, 19, 31]);
        assert_eq!(items[3].figure.as_ref().unwrap().parents, [0, 2]);
        assert!(items[3].figure.as_ref().unwrap().keep);
        assert_eq!(items[4].figure.as_ref().unwrap().parents, [3, 1]);
        assert_eq!(items[4].level, 2);
        assert_eq!(index_of(&items)[16..], [31, 0, 0, 0]);
    }

    #[test]
    fn every_cut_of_the_example_gives_1() {
        let starts = [0, 7, 11, 15, 19, 31, 43, 46];
        for length in 0..EXAMPLE.len() {
            let f = read_sheet(&EXAMPLE[..length]).unwrap_err();
            let start = starts.iter().rev().find(|&&s| s <= length).unwrap();
            assert_eq!((f.number, f.offset), (1, *start as u64), "length {length}");
        }
    }

    #[test]
    fn tags() {
        assert_eq!(refused(&[field(2, &[1, 0, 1, 0])]), (2, 0));
        assert_eq!(refused(&[head(1, 1), field(4, &[])]), (2, 7));
        assert_eq!(refused(&[head(1, 1), field(1, b"A")]), (2, 7));
        assert_eq!(refused(&[head(1, 1), entry(), entry()]), (2, 11));
        assert_eq!(refused(&[head(1, 1), entry(), end(), vec![0]]), (2, 14));
        assert_eq!(refused(&[head(1, 1), entry(), end(), end()]), (2, 14));
    }

    #[test]
    fn lengths_and_names() {
        assert_eq!(refused(&[field(1, &[1, 0, 1])]), (3, 0));
        assert_eq!(refused(&[field(1, &[1, 0, 1, 0, 0])]), (3, 0));
        assert_eq!(refused(&[head(1, 1), field(2, b"")]), (3, 7));
        assert_eq!(refused(&[head(1, 1), field(2, &[65; 17])]), (3, 7));
        assert_eq!(refused(&[head(1, 1), field(2, &[32])]), (3, 7));
        assert_eq!(refused(&[head(1, 1), field(2, &[65, 127])]), (3, 7));
        accepted(&[head(1, 1), field(2, &[33; 16]), end()]);
        accepted(&[head(1, 1), field(2, &[126]), end()]);
        assert_eq!(refused(&[head(1, 2), entry(), field(3, &[1, 0, 0])]), (3, 11));
        assert_eq!(refused(&[head(1, 2), entry(), figure(1, 0, 0, &[0], b"")]), (3, 11));
        assert_eq!(refused(&[head(1, 2), entry(), figure(1, 0, 0, &[0], &[65; 17])]), (3, 11));
        assert_eq!(refused(&[head(1, 2), entry(), figure(1, 0, 0, &[0], &[31])]), (3, 11));
        assert_eq!(refused(&[head(1, 2), entry(), field(3, &[1, 0, 0, 255, 0, 0, 65])]), (3, 11));
        accepted(&[head(1, 2), entry(), figure(1, 0, 0, &[0], &[65; 16]), end()]);
        assert_eq!(refused(&[head(1, 1), entry(), field(4, &[0])]), (3, 11));
    }

    /// So many entries, with a head that says so.
    fn entries(edition: u16, count: usize) -> Vec<u8> {
        [head(edition, count as u16), entry().repeat(count), end()].concat()
    }

    /// Each edition that is known has its own limit, and every other none. An edition has two bytes.
    #[test]
    fn edition_and_count() {
        for edition in [0, 3, 4, 255, 256, 257, 258, 512, 513, 32_769, 65_535] {
            for count in [0, 1, 5, 1_024, 4_096] {
                assert_eq!(refused(&[entries(edition, count)]), (4, 0), "{edition} {count}");
            }
        }
        for (edition, most) in [(1, 1_024), (2, 4_096)] {
            for count in [1, 2, 127, 128, 129, 1_023, 1_024, most - 1, most] {
                assert_eq!(accepted(&[entries(edition, count)]).len(), count);
            }
            for count in [0, most + 1, most + 2, 8_192, 65_535] {
                assert_eq!(refused(&[entries(edition, count)]), (4, 0), "{edition} {count}");
            }
        }
        assert_eq!(refused(&[entries(1, 4_096)]), (4, 0));
        assert_eq!(accepted(&[entries(2, 1_025)]).len(), 1_025);
    }

    /// The head's own faults, in their order: those of its form come before edition and count.
    #[test]
    fn a_head_at_fault() {
        for edition in [1, 2, 3] {
            for length in 0..7 {
                assert_eq!(refused(&[head(edition, 1)[..length].to_vec()]), (1, 0));
            }
            let mut other = head(edition, 4_097);
            other[0] = 2;
            assert_eq!(refused(&[other]), (2, 0));
            assert_eq!(refused(&[field(1, &[edition as u8, 0, 1, 16, 0])]), (3, 0));
            assert_eq!(refused(&[field(1, &[edition as u8, 0, 1])]), (3, 0));
            assert_eq!(refused(&[head(edition, 4_097), vec![9]]), (4, 0));
        }
    }

    /// A count that is not that of the items, on both sides of each limit.
    #[test]
    fn a_count_that_is_false() {
        for (edition, count) in [(1, 128), (2, 128), (1, 1_023), (2, 1_024), (2, 4_095)] {
            let items = entry().repeat(count);
            let after = 7 + 4 * count as u64;
            let more = head(edition, count as u16 + 1);
            assert_eq!(refused(&[more.clone(), items.clone(), end()]), (2, after));
            assert_eq!(refused(&[more, items.clone()]), (1, after));
            let fewer = head(edition, count as u16 - 1);
            assert_eq!(refused(&[fewer, items, end()]), (2, after - 4));
        }
    }

    /// Entry 0 and a figure of it with this spread, in each edition.
    fn with_spread(spread: u8) -> [Result<Vec<Item>, Fault>; 2] {
        [1, 2].map(|edition| {
            let parts = [head(edition, 2), entry(), figure(1, 1, spread, &[0], b"F"), end()];
            read_sheet(&parts.concat())
        })
    }

    /// What an edition does not decide is the same in both.
    #[test]
    fn both_editions_have_the_same_items() {
        let mut second = EXAMPLE;
        second[3] = 2;
        assert_eq!(read_sheet(&second), read_sheet(&EXAMPLE));
        for spread in (0..=255).filter(|&spread| spread != 2) {
            let [first, second] = with_spread(spread);
            assert_eq!(first, second);
            assert_eq!(first.is_ok(), spread < 2);
        }
    }

    /// Edition 1 takes it as spread 0, and the byte is kept. Edition 2 refuses it.
    #[test]
    fn spread_2() {
        let [first, second] = with_spread(2);
        assert_eq!(second.unwrap_err(), Fault { number: 5, offset: 11 });
        let mut items = first.unwrap();
        let figure = items[1].figure.as_mut().unwrap();
        assert_eq!((figure.spread_byte, figure.spread), (2, Spread::Defer));
        figure.spread_byte = 0;
        assert_eq!(items, with_spread(0)[0].clone().unwrap());
        assert_eq!(
            with_spread(1)[0].clone().unwrap()[1].figure.as_ref().unwrap().spread,
            Spread::Renew
        );
    }

    /// The first figure that holds it counts, and in its field the lowest number.
    #[test]
    fn spread_2_among_other_faults() {
        let forgets = |parents: &[u16], name: &[u8]| figure(1, 0, 2, parents, name);
        let right = figure(1, 0, 0, &[0], b"F");
        let two = [head(2, 3), entry(), forgets(&[0], b"F"), forgets(&[0], b"F"), end()];
        assert_eq!(refused(&two), (5, 11));
        let last = [head(2, 3), entry(), right.clone(), forgets(&[0], b"F"), vec![9]];
        assert_eq!(refused(&last), (5, 21));
        // With 6 or 7, or a fault after it.
        assert_eq!(refused(&[head(2, 2), entry(), forgets(&[1], b"F"), end()]), (5, 11));
        let mut high = chain(65);
        (high[0], high[66]) = (head(2, 66), forgets(&[64], b"F"));
        let offset: usize = high[..66].iter().map(Vec::len).sum();
        assert_eq!(refused(&high), (5, offset as u64));
        assert_eq!(
            refused(&[head(2, 3), entry(), forgets(&[0], b"F"), entry()[..3].to_vec()]),
            (5, 11)
        );
        // With 1, 2 or 3, or a fault before it.
        assert_eq!(refused(&[head(2, 2), entry(), forgets(&[0], b"F")[..9].to_vec()]), (1, 11));
        assert_eq!(refused(&[head(2, 1), entry(), forgets(&[0], b"F"), end()]), (2, 11));
        assert_eq!(refused(&[head(2, 2), entry(), forgets(&[0], b" "), end()]), (3, 11));
        assert_eq!(refused(&[head(2, 2), field(2, b" "), forgets(&[0], b"F"), end()]), (3, 7));
        assert_eq!(refused(&[head(3, 2), entry(), forgets(&[0], b"F"), end()]), (4, 0));
    }

    /// The longest sheet: 4,096 items of 55 bytes, the last with parents up to item 4,094.
    #[test]
    fn the_longest_sheet() {
        let mut parts = vec![head(2, 4_096), field(2, &[33; 16])];
        for i in 1..4_096u16 {
            let parents: Vec<u16> =
                (0..16).map(|k| if i == 4_095 { 4_079 + k } else { 0 }).collect();
            parts.push(figure(1, 1, 1, &parents, &[126; 16]));
        }
        parts.push(end());
        let items = accepted(&parts);
        assert_eq!(items[4_095].figure.as_ref().unwrap().parents[15], 4_094);
        assert_eq!((items[4_095].level, items[4_095].offset), (2, 7 + 19 + 4_094 * 55));
        assert_eq!(index_of(&items)[4 * 4_095..], (225_196u32).to_le_bytes());
        // A parent that fits 12 bits only if it is cut.
        parts[4_096] = figure(1, 1, 1, &[4_096], b"F");
        assert_eq!(refused(&parts), (6, 225_196));
        parts[4_096] = figure(1, 1, 1, &[4_095], b"F");
        assert_eq!(refused(&parts), (6, 225_196));
        parts[4_096] = figure(1, 1, 2, &[4_095], b"F");
        assert_eq!(refused(&parts), (5, 225_196));
    }

    #[test]
    fn rule_keep_spread_count() {
        let bad = |f: Vec<u8>| assert_eq!(refused(&[head(1, 2), entry(), f]), (5, 11));
        bad(figure(0, 0, 0, &[0], b"F"));
        bad(figure(9, 0, 0, &[0], b"F"));
        bad(figure(1, 2, 0, &[0], b"F"));
        bad(figure(1, 0, 3, &[0], b"F"));
        bad(figure(1, 0, 0, &[], b"F"));
        bad(figure(1, 0, 0, &[0; 17], b"F"));
        bad(figure(2, 0, 0, &[0], b"F"));
        bad(figure(6, 0, 0, &[0, 0], b"F"));
        accepted(&[head(1, 2), entry(), figure(1, 1, 2, &[0; 16], b"F"), end()]);
        accepted(&[head(1, 2), entry(), figure(6, 1, 2, &[0; 3], b"F"), end()]);
    }

    #[test]
    fn parents_and_the_lowest_number() {
        assert_eq!(refused(&[head(1, 2), entry(), figure(1, 0, 0, &[1], b"F")]), (6, 11));
        assert_eq!(refused(&[head(1, 2), entry(), figure(1, 0, 0, &[256], b"F")]), (6, 11));
        assert_eq!(refused(&[head(1, 1), figure(1, 0, 0, &[0], b"F")]), (6, 7));
        // Rule and parent wrong: 5. Name, rule and parent wrong: 3.
        assert_eq!(refused(&[head(1, 2), entry(), figure(9, 0, 0, &[1], b"F")]), (5, 11));
        assert_eq!(refused(&[head(1, 2), entry(), figure(9, 0, 0, &[1], b" ")]), (3, 11));
        // A later field at fault does not count.
        assert_eq!(refused(&[head(1, 2), figure(1, 0, 0, &[0], b"F"), vec![9]]), (6, 7));
    }

    /// A chain of figures up to a level.
    pub fn chain(levels: u16) -> Vec<Vec<u8>> {
        let mut parts = vec![head(1, levels + 1), entry()];
        parts.extend((0..levels).map(|p| figure(1, 0, 0, &[p, p], b"F")));
        parts.push(end());
        parts
    }

    #[test]
    fn levels_64_and_65() {
        assert_eq!(accepted(&chain(64))[64].level, 64);
        let offset: usize = chain(65)[..66].iter().map(Vec::len).sum();
        assert_eq!(refused(&chain(65)), (7, offset as u64));
    }
}
