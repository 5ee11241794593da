//! Small sheets with every keep and spreads 0 and 1, or 1 and 2, and all their tables with a few values.

use crate::gen::{make_owed_true, spec_figure, write_edition, Spec};
use crate::model::sheet::read_sheet;
use crate::model::table::RECORD;

/// The items after entry 0: the rule and the parents of a figure; rule 0 is an entry.
#[derive(Clone, Copy, Debug)]
pub struct Small(pub &'static [(u8, &'static [u16])]);

const ENTRY: (u8, &[u16]) = (0, &[]);

pub const ONE: [Small; 1] = [Small(&[])];

/// Every rule.
pub const TWO: [Small; 10] = [
    Small(&[ENTRY]),
    Small(&[(1, &[0])]),
    Small(&[(1, &[0, 0])]),
    Small(&[(2, &[0, 0])]),
    Small(&[(3, &[0])]),
    Small(&[(4, &[0])]),
    Small(&[(5, &[0, 0])]),
    Small(&[(6, &[0, 0, 0])]),
    Small(&[(7, &[0])]),
    Small(&[(8, &[0, 0])]),
];

/// A chain, two figures of one entry, a figure of both, repeated parents, two entries; other rules.
pub const THREE: [Small; 12] = [
    Small(&[(1, &[0]), (1, &[1])]),
    Small(&[(1, &[0]), (1, &[0])]),
    Small(&[(1, &[0]), (1, &[0, 1])]),
    Small(&[(1, &[0, 0]), (1, &[1, 0, 1])]),
    Small(&[(7, &[0]), (2, &[0, 1])]),
    Small(&[(8, &[0, 0]), (6, &[0, 1, 0])]),
    Small(&[(3, &[0]), (6, &[1, 0, 1])]),
    Small(&[(4, &[0, 0]), (8, &[1, 0])]),
    Small(&[(5, &[0, 0]), (7, &[1, 0, 1])]),
    Small(&[(1, &[0]), ENTRY]),
    Small(&[ENTRY, (1, &[0, 1])]),
    Small(&[ENTRY, (6, &[1, 0, 1])]),
];

/// The same with a figure more: a diamond, a fan, and each figure of all items below it.
pub const FOUR: [Small; 14] = [
    Small(&[(1, &[0]), (1, &[1]), (1, &[2])]),
    Small(&[(1, &[0]), (1, &[0]), (1, &[1, 2])]),
    Small(&[(1, &[0]), (1, &[0]), (1, &[0])]),
    Small(&[(1, &[0]), (1, &[0, 1]), (1, &[0, 1, 2])]),
    Small(&[(1, &[0]), (1, &[0, 1]), (1, &[2])]),
    Small(&[(1, &[0]), (1, &[1]), (1, &[2, 1, 2])]),
    Small(&[(1, &[0, 0]), (1, &[1, 1]), (1, &[1, 0, 2])]),
    Small(&[(1, &[0]), (2, &[0, 1]), (6, &[0, 1, 2])]),
    Small(&[(8, &[0, 0]), (1, &[1, 0]), (6, &[2, 1, 0])]),
    Small(&[(1, &[0]), (7, &[0, 1]), (2, &[2, 1])]),
    Small(&[(3, &[0]), (8, &[0, 1]), (4, &[1, 2])]),
    Small(&[ENTRY, (1, &[0, 1]), (1, &[2, 0])]),
    Small(&[ENTRY, (1, &[0]), (6, &[1, 2, 0])]),
    Small(&[(1, &[0]), ENTRY, (2, &[2, 1])]),
];

/// Kinds and numbers of the entries and of the figures in tables.
pub struct Values {
    pub entries: &'static [(u8, i64)],
    pub figures: &'static [(u8, i64)],
}

/// For sheets of three items or fewer, and of four.
pub const MANY: Values =
    Values { entries: &[(1, 0), (3, 3), (3, -1)], figures: &[(1, 0), (2, 0), (3, 3), (3, -1)] };
pub const FEW: Values = Values { entries: &[(3, 3)], figures: &[(1, 0), (3, 3)] };

impl Small {
    /// Keep and spread of its figures: each keep, with spreads 0 and 1, or 2 and 1.
    fn forms(&self) -> Vec<Vec<(u8, u8)>> {
        let figures = self.0.iter().filter(|item| item.0 != 0).count() as u32;
        let form = |way: u32| {
            let digits = (0..figures).map(|k| (way / 6u32.pow(k) % 6) as u8);
            digits.map(|digit| (digit % 2, digit / 2)).collect()
        };
        let has = |form: &[(u8, u8)], spread| form.iter().any(|figure| figure.1 == spread);
        let forms = (0..6u32.pow(figures)).map(form);
        forms.filter(|form: &Vec<(u8, u8)>| !has(form, 0) || !has(form, 2)).collect()
    }

    /// How many keeps and spreads its figures can have.
    pub fn ways(&self) -> u64 {
        self.forms().len() as u64
    }

    /// The sheet with one of them, of either edition; with spread 2 of edition 1.
    pub fn sheet(&self, way: u64) -> Vec<u8> {
        let form = &self.forms()[way as usize];
        let edition = match form.iter().any(|figure| figure.1 == 2) {
            true => 1,
            false => 1 + (way / 3 % 2) as u16,
        };
        let mut form = form.iter();
        let mut specs = vec![Spec::Entry(b"A".to_vec())];
        for &(rule, parents) in self.0 {
            if rule == 0 {
                specs.push(Spec::Entry(b"A".to_vec()));
                continue;
            }
            let &(keep, spread) = form.next().unwrap();
            specs.push(spec_figure(rule, keep, spread, parents));
        }
        write_edition(edition, &specs)
    }
}

/// Each kind, mark and number that a record can have, of these values.
fn records(figure: bool, values: &Values) -> Vec<(u8, u8, i64)> {
    let with = |marks: &[u8], of: &[(u8, i64)]| -> Vec<(u8, u8, i64)> {
        let marked = |mark| of.iter().map(move |&(kind, number)| (kind, mark, number));
        marks.iter().flat_map(|&mark| marked(mark)).collect()
    };
    match figure {
        true => [with(&[0, 2], &[(0, 0)]), with(&[0, 1, 2], values.figures)].concat(),
        false => with(&[0, 2], values.entries),
    }
}

/// Every accepted table of a sheet with these values.
pub fn tables(sheet: &[u8], values: &Values) -> impl Iterator<Item = Vec<u8>> {
    let items = read_sheet(sheet).unwrap();
    let all: Vec<_> = items.iter().map(|item| records(item.figure.is_some(), values)).collect();
    (0..all.iter().map(Vec::len).product()).map(move |turn: usize| {
        let (mut table, mut rest) = (Vec::with_capacity(RECORD * items.len()), turn);
        for records in &all {
            let (kind, mark, number) = records[rest % records.len()];
            rest /= records.len();
            table.extend([kind, mark]);
            table.extend(number.to_le_bytes());
            table.push(0);
        }
        make_owed_true(&items, &mut table);
        table
    })
}

#[cfg(test)]
mod tests {
    use super::*;
    use crate::model::table::decode;
    use std::collections::HashSet;

    /// Each sheet is accepted, its tables too, and no two of these are the same.
    #[test]
    fn tables_are_accepted() {
        for (small, items, values) in
            [(&ONE[..], 1, MANY), (&TWO, 2, MANY), (&THREE, 3, MANY), (&FOUR, 4, FEW)]
        {
            for small in small {
                let sheet = small.sheet(small.ways() - 1);
                let read = read_sheet(&sheet).unwrap();
                assert_eq!(read.len(), items);
                let all: Vec<Vec<u8>> = tables(&sheet, &values).collect();
                assert!(all.iter().all(|table| decode(&read, table).is_some()));
                assert_eq!(all.iter().collect::<HashSet<_>>().len(), all.len());
                let figures = read.iter().filter(|item| item.figure.is_some()).count() as u32;
                let (entry, figure) = (2 * values.entries.len(), 2 + 3 * values.figures.len());
                assert_eq!(all.len(), entry.pow(items as u32 - figures) * figure.pow(figures));
            }
        }
    }

    #[test]
    fn every_way_is_another_sheet() {
        for small in THREE.iter().chain(&FOUR) {
            let sheets: HashSet<Vec<u8>> = (0..small.ways()).map(|way| small.sheet(way)).collect();
            assert_eq!(sheets.len() as u64, small.ways());
        }
    }
}
