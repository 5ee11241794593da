//! Items and fields as bytes.

use crate::model::field::field_at;
use crate::model::sheet::{item_limit, spread_of};
use crate::rng::Rng;

/// An item to be written.
#[derive(Clone, Debug)]
pub enum Spec {
    Entry(Vec<u8>),
    Figure { rule: u8, keep: u8, spread: u8, parents: Vec<u16>, name: Vec<u8> },
}

pub fn spec_figure(rule: u8, keep: u8, spread: u8, parents: &[u16]) -> Spec {
    Spec::Figure { rule, keep, spread, parents: parents.to_vec(), name: b"F".to_vec() }
}

/// A field to be written; its length byte may be made to lie.
#[derive(Clone, Debug)]
pub struct Raw {
    pub tag: u8,
    pub content: Vec<u8>,
    pub length: Option<u16>,
}

pub fn raw(tag: u8, content: Vec<u8>) -> Raw {
    Raw { tag, content, length: None }
}

pub fn raw_sheet(edition: u16, specs: &[Spec]) -> Vec<Raw> {
    let mut head = edition.to_le_bytes().to_vec();
    head.extend((specs.len() as u16).to_le_bytes());
    let mut fields = vec![raw(1, head)];
    for spec in specs {
        fields.push(match spec {
            Spec::Entry(name) => raw(2, name.clone()),
            Spec::Figure { rule, keep, spread, parents, name } => {
                let mut content = vec![*rule, *keep, *spread, parents.len() as u8];
                content.extend(parents.iter().flat_map(|p| p.to_le_bytes()));
                content.extend(name);
                raw(3, content)
            }
        });
    }
    fields.push(raw(4, vec![]));
    fields
}

pub fn write_raw(fields: &[Raw]) -> Vec<u8> {
    let mut bytes = Vec::new();
    for field in fields {
        bytes.push(field.tag);
        bytes.extend(field.length.unwrap_or(field.content.len() as u16).to_le_bytes());
        bytes.extend(&field.content);
    }
    bytes
}

/// A sheet of edition 1.
pub fn write_sheet(specs: &[Spec]) -> Vec<u8> {
    write_edition(1, specs)
}

pub fn write_edition(edition: u16, specs: &[Spec]) -> Vec<u8> {
    write_raw(&raw_sheet(edition, specs))
}

/// An edition that takes so many items.
pub fn any_edition(rng: &mut Rng, count: usize) -> u16 {
    match count > item_limit(1) {
        true => 2,
        false => *rng.pick(&[1, 2]),
    }
}

/// The items with spreads that the edition has: another becomes 0 or 1.
pub fn for_edition(rng: &mut Rng, edition: u16, specs: &[Spec]) -> Vec<Spec> {
    let mut specs = specs.to_vec();
    for spec in &mut specs {
        if let Spec::Figure { spread, .. } = spec {
            if spread_of(edition, *spread).is_none() {
                *spread = rng.below(2) as u8;
            }
        }
    }
    specs
}

/// A sheet of either edition, if both take its items, with spreads that it has.
pub fn write_any(rng: &mut Rng, specs: &[Spec]) -> Vec<u8> {
    let edition = any_edition(rng, specs.len());
    write_edition(edition, &for_edition(rng, edition, specs))
}

/// The sheet with another edition in its head, whatever else is in it.
pub fn in_edition(edition: u16, sheet: &[u8]) -> Vec<u8> {
    let mut sheet = sheet.to_vec();
    sheet[3..5].copy_from_slice(&edition.to_le_bytes());
    sheet
}

/// The place of the spread byte in a figure's field.
const SPREAD: usize = 5;

/// Where the spread bytes are, lowest first, as far as the sheet can be cut into fields.
pub fn spread_places(sheet: &[u8]) -> Vec<usize> {
    let (mut at, mut places) = (0, Vec::new());
    while let Some(field) = field_at(sheet, at) {
        if field.tag == 3 && field.content.len() >= 4 {
            places.push(at + SPREAD);
        }
        at = field.end();
    }
    places
}

/// Where the field of the first figure with spread 2 begins, or of the last.
pub fn first_spread_2(sheet: &[u8]) -> Option<usize> {
    spread_places(sheet).into_iter().find(|&at| sheet[at] == 2).map(|at| at - SPREAD)
}

pub fn last_spread_2(sheet: &[u8]) -> Option<usize> {
    spread_places(sheet).into_iter().rfind(|&at| sheet[at] == 2).map(|at| at - SPREAD)
}

/// The sheet with another byte for each spread byte.
pub fn with_spreads(sheet: &[u8], mut other: impl FnMut(u8) -> u8) -> Vec<u8> {
    let mut changed = sheet.to_vec();
    spread_places(sheet).into_iter().for_each(|at| changed[at] = other(sheet[at]));
    changed
}

/// The sheet with 0 for each spread 2.
pub fn deferring(sheet: &[u8]) -> Vec<u8> {
    with_spreads(sheet, |byte| if byte == 2 { 0 } else { byte })
}

/// Entry 0 and a chain of sums above it, each of the item before, keep and spread 0.
pub fn plain_chain(levels: u16) -> Vec<u8> {
    let mut specs = vec![Spec::Entry(b"A".to_vec())];
    specs.extend((0..levels).map(|p| spec_figure(1, 0, 0, &[p])));
    write_sheet(&specs)
}
