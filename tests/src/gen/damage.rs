//! Sheets past a limit, and bytes damaged in one to three places.

use super::sheets::{random_specs, small_specs, tower};
use super::write::{
    any_edition, for_edition, raw, raw_sheet, write_any, write_edition, write_raw, Raw, Spec,
};
use crate::model::sheet::{item_limit, MAX_LEVEL};
use crate::rng::Rng;

/// A sheet just past a limit, or changed in one to three places. It may still be accepted.
pub fn bad_sheet(rng: &mut Rng) -> Vec<u8> {
    match rng.below(20) {
        0..=2 => too_high(rng),
        3 => {
            let edition = if rng.percent(10) { 2 } else { 1 };
            let entries = rng.between(20, 80);
            write_edition(edition, &random_specs(rng, item_limit(edition) + 1, entries, 5))
        }
        _ => {
            let specs = small_specs(rng);
            damaged_sheet(rng, &specs)
        }
    }
}

/// The fields of a sheet of either edition. In edition 2 spread 2 stays in one of ten, and is refused.
fn any_fields(rng: &mut Rng, specs: &[Spec]) -> Vec<Raw> {
    let edition = any_edition(rng, specs.len());
    match rng.percent(10) {
        true => raw_sheet(edition, specs),
        false => raw_sheet(edition, &for_edition(rng, edition, specs)),
    }
}

/// A tower with a figure above the highest level, which may have other faults too.
fn too_high(rng: &mut Rng) -> Vec<u8> {
    let levels = rng.between(MAX_LEVEL as u64 + 1, MAX_LEVEL as u64 + 3) as usize;
    let specs = tower(rng, levels);
    let mut fields = any_fields(rng, &specs);
    if rng.percent(60) {
        // After the head, the entries and the highest level.
        let at = 1 + specs.len() - levels + MAX_LEVEL;
        for _ in 0..rng.between(1, 2) {
            damage_content(rng, &mut fields[at], at);
        }
    }
    write_raw(&fields)
}

/// The sheet changed in one to three places.
pub fn damaged_sheet(rng: &mut Rng, specs: &[Spec]) -> Vec<u8> {
    if rng.percent(30) {
        let sheet = write_any(rng, specs);
        return damaged(rng, &sheet);
    }
    let mut fields = any_fields(rng, specs);
    let same_field = rng.percent(50);
    let mut at = rng.below(fields.len() as u64) as usize;
    for _ in 0..rng.between(1, 3) {
        if !same_field || at >= fields.len() {
            at = rng.below(fields.len() as u64) as usize;
        }
        damage_field(rng, &mut fields, at);
        if fields.is_empty() {
            break;
        }
    }
    write_raw(&fields)
}

fn damage_field(rng: &mut Rng, fields: &mut Vec<Raw>, at: usize) {
    let field = &mut fields[at];
    match rng.below(12) {
        0 => field.tag = *rng.pick(&[0, 1, 2, 3, 4, 5, 16, 255]),
        1 => {
            let length = field.content.len() as i64 + *rng.pick(&[-2, -1, 1, 2, 256]);
            field.length = Some(length.clamp(0, 65_535) as u16);
        }
        2 => {
            fields.remove(at);
        }
        3 => {
            let again = field.clone();
            fields.insert(at, again);
        }
        4 => {
            let bytes = [0, 1, 32, 33, 126, 127, 255];
            field.content.push(*rng.pick(&bytes));
        }
        5 => {
            field.content.pop();
        }
        6 => {
            let more = rng.between(1, 20) as usize;
            field.content.extend(vec![b'x'; more]);
        }
        7 => fields.push(raw(*rng.pick(&[0, 2, 4]), vec![])),
        _ => damage_content(rng, field, at),
    }
}

fn damage_content(rng: &mut Rng, field: &mut Raw, at: usize) {
    let content = &mut field.content;
    if field.tag == 1 && content.len() == 4 {
        let edition = *rng.pick(&[0, 1, 1, 1, 2, 2, 2, 3, 256, 257, 258]);
        let count = u16::from_le_bytes([content[2], content[3]]);
        let beside = [count.wrapping_sub(1), count.wrapping_add(1)];
        let limit = *rng.pick(&[128, 129, 1_024, 1_025, 4_096, 4_097, 65_535]);
        let count = *rng.pick(&[0, count, count, beside[0], beside[1], limit, limit]);
        content[..2].copy_from_slice(&u16::to_le_bytes(edition));
        content[2..].copy_from_slice(&u16::to_le_bytes(count));
    } else if field.tag == 3 && content.len() > 6 {
        match rng.below(6) {
            0 => content[0] = *rng.pick(&[0, 1, 2, 5, 6, 7, 8, 9, 255]),
            1 => content[1] = *rng.pick(&[0, 1, 2, 255]),
            2 => content[2] = *rng.pick(&[0, 1, 2, 2, 3, 3, 4, 255]),
            3 => content[3] = *rng.pick(&[0, 1, 2, 3, 16, 17, 127, 128, 255]),
            4 => {
                // The field at place 1 is item 0.
                let own = at.saturating_sub(1) as u16;
                let parent =
                    *rng.pick(&[own, own + 1, own + 256, own + 1_024, 1_024, 4_096, 65_535]);
                let place = if content.len() > 8 { rng.below(2) as usize } else { 0 };
                content[4 + 2 * place..6 + 2 * place].copy_from_slice(&parent.to_le_bytes());
            }
            _ => *content.last_mut().unwrap() = *rng.pick(&[0, 32, 33, 126, 127, 255]),
        }
        if rng.percent(10) {
            content[2] = 2;
        }
    } else if !content.is_empty() {
        let place = rng.below(content.len() as u64) as usize;
        content[place] = *rng.pick(&[0, 32, 33, 126, 127, 128, 255]);
    }
}

/// Any bytes changed in one to three places.
pub fn damaged(rng: &mut Rng, bytes: &[u8]) -> Vec<u8> {
    let mut bytes = bytes.to_vec();
    for _ in 0..rng.between(1, 3) {
        let place = rng.below(bytes.len() as u64 + 1) as usize;
        match rng.below(9) {
            0 => bytes.insert(place, rng.word() as u8),
            1 => bytes.truncate(place),
            2 => bytes.push(rng.word() as u8),
            _ if place == bytes.len() => {}
            3 => {
                bytes.remove(place);
            }
            4 => bytes[place] ^= 1 << rng.below(8),
            5 => bytes[place] = bytes[place].wrapping_add(1),
            6 => bytes[place] = bytes[place].wrapping_sub(1),
            7 => bytes[place] = rng.word() as u8,
            _ => bytes[place] = *rng.pick(&[0, 1, 2, 3, 4, 255]),
        }
    }
    bytes
}
