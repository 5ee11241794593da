//! Random sheets, tables, calls, swaps, boards and day logs, whole and damaged.

mod boards;
mod calls;
mod damage;
mod sheets;
mod swaps;
mod tables;
mod write;

pub use boards::{any_board, board_of, good_board};
pub use calls::{any_call, bad_post, day_field, day_log, good_post, other_call};
pub use damage::{bad_sheet, damaged, damaged_sheet};
pub use sheets::{guard_specs, random_specs, shape, sheet, small_specs, Shape};
pub use swaps::{any_swap, bad_swap, good_swap, numbers_of};
pub use tables::{
    accepted_table, beyond, choose_numbers, damaged_index, damaged_table, make_owed_true, narrow,
    number, older_table, share_pair, Numbers, OLDER_LIMIT,
};
pub use write::{
    deferring, first_spread_2, for_edition, in_edition, last_spread_2, plain_chain, spec_figure,
    spread_places, with_spreads, write_any, write_edition, write_sheet, Spec,
};

#[cfg(test)]
mod tests {
    use super::*;
    use crate::model::calls::Call;
    use crate::model::field::{field_at, u16_at};
    use crate::model::machine::Machine;
    use crate::model::sheet::read_sheet;
    use crate::model::sheet::{item_limit, Item, MAX_LEVEL};
    use crate::model::table::{decode, RECORD};
    use crate::model::value::{count_fits, Value, LIMIT, WHOLE};
    use crate::rng::Rng;

    #[test]
    fn sheets_are_accepted() {
        let mut rng = Rng::new(1);
        for shape in [Shape::Small, Shape::Medium, Shape::Deep, Shape::Wide, Shape::Vast] {
            let mut editions = [0; 3];
            for _ in 0..20 {
                let specs = sheet(&mut rng, shape);
                let bytes = write_any(&mut rng, &specs);
                editions[u16_at(&bytes, 3) as usize] += 1;
                let items = read_sheet(&bytes).unwrap();
                assert_eq!(items.len(), specs.len());
                assert_eq!(items.len() > item_limit(1), shape == Shape::Vast);
                let table = accepted_table(&mut rng, &items);
                assert!(decode(&items, &table).is_some());
            }
            assert!(editions[2] > 2 && (editions[1] > 2 || shape == Shape::Vast), "{editions:?}");
        }
    }

    /// Random sheets have each rule with each keep, spread and parent count, and reach the limits.
    #[test]
    fn sheets_have_everything() {
        let mut rng = Rng::new(5);
        let mut met = [[[[0; 17]; 3]; 2]; 9];
        let (mut highest, mut most) = (0, 0);
        for _ in 0..6_000 {
            let shape = shape(&mut rng);
            let specs = sheet(&mut rng, shape);
            let items = read_sheet(&write_any(&mut rng, &specs)).unwrap();
            most = most.max(items.len());
            highest = highest.max(items.iter().map(|i| i.level).max().unwrap());
            for f in items.iter().filter_map(|i| i.figure.as_ref()) {
                met[f.rule as usize][f.keep as usize][f.spread_byte as usize][f.parents.len()] += 1;
            }
        }
        assert_eq!((highest, most), (MAX_LEVEL, item_limit(2)));
        for rule in 1..=8 {
            for count in (1..=16).filter(|&c| count_fits(rule, c)) {
                let least = met[rule as usize].iter().flatten().map(|m| m[count]).min();
                assert!(least > Some(0), "rule {rule} of {count} parents");
            }
        }
    }

    /// Tables have each kind with each mark that it can have, and values that are not right.
    #[test]
    fn tables_have_marks_and_stale_values() {
        let mut rng = Rng::new(6);
        let (mut entries, mut figures) = ([[0; 3]; 4], [[0; 3]; 4]);
        let mut stale = 0;
        for _ in 0..400 {
            let items = read_sheet(&write_sheet(&small_specs(&mut rng))).unwrap();
            let table = accepted_table(&mut rng, &items);
            let mut machine = Machine::new(&items, decode(&items, &table).unwrap());
            for (i, cell) in table.chunks(RECORD).enumerate() {
                let met = if items[i].figure.is_some() { &mut figures } else { &mut entries };
                met[cell[0] as usize][cell[1] as usize] += 1;
            }
            for i in (0..items.len()).filter(|&i| items[i].figure.is_some()) {
                let stored = machine.cells[i].stored;
                machine.drop(i);
                stale += (stored.is_some() && stored != Some(machine.look_up(i).0)) as u64;
            }
        }
        let met = [entries[1][0], entries[1][2], entries[3][0], entries[3][2]];
        assert!(met.iter().all(|&m| m > 0), "{entries:?}");
        assert!(figures[0][0] > 0 && figures[0][2] > 0, "{figures:?}");
        assert!(figures[1..].iter().flatten().all(|&m| m > 0), "{figures:?}");
        assert!(stale > 300, "{stale}");
    }

    /// Numbers of older tables reach the limits of the range before, and do not pass them.
    #[test]
    fn older_tables_are_of_the_range_before() {
        let mut rng = Rng::new(8);
        let (mut least, mut most, mut out) = (0, 0, 0);
        for _ in 0..200 {
            let items = read_sheet(&write_sheet(&small_specs(&mut rng))).unwrap();
            for cell in decode(&items, &older_table(&mut rng, &items)).unwrap() {
                match cell.stored {
                    Some(Value::Number(x)) => (least, most) = (x.min(least), x.max(most)),
                    stored => out += (stored == Some(Value::Out)) as u64,
                }
            }
        }
        assert_eq!((least, most), (-OLDER_LIMIT, OLDER_LIMIT));
        assert!(out > 20, "{out}");
    }

    /// Pairs for shares are of both signs, and their products on both sides of 2^63.
    #[test]
    fn pairs_leave_signed_64_bits() {
        let mut rng = Rng::new(9);
        let mut met = [[0; 2]; 2];
        for _ in 0..2_000 {
            let (first, second) = share_pair(&mut rng);
            assert!((-LIMIT..=LIMIT).contains(&first) && (0..=WHOLE).contains(&second));
            met[(first < 0) as usize][first.checked_mul(second).is_none() as usize] += 1;
        }
        assert!(met.iter().flatten().all(|&m| m > 100), "{met:?}");
    }

    /// Each call is made with the largest item number, and with one that is cut to a good one.
    #[test]
    fn item_numbers_go_to_the_largest() {
        let mut rng = Rng::new(7);
        let (mut largest, mut cut) = ([0; 5], [0; 5]);
        for _ in 0..60_000 {
            let items = read_sheet(&plain_chain(3)).unwrap();
            let (at, item) = match any_call(&mut rng, &items, &[], Numbers::Any) {
                Call::Post { item, .. } => (0, item),
                Call::Keep { item } => (1, item),
                Call::Drop { item } => (2, item),
                Call::Step { item } => (3, item),
                Call::Ask { item } => (4, item),
            };
            largest[at] += (item == u64::MAX) as u64;
            cut[at] += (item > 65_535 && item % 65_536 < 4) as u64;
        }
        assert!(largest.iter().chain(&cut).all(|&m| m > 5), "{largest:?} {cut:?}");
    }

    #[test]
    fn bad_sheets_meet_every_refusal() {
        let mut rng = Rng::new(2);
        let mut met = [[0; 8]; 3];
        for _ in 0..8_000 {
            let bytes = bad_sheet(&mut rng);
            let edition = bytes.get(3).map_or(0, |&edition| edition.min(2)) as usize;
            met[edition][read_sheet(&bytes).map_or_else(|f| f.number, |_| 0) as usize] += 1;
        }
        assert!(met[1..].iter().flatten().all(|&m| m >= 20), "{met:?}");
    }

    /// Spread 2 becomes 0 or 1 where the edition does not have it, and all else stays.
    #[test]
    fn sheets_have_spreads_of_their_edition() {
        let mut rng = Rng::new(10);
        let mut met = [[0; 3]; 3];
        for _ in 0..500 {
            let specs = small_specs(&mut rng);
            let sheets = [1, 2].map(|e| write_edition(e, &for_edition(&mut rng, e, &specs)));
            assert_eq!(sheets[0], write_sheet(&specs));
            assert!(read_sheet(&sheets[1]).is_ok());
            for at in spread_places(&sheets[0]) {
                met[sheets[0][at] as usize][sheets[1][at] as usize] += 1;
            }
            let [one, two] = sheets.map(|sheet| with_spreads(&sheet, |_| 0));
            assert_eq!(in_edition(2, &one), two);
        }
        assert!([met[0][0], met[1][1], met[2][0], met[2][1]].iter().all(|&m| m > 100), "{met:?}");
        assert_eq!([met[0][1], met[0][2], met[1][0], met[1][2], met[2][2]], [0; 5]);
    }

    /// The figures with spread 2, also of a sheet that is cut.
    #[test]
    fn spreads_are_found() {
        let specs: Vec<Spec> = [0, 2, 1, 2].map(|s| spec_figure(1, 0, s, &[0])).to_vec();
        let sheet = write_sheet(&[vec![Spec::Entry(b"A".to_vec())], specs].concat());
        assert_eq!(spread_places(&sheet), [16, 26, 36, 46]);
        assert_eq!((first_spread_2(&sheet), last_spread_2(&sheet)), (Some(21), Some(41)));
        let right = with_spreads(&sheet, |byte| byte % 2);
        assert_eq!((deferring(&sheet), first_spread_2(&right)), (right, None));
        let cut = &sheet[..50];
        assert_eq!((spread_places(cut).len(), last_spread_2(cut)), (3, Some(21)));
    }

    /// Every number that a figure's field is at fault with, its parents read as far as they go.
    fn all_faults(edition: u16, content: &[u8], before: &[Item]) -> Vec<u64> {
        if content.len() < 4 {
            return vec![3];
        }
        let count = content[3] as usize;
        let name = content.get(4 + 2 * count..).unwrap_or(&[]);
        let named = (1..=16).contains(&name.len()) && name.iter().all(|b| (33..=126).contains(b));
        let spread = content[2] < 2 || (edition, content[2]) == (1, 2);
        let right = count_fits(content[0], count) && content[1] <= 1 && spread;
        let parents: Vec<usize> =
            content[4..].chunks_exact(2).take(count).map(|p| u16_at(p, 0) as usize).collect();
        let below = parents.iter().all(|&p| p < before.len());
        let low = parents.iter().filter_map(|&p| before.get(p)).all(|b| b.level < MAX_LEVEL);
        let tests = [(3, named), (5, right), (6, below), (7, low)];
        tests.iter().filter(|t| !t.1).map(|t| t.0).collect()
    }

    /// Fields with two faults are met, so that the order of the numbers is compared.
    #[test]
    fn pairs_of_faults_are_met() {
        let mut rng = Rng::new(4);
        // Spread 2 in edition 2 apart.
        let (mut met, mut spread_2) = ([[0; 8]; 8], [0; 8]);
        for _ in 0..20_000 {
            let bytes = bad_sheet(&mut rng);
            // Number 2 at a figure's tag: its place is past the last item.
            let Some(fault) = read_sheet(&bytes).err().filter(|f| f.number != 2) else { continue };
            let offset = fault.offset as usize;
            let Some(field) = field_at(&bytes, offset).filter(|f| offset > 0 && f.tag == 3) else {
                continue;
            };
            // The items before it, as a sheet of their own.
            let fields = |from: &[u8]| {
                let mut at = 0;
                std::iter::from_fn(|| field_at(from, at).map(|f| at = f.end())).count()
            };
            let mut prefix = bytes[..offset].to_vec();
            let count = fields(&prefix) as u16 - 1;
            prefix[5..7].copy_from_slice(&count.to_le_bytes());
            prefix.extend([4, 0, 0]);
            let before = if count == 0 { vec![] } else { read_sheet(&prefix).unwrap() };
            let edition = u16_at(&bytes, 3);
            let faults = all_faults(edition, field.content, &before);
            assert_eq!(faults.iter().min(), Some(&fault.number));
            let is_2 = edition == 2 && field.content.get(2) == Some(&2);
            faults.iter().filter(|_| is_2).for_each(|&b| spread_2[b as usize] += 1);
            faults.iter().for_each(|&b| met[fault.number as usize][b as usize] += 1);
        }
        for (a, b) in [(3, 5), (3, 6), (3, 7), (5, 6), (5, 7), (6, 7)] {
            assert!(met[a][b] >= 10, "{a} with {b}: {met:?}");
        }
        assert!([3, 5, 6, 7].iter().all(|&n| spread_2[n] >= 10), "{spread_2:?}");
    }

    #[test]
    fn posts_are_as_named() {
        use crate::model::fresh::FreshOffice;
        let mut rng = Rng::new(3);
        for _ in 0..500 {
            let items = read_sheet(&write_sheet(&small_specs(&mut rng))).unwrap();
            let mut office = FreshOffice::new(&items);
            let before = office.all();
            office.feed(&bad_post(&mut rng, &items));
            assert_eq!(office.all(), before);
            let post = good_post(&mut rng, &items, Numbers::Any);
            let Call::Post { item, kind, number } = post else { panic!() };
            office.feed(&post);
            let value = if kind == 1 { Value::Null } else { Value::Number(number) };
            assert_eq!(office.asked(item), Some(value));
        }
    }
}
