//! Random lists of a board.

use crate::model::board::{Board, ITEM, MOST_ITEMS, RESULT};
use crate::model::sheet::Item;
use crate::rng::Rng;

/// A board of these items, with any bytes in its result list.
pub fn board_of(rng: &mut Rng, listed: &[u16]) -> Board {
    let items = listed.iter().flat_map(|i| i.to_le_bytes()).collect();
    Board { items, results: rng.bytes(RESULT * listed.len()) }
}

/// A board without a cause 17 or 11; items are repeated in some.
pub fn good_board(rng: &mut Rng, items: &[Item]) -> Board {
    let count = match rng.below(100) {
        0..=7 => 0,
        8..=69 => rng.between(1, 5),
        70..=91 => rng.between(6, MOST_ITEMS as u64 - 1),
        _ => MOST_ITEMS as u64,
    };
    let few = rng.percent(20);
    let n = if few { items.len().min(2) } else { items.len() };
    let listed: Vec<u16> = (0..count).map(|_| rng.below(n as u64) as u16).collect();
    board_of(rng, &listed)
}

/// Any board; a third has one fault in its lists, or two.
pub fn any_board(rng: &mut Rng, items: &[Item]) -> Board {
    let mut board = good_board(rng, items);
    if rng.percent(33) {
        for _ in 0..rng.between(1, 2) {
            spoil(rng, &mut board, items.len() as u16);
        }
    }
    board
}

fn spoil(rng: &mut Rng, board: &mut Board, n: u16) {
    match rng.below(6) {
        0 | 1 => item_beyond(rng, &mut board.items, n),
        2 => odd_length(rng, board),
        3 => {
            let over = *rng.pick(&[1, 1, 1, 2, 6, 64, 192, 1_000]);
            board.items.resize(ITEM * (MOST_ITEMS + over), 0);
            board.results = rng.bytes(RESULT * (MOST_ITEMS + over));
        }
        _ => other_results(rng, board),
    }
}

/// An item of n or more in the first, the last or any place.
fn item_beyond(rng: &mut Rng, list: &mut [u8], n: u16) {
    let count = (list.len() / ITEM) as u64;
    if count == 0 {
        return;
    }
    let any = rng.below(count);
    let place = *rng.pick(&[0, count - 1, any]) as usize * ITEM;
    let item = *rng.pick(&[n, n, n + 1, n + 256, 32_768, 65_535]);
    list[place..place + ITEM].copy_from_slice(&item.to_le_bytes());
}

/// A byte more or less, and a result list for the whole items or for one more.
fn odd_length(rng: &mut Rng, board: &mut Board) {
    if board.items.pop().is_none() || rng.percent(50) {
        board.items.extend([0, 0]);
    }
    let mut count = board.items.len() / ITEM;
    if rng.percent(50) {
        count += 1;
    }
    board.results = rng.bytes(RESULT * count);
}

/// A result list of another length: by a byte, by a result, to nothing.
fn other_results(rng: &mut Rng, board: &mut Board) {
    let length = board.results.len();
    let other = match rng.below(7) {
        0 | 1 => length + 1,
        2 | 3 => length.saturating_sub(1),
        4 => length + RESULT,
        5 => length.saturating_sub(RESULT),
        _ => 0,
    };
    board.results = rng.bytes(other);
}

#[cfg(test)]
mod tests {
    use super::super::{small_specs, write_sheet};
    use super::*;
    use crate::model::board::board;
    use crate::model::calls::open;
    use crate::model::sheet::read_sheet;
    use crate::model::table::RECORD;

    #[test]
    fn boards_are_as_named() {
        let mut rng = Rng::new(8);
        let mut met = [0; 18];
        for _ in 0..1_000 {
            let sheet = write_sheet(&small_specs(&mut rng));
            let items = read_sheet(&sheet).unwrap();
            let (mut index, mut table) = (vec![0; 4 * items.len()], vec![0; RECORD * items.len()]);
            open(false, &sheet, &mut index, &mut table);
            let mut number =
                |mut b: Board| board(&sheet, &index, &mut table, &b.items, &mut b.results).number;
            assert_eq!(number(good_board(&mut rng, &items)), 0);
            met[number(any_board(&mut rng, &items)) as usize] += 1;
        }
        assert!(met[0] > 500 && met[11] > 40 && met[17] > 100, "{met:?}");
    }
}
