//! Boards that are the same in every run: refusal 17 from each side of each limit, its place
//! between 10 and 11, and lists held against asks.

use super::boards::as_asks;
use super::compare::{Act, Comparison, Lent};
use super::fixed::{busy_example, expect, opened, post, spreads, EDITIONS};
use crate::gen::{plain_chain, spec_figure, write_edition, write_sheet, Spec};
use crate::model::board::{Board, ITEM, MOST_ITEMS, RESULT};
use crate::model::calls::Call;
use crate::model::sheet::MAX_LEVEL;
use crate::model::value::LIMIT;

pub fn run_fixed_boards(c: &mut Comparison) -> Result<(), String> {
    list_lengths(c)?;
    items_beyond(c)?;
    order_of_tests(c)?;
    repeated_items(c)?;
    tower(c)?;
    EDITIONS.iter().try_for_each(|&(edition, most)| most_items(c, edition, most))
}

fn board(listed: &[u16], results: usize) -> Board {
    let items = listed.iter().flat_map(|i| i.to_le_bytes()).collect();
    Board { items, results: vec![9; results] }
}

/// A board on the bytes, which are kept, and the number that the paper gives it. Short lists and
/// the longest are held against asks.
fn given(c: &mut Comparison, mut board: Board, lent: &Lent, right: u64) -> Result<(), String> {
    let mut after = lent.clone();
    let number = c.board(&mut board, &mut after)?.number;
    expect("a board", number, right)?;
    let asked = board.items.len() <= 16 || board.items.len() == ITEM * MOST_ITEMS;
    match number == 0 && asked {
        true => as_asks(c, &board, lent.clone(), &after),
        false => Ok(()),
    }
}

/// Item lists of each length to past 64 items, with result lists right, a byte off, a result off
/// and empty.
fn list_lengths(c: &mut Comparison) -> Result<(), String> {
    let busy = busy_example(c)?;
    for length in 0..=2 * MOST_ITEMS + 4 {
        let whole = RESULT * (length / 2);
        let mut lengths = vec![whole, whole + 1, whole + RESULT, 0, 1, RESULT];
        lengths.extend([1, RESULT].map(|less| whole.saturating_sub(less)));
        for results in lengths {
            let accepted = length % 2 == 0 && length <= 128 && results == whole;
            let items = (0..length).map(|k| if k % 2 == 0 { k as u8 % 5 } else { 0 }).collect();
            let lists = Board { items, results: vec![9; results] };
            given(c, lists, &busy, if accepted { 0 } else { 17 })?;
        }
    }
    // Far too long, also where a length is cut to fewer bits.
    for count in [128, 256, 320, 32_832] {
        given(c, board(&vec![4; count], RESULT * count), &busy, 17)?;
        given(c, board(&vec![4; count], RESULT * (count % 256)), &busy, 17)?;
    }
    Ok(())
}

/// An item beyond the sheet in each place of the longest list, and each kind of item alone.
fn items_beyond(c: &mut Comparison) -> Result<(), String> {
    let busy = busy_example(c)?;
    for place in 0..MOST_ITEMS {
        for item in [5, 65_535] {
            let mut listed = [4; MOST_ITEMS];
            listed[place] = item;
            given(c, board(&listed, RESULT * MOST_ITEMS), &busy, 11)?;
        }
    }
    for high in [0, 1, 2, 3, 4, 5, 16, 127, 128, 255] {
        for low in (0..=8).chain([127, 128, 255]) {
            let right = if high == 0 && low < 5 { 0 } else { 11 };
            given(c, board(&[256 * high + low], RESULT), &busy, right)?;
        }
    }
    Ok(())
}

/// Lists at fault together with what is tested before and after them.
fn order_of_tests(c: &mut Comparison) -> Result<(), String> {
    let busy = busy_example(c)?;
    let mut wrong = vec![board(&[4; 65], 585), board(&[4], 8), board(&[4], 10), board(&[], 9)];
    wrong.push(Board { items: vec![4], results: vec![] });
    for lists in wrong.clone() {
        // An item beyond the sheet besides: 17 comes before 11.
        let mut beyond = lists.clone();
        beyond.items.iter_mut().for_each(|b| *b = 5);
        given(c, lists, &busy, 17)?;
        given(c, beyond, &busy, 17)?;
    }
    wrong.extend([board(&[4, 5], 18), board(&[5, 4], 18), board(&[4], 9), board(&[], 0)]);
    for lists in wrong {
        let mut lent = busy.clone();
        lent.table[53] = 1;
        given(c, lists.clone(), &lent, 10)?;
        lent.index[19] = 1;
        given(c, lists.clone(), &lent, 9)?;
        lent.table.push(0);
        given(c, lists.clone(), &lent, 8)?;
        for (at, byte, right) in
            [(8, 200, 1), (11, 5, 2), (18, 32, 3), (3, 3, 4), (22, 9, 5), (26, 3, 6)]
        {
            let mut lent = lent.clone();
            lent.sheet[at] = byte;
            given(c, lists.clone(), &lent, right)?;
        }
        lent.sheet = plain_chain(MAX_LEVEL as u16 + 1);
        given(c, lists, &lent, 7)?;
    }
    Ok(())
}

/// One item in each place, and the same few again and again.
fn repeated_items(c: &mut Comparison) -> Result<(), String> {
    let busy = busy_example(c)?;
    for item in 0..5 {
        given(c, board(&[item; MOST_ITEMS], RESULT * MOST_ITEMS), &busy, 0)?;
        for other in 0..5 {
            given(c, board(&[item, other, item], 3 * RESULT), &busy, 0)?;
        }
    }
    Ok(())
}

/// All levels of a tower of sixteenfold parents, from its top and from its ground.
fn tower(c: &mut Comparison) -> Result<(), String> {
    let up: Vec<u16> = (1..=MAX_LEVEL as u16).collect();
    let down = up.iter().rev().copied().collect();
    for (keep, spread, listed) in [(0, 0, down), (1, 1, up)] {
        let mut specs = vec![Spec::Entry(b"A".to_vec())];
        specs.extend((0..MAX_LEVEL).map(|p| spec_figure(4, keep, spread, &[p as u16; 16])));
        let (mut lent, _) = opened(c, write_sheet(&specs), specs.len(), spread == 1)?;
        for call in [post(0, LIMIT), Call::Keep { item: 40 }] {
            c.act(&Act::Give(call), &mut lent)?;
        }
        given(c, board(&listed, RESULT * listed.len()), &lent, 0)?;
    }
    Ok(())
}

/// The most items of an edition: the highest ones are figures of the first, and the next is none.
fn most_items(c: &mut Comparison, edition: u16, most: usize) -> Result<(), String> {
    let (first, last) = ((most - MOST_ITEMS) as u16, most as u16 - 1);
    let mut specs = vec![Spec::Entry(b"A".to_vec()); first as usize];
    let spread = |i: u16| (i % spreads(edition) as u16) as u8;
    specs.extend(
        (first..=last).map(|i| spec_figure(1, (i / 3 % 2) as u8, spread(i), &[0, i - first])),
    );
    let (mut lent, _) = opened(c, write_edition(edition, &specs), most, true)?;
    c.act(&Act::Give(post(0, 3)), &mut lent)?;
    given(c, board(&[last, 0, last - 1, 255, 256], 5 * RESULT), &lent, 0)?;
    let beyond: Vec<u16> = (first + 1..=last + 1).collect();
    given(c, board(&beyond, RESULT * MOST_ITEMS), &lent, 11)?;
    let highest: Vec<u16> = (first..=last).collect();
    let number = c.board(&mut board(&highest, RESULT * MOST_ITEMS), &mut lent)?.number;
    expect("a board of the highest items", number, 0)
}
