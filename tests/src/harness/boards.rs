//! Boards: held against asks one after another, and against the fresh office.

use super::compare::{Act, Comparison, Lent};
use super::lists::Office;
use crate::gen;
use crate::model::board::{encode_results, Board};
use crate::model::calls::{Call, Reply};
use crate::model::fresh::FreshOffice;
use crate::model::sheet::Item;

/// A board with the lent bytes as they are, judged by what is known of the list. Its results are
/// given with its answer.
pub fn plain_board(
    c: &mut Comparison,
    mut board: Board,
    lent: &mut Lent,
    office: &mut Option<Office>,
) -> Result<(Reply, Vec<u8>), String> {
    let (before, lists) = (lent.clone(), board.clone());
    let reply = c.board(&mut board, lent)?;
    // Few of the long ones, for the time that their asks take.
    let often = if lists.items.len() <= 16 { 40 } else { 5 };
    if reply.number == 0 && c.rng.percent(often) {
        as_asks(c, &board, before.clone(), lent)?;
    }
    if let Some(office) = office {
        office.judge_board(c, &lists, &board.results, &reply, &before.table, &lent.table)?;
    }
    Ok((reply, board.results))
}

/// The items of a list, as far as they are whole.
fn listed(board: &Board) -> impl Iterator<Item = u64> + '_ {
    board.items.chunks_exact(2).map(|two| two[0] as u64 + 256 * two[1] as u64)
}

/// An accepted board's results and table are those of asks one after another, on the table before.
pub fn as_asks(
    c: &mut Comparison,
    board: &Board,
    mut lent: Lent,
    after: &Lent,
) -> Result<(), String> {
    c.tally.boards_as_asks += 1;
    let mut results = Vec::new();
    for item in listed(board) {
        let reply = c.act(&Act::Give(Call::Ask { item }), &mut lent)?;
        if reply.number != 0 {
            return Err(format!("a board takes item {item}, and an ask gives {reply:?}"));
        }
        results.push(reply.kind as u8);
        results.extend(reply.value.to_le_bytes());
    }
    match results == board.results && lent == *after {
        true => Ok(()),
        false => Err(format!("{board:?} differs from asks one after another: {results:?}")),
    }
}

/// By the fresh office: the number of a board on an opened table, and its result list afterwards.
pub fn fresh_board(fresh: &FreshOffice, lists: &Board) -> (u64, Vec<u8>) {
    let unchanged = lists.results.clone();
    let length = lists.items.len();
    if length % 2 == 1 || length > 128 || 2 * lists.results.len() != 9 * length {
        return (17, unchanged);
    }
    let all = fresh.all();
    let values: Option<Vec<_>> = listed(lists).map(|i| all.get(i as usize).copied()).collect();
    match values {
        Some(values) => (0, encode_results(&values)),
        None => (11, unchanged),
    }
}

/// The same lists lent at both offices: the same number and results, and the fresh office's.
pub fn same_boards(
    c: &mut Comparison,
    items: &[Item],
    one: &(Lent, Office),
    two: &(Lent, Office),
) -> Result<(), String> {
    for lists in [gen::good_board(&mut c.rng, items), gen::any_board(&mut c.rng, items)] {
        let a = plain_board(c, lists.clone(), &mut one.0.clone(), &mut None)?;
        let b = plain_board(c, lists.clone(), &mut two.0.clone(), &mut None)?;
        let right = fresh_board(&one.1.fresh, &lists);
        if (a.0.number, &a.1) != (right.0, &right.1) || a != b {
            return Err(format!("{lists:?} gives {a:?}, {b:?}, by the fresh office {right:?}"));
        }
        if fresh_board(&two.1.fresh, &lists) != right {
            return Err(format!("{lists:?}: the fresh offices differ"));
        }
        c.tally.judged += if right.0 == 0 { 2 * listed(&lists).count() as u64 } else { 0 };
    }
    Ok(())
}
