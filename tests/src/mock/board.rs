//! The mock's board, and how it can be wrong.

use super::{By, Mock, Sweep, Where, Wrong};
use crate::guarded::Guarded;
use crate::model::board::{self, Board, ITEM, MOST_ITEMS, RESULT};
use crate::model::calls::Reply;
use crate::model::sheet::{read_sheet, Item};
use crate::model::table::to_pair;

fn listed(lists: &Board) -> Vec<usize> {
    lists.items.chunks_exact(ITEM).map(|i| u16::from_le_bytes([i[0], i[1]]) as usize).collect()
}

/// Whether lists refused with 17 are good to a mock that is wrong about their lengths.
fn takes(wrong: Wrong, lists: &Board, circuit: &[Item]) -> bool {
    let (count, odd) = (lists.items.len() / ITEM, lists.items.len() % ITEM != 0);
    let (right, within) = (RESULT * count, count <= MOST_ITEMS);
    let results = lists.results.len();
    let taken = match wrong {
        Wrong::BoardTakes65Items => !odd && count == MOST_ITEMS + 1 && results == right,
        Wrong::BoardTakesOddLength => odd && within && results == right,
        Wrong::BoardTakesLongerResults => !odd && within && results > right,
        _ => false,
    };
    taken && listed(lists).iter().all(|&i| i < circuit.len())
}

/// The number that a wrong mock gives for a refused board.
fn wrong_number(wrong: Wrong, number: u64, lists: &Board, circuit: &[Item]) -> u64 {
    let fits = lists.items.len() <= ITEM * MOST_ITEMS
        && 2 * lists.results.len() == RESULT * lists.items.len();
    match (wrong, number) {
        (Wrong::BoardSays11Before17, 17) if listed(lists).iter().any(|&i| i >= circuit.len()) => 11,
        (Wrong::BoardSays17BeforeTheTable, 10) if !fits => 17,
        (_, 17) if takes(wrong, lists, circuit) => 0,
        _ => number,
    }
}

impl Sweep<'_> {
    /// Kind and number of each result, in list order.
    fn board(&mut self, listed: &[usize]) -> Vec<u8> {
        if self.wrong != Wrong::BoardDoesNotCatchUp {
            self.sweep();
        }
        let mut results = Vec::new();
        for &i in listed {
            let before = (self.cells.clone(), self.owed.clone());
            let looked_up = self.look_up(i);
            match self.wrong {
                Wrong::BoardStoresNothing => (self.cells, self.owed) = before,
                Wrong::BoardStoresAll => self.store(i, looked_up, By::LookUp),
                _ => {}
            }
            let (kind, number) = to_pair(looked_up.0);
            let at = results.len();
            results.push(kind);
            results.extend(number.to_le_bytes());
            if self.wrong == Wrong::BoardWritesNumberFirst {
                results[at..].rotate_left(1);
            }
        }
        results
    }
}

impl Mock {
    pub(super) fn give_board(
        &self,
        sheet: &[u8],
        index: &[u8],
        table: &mut [u8],
        items: &mut Guarded,
        results: &mut Guarded,
    ) -> Reply {
        let wrong = self.0;
        let (listed_items, left) = (wrong.list_taken(items.bytes()), results.bytes().to_vec());
        let lists = Board { items: listed_items, results: left };
        let (taken, mut b) = (wrong.taken(sheet, table), lists.results.clone());
        // The model is asked only whether the board is refused.
        let mut reply = board::board(sheet, index, &mut taken.clone(), &lists.items, &mut b);
        let circuit = read_sheet(sheet).unwrap_or_default();
        reply.number = wrong_number(wrong, reply.number, &lists, &circuit);
        let refused = reply.number != 0;
        if refused && wrong == Wrong::RefusedBoardWritesResults {
            results.bytes_mut().fill(0);
        }
        if refused && !(reply.number == 11 && wrong == Wrong::RefusedBoardCatchesUp) {
            return reply;
        }
        let listed = if refused { vec![] } else { listed(&lists) };
        if listed.is_empty() && !refused && wrong != Wrong::EmptyBoardCatchesUp {
            return reply;
        }
        let mut machine = Sweep::new(&circuit, &taken, wrong.here(Where::Board));
        let written = machine.board(&listed);
        machine.write(table);
        results.bytes_mut()[..written.len()].copy_from_slice(&written);
        match wrong {
            Wrong::BoardChangesItems => items.bytes_mut().reverse(),
            Wrong::BoardWritesPastResults => results.break_guard(),
            _ => {}
        }
        reply
    }
}
