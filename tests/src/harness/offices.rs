//! Two offices with the same postings in the same order agree, and the fresh office too.

use super::boards::{plain_board, same_boards};
use super::closes::{plain_close, refused_close, same_closes};
use super::compare::{Comparison, Lent};
use super::fixed::expect;
use super::lists::{open, plain_call, Office};
use super::swaps::{fresh_swap, plain_swap, BESIDE};
use crate::gen::{self, Numbers, Shape};
use crate::model::calls::{Call, Reply};
use crate::model::fresh::FreshOffice;
use crate::model::sheet::{read_sheet, Item};
use crate::model::swap::Swap;
use crate::model::table::{to_pair, RECORD};

pub fn run_offices(c: &mut Comparison) -> Result<(), String> {
    let (shape, numbers) = (gen::shape(&mut c.rng), gen::choose_numbers(&mut c.rng));
    let specs = gen::sheet(&mut c.rng, shape);
    let sheet = gen::write_any(&mut c.rng, &specs);
    let items = read_sheet(&sheet).unwrap();
    c.tally.offices += 1;
    let most = match shape {
        Shape::Vast => 2,
        Shape::Wide => 4,
        Shape::Small if c.rng.percent(5) => 150,
        _ => 15,
    };
    let posts = postings(c, &items, numbers, most);
    let (one, swapped) = run_office(c, &sheet, &items, &posts)?;
    let (two, others) = run_office(c, &sheet, &items, &posts)?;
    let beside = (0..posts.len()).filter(|k| swapped.contains(k) != others.contains(k)).count();
    c.tally.swaps[BESIDE] += beside as u64;
    same_boards(c, &items, &one, &two)?;
    same_closes(c, &one, &two)?;
    let ((mut one, first), (mut two, second)) = (one, two);
    let n = items.len() as u64;
    let mut asked: Vec<u64> = match shape {
        Shape::Vast => vec![c.rng.below(n), n - 1],
        Shape::Wide => (0..10).map(|_| c.rng.below(n)).collect(),
        _ => (0..n).collect(),
    };
    asked.extend([n, n + 1, u64::MAX]);
    for item in asked {
        let a = plain_call(c, Call::Ask { item }, &mut one, &mut None)?;
        let b = plain_call(c, Call::Ask { item }, &mut two, &mut None)?;
        let right = first.fresh.asked(item).map(to_pair);
        c.tally.judged += 2;
        if a != b || outcome(&a) != right || second.fresh.asked(item).map(to_pair) != right {
            return Err(format!("asked for {item}: {a:?}, {b:?}, fresh office {right:?}"));
        }
    }
    Ok(())
}

/// The postings of both offices, as posts: of fewer accepted posts and swaps than so many.
fn postings(c: &mut Comparison, items: &[Item], numbers: Numbers, most: u64) -> Vec<Call> {
    let mut fresh = FreshOffice::new(items);
    let mut posts = Vec::new();
    for _ in 0..c.rng.below(most) {
        let held: Vec<i64> = fresh.all().into_iter().map(|value| to_pair(value).1).collect();
        let swap = gen::good_swap(&mut c.rng, items, &held).filter(|_| c.rng.percent(40));
        let made = match swap {
            Some(swap) => posts_of(items, &fresh, &swap),
            None => vec![gen::good_post(&mut c.rng, items, numbers)],
        };
        made.iter().for_each(|post| fresh.feed(post));
        posts.extend(made);
    }
    posts
}

/// The postings of a swap, as posts; none if it is refused.
fn posts_of(items: &[Item], fresh: &FreshOffice, swap: &Swap) -> Vec<Call> {
    let made = fresh_swap(items, fresh, swap).1.into_iter();
    made.map(|(item, (kind, number))| Call::Post { item, kind: kind as u64, number }).collect()
}

/// The swap that makes the next two postings, if one does.
fn as_swap(office: &Office, posts: &[Call]) -> Option<Swap> {
    let &[Call::Post { item: giver, number, .. }, Call::Post { item: taker, .. }, ..] = posts
    else {
        return None;
    };
    let held = to_pair(office.fresh.asked(giver)?).1;
    let swap = Swap { giver, taker, quantity: held - number };
    (posts_of(office.items, &office.fresh, &swap) == posts[..2]).then_some(swap)
}

/// The value of an ask; none for refusal 11.
fn outcome(reply: &Reply) -> Option<(u8, i64)> {
    match reply.number {
        0 => Some((reply.kind as u8, reply.value)),
        11 => None,
        other => panic!("an ask gave {other}"),
    }
}

/// An office with these postings, any two of them by one swap where that makes them, and any other
/// calls, boards and closes between. The places of its swaps.
fn run_office<'i>(
    c: &mut Comparison,
    sheet: &[u8],
    items: &'i [Item],
    posts: &[Call],
) -> Result<((Lent, Office<'i>), Vec<usize>), String> {
    let (index, table) = (c.rng.bytes(4 * items.len()), c.rng.bytes(RECORD * items.len()));
    let mut lent = Lent { sheet: sheet.to_vec(), index, table };
    let mut office = Some(open(c, items, &mut lent)?);
    let (busy, mut k, mut swapped) = (c.rng.below(6), 0, Vec::new());
    while k < posts.len() {
        some_between(c, items, &mut lent, &mut office, busy)?;
        let swap = as_swap(office.as_ref().unwrap(), &posts[k..]).filter(|_| c.rng.percent(50));
        let reply = match swap {
            Some(swap) => plain_swap(c, swap, &mut lent, &mut office)?,
            None => plain_call(c, posts[k], &mut lent, &mut office)?,
        };
        expect("a posting", reply.number, 0)?;
        if swap.is_some() {
            swapped.push(k);
        }
        k += if swap.is_some() { 2 } else { 1 };
    }
    some_between(c, items, &mut lent, &mut office, busy)?;
    Ok(((lent, office.unwrap()), swapped))
}

/// Up to so many calls without a posting.
fn some_between(
    c: &mut Comparison,
    items: &[Item],
    lent: &mut Lent,
    office: &mut Option<Office>,
    most: u64,
) -> Result<(), String> {
    (0..c.rng.below(most + 1)).try_for_each(|_| between(c, items, lent, office))
}

/// Anything but an accepted post or swap.
fn between(
    c: &mut Comparison,
    items: &[Item],
    lent: &mut Lent,
    office: &mut Option<Office>,
) -> Result<(), String> {
    let call = match c.rng.below(100) {
        0..=11 => {
            let board = gen::any_board(&mut c.rng, items);
            return plain_board(c, board, lent, office).map(|_| ());
        }
        12..=19 => return plain_close(c, lent, office),
        20..=21 => return refused_close(c, lent),
        29..=35 => return refused_swap(c, items, lent, office),
        22..=28 => gen::bad_post(&mut c.rng, items),
        _ => gen::other_call(&mut c.rng, items, &lent.table),
    };
    let reply = plain_call(c, call, lent, office)?;
    match (call, reply.number) {
        (Call::Post { .. }, 0) => Err(format!("{call:?} is accepted")),
        _ => Ok(()),
    }
}

/// A swap that is refused for its arguments.
fn refused_swap(
    c: &mut Comparison,
    items: &[Item],
    lent: &mut Lent,
    office: &mut Option<Office>,
) -> Result<(), String> {
    let held = gen::numbers_of(items, &lent.table);
    let swap = gen::bad_swap(&mut c.rng, items, &held);
    match plain_swap(c, swap, lent, office)?.number {
        11 | 12 | 13 | 18 => Ok(()),
        number => Err(format!("{swap:?} gives {number}")),
    }
}

#[cfg(test)]
mod tests {
    use super::super::fixed::post;
    use super::*;
    use crate::model::sheet::EXAMPLE;

    /// Two postings are a swap if the second entry gains what the first loses, and not otherwise.
    #[test]
    fn postings_that_a_swap_makes() {
        let items = read_sheet(&EXAMPLE).unwrap();
        let mut office = Office::new(&items);
        office.fresh.feed(&post(0, 7));
        let null = Call::Post { item: 1, kind: 1, number: 0 };
        let cases: [(&[Call], Option<i64>); 8] = [
            (&[post(0, 5), post(1, 2)], Some(2)),
            (&[post(1, -2), post(0, 9), post(0, 1)], Some(2)),
            (&[post(0, 5), post(1, 3)], None),
            (&[post(0, 8), post(1, -1)], None),
            (&[post(0, 7), post(1, 0)], None),
            (&[post(0, 5), post(0, 9)], None),
            (&[post(0, 7), null], None),
            (&[post(0, 5)], None),
        ];
        for (posts, right) in cases {
            assert_eq!(as_swap(&office, posts).map(|swap| swap.quantity), right, "{posts:?}");
        }
    }
}
