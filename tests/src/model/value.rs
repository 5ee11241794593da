//! Values and the eight rules of the figures.

/// A number of grams lies from `-LIMIT` to `LIMIT`. The model has the range here only.
pub const LIMIT: i64 = 1_000_000_000_000_000;

/// The whole of a share, in ten-thousandths.
pub const WHOLE: i64 = 10_000;

#[derive(Clone, Copy, PartialEq, Eq, Debug)]
pub enum Value {
    Null,
    Out,
    Number(i64),
}

use Value::{Null, Number, Out};

pub fn in_range(x: i128) -> bool {
    -(LIMIT as i128) <= x && x <= LIMIT as i128
}

/// An exact result as a value: a number beyond the range is OUT.
pub fn ranged(x: i128) -> Value {
    if in_range(x) {
        Number(x as i64)
    } else {
        Out
    }
}

/// Whether the code is a rule's, and the parent count one that the rule takes.
pub fn count_fits(rule: u8, parents: usize) -> bool {
    match rule {
        1 | 3 | 4 | 7 => (1..=16).contains(&parents),
        2 | 5 | 8 => parents == 2,
        6 => parents == 3,
        _ => false,
    }
}

/// The rule with this code on its parents' values. Of all but a choice, any OUT parent gives OUT.
pub fn apply(rule: u8, parents: &[Value]) -> Value {
    match rule {
        6 => choice(parents[0], parents[1], parents[2]),
        _ if parents.contains(&Out) => Out,
        _ => without_out(rule, parents),
    }
}

/// The first parent picks the second or the third, whatever the other is.
fn choice(first: Value, second: Value, third: Value) -> Value {
    match first {
        Out => Out,
        Null => Null,
        Number(x) if x > 0 => second,
        Number(_) => third,
    }
}

/// One of the seven other rules on values that are NULL or numbers.
fn without_out(rule: u8, parents: &[Value]) -> Value {
    let given: Vec<Option<i128>> = parents
        .iter()
        .map(|v| match v {
            Number(x) => Some(*x as i128),
            _ => None,
        })
        .collect();
    let numbers: Vec<i128> = given.iter().flatten().copied().collect();
    let exact: Option<i128> = match rule {
        1 => (!numbers.is_empty()).then(|| numbers.iter().sum()),
        2 => (!numbers.is_empty()).then(|| given[0].unwrap_or(0) - given[1].unwrap_or(0)),
        3 => numbers.iter().min().copied(),
        4 => numbers.iter().max().copied(),
        5 => match (given[0], given[1]) {
            (Some(_), Some(b)) if b < 0 || b > WHOLE as i128 => return Out,
            (Some(a), Some(b)) => Some((a * b).div_euclid(WHOLE as i128)),
            _ => None,
        },
        7 => (!numbers.is_empty()).then_some(numbers.len() as i128),
        8 => match (given[0], given[1]) {
            (Some(a), Some(b)) => Some(if a >= b { 1 } else { 0 }),
            _ => None,
        },
        _ => panic!("no rule {rule}"),
    };
    match exact {
        Some(x) => ranged(x),
        None => Null,
    }
}

#[cfg(test)]
mod tests {
    use super::*;

    fn n(x: i64) -> Value {
        Number(x)
    }

    #[test]
    fn the_p_figures() {
        let table: [(u8, Vec<Value>, Value); 11] = [
            (1, vec![Null, Null], Null),
            (1, vec![n(5), Null], n(5)),
            (1, vec![n(LIMIT), n(1)], Out),
            (1, vec![n(LIMIT), n(1), n(-1)], n(LIMIT)),
            (2, vec![Null, n(3)], n(-3)),
            (5, vec![n(-1), n(5_000)], n(-1)),
            (5, vec![n(7), n(10_001)], Out),
            (6, vec![n(0), n(7), n(9)], n(9)),
            (7, vec![Null, n(4)], n(1)),
            (8, vec![n(3), n(3)], n(1)),
            (3, vec![Null, n(-2)], n(-2)),
        ];
        for (rule, parents, result) in table {
            assert_eq!(apply(rule, &parents), result, "rule {rule} on {parents:?}");
        }
    }

    #[test]
    fn each_rule_on_null() {
        for rule in 1..=8u8 {
            for count in (1..=16).filter(|&count| count_fits(rule, count)) {
                assert_eq!(apply(rule, &vec![Null; count]), Null);
            }
        }
    }

    #[test]
    fn each_rule_but_choice_on_out() {
        for rule in [1, 2, 3, 4, 5, 7, 8] {
            for count in 1..=16 {
                if count_fits(rule, count) {
                    for place in 0..count {
                        let mut parents = vec![Null; count];
                        parents[place] = Out;
                        assert_eq!(apply(rule, &parents), Out);
                        parents = vec![n(1); count];
                        parents[place] = Out;
                        assert_eq!(apply(rule, &parents), Out);
                    }
                }
            }
        }
    }

    #[test]
    fn more_of_each_rule() {
        assert_eq!(apply(1, &[n(LIMIT)]), n(LIMIT));
        assert_eq!(apply(1, &[n(-LIMIT), n(-1)]), Out);
        assert_eq!(apply(1, &[n(-LIMIT), n(-1), n(1)]), n(-LIMIT));
        assert_eq!(apply(1, &[n(LIMIT); 16]), Out);
        assert_eq!(apply(2, &[n(5), Null]), n(5));
        assert_eq!(apply(2, &[n(LIMIT), n(-1)]), Out);
        assert_eq!(apply(2, &[n(-LIMIT), n(1)]), Out);
        assert_eq!(apply(2, &[n(LIMIT), n(LIMIT)]), n(0));
        assert_eq!(apply(4, &[Null, n(-2), n(-3)]), n(-2));
        assert_eq!(apply(5, &[Null, n(10_001)]), Null);
        assert_eq!(apply(5, &[n(1), Null]), Null);
        assert_eq!(apply(5, &[n(7), n(-1)]), Out);
        assert_eq!(apply(5, &[n(7), n(0)]), n(0));
        assert_eq!(apply(5, &[n(LIMIT), n(10_000)]), n(LIMIT));
        assert_eq!(apply(5, &[n(-LIMIT), n(10_000)]), n(-LIMIT));
        assert_eq!(apply(5, &[n(9_999), n(9_999)]), n(9_998));
        assert_eq!(apply(5, &[n(-9_999), n(1)]), n(-1));
        assert_eq!(apply(6, &[n(1), n(7), n(9)]), n(7));
        assert_eq!(apply(6, &[n(1), Null, n(9)]), Null);
        assert_eq!(apply(6, &[n(-1), n(7), Null]), Null);
        assert_eq!(apply(6, &[Null, n(7), n(9)]), Null);
        assert_eq!(apply(7, &[n(4), n(0), Null]), n(2));
        assert_eq!(apply(8, &[n(2), n(3)]), n(0));
        assert_eq!(apply(8, &[Null, n(3)]), Null);
    }

    #[test]
    fn a_choice_looks_only_where_it_points() {
        for (parents, result) in [
            ([Out, n(1), n(2)], Out),
            ([Null, Out, Out], Null),
            ([n(1), n(7), Out], n(7)),
            ([n(0), Out, n(9)], n(9)),
            ([n(1), Out, n(9)], Out),
            ([n(2), Null, n(9)], Null),
            ([n(-1), n(4), Null], Null),
            ([n(-LIMIT), Null, Out], Out),
            ([n(LIMIT), n(-LIMIT), Null], n(-LIMIT)),
        ] {
            assert_eq!(apply(6, &parents), result, "{parents:?}");
        }
    }

    /// First, and its shares of 0, 1, 9,999 and 10,000: rounded down, and exact where the product
    /// leaves a signed 64-bit number.
    #[test]
    fn shares_at_the_limits() {
        let table = [
            (LIMIT, [0, 100_000_000_000, 999_900_000_000_000, 1_000_000_000_000_000]),
            (-LIMIT, [0, -100_000_000_000, -999_900_000_000_000, -1_000_000_000_000_000]),
            (LIMIT - 1, [0, 99_999_999_999, 999_899_999_999_999, 999_999_999_999_999]),
            (1 - LIMIT, [0, -100_000_000_000, -999_900_000_000_000, -999_999_999_999_999]),
        ];
        for (first, shares) in table {
            for (second, share) in [0, 1, 9_999, 10_000].into_iter().zip(shares) {
                assert_eq!(apply(5, &[n(first), n(second)]), n(share), "{first} {second}");
            }
            assert_eq!(apply(5, &[n(first), n(-1)]), Out);
            assert_eq!(apply(5, &[n(first), n(10_001)]), Out);
        }
    }

    #[test]
    fn the_range_has_two_sides() {
        assert_eq!(LIMIT, 10i64.pow(15));
        assert_eq!(ranged(LIMIT as i128), n(LIMIT));
        assert_eq!(ranged(LIMIT as i128 + 1), Out);
        assert_eq!(ranged(-(LIMIT as i128)), n(-LIMIT));
        assert_eq!(ranged(-(LIMIT as i128) - 1), Out);
    }

    #[test]
    fn parent_counts() {
        for rule in 0..=255u8 {
            for count in 0..=255usize {
                let fits = match rule {
                    1 | 3 | 4 | 7 => (1..17).contains(&count),
                    2 | 5 | 8 => count == 2,
                    6 => count == 3,
                    _ => false,
                };
                assert_eq!(count_fits(rule, count), fits);
            }
        }
    }
}
