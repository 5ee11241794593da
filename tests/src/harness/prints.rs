//! Prints that are the same in every run: each kind at the limits, and numbers that are spelled out,
//! digit by digit, and must be printed as they are spelled.

use super::compare::Comparison;
use crate::model::printer::{text_of, SCRATCH};
use crate::model::value::{Value, LIMIT};
use std::collections::BTreeSet;

/// The most digits of a number in the range; only its limit has so many.
pub const MOST_DIGITS: usize = 16;

/// The lengths of scratch that numbers are printed into.
const LENGTHS: [usize; 3] = [SCRATCH, SCRATCH + 1, 2 * SCRATCH];
/// What scratch is filled with: bytes that a printer writes, and others.
const FILLS: [u8; 6] = [b'0', b'9', b'-', b'?', 0, 255];

pub fn run_prints(c: &mut Comparison) -> Result<(), String> {
    kinds(c)?;
    for (turn, text) in spelled().into_iter().enumerate() {
        number(c, &text, turn)?;
        if text != "0" {
            number(c, &format!("-{text}"), turn + 1)?;
        }
    }
    refused(c)
}

/// Each kind with numbers on both sides of each power of ten, and scratch that is too short.
fn kinds(c: &mut Comparison) -> Result<(), String> {
    let mut numbers = vec![0, LIMIT, LIMIT + 1, -LIMIT, -LIMIT - 1, i64::MAX, i64::MIN];
    for exponent in 0..=18 {
        let power = 10i64.pow(exponent);
        for near in [power - 1, power, power + 1, 2 * power - 1] {
            numbers.extend([near, -near]);
        }
    }
    for number in numbers {
        for kind in [0, 1, 2, 3, 4, 257, 259, u64::MAX] {
            for length in [0, SCRATCH - 1, SCRATCH, SCRATCH + 1] {
                c.print(kind, number, &vec![b'?'; length])?;
            }
        }
    }
    Ok(())
}

/// A first digit, and others that are alike.
fn alike(first: char, fill: char, length: usize) -> Vec<char> {
    let mut digits = vec![fill; length];
    digits[0] = first;
    digits
}

/// Zeros from a place on, which is not the first; and the numbers on both sides.
fn around(length: usize, place: usize) -> [Vec<char>; 3] {
    let mut zeros = alike('7', '4', length);
    let mut less = zeros.clone();
    zeros[place..].fill('0');
    less[place..].fill('9');
    less[place - 1] = if place == 1 { '6' } else { '3' };
    let mut more = zeros.clone();
    more[length - 1] = '1';
    [less, zeros, more]
}

/// Numbers of each length in the range: each digit at each place among zeros, nines and others, and
/// both sides of a number that ends with so many zeros.
fn spelled() -> BTreeSet<String> {
    let mut all = BTreeSet::from([alike('1', '0', MOST_DIGITS)]);
    for length in 1..MOST_DIGITS {
        for (first, fill) in [('1', '0'), ('9', '9'), ('7', '4')] {
            for place in 0..length {
                for digit in '0'..='9' {
                    let mut digits = alike(first, fill, length);
                    digits[place] = digit;
                    all.insert(digits);
                }
            }
        }
        for first in '1'..='9' {
            all.extend([alike(first, '0', length), alike(first, '9', length)]);
        }
        all.extend((1..length).flat_map(|place| around(length, place)));
    }
    all.retain(|digits| digits[0] != '0' || digits.len() == 1);
    all.into_iter().map(String::from_iter).collect()
}

/// The number that is spelled.
fn number_of(text: &str) -> i64 {
    let digits = text.trim_start_matches('-').bytes();
    let magnitude = digits.fold(0, |sum, digit| 10 * sum + (digit - b'0') as i64);
    if text.starts_with('-') {
        -magnitude
    } else {
        magnitude
    }
}

/// Bytes of which no two neighbours are equal, and none is ever printed.
fn uneven(length: usize) -> Vec<u8> {
    (0..length).map(|at| 128 + (37 * at % 127) as u8).collect()
}

/// Prints a number into scratch of each length: of uneven bytes, and of equal ones in turn.
fn number(c: &mut Comparison, text: &str, turn: usize) -> Result<(), String> {
    let number = number_of(text);
    if text_of(Value::Number(number)) != text {
        return Err(format!("the model does not print {text}"));
    }
    for (k, length) in LENGTHS.into_iter().enumerate() {
        c.print(3, number, &uneven(length))?;
        c.print(3, number, &vec![FILLS[(turn + k) % FILLS.len()]; length])?;
    }
    Ok(())
}

/// Numbers of each length that are not printed: of kinds without a number, beyond the range, or into
/// scratch of each length that is too short.
fn refused(c: &mut Comparison) -> Result<(), String> {
    for exponent in 0..=18 {
        let power = 10i64.pow(exponent);
        for number in [power - 1, power, 1 - power, -power] {
            for fill in FILLS {
                for kind in [0, 1, 2, 4] {
                    c.print(kind, number, &[fill; SCRATCH])?;
                }
                c.print(3, number, &[fill; SCRATCH - 1])?;
            }
            for length in 0..SCRATCH {
                c.print(3, number, &uneven(length))?;
            }
        }
    }
    Ok(())
}

#[cfg(test)]
mod tests {
    use super::*;
    use crate::mock::{Mock, Wrong};
    use crate::rng::Rng;

    fn try_printer(wrong: Wrong) -> Result<u64, String> {
        let mut mock = Mock(wrong);
        let mut c = Comparison::new(&mut mock, Rng::new(1));
        run_prints(&mut c)?;
        Ok(c.tally.prints())
    }

    #[test]
    fn prints_are_many() {
        let prints = try_printer(Wrong::Nothing).unwrap();
        assert!(prints >= 50_000, "{prints}");
    }

    /// Each length has each digit at each place, and each power of ten its neighbours.
    #[test]
    fn every_digit_is_spelled() {
        let (all, mut met) = (spelled(), BTreeSet::new());
        for text in &all {
            met.extend(text.chars().enumerate().map(|(at, digit)| (text.len(), at, digit)));
        }
        for length in 1..MOST_DIGITS {
            for (at, digit) in (0..length).flat_map(|at| ('0'..='9').map(move |d| (at, d))) {
                let leads = at == 0 && digit == '0' && length > 1;
                assert_eq!(met.contains(&(length, at, digit)), !leads, "{length} {at} {digit}");
            }
        }
        let numbers: BTreeSet<i64> = all.iter().map(|text| number_of(text)).collect();
        for exponent in 0..=15 {
            let power = 10i64.pow(exponent);
            for near in [power - 1, power, (power + 1).min(LIMIT)] {
                assert!(numbers.contains(&near), "{near}");
            }
        }
        assert_eq!(numbers.last(), Some(&LIMIT));
    }

    /// The zeros begin where they must, and the neighbours are neighbours.
    #[test]
    fn neighbours_are_spelled() {
        for length in 2..MOST_DIGITS {
            for place in 1..length {
                let [less, zeros, more] =
                    around(length, place).map(|digits| number_of(&String::from_iter(digits)));
                assert_eq!(zeros % 10i64.pow((length - place) as u32), 0);
                assert_eq!((less, more), (zeros - 1, zeros + 1));
            }
        }
    }

    /// Each wrong printer is found by these prints alone.
    #[test]
    fn wrong_printers_are_found() {
        for &wrong in Wrong::PRINTERS {
            let found = try_printer(wrong).err().unwrap_or_default();
            assert!(found.starts_with("print kind "), "{wrong:?} was not found: {found}");
        }
    }
}
