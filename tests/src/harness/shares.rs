//! Shares up to the limits of the range, where a product leaves a signed 64-bit number: each held
//! against arithmetic of its own, besides the model's.

use super::compare::{Act, Comparison};
use super::fixed::{figure, opened, post, OUT};
use crate::gen::{self, spec_figure, write_any, Spec};
use crate::model::calls::{Call, Reply};

/// The pairs of one part of a run.
pub const BATCH: u64 = 100;

/// A first parent, and its shares of 0, 1, 9,999 and 10,000 ten-thousandths. The last four have
/// products by 10,000 on either side of the least and the largest signed 64-bit number.
const SHARES: [(i64, [i64; 4]); 15] = [
    (1_000_000_000_000_000, [0, 100_000_000_000, 999_900_000_000_000, 1_000_000_000_000_000]),
    (-1_000_000_000_000_000, [0, -100_000_000_000, -999_900_000_000_000, -1_000_000_000_000_000]),
    (999_999_999_999_999, [0, 99_999_999_999, 999_899_999_999_999, 999_999_999_999_999]),
    (-999_999_999_999_999, [0, -100_000_000_000, -999_900_000_000_000, -999_999_999_999_999]),
    (0, [0, 0, 0, 0]),
    (1, [0, 0, 0, 1]),
    (-1, [0, -1, -1, -1]),
    (10_000, [0, 1, 9_999, 10_000]),
    (-10_001, [0, -2, -10_000, -10_001]),
    (123_456_789_012_345, [0, 12_345_678_901, 123_444_443_333_443, 123_456_789_012_345]),
    (-123_456_789_012_345, [0, -12_345_678_902, -123_444_443_333_444, -123_456_789_012_345]),
    (922_337_203_685_477, [0, 92_233_720_368, 922_244_969_965_108, 922_337_203_685_477]),
    (922_337_203_685_478, [0, 92_233_720_368, 922_244_969_965_109, 922_337_203_685_478]),
    (-922_337_203_685_477, [0, -92_233_720_369, -922_244_969_965_109, -922_337_203_685_477]),
    (-922_337_203_685_478, [0, -92_233_720_369, -922_244_969_965_110, -922_337_203_685_478]),
];

pub fn fixed_shares(c: &mut Comparison) -> Result<(), String> {
    for (first, shares) in SHARES {
        for (second, right) in [0, 1, 9_999, 10_000].into_iter().zip(shares) {
            figure(c, 5, &[Some(first), Some(second)], Some(right))?;
        }
        for second in [-1, 10_001] {
            figure(c, 5, &[Some(first), Some(second)], OUT)?;
        }
    }
    Ok(())
}

/// Random pairs, posted one after another to a sheet with a share that is asked for.
pub fn run_pairs(c: &mut Comparison) -> Result<(), String> {
    let entry = || Spec::Entry(b"A".to_vec());
    let (keep, spread) = (c.rng.below(2) as u8, c.rng.below(3) as u8);
    let specs = [entry(), entry(), spec_figure(5, keep, spread, &[0, 1])];
    let sheet = write_any(&mut c.rng, &specs);
    let full = c.rng.percent(50);
    let (mut lent, _) = opened(c, sheet, 3, full)?;
    for _ in 0..BATCH {
        let (first, second) = gen::share_pair(&mut c.rng);
        c.act(&Act::Give(post(0, first)), &mut lent)?;
        c.act(&Act::Give(post(1, second)), &mut lent)?;
        let given = c.act(&Act::Give(Call::Ask { item: 2 }), &mut lent)?;
        c.tally.count_pair(first, second);
        if !is_share(first, second, &given) {
            return Err(format!("the share of {first} and {second} is read as {given:?}"));
        }
    }
    Ok(())
}

/// Whether the reading is the product by 10,000, rounded down: by a division that rounds toward 0,
/// and by what it must be, the one number q with 10,000 q <= product < 10,000 (q + 1).
fn is_share(first: i64, second: i64, given: &Reply) -> bool {
    let product = first as i128 * second as i128;
    let rounded = product / 10_000 - (product % 10_000 < 0) as i128;
    let q = given.value as i128;
    let defined = 10_000 * q <= product && product < 10_000 * (q + 1);
    (given.number, given.kind) == (0, 3) && q == rounded && defined
}

#[cfg(test)]
mod tests {
    use super::*;

    /// The stored shares are those of `is_share`, and no number beside one is.
    #[test]
    fn shares_are_told_from_others() {
        for (first, shares) in SHARES {
            for (second, right) in [0, 1, 9_999, 10_000].into_iter().zip(shares) {
                for (value, good) in [(right - 1, false), (right, true), (right + 1, false)] {
                    let given = Reply { number: 0, offset: 0, kind: 3, value };
                    assert_eq!(is_share(first, second, &given), good, "{first} {second} {value}");
                }
                let refused = Reply { number: 13, offset: 0, kind: 0, value: right };
                assert!(!is_share(first, second, &refused));
            }
        }
    }
}
