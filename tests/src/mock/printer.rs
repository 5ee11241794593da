//! The mock's printer, which divides by ten, and how it can be wrong.

use super::{older, Mock, Wrong};
use crate::guarded::Guarded;
use crate::model::printer::SCRATCH;
use crate::model::table::from_pair;
use crate::model::value::Value;

impl Wrong {
    /// Those that print otherwise than they must.
    pub const PRINTERS: &'static [Wrong] = &[
        Wrong::PrinterInOlderRange,
        Wrong::PrinterClearsTheRest,
        Wrong::PrinterSays15First,
        Wrong::PrinterDividesBy100,
        Wrong::PrinterDividesBelowZero,
        Wrong::PrinterCutsTo32Bits,
        Wrong::PrinterOneDigitTooFew,
        Wrong::PrinterOneDigitTooMany,
        Wrong::PrinterZeroHasNoDigit,
        Wrong::PrinterPadsWithZeros,
        Wrong::PrinterReversesDigits,
        Wrong::PrinterLeavesOutZeros,
        Wrong::PrinterLosesTheSign,
        Wrong::PrinterOnePlaceLate,
        Wrong::PrinterTouchesTheByteAfter,
        Wrong::PrinterWorksAtTheEnd,
        Wrong::RefusedPrinterWrites,
    ];

    /// How many digits are written.
    fn digit_count(self, magnitude: u64) -> usize {
        let least = match self {
            Wrong::PrinterPadsWithZeros => return 16,
            Wrong::PrinterZeroHasNoDigit if magnitude == 0 => return 0,
            // a power of ten has as many digits as its exponent
            Wrong::PrinterOneDigitTooFew => 11,
            Wrong::PrinterOneDigitTooMany => 9,
            _ => 10,
        };
        let (mut rest, mut count) = (magnitude, 1);
        while rest >= least {
            rest /= 10;
            count += 1;
        }
        count
    }

    /// The digits, the highest first.
    fn digits(self, number: i64) -> Vec<u8> {
        let mut rest = number.unsigned_abs();
        if self == Wrong::PrinterCutsTo32Bits {
            rest &= u32::MAX as u64;
        }
        let divisor = if self == Wrong::PrinterDividesBy100 { 100 } else { 10 };
        let mut digits = vec![0; self.digit_count(rest)];
        for digit in digits.iter_mut().rev() {
            let remainder = (rest % 10) as u8;
            *digit = match self {
                Wrong::PrinterDividesBelowZero if number < 0 => b'0' - remainder,
                _ => b'0' + remainder,
            };
            rest /= divisor;
        }
        match self {
            Wrong::PrinterReversesDigits => digits.reverse(),
            Wrong::PrinterLeavesOutZeros if number != 0 => digits.retain(|&d| d != b'0'),
            _ => {}
        }
        digits
    }

    fn text(self, value: Value) -> Vec<u8> {
        match value {
            Value::Null => b"-".to_vec(),
            Value::Out => b"OUT".to_vec(),
            Value::Number(x) if x < 0 && self != Wrong::PrinterLosesTheSign => {
                [b"-", &self.digits(x)[..]].concat()
            }
            Value::Number(x) => self.digits(x),
        }
    }
}

impl Mock {
    /// The number of what turns a print back, or what is printed.
    fn printed(&self, kind: u64, number: i64, length: usize) -> Result<Vec<u8>, i64> {
        let wrong = self.0;
        if wrong == Wrong::PrinterSays15First && length < SCRATCH {
            return Err(15);
        }
        if wrong == Wrong::PrinterInOlderRange && older::beyond(number) {
            return Err(10);
        }
        let value = from_pair(kind, number).ok_or(10)?;
        if length < SCRATCH {
            return Err(15);
        }
        Ok(wrong.text(value))
    }

    pub(super) fn give_print(&self, kind: u64, number: i64, scratch: &mut Guarded) -> i64 {
        let (wrong, bytes) = (self.0, scratch.bytes_mut());
        let text = match self.printed(kind, number, bytes.len()) {
            Ok(text) => text,
            Err(cause) => {
                let front = bytes.first_mut().filter(|_| wrong == Wrong::RefusedPrinterWrites);
                front.into_iter().for_each(|byte| *byte = byte.wrapping_add(1));
                return -cause;
            }
        };
        let at = (wrong == Wrong::PrinterOnePlaceLate) as usize;
        if wrong == Wrong::PrinterWorksAtTheEnd {
            bytes[SCRATCH - text.len()..SCRATCH].copy_from_slice(&text);
        }
        bytes[at..at + text.len()].copy_from_slice(&text);
        match wrong {
            Wrong::PrinterClearsTheRest => bytes[text.len()..].fill(0),
            Wrong::PrinterTouchesTheByteAfter => bytes[text.len()] = 0,
            _ => {}
        }
        text.len() as i64
    }
}
