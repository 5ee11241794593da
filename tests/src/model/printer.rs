//! The printer in its C form.

use super::table::from_pair;
use super::value::Value;

pub const SCRATCH: usize = 20;

/// A value in characters.
pub fn text_of(value: Value) -> String {
    match value {
        Value::Null => "-".to_string(),
        Value::Out => "OUT".to_string(),
        Value::Number(x) => x.to_string(),
    }
}

/// Writes a value at the front of the scratch bytes: the part's length, or a number negated.
pub fn print(kind: u64, number: i64, scratch: &mut [u8]) -> i64 {
    let Some(value) = from_pair(kind, number) else {
        return -10;
    };
    if scratch.len() < SCRATCH {
        return -15;
    }
    let text = text_of(value);
    scratch[..text.len()].copy_from_slice(text.as_bytes());
    text.len() as i64
}

#[cfg(test)]
mod tests {
    use super::super::value::LIMIT;
    use super::*;

    #[test]
    fn printed_values() {
        let cases = [
            (1, 0, "-".to_string()),
            (2, 0, "OUT".to_string()),
            (3, 0, "0".to_string()),
            (3, -1, "-1".to_string()),
            (3, 10, "10".to_string()),
            (3, -907_060, "-907060".to_string()),
            (3, LIMIT, "1000000000000000".to_string()),
            (3, -LIMIT, "-1000000000000000".to_string()),
            (3, LIMIT - 1, "999999999999999".to_string()),
        ];
        for (kind, number, text) in cases {
            let mut scratch = [b'?'; 24];
            assert_eq!(print(kind, number, &mut scratch), text.len() as i64);
            assert_eq!(&scratch[..text.len()], text.as_bytes());
            assert!(scratch[text.len()..].iter().all(|&b| b == b'?'));
        }
    }

    #[test]
    fn refusals() {
        let mut scratch = [b'?'; 20];
        for (kind, number) in
            [(0, 0), (4, 0), (257, 0), (1, 1), (2, -1), (3, LIMIT + 1), (3, -LIMIT - 1)]
        {
            assert_eq!(print(kind, number, &mut scratch), -10);
            assert_eq!(print(kind, number, &mut scratch[..19]), -10);
        }
        assert_eq!(print(3, LIMIT, &mut scratch[..19]), -15);
        assert_eq!(print(1, 0, &mut []), -15);
        assert_eq!(scratch, [b'?'; 20]);
        assert_eq!(print(1, 0, &mut scratch), 1);
    }
}
