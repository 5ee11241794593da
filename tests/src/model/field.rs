//! Cutting bytes into fields: tag (1 byte), length (2 bytes), content.

pub struct Field<'a> {
    pub offset: usize,
    pub tag: u8,
    pub content: &'a [u8],
}

impl Field<'_> {
    /// The offset just after this field.
    pub fn end(&self) -> usize {
        self.offset + 3 + self.content.len()
    }
}

/// The field at an offset; none if it is absent or runs past the end.
pub fn field_at(bytes: &[u8], offset: usize) -> Option<Field<'_>> {
    let rest = bytes.get(offset..)?;
    let tag = *rest.first()?;
    let length = u16_at(rest.get(1..3)?, 0) as usize;
    let content = rest.get(3..3 + length)?;
    Some(Field { offset, tag, content })
}

/// A 2-byte number.
pub fn u16_at(bytes: &[u8], at: usize) -> u16 {
    u16::from_le_bytes([bytes[at], bytes[at + 1]])
}

/// A 4-byte number.
pub fn u32_at(bytes: &[u8], at: usize) -> u32 {
    u32::from_le_bytes(bytes[at..at + 4].try_into().unwrap())
}

/// A signed 8-byte number.
pub fn i64_at(bytes: &[u8], at: usize) -> i64 {
    i64::from_le_bytes(bytes[at..at + 8].try_into().unwrap())
}

#[cfg(test)]
mod tests {
    use super::*;

    #[test]
    fn fields_are_cut() {
        let bytes = [9, 2, 0, 7, 8, 5, 0, 0, 6, 1];
        let first = field_at(&bytes, 0).unwrap();
        assert_eq!((first.tag, first.content, first.end()), (9, &[7u8, 8][..], 5));
        let second = field_at(&bytes, 5).unwrap();
        assert_eq!((second.tag, second.content, second.end()), (5, &[][..], 8));
        assert!(field_at(&bytes, 8).is_none());
        assert!(field_at(&bytes, 10).is_none());
        assert!(field_at(&bytes, 11).is_none());
        assert!(field_at(&[9, 2, 0, 7], 0).is_none());
    }
}
