//! Bytes to be lent: with guard bytes on both sides, or in a block of their own.

pub struct Guarded {
    all: Vec<u8>,
    front: usize,
    length: usize,
}

const GUARD: usize = 48;

fn guard_byte(place: usize) -> u8 {
    (place as u8).wrapping_mul(29) ^ 0xA5
}

impl Guarded {
    /// A copy of the bytes. The shift moves its front, so that any alignment is met.
    pub fn new(bytes: &[u8], shift: usize) -> Self {
        let front = GUARD + shift;
        let mut all: Vec<u8> = (0..front + bytes.len() + GUARD).map(guard_byte).collect();
        all[front..front + bytes.len()].copy_from_slice(bytes);
        Guarded { all, front, length: bytes.len() }
    }

    /// A copy in a block that begins and ends with it, so that a memory checker sees each access
    /// outside it. No bytes at all have no block.
    pub fn alone(bytes: &[u8]) -> Self {
        let mut all = Vec::with_capacity(bytes.len());
        all.extend_from_slice(bytes);
        Guarded { all, front: 0, length: bytes.len() }
    }

    pub fn bytes(&self) -> &[u8] {
        &self.all[self.front..self.front + self.length]
    }

    pub fn bytes_mut(&mut self) -> &mut [u8] {
        &mut self.all[self.front..self.front + self.length]
    }

    pub fn length(&self) -> usize {
        self.length
    }

    /// The front of the lent bytes, good for writing to all of them and to the guards.
    pub fn pointer(&mut self) -> *mut u8 {
        self.all[self.front..].as_mut_ptr()
    }

    pub fn guards_hold(&self) -> bool {
        let end = self.front + self.length;
        (0..self.front).chain(end..self.all.len()).all(|at| self.all[at] == guard_byte(at))
    }

    /// For a mock that writes where it must not: the byte just after the lent ones.
    pub fn break_guard(&mut self) {
        self.all[self.front + self.length] ^= 1;
    }
}

#[cfg(test)]
mod tests {
    use super::*;

    #[test]
    fn alone_has_no_room_around() {
        for length in [0, 1, 5, 1000] {
            let lent = Guarded::alone(&vec![7; length]);
            assert_eq!((lent.all.capacity(), lent.front), (length, 0));
            assert!(lent.guards_hold());
        }
    }

    #[test]
    fn guards_are_watched() {
        for length in [0, 1, 5] {
            for shift in 0..8 {
                let mut lent = Guarded::new(&vec![7; length], shift);
                lent.bytes_mut().fill(9);
                assert!(lent.guards_hold());
                assert_eq!(lent.bytes(), vec![9; length]);
                lent.break_guard();
                assert!(!lent.guards_hold());
                lent.break_guard();
                lent.all[lent.front - 1] ^= 128;
                assert!(!lent.guards_hold());
            }
        }
    }
}
