//! A caller's buffer between guards, filled with a pattern, every byte of which is compared after a call.

/// Bytes before and after the buffer that must stay as they are.
const GUARD: usize = 64;

/// The pattern's byte at an index; the two patterns differ in every byte.
fn pattern(index: usize, flip: u8) -> u8 {
    ((index as u32).wrapping_mul(2_654_435_761) >> 24) as u8 ^ flip
}

pub struct Buffer {
    /// The pattern, and the bytes that calls are lent, which are the pattern between calls.
    fill: Vec<u8>,
    block: Vec<u8>,
    flip: u8,
    start: usize,
    len: usize,
}

impl Buffer {
    /// A buffer of a pattern, which has its bits flipped or not.
    pub fn new(flip: u8) -> Self {
        Self { fill: Vec::new(), block: Vec::new(), flip, start: GUARD, len: 0 }
    }

    /// Lends `len` bytes, at this offset from an aligned address.
    pub fn lend(&mut self, len: usize, offset: usize) -> &mut [u8] {
        (self.start, self.len) = (GUARD + offset, len);
        let end = self.start + len + GUARD;
        if self.fill.len() < end {
            self.fill.extend((self.fill.len()..end).map(|index| pattern(index, self.flip)));
            self.block.clone_from(&self.fill);
        }
        &mut self.block[self.start..self.start + len]
    }

    /// Takes the bytes back. They must be `written` and behind it the pattern, with whole guards; otherwise gives the
    /// index of the first byte that is not as it must be, negative in the guard before.
    pub fn take_back(&mut self, written: &[u8]) -> Option<isize> {
        let (low, end) = (self.start - GUARD, self.start + self.len + GUARD);
        let past = self.start + written.len();
        let same = past + GUARD <= end
            && self.block[low..self.start] == self.fill[low..self.start]
            && self.block[self.start..past] == *written
            && self.block[past..end] == self.fill[past..end];
        if same {
            self.block[self.start..past].copy_from_slice(&self.fill[self.start..past]);
            return None;
        }
        let expected = |at: usize| match at.checked_sub(self.start).and_then(|index| written.get(index)) {
            Some(byte) => *byte,
            None => self.fill[at],
        };
        let wrong = (low..end).find(|at| self.block[*at] != expected(*at)).unwrap_or(end);
        self.block[low..end].copy_from_slice(&self.fill[low..end]);
        Some(wrong as isize - self.start as isize)
    }
}

#[cfg(test)]
mod tests {
    use super::*;

    /// What is said of a buffer of eight bytes after a call that changed the block at an index from the buffer's start.
    fn changed(at: isize, written: &[u8]) -> Option<isize> {
        let mut buffer = Buffer::new(0);
        buffer.lend(8, 3)[..written.len()].copy_from_slice(written);
        let at = (buffer.start as isize + at) as usize;
        buffer.block[at] ^= 1;
        let said = buffer.take_back(written);
        assert_eq!(buffer.block, buffer.fill, "the pattern is back");
        said
    }

    #[test]
    fn every_byte_is_compared() {
        for at in -(GUARD as isize)..(8 + GUARD) as isize {
            assert_eq!(changed(at, &[7, 9, 250]), Some(at));
        }
    }

    #[test]
    fn written_records_are_expected() {
        let mut buffer = Buffer::new(0xff);
        buffer.lend(4, 1).copy_from_slice(&[1, 2, 3, 4]);
        assert_eq!(buffer.take_back(&[1, 2, 3, 4]), None);
        buffer.lend(4, 2);
        assert_eq!(buffer.take_back(&[]), None);
    }

    #[test]
    fn patterns_differ_everywhere() {
        assert!((0..5_000).all(|index| pattern(index, 0) != pattern(index, 0xff)));
    }
}
