//! A buffer that is lent to a call, between two guards that must stay as they are.

/// Bytes, or words, of each guard.
const GUARD: usize = 64;

/// Memory of bytes or of words, with a lent part in its middle.
pub struct Lent<T> {
    memory: Vec<T>,
    /// What the memory holds before every call.
    before: Vec<T>,
    size: usize,
}

impl Lent<u8> {
    pub fn bytes(most: usize) -> Self {
        Lent::new(most, |i| (i * 7 + 3) as u8)
    }
}

impl Lent<u64> {
    pub fn words(most: usize) -> Self {
        // No byte of it is 0: a part of a word that was to be 0 and was not written shows.
        Lent::new(most, |i| (i % 200 + 3) as u64 * 0x0101_0101_0101_0101)
    }
}

impl<T: Copy + PartialEq> Lent<T> {
    /// Memory that lends at most so much, with what it holds at each place.
    fn new(most: usize, at: impl Fn(usize) -> T) -> Self {
        let before: Vec<T> = (0..GUARD + most + GUARD).map(at).collect();
        Lent {
            memory: before.clone(),
            before,
            size: most,
        }
    }

    /// The first `size` bytes, or words, after the guard. What follows them is guard as well.
    pub fn lend(&mut self, size: usize) -> &mut [T] {
        self.size = size;
        &mut self.memory[GUARD..GUARD + size]
    }

    /// Whether the lent part begins with these, and all else in the memory is as it was
    /// before. It is then made so throughout.
    pub fn holds(&mut self, written: &[T]) -> bool {
        let end = GUARD + written.len();
        let kept = written.len() <= self.size
            && &self.memory[GUARD..end] == written
            && self.memory[..GUARD] == self.before[..GUARD]
            && self.memory[end..] == self.before[end..];
        // Where all else is kept, what was written alone needs to be made as before.
        match kept {
            true => self.memory[GUARD..end].copy_from_slice(&self.before[GUARD..end]),
            false => self.memory.copy_from_slice(&self.before),
        }
        kept
    }
}

#[cfg(test)]
mod tests {
    use super::*;

    /// In memory that lends at most 100, of which three are written, a change of any other
    /// place is noticed.
    fn check<T: Copy + PartialEq>(mut lent: Lent<T>, written: [T; 3], change: fn(&mut T)) {
        assert!(lent.holds(&[]));
        lent.lend(50)[..3].copy_from_slice(&written);
        assert!(lent.holds(&written));
        for at in [0, GUARD - 1, GUARD + 3, GUARD + 49, GUARD + 50, GUARD + 163] {
            lent.lend(50)[..3].copy_from_slice(&written);
            change(&mut lent.memory[at]);
            assert!(!lent.holds(&written));
            assert!(lent.holds(&[]));
        }
        assert!(!lent.holds(&written));
        lent.lend(2);
        lent.memory[GUARD..GUARD + 3].copy_from_slice(&written);
        assert!(!lent.holds(&written));
    }

    #[test]
    fn a_byte_out_of_place_is_noticed() {
        check(Lent::bytes(100), *b"abc", |byte| *byte ^= 1);
    }

    #[test]
    fn a_bit_of_a_word_out_of_place_is_noticed() {
        check(Lent::words(100), [1, 0, u64::MAX], |word| *word ^= 1);
        check(Lent::words(100), [1, 0, u64::MAX], |word| *word ^= 1 << 63);
    }
}
