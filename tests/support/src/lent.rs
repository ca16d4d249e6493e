//! Memory lent to the first reader, with guards on both sides. After a call it
//! is compared with what it held before.

const GUARD: usize = 64;

/// Lent memory of bytes or list entries.
pub struct Lent<T> {
    memory: Vec<T>,
    before: Vec<T>,
    start: usize,
    length: usize,
}

impl<T: Copy + PartialEq> Lent<T> {
    fn new(front: Vec<T>, lent: &[T], back: &[T]) -> Lent<T> {
        let start = front.len();
        let mut memory = front;
        memory.extend_from_slice(lent);
        memory.extend_from_slice(back);
        Lent { before: memory.clone(), memory, start, length: lent.len() }
    }

    pub fn pointer(&mut self) -> *mut T {
        self.memory[self.start..].as_mut_ptr()
    }

    pub fn length(&self) -> usize {
        self.length
    }

    /// The lent part alone, as it is now.
    pub fn now(&self) -> &[T] {
        &self.memory[self.start..self.start + self.length]
    }

    /// The lent part alone, as it was.
    pub fn before(&self) -> &[T] {
        &self.before[self.start..self.start + self.length]
    }

    /// The lent part holds `front` at its front; all else, guards included, is
    /// as it was.
    pub fn holds_only(&self, front: &[T]) -> bool {
        let written = self.start + front.len();
        front.len() <= self.length
            && self.memory[..self.start] == self.before[..self.start]
            && self.memory[self.start..written] == *front
            && self.memory[written..] == self.before[written..]
    }

    /// What is not lent is as it was.
    pub fn guards_kept(&self) -> bool {
        let end = self.start + self.length;
        self.memory[..self.start] == self.before[..self.start]
            && self.memory[end..] == self.before[end..]
    }

    /// From here on what it holds now is what it held before.
    pub fn renew(&mut self) {
        self.before.copy_from_slice(&self.memory);
    }
}

fn guard(length: usize) -> Vec<u8> {
    (0..length).map(|index| (index * 37 + 0x5b) as u8).collect()
}

/// A record of the smallest size.
fn smallest_record() -> Vec<u8> {
    let size = [28, 0, 0, 0];
    [&[0x2a, 0x2a, 0, 0], &size[..], &[0x77; 16], &size].concat()
}

impl Lent<u8> {
    /// Input bytes at an address that `shift` moves. A whole record stands just
    /// before them, where an offset near 2^64 would lead if it wrapped, and
    /// `behind` after them, so that a call that reads on would find a sound
    /// continuation.
    pub fn input(bytes: &[u8], behind: &[u8], shift: usize) -> Lent<u8> {
        let front = [guard(GUARD + shift % 8), smallest_record()].concat();
        let back = [behind, &guard(GUARD)].concat();
        Lent::new(front, bytes, &back)
    }

    /// Memory for a text of `room` bytes. Its bytes, from f8 to ff, stand in no
    /// UTF-8, so that a byte written is a byte changed.
    pub fn output(room: usize) -> Lent<u8> {
        let pattern =
            |length: usize| -> Vec<u8> { (0..length).map(|index| 0xf8 | index as u8).collect() };
        // The room moves the address too.
        Lent::new(guard(GUARD + room % 8), &pattern(room), &pattern(GUARD))
    }
}

impl Lent<u32> {
    /// A list with room for `room` entries, each holding a number that is no
    /// record offset.
    pub fn list(room: usize) -> Lent<u32> {
        let pattern = |from: u32, length: usize| -> Vec<u32> {
            (0..length as u32).map(|index| from.wrapping_add(index)).collect()
        };
        let front = pattern(0xA500_0000, GUARD);
        Lent::new(front, &pattern(0xB500_0000, room), &pattern(0xC500_0000, GUARD))
    }
}

impl Lent<u64> {
    /// A list of so many numbers, none of which is a place or a size.
    pub fn numbers(length: usize) -> Lent<u64> {
        let pattern = |from: u64, length: usize| -> Vec<u64> {
            (0..length as u64).map(|index| (from + index) << 32 | !index & 0xffff_ffff).collect()
        };
        let front = pattern(0xA500_0000, GUARD);
        Lent::new(front, &pattern(0xB500_0000, length), &pattern(0xC500_0000, GUARD))
    }
}

#[cfg(test)]
mod tests {
    use super::*;

    #[test]
    fn changes_are_seen() {
        for touched in [0, GUARD - 1, GUARD, GUARD + 3, GUARD + 4, 2 * GUARD + 3] {
            let mut list = Lent::list(4);
            assert!(list.holds_only(&[]));
            list.memory[touched] ^= 1;
            assert!(!list.holds_only(&[]));
        }
        let mut list = Lent::list(4);
        list.memory[GUARD] = 7;
        assert!(list.holds_only(&[7]));
        assert!(!list.holds_only(&[7, 8]));
        assert!(!list.holds_only(&[7; 5]));
    }

    #[test]
    fn what_is_renewed_is_as_it_was() {
        let mut list = Lent::numbers(4);
        list.memory[GUARD + 2] = 7;
        assert!(!list.holds_only(&[]) && list.guards_kept());
        list.renew();
        assert!(list.holds_only(&[]) && list.now()[2] == 7);
        for touched in [0, GUARD - 1, GUARD + 4, 2 * GUARD + 3] {
            let mut list = Lent::numbers(4);
            list.memory[touched] ^= 1;
            assert!(!list.guards_kept());
        }
    }

    #[test]
    fn no_text_looks_like_unchanged_memory() {
        let output = Lent::output(300);
        assert!(output.now().iter().all(|byte| *byte >= 0xf8));
        assert!(output.holds_only(&[]));
        assert!(!output.holds_only(b"<P/>"));
    }
}
