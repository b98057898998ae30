//! A frame as four words, bit 0 the highest of the first.

use crate::bits::Frame;

#[derive(Clone, Copy, Default)]
pub struct Words([u64; 4]);

// First bit and width are constants wherever these are called, so each of them
// comes down to one or two shifts, if it is put into its caller.
impl Words {
    #[inline(always)]
    pub fn of_frame(frame: &Frame) -> Words {
        let (bytes, _) = frame.as_chunks();
        Words(std::array::from_fn(|word| u64::from_be_bytes(bytes[word])))
    }

    #[inline(always)]
    pub fn to_frame(self) -> Frame {
        let mut frame = [0; 32];
        for (bytes, word) in frame.as_chunks_mut().0.iter_mut().zip(self.0) {
            *bytes = word.to_be_bytes();
        }
        frame
    }

    /// The number in `width` bits from `first` on, 1 to 64 of them.
    #[inline(always)]
    pub fn get(&self, first: usize, width: usize) -> u64 {
        let (word, end) = (first / 64, first % 64 + width);
        let ending_there = if end <= 64 {
            self.0[word] >> (64 - end)
        } else {
            self.0[word] << (end - 64) | self.0[word + 1] >> (128 - end)
        };
        ending_there & (u64::MAX >> (64 - width))
    }

    /// Puts a number that has no more than `width` bits where nothing stands yet.
    #[inline(always)]
    pub fn put(&mut self, first: usize, width: usize, value: u64) {
        let (word, end) = (first / 64, first % 64 + width);
        if end <= 64 {
            self.0[word] |= value << (64 - end);
        } else {
            self.0[word] |= value >> (end - 64);
            self.0[word + 1] |= value << (128 - end);
        }
    }

    /// Whether all bits from `first` to just before `end` are zero.
    #[inline(always)]
    pub fn are_zero(&self, first: usize, end: usize) -> bool {
        let mut ones = 0;
        let mut from = first;
        while from < end {
            let to = end.min((from / 64 + 1) * 64);
            ones |= self.get(from, to - from);
            from = to;
        }
        ones == 0
    }

    /// All bits moved to the end by `count`, which is less than 64.
    #[inline(always)]
    pub fn moved_back(&self, count: usize) -> Words {
        let [a, b, c, d] = self.0;
        let joined = |left: u64, right: u64| left << (64 - count) | right >> count;
        Words([a >> count, joined(a, b), joined(b, c), joined(c, d)])
    }
}
