//! What is lent to a call, and what the call leaves of it.

use reference::answer::Answer;
use std::hint::black_box;

/// What a call answers, the value that is told where it is asked for, and the
/// buffer that the call may write, as it is afterwards.
#[derive(PartialEq, Debug)]
pub struct Outcome {
    pub answer: Answer,
    /// Asked for whatever the answer is, so it is also seen to be 0 where the answer
    /// has no value. A call that has no value to tell has 0 here.
    pub asked: u64,
    pub lent: Vec<u8>,
}

impl Outcome {
    /// What is asked for is what the answer has.
    pub fn new(answer: Answer, lent: Vec<u8>) -> Outcome {
        Outcome { answer, asked: answer.value, lent }
    }
}

/// Lends a copy of what a call may only read, and sees that it stays as it was.
pub fn only_read<T>(bytes: &[u8], call: impl FnOnce(&[u8]) -> T) -> T {
    let mut lent = bytes.to_vec();
    let answer = call(&lent);
    // The compiler takes for granted that such a slice stays as it was, so the
    // comparison must not see where it came from.
    assert_eq!(black_box(&mut lent), bytes, "a buffer was written that is only to be read");
    answer
}

/// A call that reads the first slice and may write the second, and has no value
/// to tell.
pub fn from_to(call: impl Fn(&[u8], &mut [u8]) -> Answer, from: &[u8], to: &[u8]) -> Outcome {
    let mut lent = to.to_vec();
    let answer = only_read(from, |from| call(from, &mut lent));
    Outcome { answer, asked: 0, lent }
}

/// A call that may write the first slice and reads the second, and has no value
/// to tell.
pub fn to_from(call: impl Fn(&mut [u8], &[u8]) -> Answer, to: &[u8], from: &[u8]) -> Outcome {
    from_to(|from, to| call(to, from), from, to)
}

/// A refusal that names nothing leaves the buffer as it was.
pub fn refused(number: u8, lent: &[u8]) -> Outcome {
    Outcome::new(Answer::refused(number), lent.to_vec())
}

/// Bytes cut off, or followed by zeros.
pub fn resized(bytes: &[u8], length: usize) -> Vec<u8> {
    let mut bytes = bytes.to_vec();
    bytes.resize(length, 0);
    bytes
}
