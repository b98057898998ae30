//! What records have in their spares: numbers of all kinds to put there, and a
//! note of what came up.

use crate::Count;
use reference::answer::Answer;
use reference::fields::spares;
use reference::random::Random;
use reference::record::Record;

/// As many bits as let every number be tried.
const FEW_BITS: usize = 16;

/// Every number of so many bits; where those are too many, the numbers with one
/// or two bits set or clear, and others of all lengths.
pub fn numbers(random: &mut Random, bits: usize) -> Vec<u64> {
    if bits <= FEW_BITS {
        return (0..1 << bits).collect();
    }
    with_few_bits(random, bits)
}

/// The numbers with one or two of so many bits set or clear, and others of all
/// lengths.
pub fn with_few_bits(random: &mut Random, bits: usize) -> Vec<u64> {
    let all = u64::MAX >> (64 - bits);
    let mut numbers = vec![0, all];
    for one in 0..bits {
        for other in 0..=one {
            let two = 1 << one | 1 << other;
            numbers.extend([two, all - two, random.bits(1 + one)]);
        }
    }
    numbers
}

/// Notes of a record that was read, written or taken, or was refused, whether its
/// spares had a part in it.
pub fn note(count: &mut Count, record: &Record, answer: Answer) {
    let own = record.body.category().map_or(Vec::new(), spares);
    let begins_at = |place: u8| own.iter().any(|spare| spare.first == usize::from(place));
    let is_set = |spares: &[u64]| spares.iter().any(|&spare| spare != 0);
    match answer.number {
        0 if is_set(&record.spares) => count.note("with a spare set"),
        8 if begins_at(answer.place) => count.note("with a spare too wide"),
        11 if is_set(&record.spares[own.len()..]) => count.note("with a spare too many"),
        _ => {}
    }
}
