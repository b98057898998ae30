//! Parity and bit fields against values worked out by hand, and the three ways to
//! the parity against each other.

use reference::bits::{bit, get, set, set_bit, Frame};
use reference::parity::{self, by_bits, by_table};
use reference::random::Random;

const RANDOM_FRAMES: usize = 20_000;
const FRAMES_OF_EACH_COUNT: usize = 50;

/// The parity on which all three ways agree.
fn parity(bytes: &[u8], count: usize) -> u32 {
    let divided = parity::parity(bytes, count);
    let shifted = by_bits::parity(bytes, count);
    let looked_up = by_table::parity(bytes, count);
    let of_what = || format!("the first {count} bits of {bytes:02X?}");
    assert_eq!(shifted, divided, "one bit at a time and long division, {}", of_what());
    assert_eq!(looked_up, shifted, "by the table and one bit at a time, {}", of_what());
    looked_up
}

fn random_frame(random: &mut Random) -> Frame {
    std::array::from_fn(|_| random.byte())
}

#[test]
fn parity_has_its_published_check_value() {
    assert_eq!(parity(b"123456789", 72), 0xCDE703);
}

#[test]
fn parity_of_nothing_and_of_zeros_is_zero() {
    assert_eq!(parity(&[], 0), 0);
    assert_eq!(parity(&[0xFF], 0), 0);
    assert_eq!(parity(&[0; 32], 226), 0);
}

#[test]
fn parity_of_a_single_one_is_the_generator_below_its_leading_one() {
    assert_eq!(parity(&[0x80], 1), 0x86_4CFB);
    assert_eq!(parity(&[0x01], 8), 0x86_4CFB);
}

#[test]
fn parity_counts_bits_and_not_bytes() {
    let mut frame = [0x5A; 32];
    let sum = parity(&frame, 226);
    // Bits 226 to 255 have no part in it: six bits of byte 28, then the rest.
    frame[28] ^= 0b0011_1111;
    frame[29..].fill(0xFF);
    assert_eq!(parity(&frame, 226), sum);
    // Bit 225 has.
    frame[28] ^= 0b0100_0000;
    assert_ne!(parity(&frame, 226), sum);
}

/// With its parity behind it the generator divides a message, so nothing is left.
#[test]
fn parity_over_a_message_and_its_own_parity_is_zero() {
    let mut random = Random::new(3);
    for _ in 0..RANDOM_FRAMES {
        let mut frame = random_frame(&mut random);
        let count = random.below(256 - 24 + 1);
        let sum = parity(&frame, count);
        set(&mut frame, count, 24, sum.into());
        assert_eq!(parity(&frame, count + 24), 0);
        // One bit off, and something is left.
        set(&mut frame, count, 24, u64::from(sum) ^ 1 << random.below(24));
        assert_ne!(parity(&frame, count + 24), 0);
    }
}

/// Zeros in front do not count, since the register starts from zero: so every
/// byte meets its entry of the table alone, wherever it stands.
#[test]
fn parity_of_every_byte_is_the_same_behind_any_zeros() {
    for byte in 0..=255 {
        let sum = parity(&[byte], 8);
        for zeros in 0..32 {
            let mut frame = [0; 32];
            frame[zeros] = byte;
            assert_eq!(parity(&frame, 8 * zeros + 8), sum);
        }
    }
}

#[test]
fn parity_is_the_same_in_all_three_ways_on_every_count_of_bits() {
    let mut random = Random::new(1);
    for count in 0..=256 {
        for _ in 0..FRAMES_OF_EACH_COUNT {
            parity(&random_frame(&mut random), count);
        }
    }
    for _ in 0..RANDOM_FRAMES {
        parity(&random_frame(&mut random), 226);
    }
}

#[test]
fn fields_are_most_significant_bit_first() {
    let mut frame = [0; 32];
    frame[0] = 0b0000_0001;
    frame[1] = 0b1010_0000;
    assert_eq!(get(&frame, 7, 4), 0b1101);
    assert_eq!(get(&frame, 0, 8), 1);
    assert_eq!(get(&frame, 6, 32), 0b01_1010_0000 << 22);
    assert_eq!(get(&frame, 6, 64), 0b01_1010_0000 << 54);
    assert!(bit(&frame, 7) && bit(&frame, 8) && !bit(&frame, 9) && bit(&frame, 10));
}

#[test]
fn setting_a_field_touches_no_other_bit() {
    let mut frame = [0xFF; 32];
    set(&mut frame, 14, 3, 2);
    assert_eq!(frame[1], 0b1111_1101);
    assert_eq!(frame[2], 0b0111_1111);
    set_bit(&mut frame, 255, false);
    assert_eq!(frame[31], 0b1111_1110);
    assert!(frame[3..31].iter().all(|&byte| byte == 0xFF));
}

#[test]
fn a_field_gives_back_what_was_set() {
    let mut random = Random::new(2);
    for _ in 0..RANDOM_FRAMES {
        let mut frame = random_frame(&mut random);
        let before = frame;
        let width = 1 + random.below(64);
        let first = random.below(257 - width);
        let value = random.bits(width);
        set(&mut frame, first, width, value);
        assert_eq!(get(&frame, first, width), value);
        let outside = (0..first).chain(first + width..256);
        outside.for_each(|position| assert_eq!(bit(&frame, position), bit(&before, position)));
    }
}
