//! The parity one bit at a time, by the rule of document 01. It is the yardstick
//! for what takes several bits at once, in what it gives and in its speed, so it
//! goes the plain way and no other.

/// The generator without its leading one, which has left the register when the
/// rest is added to it.
const GENERATOR: u32 = 0x86_4CFB;

/// The 24 bits of the register.
pub(crate) const REGISTER: u32 = 0xFF_FFFF;

/// The CRC-24Q of the first `count` bits of `bytes`, most significant first.
///
/// This is the usual shift register. It starts from zero, takes one bit after
/// the other and is not changed at the end. Nothing of the long division is used.
pub fn parity(bytes: &[u8], count: usize) -> u32 {
    let mut register = 0;
    for position in 0..count {
        let bit = bytes[position / 8] >> (7 - position % 8) & 1;
        register = take_bit(register, u32::from(bit));
    }
    register
}

/// The register moves up by one place. Where the bit that leaves it is not the
/// bit that comes, the generator is added.
pub(super) const fn take_bit(register: u32, bit: u32) -> u32 {
    let leaving = register >> 23;
    let moved = register << 1 & REGISTER;
    if leaving == bit {
        moved
    } else {
        moved ^ GENERATOR
    }
}
