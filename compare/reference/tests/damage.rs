//! What document 02 says of damage within 24 consecutive bits, and that more
//! cannot be said, of the reference alone.

use reference::bits::{bit, Frame};
use reference::damage::{promised_number, unseen_by_parity, Damage, FRAME_BITS, PROMISED_BITS};
use reference::read::read;
use reference::record::Refusal;
use reference::samples;
use reference::write::write;

fn frames() -> Vec<Frame> {
    let frame_of = |record| {
        let mut frame = [0; 32];
        write(record, &mut frame).expect("a sample is valid");
        frame
    };
    samples::all().iter().map(frame_of).collect()
}

#[test]
fn no_bit_but_those_named_is_changed() {
    let damage = Damage { first: 226, width: 24, changed: 0x80_0001 };
    for frame in frames() {
        let damaged = damage.done_to(&frame);
        for position in 0..8 * frame.len() {
            let changed = bit(&frame, position) != bit(&damaged, position);
            assert_eq!(changed, position == 226 || position == 249, "bit {position}");
        }
    }
}

#[test]
fn a_damage_is_done_wherever_it_lies_in_the_frame() {
    let places = |width| Damage::everywhere(width, 1).map(|damage| damage.first);
    assert_eq!(places(24).collect::<Vec<_>>(), (0..=226).collect::<Vec<_>>());
    assert_eq!(places(FRAME_BITS).collect::<Vec<_>>(), [0]);
}

#[test]
fn a_preamble_for_another_of_the_three_is_4_and_any_other_3() {
    for (preamble, number) in [(0x9A, 4), (0xC6, 4), (0x52, 3), (0xD3, 3), (0, 3)] {
        for mut frame in frames() {
            frame[0] = preamble;
            assert_eq!(read(&frame), Err(Refusal::plain(number)), "{preamble:02X}");
            assert_eq!(promised_number(&frame), number, "{preamble:02X}");
        }
    }
}

#[test]
fn a_run_of_up_to_24_changed_bits_is_refused_as_promised() {
    for frame in frames() {
        for width in 1..=PROMISED_BITS {
            for damage in Damage::everywhere(width, (1 << width) - 1) {
                let damaged = damage.done_to(&frame);
                let expected = Err(Refusal::plain(promised_number(&damaged)));
                assert_eq!(read(&damaged), expected, "{damage:?}");
            }
        }
    }
}

#[test]
fn a_damage_within_25_bits_may_be_read() {
    let mut read_all_the_same = 0;
    for frame in frames() {
        for damage in unseen_by_parity() {
            let answer = read(&damage.done_to(&frame));
            assert_ne!(answer, Err(Refusal::plain(4)), "{damage:?}");
            read_all_the_same += usize::from(answer.is_ok());
        }
    }
    assert!(read_all_the_same > 0);
}
