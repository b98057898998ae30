//! Reading and writing undo each other.

use reference::generate::{any_frame, any_record, valid_frame, valid_record};
use reference::random::Random;
use reference::read::read;
use reference::record::Category;
use reference::write::write;

const COUNT: usize = 100_000;

#[test]
fn a_valid_record_is_read_back() {
    for category in Category::ALL {
        let mut random = Random::new(category.code());
        for _ in 0..COUNT {
            let record = valid_record(&mut random, category);
            let mut frame = [0xFF; 32];
            assert_eq!(write(&record, &mut frame), Ok(()), "{record:?}");
            assert_eq!(read(&frame), Ok(record), "{frame:02x?}");
        }
    }
}

#[test]
fn a_valid_frame_is_written_back() {
    for category in Category::ALL {
        let mut random = Random::new(100 + category.code());
        for _ in 0..COUNT {
            let frame = valid_frame(&mut random, category);
            let record = read(&frame).expect("the frame is valid");
            assert_eq!(record.body.category(), Some(category));
            let mut again = [0; 32];
            assert_eq!(write(&record, &mut again), Ok(()));
            assert_eq!(again, frame);
        }
    }
}

#[test]
fn whatever_is_read_has_this_one_frame() {
    let mut random = Random::new(200);
    let mut read_count = 0;
    for _ in 0..4 * COUNT {
        let bytes = any_frame(&mut random);
        if let Ok(record) = read(&bytes) {
            let mut again = [0; 32];
            assert_eq!(write(&record, &mut again), Ok(()));
            assert_eq!(again[..], bytes[..]);
            read_count += 1;
        }
    }
    assert!(read_count > COUNT / 4);
}

#[test]
fn whatever_is_written_is_read_back() {
    let mut random = Random::new(300);
    let mut written_count = 0;
    for _ in 0..4 * COUNT {
        let record = any_record(&mut random);
        let mut frame = [0xA5; 32];
        match write(&record, &mut frame) {
            Ok(()) => {
                assert_eq!(read(&frame), Ok(record));
                written_count += 1;
            }
            Err(_) => assert_eq!(frame, [0xA5; 32]),
        }
    }
    assert!(written_count > COUNT / 4);
}
