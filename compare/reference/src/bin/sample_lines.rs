//! Prints the frames of document 004 as lines of 63 hexadecimal digits.

use reference::samples;
use reference::write::write;

fn main() {
    for record in samples::all() {
        let mut frame = [0; 32];
        write(&record, &mut frame).expect("a sample is valid");
        let digits: String = frame.iter().map(|byte| format!("{byte:02X}")).collect();
        // The 64th digit is padding and is not sent.
        println!("{}", &digits[..63]);
    }
}
