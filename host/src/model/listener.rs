//! Document 02, E1: "a listener that turns up to 4,160 such bytes into answer records", one byte for each clock, 0 or 1.

use super::follower::{Follower, Whole, PREAMBLE};
use super::records::{check_capture, room, Refusal, Transaction, ANSWER_RECORD};

/// The answer records in a capture. The listener "starts with 0 ones, hunts with 32 and follows frames as a PHY does"; a frame that is
/// not whole, or asks for nothing, gives none.
pub fn heard(capture: &[u8]) -> impl Iterator<Item = [u8; ANSWER_RECORD]> + '_ {
    let mut follower = Follower::hunting(PREAMBLE);
    capture.iter().filter_map(move |&level| match follower.hear(level != 0) {
        Some(Whole::Frame(frame)) => Transaction::of_frame(frame).map(|transaction| transaction.decoded(frame)),
        _ => None,
    })
}

/// "Refusals: 16 a byte over 1, after 2; then 10."
pub fn listen(capture: &[u8], answers: &mut [u8]) -> Result<(), Refusal> {
    check_capture(capture)?;
    let records: Vec<_> = heard(capture).collect();
    room(answers, records.len() * ANSWER_RECORD)?.copy_from_slice(records.as_flattened());
    Ok(())
}

#[cfg(test)]
mod tests {
    use super::*;
    use crate::model::tests::{self, refused};

    const ONES: &str = "11111111111111111111111111111111";
    const WRITE: &str = "01 01 00011 00000 10 0001001000000000";
    const WRITTEN: [u8; 6] = [0, 1, 3, 0, 0x12, 0x00];
    const READ: &str = "01 10 00001 00001 10 0111100001001001";
    const ANSWERED: [u8; 6] = [1, 2, 1, 1, 0x78, 0x49];
    const UNANSWERED: &str = "01 10 11111 00010 11 1111111111111111";
    const SILENT: [u8; 6] = [2, 2, 31, 2, 0, 0];

    /// The levels that a text shows, blanks between them.
    fn levels(text: &str) -> Vec<u8> {
        text.bytes().filter(|&sign| sign != b' ').map(|sign| sign - b'0').collect()
    }

    /// Holds a capture to the records wanted.
    fn gives(capture: &[u8], wanted: &[[u8; 6]]) {
        tests::gives(wanted.as_flattened(), |answers| listen(capture, answers));
    }

    /// The same of levels written as text.
    fn reads(text: &[&str], wanted: &[[u8; 6]]) {
        gives(&levels(&text.concat()), wanted);
    }

    #[test]
    fn one_frame_of_each_kind() {
        reads(&[ONES, WRITE], &[WRITTEN]);
        reads(&[ONES, READ], &[ANSWERED]);
        reads(&[ONES, UNANSWERED], &[SILENT]);
        reads(&[ONES, READ, "1", ONES, WRITE, "1", ONES, UNANSWERED, "1"], &[ANSWERED, WRITTEN, SILENT]);
    }

    #[test]
    fn the_second_turnaround_bit_decides_a_read_and_nothing_of_a_write() {
        reads(&[ONES, "01 10 00001 00001 00 1111111111111111"], &[[1, 2, 1, 1, 0xFF, 0xFF]]);
        reads(&[ONES, "01 10 00001 00001 01 0111100001001001"], &[[2, 2, 1, 1, 0, 0]]);
        for turnaround in ["00", "01", "10", "11"] {
            reads(&[ONES, "01 01 00011 00000", turnaround, "0001001000000000"], &[WRITTEN]);
        }
    }

    #[test]
    fn other_frames_give_nothing_and_are_followed_to_their_end() {
        for op in ["00", "11"] {
            let frame = format!("01 {op} 00011 00000 10 0001001000000000");
            reads(&[ONES, &frame], &[]);
            reads(&[ONES, &frame, ONES, READ], &[ANSWERED]);
        }
        let of_ones = "01 11 11111 11111 11 1111111111111111";
        reads(&[ONES, of_ones, "1", READ], &[]);
        reads(&[ONES, of_ones, ONES, READ], &[ANSWERED]);
    }

    #[test]
    fn a_frame_that_starts_00_gives_nothing_and_is_followed_to_its_end() {
        for foreign in [
            "00 01 01010 00011 10 0000101010111100",
            "00 10 00001 00001 10 0111100001001001",
            "00 11 11111 11111 11 1111111111111111",
        ] {
            reads(&[ONES, foreign], &[]);
            reads(&[ONES, foreign, &ONES[1..], READ], &[]);
            reads(&[ONES, foreign, ONES, READ], &[ANSWERED]);
        }
        reads(&[ONES, "00", ONES, READ], &[]);
    }

    #[test]
    fn a_frame_cut_off_gives_nothing() {
        let capture = levels(&[ONES, WRITE, "1", ONES, READ].concat());
        assert_eq!(capture.len(), 64 + 65);
        for length in 0..64 {
            gives(&capture[..length], &[]);
        }
        for length in 64..64 + 65 {
            gives(&capture[..length], &[WRITTEN]);
        }
        gives(&capture, &[WRITTEN, ANSWERED]);
    }

    #[test]
    fn a_preamble_has_32_ones() {
        reads(&[&ONES[1..], READ], &[]);
        reads(&["1", ONES, READ], &[ANSWERED]);
        reads(&[&ONES[1..], "0", &ONES[1..], READ], &[]);
        reads(&[&ONES[1..], "0", ONES, READ], &[ANSWERED]);
        reads(&[ONES, WRITE, &ONES[1..], READ], &[WRITTEN]);
        reads(&[ONES, WRITE, "1", &ONES[1..], READ], &[WRITTEN, ANSWERED]);
        reads(&[ONES, READ, &ONES[1..], READ], &[ANSWERED]);
    }

    #[test]
    fn frames_back_to_back_up_to_65() {
        let three = levels(&[ONES, WRITE, ONES, READ, ONES, UNANSWERED].concat());
        gives(&three, &[WRITTEN, ANSWERED, SILENT]);
        let most = three.repeat(22)[..4160].to_vec();
        let wanted = [WRITTEN, ANSWERED, SILENT].repeat(22)[..65].to_vec();
        assert_eq!(wanted.len() * 6, 390);
        gives(&most, &wanted);
    }

    #[test]
    fn levels_without_a_frame() {
        gives(&[], &[]);
        gives(&[0; 4160], &[]);
        gives(&[1; 4160], &[]);
    }

    #[test]
    fn refusals_in_their_order() {
        let mut capture = levels(&[ONES, READ].concat());
        let at_end = |bytes: &[u8], length| [bytes, &vec![1; length - bytes.len()]].concat();
        assert_eq!(listen(&at_end(&capture, 4160), &mut [9; 6]), Ok(()));
        assert_eq!(listen(&at_end(&capture, 4161), &mut [9; 6]), refused(2, 0));
        assert_eq!(listen(&[2; 4161], &mut []), refused(2, 0), "2 before 16");
        for at in [0, 31, 32, 63] {
            let good = std::mem::replace(&mut capture[at], 2);
            assert_eq!(listen(&capture, &mut [9; 6]), refused(16, at));
            capture[at] = good;
        }
        capture.extend([0, 2, 255]);
        let mut output = [9; 5];
        assert_eq!(listen(&capture, &mut output), refused(16, 65), "the first such byte, and 16 before 10");
        assert_eq!(listen(&capture[..65], &mut output), refused(10, 0));
        assert_eq!(output, [9; 5]);
    }
}
