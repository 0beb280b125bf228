//! Captures for the listener: of real runs, of frames of every kind and of noise; and both sides of its limits.

use super::{refused, size, Limit};
use crate::calls::{Answer, Call, Input};
use crate::make;
use crate::model::records::{MOST_HEARD, MOST_STEPS};
use crate::random::Random;

/// A good capture, with or without levels that the analyser took wrong, and cut where it happens or not.
pub fn capture(random: &mut Random, input: &Input) -> Vec<u8> {
    let mut capture = match random.below(4) {
        0 => make::capture(&make::log(&input.board, &make::steps(&input.list), &input.events)),
        1 => make::capture(&make::log(&input.board, &input.steps, &[])),
        2 => frames(random),
        _ => noise(random),
    };
    if random.one_in(4) {
        for _ in 0..random.below(8).min(capture.len()) {
            let at = random.below(capture.len());
            capture[at] ^= 1;
        }
    }
    if random.one_in(4) {
        capture.truncate(random.below(capture.len() + 1));
    }
    capture
}

/// Frames after preambles, back to back or with idle clocks between: all of them writes and reads, or some that are followed and give
/// nothing, and some after too few ones, or just enough with those that the frame before ends with.
fn frames(random: &mut Random) -> Vec<u8> {
    let count = if random.one_in(5) { MOST_HEARD } else { size(random, MOST_HEARD) };
    let (good, idle) = (random.one_in(2), random.pick(&[0, 0, 0, 1, 2, 40]));
    let (mut capture, mut before) = (Vec::new(), 0u32);
    for _ in 0..count {
        let missing = 32 - before.trailing_ones() as usize;
        let ones = if good { 32 } else { random.pick(&[31, 32, 32, 33, 64, missing]) };
        before = frame(random, good);
        capture.extend(make::levels(ones, before));
        capture.resize(capture.len() + idle, 1);
    }
    capture.truncate(MOST_STEPS);
    capture
}

/// The 32 bits of a write or a read, or with any start and op, or a start of 00; any turnaround and data.
fn frame(random: &mut Random, good: bool) -> u32 {
    let any = random.number() as u32;
    let ours = random.pick(&[0b0101, 0b0110]);
    let start_and_op = if good { ours } else { random.pick(&[ours, ours, any >> 28, any >> 30]) };
    start_and_op << 28 | random.pick(&[any, any | 0xFFFF, any & !0xFFFF]) & 0x0FFF_FFFF
}

/// Stretches of ones, some long enough to be a preamble, and of any levels.
fn noise(random: &mut Random) -> Vec<u8> {
    let length = size(random, MOST_HEARD) * 64;
    let mut capture = Vec::new();
    while capture.len() < length {
        let levels = random.pick(&[[1, 1], [0, 1]]);
        for _ in 0..random.below(80) {
            capture.push(random.pick(&levels));
        }
    }
    capture.truncate(length);
    capture
}

/// Document 01's case 12 after a preamble: the write of 1200 to PHY 3 register 0.
pub fn one_write() -> Vec<u8> {
    after(32)
}

/// That frame after some ones.
fn after(ones: usize) -> Vec<u8> {
    make::levels(ones, 0x5182_1200)
}

/// Both sides of the listener's limits. Where a record has no room, refusal 10 shows that it was found.
pub fn limits() -> Vec<Limit> {
    let mut late = one_write();
    late[63] = 2;
    let cases: [(&str, Vec<u8>, usize, Answer); 20] = [
        ("no level", Vec::new(), 0, Ok(())),
        ("4,160 levels", vec![1; 4160], 0, Ok(())),
        ("4,161 levels", vec![1; 4161], 0, refused(2, 0)),
        ("4,161 bytes over 1", vec![2; 4161], 0, refused(2, 0)),
        ("a byte of 1", vec![1], 0, Ok(())),
        ("a byte of 2", vec![2], 0, refused(16, 0)),
        ("the second byte over 1, and later ones", vec![1, 2, 2, 255], 0, refused(16, 1)),
        ("the last byte of 4,160 over 1", [vec![0; 4159], vec![2]].concat(), 0, refused(16, 4159)),
        ("a byte over 1 and a record without room", [one_write(), vec![2]].concat(), 0, refused(16, 64)),
        ("a byte over 1 as a frame's last", late, 6, refused(16, 63)),
        ("31 ones", after(31), 0, Ok(())),
        ("32 ones", after(32), 0, refused(10, 0)),
        ("33 ones", after(33), 0, refused(10, 0)),
        ("a frame of 31 bits", after(32)[..63].to_vec(), 0, Ok(())),
        ("one record, its room", one_write(), 6, Ok(())),
        ("one record, a byte short", one_write(), 5, refused(10, 0)),
        ("65 records, their room", one_write().repeat(65), 390, Ok(())),
        ("65 records, a byte short", one_write().repeat(65), 389, refused(10, 0)),
        ("64 records and a frame cut off, their room", one_write().repeat(65)[..4159].to_vec(), 384, Ok(())),
        ("64 records and a frame cut off, a byte short", one_write().repeat(65)[..4159].to_vec(), 383, refused(10, 0)),
    ];
    let limit = |(what, capture, room, answer)| Limit {
        what,
        call: Call::Listen,
        input: Input { capture, room, ..Input::default() },
        answer,
    };
    cases.into_iter().map(limit).collect()
}
