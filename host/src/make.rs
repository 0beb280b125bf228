//! Records from values, steps from records, logs and captures, for tests and measurements.

use crate::calls::MODEL;
use crate::model::records::{Transaction, LIST_RECORD, LOG_RECORD, MOST_STEPS};
use crate::model::translate;
use crate::model::wire::LEVEL;

/// A board record.
pub fn phy(address: u8, implemented: u32, defaults: &[(usize, u16)], write_masks: &[(usize, u16)]) -> Vec<u8> {
    let mut record = vec![address, 0];
    record.extend(implemented.to_be_bytes());
    for words in [defaults, write_masks] {
        let mut registers = [0u16; 32];
        for &(register, word) in words {
            registers[register] = word;
        }
        record.extend(registers.iter().flat_map(|word| word.to_be_bytes()));
    }
    record
}

/// Board P of document 01.
pub fn board_p() -> Vec<u8> {
    phy(1, 0x0000000F, &[(0, 0x3000), (1, 0x7849)], &[])
}

/// A list record.
pub fn write(address: u8, register: u8, data: u16) -> [u8; 6] {
    let [high, low] = data.to_be_bytes();
    [1, address, register, 0, high, low]
}

/// A list record.
pub fn read(address: u8, register: u8) -> [u8; 6] {
    [2, address, register, 0, 0, 0]
}

/// An event record.
pub fn event(clock: u16, address: u8, code: u8) -> [u8; 4] {
    let [high, low] = clock.to_be_bytes();
    [high, low, address, code]
}

/// The steps of a good list.
pub fn steps(list: &[u8]) -> Vec<u8> {
    let mut steps = vec![0; list.len() / LIST_RECORD * Transaction::CLOCKS];
    translate(list, &mut steps).expect("the list is good");
    steps
}

/// The log of a good run.
pub fn log(board: &[u8], steps: &[u8], events: &[u8]) -> Vec<u8> {
    let mut log = vec![0; steps.len() * LOG_RECORD];
    (MODEL.run)(board, steps, events, &mut log).expect("board, steps and events are good");
    log
}

/// A log with these flags, in which no PHY drives.
pub fn log_of(flags: &[u8]) -> Vec<u8> {
    flags.iter().flat_map(|&flags| [flags, 0, 0, 0, 0]).collect()
}

/// The log with the longest waveform: every signal changes in every clock, of which there are the most.
pub fn busiest_log() -> Vec<u8> {
    log_of(&[7, 0].repeat(MOST_STEPS / 2))
}

/// What the analyser saves of a run: the level of each clock in its log.
pub fn capture(log: &[u8]) -> Vec<u8> {
    log.iter().step_by(LOG_RECORD).map(|flags| flags & LEVEL).collect()
}

/// The last bits of a word, high bit first.
pub fn bits(word: u32, count: u32) -> impl Iterator<Item = u8> {
    (0..count).rev().map(move |bit| (word >> bit & 1) as u8)
}

/// The levels of a frame after some ones.
pub fn levels(ones: usize, frame: u32) -> Vec<u8> {
    std::iter::repeat_n(1, ones).chain(bits(frame, 32)).collect()
}
