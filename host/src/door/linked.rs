//! The proved code as a part of this program.

use super::answer;
use crate::calls::Answer;

extern "C" {
    fn taksherub_translate(list: *const u8, list_len: usize, steps: *mut u8, steps_len: usize) -> u64;
    fn taksherub_run(
        board: *const u8,
        board_len: usize,
        steps: *const u8,
        steps_len: usize,
        events: *const u8,
        events_len: usize,
        log: *mut u8,
        log_len: usize,
    ) -> u64;
    fn taksherub_decode(
        list: *const u8,
        list_len: usize,
        log: *const u8,
        log_len: usize,
        answers: *mut u8,
        answers_len: usize,
    ) -> u64;
    fn taksherub_plain(
        board: *const u8,
        board_len: usize,
        list: *const u8,
        list_len: usize,
        events: *const u8,
        events_len: usize,
        answers: *mut u8,
        answers_len: usize,
    ) -> u64;
    fn taksherub_listen(levels: *const u8, levels_len: usize, answers: *mut u8, answers_len: usize) -> u64;
    fn taksherub_write_vcd(log: *const u8, log_len: usize, text: *mut u8, text_len: usize) -> u64;
    fn taksherub_read_vcd(text: *const u8, text_len: usize, flags: *mut u8, flags_len: usize) -> u64;
}

// Every slice below is lent for the call alone, and an output overlaps no input: that is all the door asks of its caller.

pub fn translate(list: &[u8], steps: &mut [u8]) -> Answer {
    answer(unsafe { taksherub_translate(list.as_ptr(), list.len(), steps.as_mut_ptr(), steps.len()) })
}

pub fn run(board: &[u8], steps: &[u8], events: &[u8], log: &mut [u8]) -> Answer {
    answer(unsafe {
        taksherub_run(
            board.as_ptr(),
            board.len(),
            steps.as_ptr(),
            steps.len(),
            events.as_ptr(),
            events.len(),
            log.as_mut_ptr(),
            log.len(),
        )
    })
}

pub fn decode(list: &[u8], log: &[u8], answers: &mut [u8]) -> Answer {
    answer(unsafe { taksherub_decode(list.as_ptr(), list.len(), log.as_ptr(), log.len(), answers.as_mut_ptr(), answers.len()) })
}

pub fn plain(board: &[u8], list: &[u8], events: &[u8], answers: &mut [u8]) -> Answer {
    answer(unsafe {
        taksherub_plain(
            board.as_ptr(),
            board.len(),
            list.as_ptr(),
            list.len(),
            events.as_ptr(),
            events.len(),
            answers.as_mut_ptr(),
            answers.len(),
        )
    })
}

pub fn listen(capture: &[u8], answers: &mut [u8]) -> Answer {
    answer(unsafe { taksherub_listen(capture.as_ptr(), capture.len(), answers.as_mut_ptr(), answers.len()) })
}

pub fn write_vcd(log: &[u8], text: &mut [u8]) -> Answer {
    answer(unsafe { taksherub_write_vcd(log.as_ptr(), log.len(), text.as_mut_ptr(), text.len()) })
}

pub fn read_vcd(text: &[u8], flags: &mut [u8]) -> Answer {
    answer(unsafe { taksherub_read_vcd(text.as_ptr(), text.len(), flags.as_mut_ptr(), flags.len()) })
}
