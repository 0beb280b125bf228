//! Document 01's bench cases, limits and worked example, with the document's values.

mod foreign_frames;
mod waveforms;

use super::*;
use crate::make::{board_p, event, phy, read, write};

const LINK_UP: u8 = 1;
const LINK_DOWN: u8 = 2;
const REMOTE_FAULT: u8 = 3;

/// Status and data of each transaction, found by both machines: the wire from a fresh load, and the plain one.
fn exchange(board_file: &[u8], list: &[[u8; 6]], events: &[[u8; 4]]) -> Vec<(u8, u16)> {
    let (list, events) = (list.concat(), events.concat());
    let count = list.len() / 6;
    let (mut steps, mut log) = (vec![9; 65 * count], vec![9; 325 * count]);
    let (mut wired, mut plainly) = (vec![9; 6 * count], vec![9; 6 * count]);
    let mut board = Board::load(board_file).unwrap();
    translate(&list, &mut steps).unwrap();
    run(&mut board, &steps, &events, &mut log).unwrap();
    decode(&list, &log, &mut wired).unwrap();
    let mut other = Board::load(board_file).unwrap();
    plain(&mut other, &list, &events, &mut plainly).unwrap();
    assert_eq!(wired, plainly);
    assert_eq!(board.phys, other.phys);
    let answers = wired.as_chunks::<6>().0;
    answers.iter().map(|answer| (answer[0], wire::answer_data(answer))).collect()
}

/// The data of the reads in a list for board P.
fn reads(list: &[[u8; 6]], events: &[[u8; 4]]) -> Vec<u16> {
    exchange(&board_p(), list, events).into_iter().filter(|answer| answer.0 == 1).map(|answer| answer.1).collect()
}

pub fn refused<T>(number: u8, index: usize) -> Result<T, Refusal> {
    Err(Refusal { number, index })
}

/// Holds a call to the bytes wanted: they fit into just their room and not into less, and the bytes behind them stay.
pub fn gives(wanted: &[u8], call: impl Fn(&mut [u8]) -> Result<(), Refusal>) {
    let (full, mut output) = (wanted.len(), vec![9; wanted.len() + 7]);
    assert_eq!(call(&mut output[..full]), Ok(()));
    assert_eq!(output[..full], *wanted);
    output[..full].fill(9);
    assert_eq!(call(&mut output), Ok(()));
    assert_eq!(output[..full], *wanted);
    assert_eq!(output[full..], [9; 7]);
    if full > 0 {
        output[..full].fill(9);
        assert_eq!(call(&mut output[..full - 1]), refused(10, 0));
        assert_eq!(output, vec![9; full + 7]);
    }
}

#[test]
fn case_1_a_fresh_read_of_control() {
    assert_eq!(reads(&[read(1, 0)], &[]), [0x3000]);
}

#[test]
fn cases_2_to_4_and_6_what_a_control_write_leaves() {
    for (written, left) in [(0x2100, 0x2100), (0x0040, 0x2000), (0x2040, 0x2000), (0x0200, 0x0000)] {
        assert_eq!(reads(&[write(1, 0, written), read(1, 0)], &[]), [left], "write {written:04X}");
    }
}

#[test]
fn case_5_restart_is_held_until_event_6() {
    assert_eq!(reads(&[write(1, 0, 0x1200), read(1, 0), read(1, 0)], &[event(130, 1, 6)]), [0x1200, 0x1000]);
}

#[test]
fn case_7_reset_holds_until_event_7() {
    let list = [write(1, 0, 0x8100), read(1, 0), write(1, 0, 0x2100), read(1, 0), read(1, 0)];
    assert_eq!(reads(&list, &[event(4 * 65, 1, 7)]), [0xB000, 0xB000, 0x3000]);
}

#[test]
fn cases_8_and_9_the_link_bit_is_held() {
    let events = [event(0, 1, LINK_UP), event(130, 1, LINK_DOWN), event(130, 1, LINK_UP)];
    assert_eq!(reads(&[read(1, 1); 4], &events), [0x7849, 0x784D, 0x7849, 0x784D]);
}

#[test]
fn case_10_a_break_during_the_answer_is_seen_by_the_next_read() {
    let broken_at = |clock: u16| reads(&[read(1, 1); 4], &[event(0, 1, LINK_UP), event(130 + clock, 1, LINK_DOWN)]);
    assert_eq!(broken_at(45), [0x7849, 0x784D, 0x7849, 0x7849]);
    assert_eq!(broken_at(46), [0x7849, 0x784D, 0x784D, 0x7849]);
}

#[test]
fn case_11_silence() {
    assert_eq!(exchange(&board_p(), &[read(1, 4), read(2, 0)], &[]), [(2, 0), (2, 0)]);
}

#[test]
fn case_12_the_frame_word_and_the_65_steps() {
    let mut steps = [9; 65];
    translate(&write(3, 0, 0x1200), &mut steps).unwrap();
    assert_eq!(steps[..32], [1; 32]);
    assert_eq!(steps[32..64].iter().fold(0u32, |frame, &bit| frame << 1 | u32::from(bit)), 0x51821200);
    assert_eq!(steps[64], 2);
    translate(&read(3, 0), &mut steps).unwrap();
    assert_eq!(steps[32..46], [0, 1, 1, 0, 0, 0, 0, 1, 1, 0, 0, 0, 0, 0]);
    assert_eq!(steps[46..48], [2, 3]);
    assert_eq!(steps[48..64], [3; 16]);
    assert_eq!(steps[64], 2);
}

#[test]
fn limits() {
    let mut steps = vec![9; 65 * 64];
    assert_eq!(translate(&read(1, 1).repeat(64), &mut steps), Ok(()));
    assert_eq!(translate(&read(1, 1).repeat(65), &mut steps), refused(2, 0));
    assert_eq!(translate(&read(1, 1).repeat(3), &mut steps[..195]), Ok(()));
    assert_eq!(translate(&read(1, 1).repeat(3), &mut steps[..194]), refused(10, 0));
    assert_eq!(translate(&read(31, 1), &mut steps), Ok(()));
    assert_eq!(translate(&read(32, 1), &mut steps), refused(3, 0));
    let before = steps.clone();
    assert_eq!(translate(&[], &mut steps), Ok(()));
    assert_eq!(steps, before);
}

#[test]
fn the_program_on_the_documents_example() {
    let list = [read(1, 1), read(1, 1), read(2, 0)].concat();
    let text = program(&board_p(), &list, &event(0, 1, LINK_UP));
    assert_eq!(text, "1 R 01 01 1 7849\n2 R 01 01 1 784D\n3 R 02 00 2 0000\n");
    assert_eq!(program(&board_p(), &list, &event(0, 2, LINK_UP)), "refused 8 events 0\n");
    assert_eq!(program(&board_p(), &list[1..], &[]), "refused 1 list 0\n");
    assert_eq!(program(&board_p().repeat(2), &list, &[]), "refused 4 board 1\n");
    assert_eq!(program(&[], &[], &[]), "");
}

#[test]
fn refusals_come_in_the_documents_order() {
    let mut out = [9; 65];
    assert_eq!(translate(&read(1, 1).repeat(65)[1..], &mut out), refused(1, 0), "1 before 2");
    assert_eq!(translate(&[9, 32, 0, 0, 0, 0], &mut out), refused(3, 0), "3 before 7");
    assert_eq!(translate(&[9, 31, 0, 0, 0, 1], &mut out), refused(7, 0), "data is looked at in a read only");
    assert_eq!(translate(&[2, 31, 0, 0, 0, 1], &mut out), refused(3, 0), "a read with data");
    assert_eq!(decode(&[], &[0], &mut []), refused(13, 0), "an empty list wants an empty log");
    assert_eq!(decode(&read(1, 1), &[0; 324], &mut []), refused(13, 0), "13 before 10");
    let mut board = Board::load(&board_p()).unwrap();
    let late = event(66, 1, LINK_UP);
    assert_eq!(plain(&mut board, &read(1, 1), &late, &mut []), refused(9, 0), "past the last clock, before 10");
    assert_eq!(plain(&mut board, &read(1, 1), &event(65, 1, LINK_UP), &mut []), refused(10, 0), "the last clock is allowed");
    assert_eq!(plain(&mut board, &read(1, 1), &event(66, 1, 8), &mut []), refused(8, 0), "8 before 9");
    assert_eq!(run(&mut board, &[2, 4], &late[1..], &mut []), refused(11, 1), "steps before events");
    assert_eq!(run(&mut board, &[4; 4161], &[], &mut []), refused(2, 0), "2 before 11");
}

#[test]
fn board_checks() {
    let with = |change: fn(&mut Vec<u8>)| {
        let mut file = board_p();
        change(&mut file);
        Board::load(&file).map(|board| board.phys.len())
    };
    assert_eq!(with(|_| ()), Ok(1));
    assert_eq!(with(|file| file.clear()), Ok(0));
    assert_eq!(with(|file| file.push(0)), refused(1, 0));
    assert_eq!(with(|file| *file = file.repeat(33)), refused(2, 0));
    assert_eq!(with(|file| file[0] = 31), Ok(1));
    assert_eq!(with(|file| file[0] = 32), refused(3, 0));
    assert_eq!(with(|file| file[1] = 1), refused(3, 0));
    assert_eq!(with(|file| *file = file.repeat(2)), refused(4, 1));
    assert_eq!(with(|file| file[5] = 0x0D), refused(5, 0), "register 1 is not implemented");
    assert_eq!(with(|file| file[4] = 0x20), refused(5, 0), "register 13 is implemented");
    assert_eq!(with(|file| file[4] = 0x80), refused(5, 0), "register 15 without bit 1.8");
    assert_eq!(with(|file| file[5] = 0x03), refused(5, 0), "bit 1.0 without a register above 1");
    assert_eq!(with(|file| file[6 + 2 * 4] = 1), refused(6, 0), "a default of register 4, which is not implemented");
    assert_eq!(with(|file| file[70 + 2 * 2] = 1), refused(6, 0), "a mask of register 2");
    assert_eq!(with(|file| file[9] |= 0x04), refused(6, 0), "default 1.2");
    assert_eq!(with(|file| file[6] = 0x34), Ok(1), "bit 0.10 is free");
    assert_eq!(with(|file| file[6] = 0x10), refused(6, 0), "not the fastest speed");
}

#[test]
fn a_gigabit_phy_of_one_duplex() {
    let full_only = phy(7, 0x00008003, &[(0, 0x0140), (1, 0x0100), (15, 0xA000)], &[]);
    let list = [write(7, 0, 0xFF & !0x40), read(7, 0), write(7, 0, 0x6C80), read(7, 0)];
    let answers = exchange(&full_only, &list, &[]);
    assert_eq!([answers[1], answers[3]], [(1, 0x01C0), (1, 0x4DC0)]);
}

#[test]
fn bits_outside_the_write_mask_stay() {
    let board = phy(0, 0x00000013, &[(0, 0x3000), (1, 0x7849), (4, 0x01E1)], &[(4, 0x0FF0)]);
    assert_eq!(
        exchange(&board, &[write(0, 4, 0xFFFF), read(0, 4), write(0, 4, 0), read(0, 4)], &[])[1..],
        [(1, 0x0FF1), (0, 0), (1, 0x0001)]
    );
}

#[test]
fn the_wire_shows_contention() {
    let mut steps = [2; 65];
    translate(&read(1, 0), &mut steps).unwrap();
    steps[48..64].fill(1);
    let mut log = [9; 325];
    run(&mut Board::load(&board_p()).unwrap(), &steps, &[], &mut log).unwrap();
    let entry = |clock: usize| &log[5 * (clock - 1)..5 * clock];
    assert_eq!(entry(46), [2, 0, 0, 0, 0], "the station drives the register's last bit, 0");
    assert_eq!(entry(47), [1, 0, 0, 0, 0], "nobody drives: the pull-up");
    assert_eq!(entry(48), [0, 0, 0, 0, 2], "the PHY at address 1 drives 0");
    assert_eq!(entry(49), [2 + 4, 0, 0, 0, 2], "0 of 3000 against the station's 1");
    assert_eq!(entry(51), [1 + 2 + 4, 0, 0, 0, 2], "both drive 1");
    assert_eq!(entry(65), [1, 0, 0, 0, 0]);
}
