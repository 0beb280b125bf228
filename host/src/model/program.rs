//! What the program prints.

use super::listener::heard;
use super::records::{check_capture, list, Events, Refusal, Transaction, ANSWER_RECORD};
use super::wire::answer_data;
use super::{plain, Board};
use std::fmt::Write;

/// A refusal's only line.
fn refused(file: &str, refusal: Refusal) -> String {
    format!("refused {} {file} {}\n", refusal.number, refusal.index)
}

/// All that the program prints for the three files.
pub fn program(board_file: &[u8], list_file: &[u8], event_file: &[u8]) -> String {
    answers(board_file, list_file, event_file).map_or_else(|line| line, |answers| lines(&answers))
}

fn answers(board_file: &[u8], list_file: &[u8], event_file: &[u8]) -> Result<Vec<u8>, String> {
    let mut board = Board::load(board_file).map_err(|refusal| refused("board", refusal))?;
    let count = list(list_file).map_err(|refusal| refused("list", refusal))?.len();
    Events::check(event_file, &board, count * Transaction::CLOCKS).map_err(|refusal| refused("events", refusal))?;
    let mut answers = vec![0; count * ANSWER_RECORD];
    plain(&mut board, list_file, event_file, &mut answers).expect("every file was checked above");
    Ok(answers)
}

/// All that the program prints for a capture: the lines of the answers in it.
pub fn read_back(capture: &[u8]) -> String {
    match check_capture(capture) {
        Ok(()) => lines(heard(capture).collect::<Vec<_>>().as_flattened()),
        Err(refusal) => refused("capture", refusal),
    }
}

/// "Ordinal, W or R, address, register (two decimal digits each), status, data (four hex digits, capitals)."
pub fn lines(answers: &[u8]) -> String {
    let mut text = String::new();
    for (before, answer) in answers.as_chunks::<ANSWER_RECORD>().0.iter().enumerate() {
        let [status, op, address, register, ..] = *answer;
        let letter = if op == Transaction::WRITE { 'W' } else { 'R' };
        let data = answer_data(answer);
        writeln!(text, "{} {letter} {address:02} {register:02} {status} {data:04X}", before + 1).expect("a string takes all text");
    }
    text
}
