//! The old box, to show what it would have printed: the model's plain machine with one mistake. A read takes its word in its clock 46
//! as ever, but has its effect only at the word's last bit, in clock 64. Document 01, "Mistakes people make here": "Clearing latches at
//! clock 64: a break during the answer is lost."

use crate::model::program::lines;
use crate::model::records::{list, Events, Refusal, Transaction};
use crate::model::Board;
use crate::tray::file;
use std::path::Path;

/// The lines for the tray in a folder.
pub fn printed(folder: &Path) -> Result<String, Refusal> {
    let [board, list_file, event_file] = ["board.rec", "list.rec", "events.rec"].map(|name| file(folder, name));
    let mut board = Board::load(&board)?;
    let list = list(&list_file)?;
    let mut events = Events::check(&event_file, &board, list.len() * Transaction::CLOCKS)?;
    let mut answers = Vec::new();
    for (before, transaction) in list.enumerate() {
        let start = before * Transaction::CLOCKS;
        events.act(start + Transaction::READ_CLOCK - 1, &mut board);
        let answer = board.clone().exchange(transaction);
        events.act(start + Transaction::WRITE_CLOCK - 1, &mut board);
        board.exchange(transaction);
        answers.extend(answer);
    }
    Ok(lines(&answers))
}
