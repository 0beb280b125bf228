//! Draws the transactions of a tray, clock by clock: `draw FOLDER [ORDINAL]`.

use std::process::ExitCode;
use std::{env, path::Path};
use taksherub_host::draw::draw;
use taksherub_host::model::program::lines;
use taksherub_host::model::records::{Transaction, ANSWER_RECORD, LIST_RECORD, LOG_RECORD};
use taksherub_host::model::{decode, Refusal};
use taksherub_host::tray::{self, Run};

fn main() -> ExitCode {
    let arguments: Vec<String> = env::args().skip(1).collect();
    let (folder, wanted) = match arguments.as_slice() {
        [folder] => (folder, None),
        [folder, ordinal] if ordinal.parse::<usize>().is_ok() => (folder, ordinal.parse().ok()),
        _ => {
            eprintln!("usage: draw FOLDER [ORDINAL], FOLDER with board.rec, list.rec and events.rec");
            return ExitCode::from(2);
        }
    };
    tray::print(drawings(Path::new(folder)).map(|drawings| {
        let chosen = drawings.iter().enumerate().filter(|(before, _)| wanted.is_none_or(|ordinal: usize| ordinal == before + 1));
        chosen.map(|(_, drawing)| format!("{drawing}\n")).collect()
    }))
}

/// The line that the program prints for each transaction, and its drawing.
fn drawings(folder: &Path) -> Result<Vec<String>, Refusal> {
    let Run { list, steps, log } = tray::run(folder)?;
    let mut answers = vec![0; list.len() / LIST_RECORD * ANSWER_RECORD];
    decode(&list, &log, &mut answers)?;
    let parts = steps.chunks(Transaction::CLOCKS).zip(log.chunks(Transaction::CLOCKS * LOG_RECORD));
    Ok(lines(&answers).lines().zip(parts).map(|(line, (steps, log))| format!("{line}\n{}", draw(steps, log))).collect())
}
