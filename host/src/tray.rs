//! A tray's run on the model's wire, from the files of its folder: `board.rec`, `list.rec` and `events.rec`.

use crate::model::records::{Transaction, LIST_RECORD, LOG_RECORD};
use crate::model::{self, translate, Board, Refusal};
use std::path::Path;
use std::process::ExitCode;
use std::{env, fs};

pub struct Run {
    pub list: Vec<u8>,
    pub steps: Vec<u8>,
    pub log: Vec<u8>,
}

/// A file of the folder. One that is missing counts as empty.
pub fn file(folder: &Path, name: &str) -> Vec<u8> {
    fs::read(folder.join(name)).unwrap_or_default()
}

/// From a fresh load.
pub fn run(folder: &Path) -> Result<Run, Refusal> {
    let file = |name: &str| file(folder, name);
    let list = file("list.rec");
    let mut steps = vec![0; list.len() / LIST_RECORD * Transaction::CLOCKS];
    let mut log = vec![0; steps.len() * LOG_RECORD];
    let mut board = Board::load(&file("board.rec"))?;
    translate(&list, &mut steps)?;
    model::run(&mut board, &steps, &file("events.rec"), &mut log)?;
    Ok(Run { list, steps, log })
}

/// A program whose one argument is a tray's folder: prints what `make` makes of it.
pub fn program(name: &str, make: impl Fn(&Path) -> Result<String, Refusal>) -> ExitCode {
    let arguments: Vec<String> = env::args().skip(1).collect();
    let [folder] = arguments.as_slice() else {
        eprintln!("usage: {name} FOLDER, with board.rec, list.rec and events.rec");
        return ExitCode::from(2);
    };
    print(make(Path::new(folder)))
}

/// Prints what a program made of a tray, or says how the tray was refused.
pub fn print(made: Result<String, Refusal>) -> ExitCode {
    match made {
        Ok(text) => {
            print!("{text}");
            ExitCode::SUCCESS
        }
        Err(Refusal { number, index }) => {
            eprintln!("refused {number} at index {index}");
            ExitCode::FAILURE
        }
    }
}
