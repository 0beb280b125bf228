//! The flags in the log of a tray's run: `flags FOLDER` prints a line for each clock, level, station and contention, as `1,1,0`.

use std::process::ExitCode;
use taksherub_host::model::records::LOG_RECORD;
use taksherub_host::model::wire::{CONTENTION, LEVEL, STATION};
use taksherub_host::tray;

fn main() -> ExitCode {
    tray::program("flags", |folder| Ok(tray::run(folder)?.log.iter().step_by(LOG_RECORD).map(|&flags| line(flags)).collect()))
}

fn line(flags: u8) -> String {
    let [level, station, contention] = [LEVEL, STATION, CONTENTION].map(|flag| u8::from(flags & flag != 0));
    format!("{level},{station},{contention}\n")
}
