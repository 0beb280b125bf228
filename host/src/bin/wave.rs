//! Prints the waveform of a tray's run: `wave FOLDER`.

use std::process::ExitCode;
use taksherub_host::model::waveform::waveform;
use taksherub_host::tray;

fn main() -> ExitCode {
    tray::program("wave", |folder| Ok(waveform(tray::run(folder)?.log.as_chunks().0)))
}
