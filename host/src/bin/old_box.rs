//! Prints the lines that the old box would have printed for a tray: `old_box FOLDER`.

use std::process::ExitCode;
use taksherub_host::{old_box, tray};

fn main() -> ExitCode {
    tray::program("old_box", old_box::printed)
}
