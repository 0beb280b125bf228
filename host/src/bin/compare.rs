//! The proved code through the door, against the model: the same answers and bytes on every input, and every refusal met.

use std::process::ExitCode;
use taksherub_host::calls::MODEL;
use taksherub_host::compare::{compare_all, Damaged, Met};
use taksherub_host::door::DOOR;

const INPUTS_A_CALL: usize = 30_000;

fn main() -> ExitCode {
    match compare_all(&DOOR, &MODEL, INPUTS_A_CALL) {
        Ok(Met { tallies, damaged }) => {
            tallies.iter().for_each(|tally| print!("{tally}"));
            damaged.iter().for_each(|damaged| print!("{damaged}"));
            let (inputs, texts) = (INPUTS_A_CALL * tallies.len(), damaged.iter().map(Damaged::count).sum::<usize>());
            println!("door and model agree on {inputs} inputs, on {texts} damaged texts and on every limit");
            ExitCode::SUCCESS
        }
        Err(difference) => {
            println!("{difference}");
            ExitCode::FAILURE
        }
    }
}
