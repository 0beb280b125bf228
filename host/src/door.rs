//! The proved code, as `include/taksherub.h` declares it. It is compiled for x86-64: there it is linked, and elsewhere it is asked.

use crate::calls::{Answer, Calls};
use crate::model::Refusal;

#[cfg(target_arch = "x86_64")]
mod linked;
#[cfg(target_arch = "x86_64")]
pub use linked::{decode, listen, plain, read_vcd, run, translate, write_vcd};

#[cfg(not(target_arch = "x86_64"))]
mod piped;
#[cfg(not(target_arch = "x86_64"))]
pub use piped::{decode, listen, plain, read_vcd, run, translate, write_vcd};

/// "0 when done, else number * 65536 + index".
fn answer(code: u64) -> Answer {
    match code {
        0 => Ok(()),
        _ => Err(Refusal { number: (code >> 16) as u8, index: (code & 0xFFFF) as usize }),
    }
}

/// The proved code as a table.
pub const DOOR: Calls = Calls { translate, run, decode, plain, listen, write_vcd, read_vcd };
