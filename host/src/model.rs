//! The bench as document 01 describes it: its files, the PHY, the wire, the plain machine that has no wire; and from document 02 the
//! listener (E1) and the waveforms (E3).

pub mod board;
pub mod follower;
mod frame;
pub mod listener;
pub mod phy;
pub mod plain;
pub mod program;
pub mod records;
pub mod waveform;
pub mod wire;

#[cfg(test)]
mod tests;

pub use board::Board;
pub use listener::listen;
pub use plain::plain;
pub use program::{program, read_back};
pub use records::Refusal;
pub use waveform::{read_vcd, write_vcd};
pub use wire::{decode, run, translate};
