//! What stands outside the proof: a model of the bench written from the document and not from the proved code, and the tests
//! that hold the two against each other.

pub mod calls;
pub mod compare;
#[cfg(feature = "door")]
pub mod door;
pub mod draw;
pub mod generate;
pub mod make;
pub mod model;
pub mod old_box;
pub mod random;
pub mod tray;
