//! A transaction as the 32 bits of its frame, and back.

use super::records::{Status, Transaction, ANSWER_RECORD};

const START: u32 = 0b01;
const OP_WRITE: u32 = 0b01;
const OP_READ: u32 = 0b10;

impl Transaction {
    /// The 32 bits of its frame, start to data; of a read, the last 18 are the PHY's.
    pub fn frame(self) -> u32 {
        let op = if self.write { OP_WRITE } else { OP_READ };
        let header = START << 12 | op << 10 | u32::from(self.address) << 5 | u32::from(self.register);
        header << 18 | 0b10 << 16 | u32::from(self.data)
    }

    /// What a frame asks for, with the data seen in it; nothing if its start is not 01, or its op is 00 or 11. The turnaround is
    /// not examined.
    pub fn of_frame(frame: u32) -> Option<Transaction> {
        let write = match (frame >> 30, frame >> 28 & 3) {
            (START, OP_WRITE) => true,
            (START, OP_READ) => false,
            _ => return None,
        };
        Some(Transaction { write, address: (frame >> 23 & 31) as u8, register: (frame >> 18 & 31) as u8, data: frame as u16 })
    }

    /// The decoder's rule, over the frame's levels, of which those of clocks 48 to 64 are the last 17: "a read is answered exactly if
    /// the level at its clock 48 is 0, with the levels of clocks 49-64 as data".
    pub fn decoded(self, levels: u32) -> [u8; ANSWER_RECORD] {
        if self.write {
            self.answer(Status::Sent, self.data)
        } else if levels >> 16 & 1 == 0 {
            self.answer(Status::Answered, levels as u16)
        } else {
            self.answer(Status::Silent, 0)
        }
    }
}
