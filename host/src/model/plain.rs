//! The plain machine: board, list and events, and no wire.

use super::records::{list, room, Events, Refusal, Status, Transaction, ANSWER_RECORD};
use super::Board;

impl Transaction {
    /// The clock of its 65 in which a read takes its word.
    pub const READ_CLOCK: usize = 46;
    /// The clock of its 65 in which a write is stored.
    pub const WRITE_CLOCK: usize = 64;
}

/// "Transaction k reads in clock 65(k-1)+46 or stores in 65(k-1)+64, by the register rules."
pub fn plain(board: &mut Board, list_file: &[u8], event_file: &[u8], answers: &mut [u8]) -> Result<(), Refusal> {
    let list = list(list_file)?;
    let last_clock = list.len() * Transaction::CLOCKS;
    let mut events = Events::check(event_file, board, last_clock)?;
    let answers = room(answers, list.len() * ANSWER_RECORD)?;
    for (before, (transaction, answer)) in list.zip(answers.as_chunks_mut().0).enumerate() {
        let acts = if transaction.write { Transaction::WRITE_CLOCK } else { Transaction::READ_CLOCK };
        events.act(before * Transaction::CLOCKS + acts - 1, board);
        *answer = board.exchange(transaction);
    }
    events.act(last_clock, board);
    Ok(())
}

impl Board {
    /// One transaction, in the clock in which it acts.
    pub fn exchange(&mut self, transaction: Transaction) -> [u8; ANSWER_RECORD] {
        let Transaction { write, address, register, data } = transaction;
        let phy = self.place(address).map(|place| &mut self.phys[place]).filter(|phy| phy.implements(register));
        match phy {
            Some(phy) if !write => transaction.answer(Status::Answered, phy.read(register)),
            None if !write => transaction.answer(Status::Silent, 0),
            taker => {
                if let Some(phy) = taker {
                    phy.write(register, data);
                }
                transaction.answer(Status::Sent, data)
            }
        }
    }
}
