//! "All files are records of one fixed size with no header, numbers high byte first."

use super::phy::Event;
use super::Board;

/// A refusal: its number, and the index of the record at fault.
#[derive(Clone, Copy, Debug, PartialEq, Eq, PartialOrd, Ord)]
pub struct Refusal {
    pub number: u8,
    pub index: usize,
}

impl Refusal {
    pub const LENGTH: u8 = 1;
    pub const TOO_MANY: u8 = 2;
    pub const FIELD: u8 = 3;
    pub const REPEATED_ADDRESS: u8 = 4;
    pub const REGISTER_SET: u8 = 5;
    pub const DEFAULT: u8 = 6;
    pub const OP: u8 = 7;
    pub const EVENT: u8 = 8;
    pub const EVENT_CLOCK: u8 = 9;
    pub const OUTPUT: u8 = 10;
    pub const STEP: u8 = 11;
    pub const LOG_LENGTH: u8 = 13;
    pub const LEVEL: u8 = 16;
    pub const TEXT: u8 = 18;

    /// A refusal of the whole file, output, log or text: its index is 0.
    pub fn whole(number: u8) -> Refusal {
        Refusal { number, index: 0 }
    }
}

pub const BOARD_RECORD: usize = 134;
pub const LIST_RECORD: usize = 6;
pub const EVENT_RECORD: usize = 4;
pub const ANSWER_RECORD: usize = 6;
pub const LOG_RECORD: usize = 5;

pub const MOST_PHYS: usize = 32;
pub const MOST_TRANSACTIONS: usize = 64;
pub const MOST_EVENTS: usize = 256;
pub const MOST_STEPS: usize = MOST_TRANSACTIONS * Transaction::CLOCKS;
/// Records that a capture can give: frames of 32 bits after 32 ones each, with no idle clock.
pub const MOST_HEARD: usize = MOST_STEPS / 64;

/// The records of a file: refusal 1, then refusal 2.
pub fn records<const SIZE: usize>(file: &[u8], most: usize) -> Result<&[[u8; SIZE]], Refusal> {
    let (records, rest) = file.as_chunks();
    if !rest.is_empty() {
        return Err(Refusal::whole(Refusal::LENGTH));
    }
    if records.len() > most {
        return Err(Refusal::whole(Refusal::TOO_MANY));
    }
    Ok(records)
}

/// The output's first `size` bytes, or refusal 10.
pub fn room(output: &mut [u8], size: usize) -> Result<&mut [u8], Refusal> {
    output.get_mut(..size).ok_or(Refusal::whole(Refusal::OUTPUT))
}

/// Every record by `check`, in order; the first refused one gives its number and index.
pub fn check_each<Record>(records: &[Record], mut check: impl FnMut(&Record) -> Result<(), u8>) -> Result<(), Refusal> {
    for (index, record) in records.iter().enumerate() {
        check(record).map_err(|number| Refusal { number, index })?;
    }
    Ok(())
}

pub fn word(high: u8, low: u8) -> u16 {
    u16::from_be_bytes([high, low])
}

/// A record of the list: "op (1 write, 2 read), PHY address, register, a zero byte, data (2 bytes, zero for a read)".
#[derive(Clone, Copy, Debug, PartialEq, Eq)]
pub struct Transaction {
    pub write: bool,
    pub address: u8,
    pub register: u8,
    pub data: u16,
}

impl Transaction {
    pub const CLOCKS: usize = 65;
    pub const WRITE: u8 = 1;
    pub const READ: u8 = 2;

    fn check(record: &[u8; LIST_RECORD]) -> Result<(), u8> {
        let [op, address, register, zero, data @ ..] = *record;
        if address > 31 || register > 31 || zero != 0 || (op == Self::READ && data != [0, 0]) {
            return Err(Refusal::FIELD);
        }
        if op != Self::WRITE && op != Self::READ {
            return Err(Refusal::OP);
        }
        Ok(())
    }

    /// What a record that passed its checks says.
    fn of(&[op, address, register, _, high, low]: &[u8; LIST_RECORD]) -> Transaction {
        Transaction { write: op == Self::WRITE, address, register, data: word(high, low) }
    }

    /// Its answer record.
    pub fn answer(self, status: Status, data: u16) -> [u8; ANSWER_RECORD] {
        let [high, low] = data.to_be_bytes();
        let op = if self.write { Self::WRITE } else { Self::READ };
        [status as u8, op, self.address, self.register, high, low]
    }
}

/// "Status 0 write sent, 1 read answered, 2 read silent (data 0)."
#[derive(Clone, Copy, Debug, PartialEq, Eq)]
pub enum Status {
    Sent = 0,
    Answered = 1,
    Silent = 2,
}

/// The list file, checked.
pub fn list(file: &[u8]) -> Result<impl ExactSizeIterator<Item = Transaction> + '_, Refusal> {
    let records = records(file, MOST_TRANSACTIONS)?;
    check_each(records, Transaction::check)?;
    Ok(records.iter().map(Transaction::of))
}

/// Bytes of one clock each: refusal 2 if they are over 4,160, else `number` for the first byte over `most`.
fn check_clocks(bytes: &[u8], most: u8, number: u8) -> Result<(), Refusal> {
    if bytes.len() > MOST_STEPS {
        return Err(Refusal::whole(Refusal::TOO_MANY));
    }
    check_each(bytes, |&byte| if byte > most { Err(number) } else { Ok(()) })
}

/// The steps: "over 4,160 clock steps" is 2, "clock step over 3" is 11.
pub fn check_steps(steps: &[u8]) -> Result<(), Refusal> {
    check_clocks(steps, 3, Refusal::STEP)
}

/// The capture: over 4,160 bytes is 2, "16 a byte over 1".
pub fn check_capture(capture: &[u8]) -> Result<(), Refusal> {
    check_clocks(capture, 1, Refusal::LEVEL)
}

/// The event file, checked against a board and a last clock; it is worked off clock by clock.
pub struct Events<'a> {
    left: &'a [[u8; EVENT_RECORD]],
}

impl<'a> Events<'a> {
    pub fn check(file: &'a [u8], board: &Board, last_clock: usize) -> Result<Events<'a>, Refusal> {
        let left = records(file, MOST_EVENTS)?;
        let mut earlier = 0;
        check_each(left, |&[high, low, address, code]| {
            if Event::from_code(code).is_none() || board.place(address).is_none() {
                return Err(Refusal::EVENT);
            }
            let clock = usize::from(word(high, low));
            if clock < earlier || clock > last_clock {
                return Err(Refusal::EVENT_CLOCK);
            }
            earlier = clock;
            Ok(())
        })?;
        Ok(Events { left })
    }

    /// "Clock c means after clock c and before c+1": all events up to that moment act, in file order.
    pub fn act(&mut self, clock: usize, board: &mut Board) {
        while let [[high, low, address, code], later @ ..] = self.left {
            if usize::from(word(*high, *low)) > clock {
                return;
            }
            if let (Some(place), Some(event)) = (board.place(*address), Event::from_code(*code)) {
                board.phys[place].happen(event);
            }
            self.left = later;
        }
    }
}
