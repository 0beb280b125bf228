//! The list as clock steps, the shared wire clock by clock, and the answers in its log.

use super::follower::{Follower, Whole};
use super::phy::Phy;
use super::records::{check_steps, list, room, word, Events, Refusal, Transaction, ANSWER_RECORD, LOG_RECORD};
use super::Board;

/// "Steps, one byte each: 0 drive zero, 1 drive one, 2 release, 3 release and sample."
pub const RELEASE: u8 = 2;
pub const SAMPLE: u8 = 3;

/// Flags of a log record.
pub const LEVEL: u8 = 1;
pub const STATION: u8 = 2;
pub const CONTENTION: u8 = 4;

const LOG_PART: usize = Transaction::CLOCKS * LOG_RECORD;

impl Transaction {
    /// What the station does in a clock, by its position from 1 to 65.
    fn step(self, position: usize) -> u8 {
        match position {
            ..=32 => 1,
            47 if !self.write => RELEASE,
            48..=64 if !self.write => SAMPLE,
            33..=64 => (self.frame() >> (64 - position) & 1) as u8,
            _ => RELEASE,
        }
    }
}

pub fn translate(list_file: &[u8], steps: &mut [u8]) -> Result<(), Refusal> {
    let list = list(list_file)?;
    let steps = room(steps, list.len() * Transaction::CLOCKS)?;
    for (transaction, part) in list.zip(steps.chunks_exact_mut(Transaction::CLOCKS)) {
        for (before, step) in part.iter_mut().enumerate() {
            *step = transaction.step(before + 1);
        }
    }
    Ok(())
}

/// A PHY's place on the wire.
#[derive(Clone, Copy, Debug, PartialEq, Eq)]
pub struct Party {
    follower: Follower,
    /// The PHY's bit in the log's mask.
    address_bit: u32,
    /// From the 14th bit of an own read of an implemented register on: the captured word.
    captured: Option<u16>,
}

impl Party {
    pub fn hunting(phy: &Phy) -> Party {
        Party { follower: Follower::hunting(phy.ones_enough()), address_bit: 1 << phy.address, captured: None }
    }

    /// What the PHY does in the next clock: "released for bit 15, drives 0 for bit 16, the word for bits 17 to 32".
    fn drives(&self) -> Option<bool> {
        let word = self.captured?;
        match self.follower.bits() {
            14 => None,
            15 => Some(false),
            bits => Some(word >> (31 - bits) & 1 == 1),
        }
    }

    /// One level sampled.
    fn sample(&mut self, level: bool, phy: &mut Phy) {
        if let Some(whole) = self.follower.hear(level) {
            self.take(whole, phy);
        }
    }

    /// "Own read of an implemented register: the word is captured at the 14th frame bit, with the read's effect in that same clock. Own
    /// write: stored at the 32nd bit." Not inlined, since few clocks come here and the others are to stay fast.
    #[inline(never)]
    fn take(&mut self, whole: Whole, phy: &mut Phy) {
        let own = |frame| Transaction::of_frame(frame).filter(|transaction| transaction.address == phy.address);
        match whole {
            Whole::Header(header) => {
                let read = own(header).filter(|own| !own.write && phy.implements(own.register));
                self.captured = read.map(|own| phy.read(own.register));
            }
            Whole::Frame(frame) => {
                self.captured = None;
                if let Some(own) = own(frame).filter(|own| own.write) {
                    phy.write(own.register, own.data);
                }
            }
        }
    }
}

/// A run of any steps: checks, then clock by clock with the events between.
pub fn run(board: &mut Board, steps: &[u8], event_file: &[u8], log: &mut [u8]) -> Result<(), Refusal> {
    check_steps(steps)?;
    let mut events = Events::check(event_file, board, steps.len())?;
    let log = room(log, steps.len() * LOG_RECORD)?;
    for (clock, (&step, entry)) in steps.iter().zip(log.as_chunks_mut().0).enumerate() {
        events.act(clock, board);
        *entry = board.clock(step);
    }
    events.act(steps.len(), board);
    Ok(())
}

impl Board {
    /// One clock: all drive by their state before it, then all sample the level. Gives the log record.
    pub fn clock(&mut self, step: u8) -> [u8; LOG_RECORD] {
        let station = step < RELEASE;
        let mut low = step == 0;
        let mut drivers = 0u32;
        for party in &self.parties {
            if let Some(bit) = party.drives() {
                drivers |= party.address_bit;
                low |= !bit;
            }
        }
        let level = !low;
        for (party, phy) in self.parties.iter_mut().zip(&mut self.phys) {
            party.sample(level, phy);
        }
        let mut flags = u8::from(level);
        if station {
            flags |= STATION;
        }
        if drivers.count_ones() + u32::from(station) >= 2 {
            flags |= CONTENTION;
        }
        let [m3, m2, m1, m0] = drivers.to_be_bytes();
        [flags, m3, m2, m1, m0]
    }
}

/// The answers to a list, by the levels in its log.
pub fn decode(list_file: &[u8], log: &[u8], answers: &mut [u8]) -> Result<(), Refusal> {
    let list = list(list_file)?;
    if log.len() != list.len() * LOG_PART {
        return Err(Refusal::whole(Refusal::LOG_LENGTH));
    }
    let answers = room(answers, list.len() * ANSWER_RECORD)?;
    let parts = log.chunks_exact(LOG_PART).zip(answers.as_chunks_mut().0);
    for (transaction, (part, answer)) in list.zip(parts) {
        let level = |clock: usize| u32::from(part[(clock - 1) * LOG_RECORD] & LEVEL);
        *answer = transaction.decoded((48..=64).fold(0, |levels, clock| levels << 1 | level(clock)));
    }
    Ok(())
}

/// The data word of an answer record.
pub fn answer_data(answer: &[u8; ANSWER_RECORD]) -> u16 {
    word(answer[4], answer[5])
}
