//! The seven calls of the door as a table of functions, so that any two builds of them can be held against each other.

use crate::model::listener::heard;
use crate::model::records::*;
use crate::model::waveform::{flags_in, waveform, MOST_TEXT};
use crate::model::{self, Board};

pub type Answer = Result<(), Refusal>;

/// A machine that loads its board fresh and works off steps or a list.
pub type Machine = fn(board: &[u8], work: &[u8], events: &[u8], output: &mut [u8]) -> Answer;

#[derive(Clone, Copy)]
pub struct Calls {
    pub translate: fn(list: &[u8], steps: &mut [u8]) -> Answer,
    pub run: Machine,
    pub decode: fn(list: &[u8], log: &[u8], answers: &mut [u8]) -> Answer,
    pub plain: Machine,
    pub listen: fn(capture: &[u8], answers: &mut [u8]) -> Answer,
    pub write_vcd: fn(log: &[u8], text: &mut [u8]) -> Answer,
    pub read_vcd: fn(text: &[u8], flags: &mut [u8]) -> Answer,
}

/// The independent model.
pub const MODEL: Calls = Calls {
    translate: model::translate,
    run: |board, steps, events, log| model::run(&mut Board::load(board)?, steps, events, log),
    decode: model::decode,
    plain: |board, list, events, answers| model::plain(&mut Board::load(board)?, list, events, answers),
    listen: model::listen,
    write_vcd: model::write_vcd,
    read_vcd: model::read_vcd,
};

/// The files of one call, those it does not take unused, and the length of its output.
#[derive(Clone, Debug, Default)]
pub struct Input {
    pub board: Vec<u8>,
    pub list: Vec<u8>,
    pub steps: Vec<u8>,
    pub events: Vec<u8>,
    pub log: Vec<u8>,
    pub capture: Vec<u8>,
    pub text: Vec<u8>,
    pub room: usize,
}

#[derive(Clone, Copy, Debug, PartialEq, Eq)]
pub enum Call {
    Translate,
    Run,
    Decode,
    Plain,
    Listen,
    WriteVcd,
    ReadVcd,
}

impl Call {
    pub const ALL: [Call; 7] = [Call::Translate, Call::Run, Call::Decode, Call::Plain, Call::Listen, Call::WriteVcd, Call::ReadVcd];

    /// Its name in `include/taksherub.h`.
    pub fn name(self) -> &'static str {
        match self {
            Call::Translate => "translate",
            Call::Run => "run",
            Call::Decode => "decode",
            Call::Plain => "plain",
            Call::Listen => "listen",
            Call::WriteVcd => "write_vcd",
            Call::ReadVcd => "read_vcd",
        }
    }

    /// The bytes of the full result, if the input is good.
    pub fn full_size(self, input: &Input) -> usize {
        let transactions = input.list.len() / LIST_RECORD;
        match self {
            Call::Translate => transactions * Transaction::CLOCKS,
            Call::Run => input.steps.len() * LOG_RECORD,
            Call::Decode | Call::Plain => transactions * ANSWER_RECORD,
            Call::Listen => heard(&input.capture).count() * ANSWER_RECORD,
            Call::WriteVcd => waveform(input.log.as_chunks().0).len(),
            Call::ReadVcd => flags_in(&input.text).map_or(0, |flags| flags.len()),
        }
    }

    /// The bytes of the longest result.
    pub fn most_size(self) -> usize {
        match self {
            Call::Translate | Call::ReadVcd => MOST_STEPS,
            Call::Run => MOST_STEPS * LOG_RECORD,
            Call::Decode | Call::Plain => MOST_TRANSACTIONS * ANSWER_RECORD,
            Call::Listen => MOST_HEARD * ANSWER_RECORD,
            Call::WriteVcd => MOST_TEXT,
        }
    }

    /// The number of the last clock, after which an event may still act.
    pub fn last_clock(self, input: &Input) -> usize {
        match self {
            Call::Run => input.steps.len(),
            _ => Call::Translate.full_size(input),
        }
    }

    pub fn answer(self, calls: &Calls, input: &Input, output: &mut [u8]) -> Answer {
        let Input { board, list, steps, events, log, capture, text, .. } = input;
        match self {
            Call::Translate => (calls.translate)(list, output),
            Call::Run => (calls.run)(board, steps, events, output),
            Call::Decode => (calls.decode)(list, log, output),
            Call::Plain => (calls.plain)(board, list, events, output),
            Call::Listen => (calls.listen)(capture, output),
            Call::WriteVcd => (calls.write_vcd)(log, output),
            Call::ReadVcd => (calls.read_vcd)(text, output),
        }
    }
}
