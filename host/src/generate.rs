//! Inputs for the seven calls: good ones of many kinds, damaged ones, and both sides of every limit.

mod captures;
mod waveforms;

pub use waveforms::{bytes_less_or_more, changes, prefixes};

use crate::calls::Call::{Decode, Listen, Plain, ReadVcd, Run, Translate, WriteVcd};
use crate::calls::{Answer, Call, Input};
use crate::make::{self, board_p, event, phy, read};
use crate::model::phy::{derived_control, status};
use crate::model::records::*;
use crate::random::Random;

/// One input for a call: good, or with one or more of its files damaged, and an output that fits or not.
pub fn input(random: &mut Random, call: Call) -> Input {
    let mut input = Input { board: board(random), ..Input::default() };
    input.list = list(random, &input.board);
    input.steps = steps(random, &input);
    input.events = events(random, &input.board, call.last_clock(&input));
    match call {
        Decode => input.log = log(random, &input),
        Listen => input.capture = captures::capture(random, &input),
        WriteVcd => input.log = waveforms::log(random, &input),
        ReadVcd => input.text = waveforms::text(random, &input),
        Translate | Run | Plain => {}
    }
    let undamaged = call.full_size(&input);
    while random.one_in(2) {
        damage(random, call, &mut input);
    }
    let full = call.full_size(&input);
    input.room = match random.below(32) {
        0..4 => full.saturating_sub(1),
        4..8 => random.below(full + 1),
        8..16 => full + random.below(40),
        16..20 => undamaged,
        20 => call.most_size(),
        _ => full,
    };
    input
}

/// A count up to a limit: often small, sometimes none, sometimes all.
fn size(random: &mut Random, most: usize) -> usize {
    match random.below(20) {
        0 => 0,
        1 => most,
        2 | 3 => random.below(most + 1),
        _ => 1 + random.below(6.min(most)),
    }
}

/// An index below a count that is not 0: the first, the last, or any.
fn place(random: &mut Random, count: usize) -> usize {
    match random.below(4) {
        0 => 0,
        1 => count - 1,
        _ => random.below(count),
    }
}

fn board(random: &mut Random) -> Vec<u8> {
    let mut addresses: Vec<u8> = (0..32).collect();
    for k in 0..32 {
        addresses.swap(k, k + random.below(32 - k));
    }
    let count = size(random, MOST_PHYS);
    addresses[..count].iter().flat_map(|&address| any_phy(random, address)).collect()
}

/// A PHY that passes the board's checks, of any ability set.
fn any_phy(random: &mut Random, address: u8) -> Vec<u8> {
    let thin = match random.below(4) {
        0 => 0xFFFF,
        1 => random.word() & random.word(),
        2 => 1 << random.below(16),
        _ => random.word(),
    };
    let mut status = random.word() & (thin & status::ABILITIES | 0x01C8);
    let mut implemented = 0x0000_0003;
    let mut extended = 0;
    if status & status::EXTENDED_STATUS != 0 {
        implemented |= 1 << 15;
        extended = random.word() & 0xF000 & thin.rotate_left(5);
    }
    if status & status::ABILITIES == 0 && extended == 0 {
        status |= 1 << (9 + random.below(7));
    }
    let sparse = random.number() & random.number();
    let others = random.pick(&[0, 0x0C, 0xFFFF_FFFF, sparse as u32]) & !0x0000_E003;
    if others != 0 {
        status |= status::EXTENDED_REGISTERS;
    }
    let isolate = random.word() & 0x0400;
    let mut defaults = vec![(0, derived_control(status, extended) | isolate), (1, status), (15, extended)];
    let mut masks = Vec::new();
    for register in (2..32).filter(|register| others >> register & 1 == 1) {
        defaults.push((register, random.word()));
        if register > 3 {
            let mask = random.word();
            masks.push((register, random.pick(&[0, 0xFFFF, mask])));
        }
    }
    phy(address, implemented | others, &defaults, &masks)
}

/// An address that is mostly the board's.
fn address(random: &mut Random, board: &[u8]) -> u8 {
    match board.len() / BOARD_RECORD {
        count if count > 0 && !random.one_in(8) => board[random.below(count) * BOARD_RECORD],
        _ => random.below(32) as u8,
    }
}

fn register(random: &mut Random) -> u8 {
    let any = random.below(32) as u8;
    random.pick(&[0, 0, 1, 1, 1, 4, 15, any])
}

fn list(random: &mut Random, board: &[u8]) -> Vec<u8> {
    let count = size(random, MOST_TRANSACTIONS);
    (0..count).flat_map(|_| transaction(random, board)).collect()
}

fn transaction(random: &mut Random, board: &[u8]) -> [u8; LIST_RECORD] {
    let (address, register) = (address(random, board), register(random));
    if random.one_in(2) {
        return read(address, register);
    }
    let any = random.word();
    let known = random.pick(&[0x8000, 0x1200, 0x1000, 0x2100, 0x0040, 0x2040, 0x0200, 0x0000]);
    make::write(address, register, random.pick(&[known, any, any & !0x8000, any & 0x7FE0]))
}

/// Events of every code, mostly near the clocks in which transactions act.
fn events(random: &mut Random, board: &[u8], last_clock: usize) -> Vec<u8> {
    if board.is_empty() {
        return Vec::new();
    }
    let count = size(random, MOST_EVENTS) * random.below(4);
    let mut clocks: Vec<usize> = (0..count.min(MOST_EVENTS)).map(|_| event_clock(random, last_clock)).collect();
    clocks.sort_unstable();
    let places = board.len() / BOARD_RECORD;
    let one_event = |&clock: &usize| event(clock as u16, board[random.below(places) * BOARD_RECORD], 1 + random.below(7) as u8);
    clocks.iter().flat_map(one_event).collect()
}

fn event_clock(random: &mut Random, last_clock: usize) -> usize {
    let any = random.below(last_clock + 1);
    let near = any / Transaction::CLOCKS * Transaction::CLOCKS + random.pick(&[0, 45, 46, 63, 64, 65]);
    random.pick(&[any, near.min(last_clock), near.min(last_clock), last_clock])
}

/// Steps of the list, the same with some changed, stray frames, or no frames at all.
fn steps(random: &mut Random, input: &Input) -> Vec<u8> {
    let mut steps = make::steps(&input.list);
    match random.below(4) {
        0 => {}
        1 => {
            for _ in 0..random.below(8).min(steps.len()) {
                let at = random.below(steps.len());
                steps[at] = random.below(4) as u8;
            }
        }
        2 => stray_frames(random, &input.board, &mut steps),
        _ => steps.iter_mut().for_each(|step| *step = random.pick(&[0, 1, 1, 1, 2, 3])),
    }
    if random.one_in(4) {
        steps.truncate(random.below(steps.len() + 1));
    }
    steps
}

/// Frames after preambles of any length, some of them foreign and some cut off.
fn stray_frames(random: &mut Random, board: &[u8], steps: &mut [u8]) {
    let mut left = &mut *steps;
    while !left.is_empty() {
        let any = random.below(40);
        let idle = random.pick(&[1, 1, 2, 3]);
        let mut frame = vec![idle; random.pick(&[1, 2, 31, 32, 33, any])];
        frame.extend(if random.one_in(3) { foreign_frame(random, board) } else { stray_frame(random, board) });
        frame.truncate(if random.one_in(5) { random.below(frame.len() + 1) } else { frame.len() });
        let taken = frame.len().min(left.len());
        let (head, rest) = left.split_at_mut(taken);
        head.copy_from_slice(&frame[..taken]);
        left = rest;
    }
}

/// A frame of any start and op, the station driving on where a PHY answers.
fn stray_frame(random: &mut Random, board: &[u8]) -> Vec<u8> {
    let any = random.below(16) as u32;
    let start_and_op = random.pick(&[0b0110, 0b0110, 0b0110, 0b0101, 0b0100, 0b0111, any]);
    let header = make::bits(header(random, board, start_and_op), 14);
    let tail = random.pick(&[[2, 3], [0, 1], [1, 3]]);
    header.chain((0..18).map(|_| random.pick(&tail))).collect()
}

/// A frame that starts 00. Behind that it has the op, PHY and register of a write or a read of ours, or somewhere a 1 and the header of
/// one, which a part would take if it hunted there.
fn foreign_frame(random: &mut Random, board: &[u8]) -> Vec<u8> {
    let (any, op) = (random.number() as u32, random.pick(&[0b01, 0b10]));
    let (shown, bits_behind) = match random.below(4) {
        0 => (header(random, board, op), 18),
        _ => (1 << 14 | header(random, board, 0b0100 | op), random.below(16)),
    };
    make::bits(shown << bits_behind | any & ((1 << bits_behind) - 1), 32).collect()
}

/// A frame's first 14 bits, for a PHY that is mostly the board's.
fn header(random: &mut Random, board: &[u8], start_and_op: u32) -> u32 {
    start_and_op << 10 | u32::from(address(random, board)) << 5 | u32::from(register(random))
}

/// A log of the list's length: of a run, the same with levels changed, or any bytes.
fn log(random: &mut Random, input: &Input) -> Vec<u8> {
    let mut log = make::log(&input.board, &make::steps(&input.list), &[]);
    match random.below(4) {
        0 => log.iter_mut().for_each(|byte| *byte = random.byte()),
        kind => {
            for _ in 0..if log.is_empty() { 0 } else { kind * kind } {
                let at = random.below(log.len());
                log[at] ^= 1 << random.below(8);
            }
        }
    }
    log
}

fn damage(random: &mut Random, call: Call, input: &mut Input) {
    let last_clock = call.last_clock(input);
    match (call, random.below(3)) {
        (Run | Plain, 0) => damage_board(random, &mut input.board),
        (Run | Plain, 1) => damage_events(random, &mut input.events, &input.board, last_clock),
        (Run, _) => damage_clocks(random, &mut input.steps, 2, &[4, 5, 0x80, 0xFF]),
        (Listen, _) => damage_clocks(random, &mut input.capture, 1, &[2, 3, 0x80, 0xFF]),
        (Decode, 0) => damage_log(random, &mut input.log),
        (WriteVcd, 0) => damage_count(random, &mut input.log, LOG_RECORD, MOST_STEPS),
        (WriteVcd, _) => damage_length(random, &mut input.log, LOG_RECORD),
        (ReadVcd, _) => waveforms::damage(random, &mut input.text),
        _ => damage_list(random, &mut input.list),
    }
}

/// A length that is no whole number of records.
fn damage_length(random: &mut Random, file: &mut Vec<u8>, record: usize) {
    let odd = 1 + random.below(record - 1);
    if file.is_empty() || random.one_in(2) {
        file.resize(file.len() + odd, 0);
    } else {
        file.truncate(file.len().saturating_sub(odd));
    }
}

/// More records than the limit, the last one again and again.
fn damage_count(random: &mut Random, file: &mut Vec<u8>, record: usize, most: usize) {
    let last = file.len().checked_sub(record).map_or(vec![0; record], |start| file[start..].to_vec());
    let wanted = (most + 1 + random.below(2)) * record;
    while file.len() < wanted {
        file.extend(&last);
    }
    if random.one_in(4) {
        file.pop();
    }
}

fn damage_bit(random: &mut Random, record: &mut [u8]) {
    let at = random.below(record.len());
    record[at] ^= 1 << random.below(8);
}

fn damage_board(random: &mut Random, file: &mut Vec<u8>) {
    let count = file.len() / BOARD_RECORD;
    if count == 0 || random.one_in(8) {
        return damage_length(random, file, BOARD_RECORD);
    }
    if random.one_in(16) {
        return damage_count(random, file, BOARD_RECORD, MOST_PHYS);
    }
    let index = place(random, count);
    let earlier = file[random.below(index + 1) * BOARD_RECORD];
    let record = &mut file[index * BOARD_RECORD..][..BOARD_RECORD];
    match random.below(12) {
        0 => record[0] = 32 + random.below(224) as u8,
        1 => record[1] = 1 + random.below(255) as u8,
        2 | 3 => record[0] = earlier,
        4 | 5 => flip(record, mask_bit(random.pick(&[0, 1, 13, 14, 15]))),
        6 => flip(record, default_bit(1, random.pick(&[8, 0]))),
        7 => flip(record, default_bit(0, random.below(16))),
        8 => flip(record, default_bit(1, random.pick(&[5, 4, 2, 1]))),
        9 => flip(record, default_bit(32 + random.pick(&[0, 1, 2, 3, 15]), random.below(16))),
        10 => without_abilities(random, record),
        _ => damage_bit(random, record),
    }
}

/// The place of a register's bit of the implemented mask in a board record.
fn mask_bit(register: usize) -> usize {
    16 + 31 - register
}

/// The place of a word's bit in a board record, the write masks being words 32 to 63.
fn default_bit(word: usize, bit: usize) -> usize {
    48 + 16 * word + 15 - bit
}

fn flip(record: &mut [u8], bit: usize) {
    record[bit / 8] ^= 0x80 >> (bit % 8);
}

/// All else as the checks want it.
fn without_abilities(random: &mut Random, record: &mut [u8]) {
    let extended = default_bit(15, 15) / 8;
    record[8] &= 0x01;
    record[extended..extended + 2].fill(0);
    let control = derived_control(word(record[8], record[9]), 0) & random.pick(&[0xFFFF, !0x0100]);
    record[6..8].copy_from_slice(&control.to_be_bytes());
}

fn damage_list(random: &mut Random, file: &mut Vec<u8>) {
    let count = file.len() / LIST_RECORD;
    match random.below(10) {
        0 => return damage_length(random, file, LIST_RECORD),
        1 => return damage_count(random, file, LIST_RECORD, MOST_TRANSACTIONS),
        _ if count == 0 => return,
        _ => {}
    }
    let record = &mut file[place(random, count) * LIST_RECORD..][..LIST_RECORD];
    let over = 32 + random.below(224) as u8;
    match random.below(8) {
        0 => record[1] = random.pick(&[32, over]),
        1 => record[2] = random.pick(&[32, over]),
        2 => record[3] = 1 + random.below(255) as u8,
        3 => {
            record[0] = Transaction::READ;
            record[4 + random.below(2)] = 1 << random.below(8);
        }
        4 | 5 => record[0] = random.pick(&[0, 3, 4, 9, over]),
        6 => record.copy_from_slice(&random.number().to_be_bytes()[..LIST_RECORD]),
        _ => damage_bit(random, record),
    }
}

fn damage_events(random: &mut Random, file: &mut Vec<u8>, board: &[u8], last_clock: usize) {
    let count = file.len() / EVENT_RECORD;
    match random.below(10) {
        0 => return damage_length(random, file, EVENT_RECORD),
        1 => return damage_count(random, file, EVENT_RECORD, MOST_EVENTS),
        _ if count == 0 => {
            let clock = random.below(last_clock + 2) as u16;
            return file.extend(event(clock, address(random, board), random.below(9) as u8));
        }
        _ => {}
    }
    let index = place(random, count);
    let (before, record) = file[..(index + 1) * EVENT_RECORD].split_at_mut(index * EVENT_RECORD);
    let earlier = before.last_chunk().map_or(0, |&[high, low, _, _]| word(high, low));
    let past = last_clock as u16 + 1;
    match random.below(6) {
        0 => record[3] = random.pick(&[0, 8, 9, 255]),
        1 => record[2] = random.byte(),
        2 => record[..2].copy_from_slice(&random.pick(&[past, past + 1, 0xFFFF]).to_be_bytes()),
        3 | 4 => record[..2].copy_from_slice(&earlier.saturating_sub(1).to_be_bytes()),
        _ => damage_bit(random, record),
    }
}

/// Steps or a capture, too long by idle clocks, or with a byte over the most.
fn damage_clocks(random: &mut Random, bytes: &mut Vec<u8>, idle: u8, over: &[u8]) {
    if bytes.is_empty() || random.one_in(4) {
        bytes.resize(MOST_STEPS + random.below(3), idle);
    }
    if random.one_in(2) {
        let at = place(random, bytes.len());
        bytes[at] = random.pick(over);
    }
}

fn damage_log(random: &mut Random, log: &mut Vec<u8>) {
    let part = Transaction::CLOCKS * LOG_RECORD;
    let short = log.len().saturating_sub(1);
    let long = log.len() + 1;
    log.resize(random.pick(&[0, short, long, short + 1 - part.min(short + 1), long - 1 + part]), 1);
}

/// One side of a limit, with the answer that the document gives.
pub struct Limit {
    pub what: &'static str,
    pub call: Call,
    pub input: Input,
    pub answer: Answer,
}

/// Both sides of every limit.
pub fn limits() -> Vec<Limit> {
    let parts = [counts_of_the_list(), counts_of_board_and_events(), steps_and_log(), addresses(), last_clocks(), rooms()];
    parts.into_iter().flatten().chain(captures::limits()).chain(waveforms::limits()).collect()
}

fn refused(number: u8, index: usize) -> Answer {
    Err(Refusal { number, index })
}

/// Board P, one read, a capture of one write and a short text, which the limits change in one place.
fn good() -> Input {
    let (list, capture, text) = (read(1, 1).to_vec(), captures::one_write(), waveforms::one_clock());
    Input { board: board_p(), list, steps: vec![1; 65], log: vec![1; 325], capture, text, ..Input::default() }
}

/// The same input for some calls, with output for the full result.
fn each(what: &'static str, calls: &[Call], input: Input, answer: Answer) -> Vec<Limit> {
    let limit = |&call: &Call| Limit { what, call, input: Input { room: call.full_size(&input), ..input.clone() }, answer };
    calls.iter().map(limit).collect()
}

fn counts_of_the_list() -> Vec<Limit> {
    let limit = |(count, answer)| {
        let input = Input { list: read(1, 1).repeat(count), log: vec![1; 325 * count], ..good() };
        each("records of the list", &[Translate, Decode, Plain], input, answer)
    };
    [(0, Ok(())), (1, Ok(())), (64, Ok(())), (65, refused(2, 0))].into_iter().flat_map(limit).collect()
}

/// Board P's part at another address.
fn part(address: u8) -> Vec<u8> {
    let mut record = board_p();
    record[0] = address;
    record
}

fn counts_of_board_and_events() -> Vec<Limit> {
    let phys = |(count, answer)| {
        let board = (0..count).flat_map(|k| part(31 - k % 32)).collect();
        each("PHYs of the board", &[Run, Plain], Input { board, ..good() }, answer)
    };
    let events = |(count, answer)| {
        let input = Input { events: event(65, 1, 1).repeat(count), ..good() };
        each("events", &[Run, Plain], input, answer)
    };
    let boards = [(0, Ok(())), (1, Ok(())), (32, Ok(())), (33, refused(2, 0))].into_iter().flat_map(phys);
    let files = [(0, Ok(())), (1, Ok(())), (256, Ok(())), (257, refused(2, 0))].into_iter().flat_map(events);
    boards.chain(files).collect()
}

fn steps_and_log() -> Vec<Limit> {
    let counts = |(count, answer)| each("steps", &[Run], Input { steps: vec![1; count], ..good() }, answer);
    let values = |(at, step, answer)| {
        let mut steps = vec![1; 65];
        steps[at] = step;
        each("step over 3", &[Run], Input { steps, ..good() }, answer)
    };
    let logs = |(length, answer)| each("length of the log", &[Decode], Input { log: vec![1; length], ..good() }, answer);
    let counts = [(0, Ok(())), (1, Ok(())), (4160, Ok(())), (4161, refused(2, 0))].into_iter().flat_map(counts);
    let values =
        [(0, 3, Ok(())), (0, 4, refused(11, 0)), (32, 4, refused(11, 32)), (64, 4, refused(11, 64))].into_iter().flat_map(values);
    let logs = [(324, refused(13, 0)), (325, Ok(())), (326, refused(13, 0))].into_iter().flat_map(logs);
    counts.chain(values).chain(logs).collect()
}

fn addresses() -> Vec<Limit> {
    let mut limits = Vec::new();
    for (address, answer) in [(31, Ok(())), (32, refused(3, 2))] {
        for record in [read(address, 0), read(0, address)] {
            let list = [read(0, 0), read(0, 0), record].concat();
            let input = Input { list, log: vec![0; 975], ..good() };
            limits.extend(each("address and register of the list", &[Translate, Decode, Plain], input, answer));
        }
        let board = [part(1), part(2), part(address)].concat();
        limits.extend(each("address of the board", &[Run, Plain], Input { board, ..good() }, answer));
    }
    limits
}

fn last_clocks() -> Vec<Limit> {
    let of_one = |(clock, answer)| {
        let events = [event(0, 1, 1), event(clock, 1, 2)].concat();
        each("the last clock", &[Run, Plain], Input { events, ..good() }, answer)
    };
    let of_none = |(clock, answer)| {
        let input = Input { events: event(clock, 1, 1).to_vec(), list: Vec::new(), steps: Vec::new(), ..good() };
        each("the last clock of none", &[Run, Plain], input, answer)
    };
    let one = [(65, Ok(())), (66, refused(9, 1))].into_iter().flat_map(of_one);
    one.chain([(0, Ok(())), (1, refused(9, 0))].into_iter().flat_map(of_none)).collect()
}

fn rooms() -> Vec<Limit> {
    let enough = each("room of the output", &Call::ALL, good(), Ok(()));
    let mut short = each("room of the output, one short", &Call::ALL, good(), refused(10, 0));
    short.iter_mut().for_each(|limit| limit.input.room -= 1);
    enough.into_iter().chain(short).collect()
}
