//! Two builds of the seven calls on the same inputs: the same answer and the same bytes, past the result and after a refusal too.

use crate::calls::{Answer, Call, Calls, Input};
use crate::generate;
use crate::model::records::*;
use crate::model::Board;
use crate::random::Random;
use std::collections::{BTreeMap, BTreeSet};
use std::fmt;

const SEED: u64 = 0x7461_6B73_6865_7275;

/// Bytes behind the lent output that no call may touch.
const GUARD: usize = 16;

fn pattern(at: usize) -> u8 {
    0x80 | (at * 37 % 127) as u8
}

/// One side's answer and its output, guard bytes included; or what it wrote and should not have.
fn one_side(call: Call, calls: &Calls, input: &Input) -> Result<(Answer, Vec<u8>), String> {
    let mut output: Vec<u8> = (0..input.room + GUARD).map(pattern).collect();
    let answer = call.answer(calls, input, &mut output[..input.room]);
    let written = if answer.is_ok() { call.full_size(input) } else { 0 };
    if written > input.room {
        return Err(format!("accepted {} bytes of output where {written} are needed", input.room));
    }
    match (written..output.len()).find(|&at| output[at] != pattern(at)) {
        Some(at) => Err(format!("{answer:?}, and byte {at} of the output, which should stay, changed")),
        None => Ok((answer, output)),
    }
}

/// The answer in which both sides agree, or how they differ.
pub fn compare(call: Call, left: &Calls, right: &Calls, input: &Input) -> Result<Answer, String> {
    let differ = |what: String| format!("{call:?}: {what}\n{}", describe(input));
    let (answer, output) = one_side(call, left, input).map_err(|what| differ(format!("the left side: {what}")))?;
    let (other, bytes) = one_side(call, right, input).map_err(|what| differ(format!("the right side: {what}")))?;
    if answer != other {
        return Err(differ(format!("answers {answer:?} and {other:?}")));
    }
    match output.iter().zip(&bytes).position(|(ours, theirs)| ours != theirs) {
        Some(at) => Err(differ(format!("byte {at} of the output is {} and {}", output[at], bytes[at]))),
        None => Ok(answer),
    }
}

/// The input's files in hex digits, so that a difference can be tried again by hand.
fn describe(input: &Input) -> String {
    let Input { board, list, steps, events, log, capture, text, room } = input;
    let files = [
        ("board", board),
        ("list", list),
        ("steps", steps),
        ("events", events),
        ("log", log),
        ("capture", capture),
        ("text", text),
    ];
    let mut lines = format!("output of {room} bytes");
    for (name, file) in files {
        let digits: String = file.iter().map(|byte| format!("{byte:02x}")).collect();
        lines += &format!("\n{name}, {} bytes: {digits}", file.len());
    }
    lines
}

/// What a refusal found fault with.
#[derive(Clone, Copy, Debug, PartialEq, Eq, PartialOrd, Ord)]
pub enum Part {
    Board,
    List,
    Steps,
    Events,
    Log,
    Capture,
    Text,
    Output,
}

/// The numbers that a call can refuse a part by.
fn numbers(call: Call, part: Part) -> &'static [u8] {
    match part {
        Part::Board => &[1, 2, 3, 4, 5, 6],
        Part::List => &[1, 2, 3, 7],
        Part::Steps => &[2, 11],
        Part::Events => &[1, 2, 8, 9],
        Part::Log if call == Call::WriteVcd => &[1, 2],
        Part::Log => &[13],
        Part::Capture => &[2, 16],
        Part::Text => &[18],
        Part::Output => &[10],
    }
}

fn parts(call: Call) -> &'static [Part] {
    match call {
        Call::Translate => &[Part::List, Part::Output],
        Call::Run => &[Part::Board, Part::Steps, Part::Events, Part::Output],
        Call::Decode => &[Part::List, Part::Log, Part::Output],
        Call::Plain => &[Part::Board, Part::List, Part::Events, Part::Output],
        Call::Listen => &[Part::Capture, Part::Output],
        Call::WriteVcd => &[Part::Log, Part::Output],
        Call::ReadVcd => &[Part::Text, Part::Output],
    }
}

/// Whether a refusal is of a whole part, and its index 0.
fn of_the_whole(number: u8) -> bool {
    matches!(number, Refusal::LENGTH | Refusal::TOO_MANY | Refusal::OUTPUT | Refusal::LOG_LENGTH | Refusal::TEXT)
}

/// The part at fault and its record count, by the order of the checks.
fn at_fault(call: Call, input: &Input, number: u8) -> (Part, usize) {
    let bad = |part: &&Part| match part {
        Part::Board => Board::load(&input.board).is_err(),
        Part::List => list(&input.list).is_err(),
        Part::Steps => check_steps(&input.steps).is_err(),
        _ => true,
    };
    let part = match number {
        Refusal::OUTPUT => Part::Output,
        Refusal::LOG_LENGTH => Part::Log,
        _ => *parts(call).iter().find(bad).expect("the output's room comes last"),
    };
    let count = match part {
        Part::Board => input.board.len() / BOARD_RECORD,
        Part::List => input.list.len() / LIST_RECORD,
        Part::Steps => input.steps.len(),
        Part::Capture => input.capture.len(),
        Part::Events => input.events.len() / EVENT_RECORD,
        Part::Log | Part::Text | Part::Output => 0,
    };
    (part, count)
}

/// How often a call was accepted, and refused by which number where: at the first, a middle, the last record.
pub struct Tally {
    call: Call,
    accepted: usize,
    /// The PHY counts of the accepted boards.
    board_sizes: BTreeSet<usize>,
    refused: BTreeMap<(Part, u8), [usize; 3]>,
}

impl Tally {
    fn new(call: Call) -> Tally {
        Tally { call, accepted: 0, board_sizes: BTreeSet::new(), refused: BTreeMap::new() }
    }

    fn count(&mut self, input: &Input, answer: Answer) {
        let Err(Refusal { number, index }) = answer else {
            self.accepted += 1;
            self.board_sizes.insert(input.board.len() / BOARD_RECORD);
            return;
        };
        let (part, records) = at_fault(self.call, input, number);
        let place = match index {
            0 => 0,
            _ if index + 1 < records => 1,
            _ => 2,
        };
        self.refused.entry((part, number)).or_default()[place] += 1;
    }

    fn met(&self, part: Part, number: u8) -> [usize; 3] {
        self.refused.get(&(part, number)).copied().unwrap_or_default()
    }

    /// The refusals that this call can give.
    fn reachable(&self) -> impl Iterator<Item = (Part, u8)> + '_ {
        parts(self.call).iter().flat_map(|&part| numbers(self.call, part).iter().map(move |&number| (part, number)))
    }

    /// The reachable refusals that no input met, in words.
    fn missing(&self) -> Vec<String> {
        let mut missing = Vec::new();
        for (part, number) in self.reachable() {
            let wanted: &[(usize, &str)] = match number {
                whole if of_the_whole(whole) => &[(0, "")],
                Refusal::REPEATED_ADDRESS => &[(1, " at a middle record"), (2, " at the last record")],
                _ => &[(0, " at the first record"), (1, " at a middle record"), (2, " at the last record")],
            };
            for (place, words) in wanted {
                if self.met(part, number)[*place] == 0 {
                    missing.push(format!("{:?}: refusal {number} of the {part:?}{words} was never met", self.call));
                }
            }
        }
        if self.board_sizes.len() <= MOST_PHYS {
            missing.push(format!("{:?}: only boards of {:?} PHYs were accepted", self.call, self.board_sizes));
        }
        missing
    }
}

impl fmt::Display for Tally {
    fn fmt(&self, f: &mut fmt::Formatter) -> fmt::Result {
        let mut by_number = BTreeMap::new();
        for ((_, number), met) in &self.refused {
            *by_number.entry(number).or_default() += met.iter().sum::<usize>();
        }
        let refused: usize = by_number.values().sum();
        let (name, inputs) = (self.call.name(), self.accepted + refused);
        write!(f, "{name}: {inputs} inputs, {} accepted; refused by number:", self.accepted)?;
        for (number, times) in by_number {
            write!(f, " {number}: {times},")?;
        }
        writeln!(f, " in all {refused}")?;
        for (part, number) in self.reachable() {
            let [first, middle, last] = self.met(part, number);
            let part = format!("{part:?}").to_lowercase();
            if of_the_whole(number) {
                writeln!(f, "    {part:<7} {number:>2}  {first:>6}")?;
            } else {
                writeln!(
                    f,
                    "    {part:<7} {number:>2}  {first:>6} at the first record, {middle:>5} at a middle one, {last:>5} at the last"
                )?;
            }
        }
        Ok(())
    }
}

/// Room beyond what a damaged text needs, where a build that takes it for another one would write.
const SPARE: usize = 16;

/// What became of all texts that one kind of damage makes of some short ones.
pub struct Damaged {
    kind: &'static str,
    read: usize,
    refused: usize,
}

impl Damaged {
    pub fn count(&self) -> usize {
        self.read + self.refused
    }
}

impl fmt::Display for Damaged {
    fn fmt(&self, f: &mut fmt::Formatter) -> fmt::Result {
        let Damaged { kind, read, refused } = self;
        writeln!(f, "{}: {kind}: {} texts, {read} read and {refused} refused by 18", Call::ReadVcd.name(), self.count())
    }
}

/// All these texts, each of which is read or refused by 18.
fn compare_texts(left: &Calls, right: &Calls, kind: &'static str, texts: impl Iterator<Item = Vec<u8>>) -> Result<Damaged, String> {
    let mut damaged = Damaged { kind, read: 0, refused: 0 };
    for text in texts {
        let mut input = Input { text, ..Input::default() };
        input.room = Call::ReadVcd.full_size(&input) + SPARE;
        match compare(Call::ReadVcd, left, right, &input)? {
            Ok(()) => damaged.read += 1,
            Err(Refusal { number: Refusal::TEXT, index: 0 }) => damaged.refused += 1,
            Err(refusal) => return Err(format!("{kind}: both answer {refusal:?}\n{}", describe(&input))),
        }
    }
    Ok(damaged)
}

fn compare_damaged(left: &Calls, right: &Calls) -> Result<Vec<Damaged>, String> {
    Ok(vec![
        compare_texts(left, right, "every prefix of four short texts", generate::prefixes())?,
        compare_texts(left, right, "every change of one byte in them", generate::changes())?,
        compare_texts(left, right, "a byte less or more in them", generate::bytes_less_or_more())?,
    ])
}

/// What a comparison met.
pub struct Met {
    pub tallies: Vec<Tally>,
    pub damaged: Vec<Damaged>,
}

/// The limits, all small damages of short texts, and `count` generated inputs for each call. What was met, or the first difference, or
/// what was never met.
pub fn compare_all(left: &Calls, right: &Calls, count: usize) -> Result<Met, String> {
    for generate::Limit { what, call, input, answer: expected } in generate::limits() {
        let answer = compare(call, left, right, &input)?;
        if answer != expected {
            return Err(format!("{call:?}: {what}: both answer {answer:?}, the document {expected:?}\n{}", describe(&input)));
        }
    }
    let damaged = compare_damaged(left, right)?;
    let mut random = Random::new(SEED);
    let mut tallies = Call::ALL.map(Tally::new);
    for tally in &mut tallies {
        for _ in 0..count {
            let input = generate::input(&mut random, tally.call);
            let answer = compare(tally.call, left, right, &input)?;
            tally.count(&input, answer);
        }
    }
    let missing: Vec<String> = tallies.iter().flat_map(Tally::missing).collect();
    if missing.is_empty() {
        Ok(Met { tallies: tallies.into(), damaged })
    } else {
        Err(missing.join("\n"))
    }
}

#[cfg(test)]
mod tests {
    mod waveforms;

    use super::*;
    use crate::calls::MODEL;
    use crate::model::follower::{Follower, PREAMBLE};
    use crate::model::listener::heard;
    use crate::model::phy::Phy;
    use crate::model::wire::{LEVEL, STATION};

    const COUNT: usize = 5_000;

    #[test]
    fn the_model_agrees_with_itself_and_every_refusal_is_met() {
        let met = compare_all(&MODEL, &MODEL, COUNT);
        assert_eq!(met.map(|met| met.tallies.len()), Ok(7));
    }

    /// A build that is wrong on purpose must be caught, on either side.
    fn caught(broken: Calls) {
        assert!(compare_all(&MODEL, &broken, COUNT).is_err());
        assert!(compare_all(&broken, &MODEL, COUNT).is_err());
    }

    fn refuse_all(_: &[u8], _: &[u8], _: &[u8], _: &mut [u8]) -> Answer {
        Err(Refusal { number: 2, index: 0 })
    }

    #[test]
    fn the_one_that_refuses_all_is_caught() {
        caught(Calls { run: refuse_all, ..MODEL });
        caught(Calls { plain: refuse_all, ..MODEL });
        caught(Calls { listen: |capture, answers| refuse_all(capture, &[], &[], answers), ..MODEL });
        caught(Calls { write_vcd: |log, text| refuse_all(log, &[], &[], text), ..MODEL });
        caught(Calls { read_vcd: |_, _| Err(Refusal::whole(Refusal::TEXT)), ..MODEL });
    }

    #[test]
    fn the_one_that_leaves_the_output_untouched_is_caught() {
        caught(Calls { translate: |list, steps| (MODEL.translate)(list, &mut steps.to_vec()), ..MODEL });
        caught(Calls { decode: |list, log, answers| (MODEL.decode)(list, log, &mut answers.to_vec()), ..MODEL });
        caught(Calls { listen: |capture, answers| (MODEL.listen)(capture, &mut answers.to_vec()), ..MODEL });
        caught(Calls { write_vcd: |log, text| (MODEL.write_vcd)(log, &mut text.to_vec()), ..MODEL });
        caught(Calls { read_vcd: |text, flags| (MODEL.read_vcd)(text, &mut flags.to_vec()), ..MODEL });
    }

    #[test]
    fn an_invented_index_is_caught() {
        caught(Calls {
            translate: |list, steps| (MODEL.translate)(list, steps).map_err(|refusal| Refusal { index: 0, ..refusal }),
            ..MODEL
        });
        caught(Calls {
            listen: |capture, answers| (MODEL.listen)(capture, answers).map_err(|refusal| Refusal { index: 0, ..refusal }),
            ..MODEL
        });
    }

    #[test]
    fn a_byte_past_the_result_is_caught() {
        caught(Calls {
            plain: |board, list, events, answers| {
                (MODEL.plain)(board, list, events, answers)?;
                answers.iter_mut().skip(list.len()).take(1).for_each(|byte| *byte = 0);
                Ok(())
            },
            ..MODEL
        });
    }

    #[test]
    fn a_byte_written_before_a_refusal_is_caught() {
        caught(Calls {
            decode: |list, log, answers| {
                (MODEL.decode)(list, log, answers).inspect_err(|_| answers.first_mut().map_or((), |byte| *byte = 0))
            },
            ..MODEL
        });
    }

    #[test]
    fn latches_that_clear_a_clock_late_are_caught() {
        caught(Calls {
            plain: |board, list, events, answers| {
                let mut early = events.to_vec();
                for event in early.as_chunks_mut::<EVENT_RECORD>().0 {
                    let clock = word(event[0], event[1]);
                    if clock % 65 == 46 {
                        event[..2].copy_from_slice(&(clock - 1).to_be_bytes());
                    }
                }
                (MODEL.plain)(board, list, events, answers).and_then(|()| (MODEL.plain)(board, list, &early, answers).or(Ok(())))
            },
            ..MODEL
        });
    }

    #[test]
    fn a_log_without_contention_is_caught() {
        caught(Calls {
            run: |board, steps, events, log| {
                (MODEL.run)(board, steps, events, log)?;
                log[..steps.len() * LOG_RECORD].iter_mut().step_by(LOG_RECORD).for_each(|flags| *flags &= 3);
                Ok(())
            },
            ..MODEL
        });
    }

    #[test]
    fn a_fake_of_the_later_transactions_is_caught() {
        caught(Calls {
            run: |board, steps, events, log| {
                (MODEL.run)(board, steps, events, log)?;
                let later = 325.min(steps.len() * LOG_RECORD)..steps.len() * LOG_RECORD;
                log[later].iter_mut().skip(4).step_by(LOG_RECORD).for_each(|low| *low = 0);
                Ok(())
            },
            ..MODEL
        });
    }

    /// A listener that refuses as it should, and hears other levels than the capture's.
    fn mishears(levels: &[u8], capture: &[u8], answers: &mut [u8]) -> Answer {
        (MODEL.listen)(capture, &mut answers.to_vec())?;
        let records: Vec<_> = heard(levels).collect();
        answers.iter_mut().zip(records.as_flattened()).for_each(|(byte, heard)| *byte = *heard);
        Ok(())
    }

    #[test]
    fn a_listener_that_starts_with_one_1_is_caught() {
        caught(Calls { listen: |capture, answers| mishears(&[&[1], capture].concat(), capture, answers), ..MODEL });
    }

    #[test]
    fn a_listener_that_ends_a_frame_a_clock_early_or_late_is_caught() {
        caught(Calls { listen: |capture, answers| mishears(&[capture, &[1]].concat(), capture, answers), ..MODEL });
        let late = |capture: &[u8], answers: &mut [u8]| mishears(&capture[..capture.len().saturating_sub(1)], capture, answers);
        caught(Calls { listen: late, ..MODEL });
    }

    /// Hears a level, and says whether a follower that hunts again right after a start of 00, as before E2, is back. It is one of ours
    /// with 30 clocks of 0 let in there, which end the frame.
    fn back_at_once(follower: &mut Follower, level: bool) -> bool {
        follower.hear(level);
        let back = follower.bits() == 2 && !level;
        if back {
            (0..30).for_each(|_| _ = follower.hear(false));
        }
        back
    }

    #[test]
    fn a_listener_that_hunts_inside_a_foreign_frame_is_caught() {
        caught(Calls {
            listen: |capture, answers| {
                let mut follower = Follower::hunting(PREAMBLE);
                let mut let_in = |level: &u8| if back_at_once(&mut follower, *level == 1) { 30 } else { 0 };
                let levels = capture.iter().flat_map(|level| [vec![*level], vec![0; let_in(level)]].concat());
                mishears(&levels.collect::<Vec<u8>>(), capture, answers)
            },
            ..MODEL
        });
    }

    #[test]
    fn a_listener_that_takes_a_start_of_00_for_ours_is_caught() {
        caught(Calls {
            listen: |capture, answers| {
                let mut follower = Follower::hunting(PREAMBLE);
                let mut second_bit = |level: u8| follower.hear(level == 1).is_none() && follower.bits() == 2;
                let levels = capture.iter().map(|&level| if second_bit(level) { 1 } else { level });
                mishears(&levels.collect::<Vec<u8>>(), capture, answers)
            },
            ..MODEL
        });
    }

    /// A clock of a board that is wrong on purpose, beside a follower of its fastest part: no part is inside a frame where that one is
    /// not.
    type WrongClock = fn(board: &mut Board, fastest: &mut Follower, step: u8) -> [u8; LOG_RECORD];

    /// A run that refuses as it should.
    fn wrong_run(clock: WrongClock, board: &[u8], steps: &[u8], events: &[u8], log: &mut [u8]) -> Answer {
        (MODEL.run)(board, steps, events, log)?;
        let mut board = Board::load(board)?;
        let mut events = Events::check(events, &board, steps.len())?;
        let mut fastest = Follower::hunting(board.phys.iter().map(Phy::ones_enough).min().unwrap_or(PREAMBLE));
        for (before, (&step, entry)) in steps.iter().zip(log.as_chunks_mut().0).enumerate() {
            events.act(before, &mut board);
            *entry = clock(&mut board, &mut fastest, step);
        }
        Ok(())
    }

    /// Back to hunting after a start of 00, those that hunt anyway having 0 ones after a 0.
    fn hunts_at_once(board: &mut Board, fastest: &mut Follower, step: u8) -> [u8; LOG_RECORD] {
        let entry = board.clock(step);
        if back_at_once(fastest, entry[0] & LEVEL != 0) {
            (0..30).for_each(|_| _ = board.clock(0));
        }
        entry
    }

    #[test]
    fn phys_that_hunt_inside_a_foreign_frame_are_caught() {
        caught(Calls { run: |board, steps, events, log| wrong_run(hunts_at_once, board, steps, events, log), ..MODEL });
    }

    /// The log shows the start of 00, and the parts hear one of 01.
    fn takes_any_start(board: &mut Board, fastest: &mut Follower, step: u8) -> [u8; LOG_RECORD] {
        fastest.hear(step != 0);
        if fastest.bits() == 2 && step == 0 {
            board.clock(1);
            return [STATION, 0, 0, 0, 0];
        }
        board.clock(step)
    }

    #[test]
    fn phys_that_take_a_start_of_00_for_ours_are_caught() {
        caught(Calls { run: |board, steps, events, log| wrong_run(takes_any_start, board, steps, events, log), ..MODEL });
    }

    #[test]
    fn a_listener_of_no_more_records_than_a_list_has_is_caught() {
        caught(Calls {
            listen: |capture, answers| {
                let before = answers.to_vec();
                (MODEL.listen)(capture, answers)?;
                answers.iter_mut().zip(before).skip(MOST_TRANSACTIONS * ANSWER_RECORD).for_each(|(byte, before)| *byte = before);
                Ok(())
            },
            ..MODEL
        });
    }

    #[test]
    fn a_silent_read_with_data_is_caught() {
        caught(Calls {
            listen: |capture, answers| {
                (MODEL.listen)(capture, answers)?;
                let full = Call::Listen.full_size(&Input { capture: capture.to_vec(), ..Input::default() });
                let silent = answers[..full].as_chunks_mut::<ANSWER_RECORD>().0.iter_mut().filter(|answer| answer[0] == 2);
                silent.for_each(|answer| answer[4..].fill(0xFF));
                Ok(())
            },
            ..MODEL
        });
    }
}
