//! Document 02, E3: a log as a waveform, text for the viewers that read Value Change Dump files (IEEE 1364), and our own text read back.

use super::records::{records, room, Refusal, LOG_RECORD, MOST_STEPS};
use super::wire::{CONTENTION, LEVEL, STATION};
use std::fmt::Write;

/// The lines that every text starts with.
pub const HEADER: &str = "\
$version Taksherub $end
$comment MDIO wire, one time unit for each clock $end
$timescale 1 us $end
$scope module mdio $end
$var wire 1 L level $end
$var wire 1 E enable $end
$var wire 1 C contention $end
$upscope $end
$enddefinitions $end
";

/// "Signals for the level, the station's enable and the contention flag": the flag of each and its letter, in their lines' order.
const SIGNALS: [(u8, char); 3] = [(LEVEL, 'L'), (STATION, 'E'), (CONTENTION, 'C')];

/// The bytes of the longest text, in which every signal changes in each of 4,160 clocks: time lines with 1 to 4 digits, three value
/// lines for each clock, and the closing time.
pub const MOST_TEXT: usize = HEADER.len() + 9 * 3 + 90 * 4 + 900 * 5 + 3161 * 6 + MOST_STEPS * 9 + 6;

/// The text of a log of any length: "the values of clock 1, then only changes, with the clock number as time, and a closing time one
/// past the last clock".
pub fn waveform(log: &[[u8; LOG_RECORD]]) -> String {
    let mut text = String::from(HEADER);
    let mut shown = None;
    for (before, &[flags, ..]) in log.iter().enumerate() {
        let changed = shown.map_or(0xFF, |shown| flags ^ shown);
        let mut time_is_told = false;
        for (flag, letter) in SIGNALS {
            if changed & flag != 0 {
                if !time_is_told {
                    time_line(&mut text, before + 1);
                    time_is_told = true;
                }
                text.push(if flags & flag != 0 { '1' } else { '0' });
                text.push(letter);
                text.push('\n');
            }
        }
        shown = Some(flags);
    }
    time_line(&mut text, log.len() + 1);
    text
}

fn time_line(text: &mut String, time: usize) {
    writeln!(text, "#{time}").expect("a string takes all text");
}

/// "Refusals: 1 a log that is no whole number of records, 2 over 4,160 clocks, then 10."
pub fn write_vcd(log: &[u8], text: &mut [u8]) -> Result<(), Refusal> {
    let written = waveform(records(log, MOST_STEPS)?);
    room(text, written.len())?.copy_from_slice(written.as_bytes());
    Ok(())
}

/// A line behind the header: a time, or the place in `SIGNALS` of a signal and its value.
enum Line {
    Time(usize),
    Value(usize, bool),
}

impl Line {
    fn of(line: &[u8]) -> Option<Line> {
        match *line {
            [b'#', ref digits @ ..] => plain_decimal(digits).map(Line::Time),
            [value @ (b'0' | b'1'), sign] => {
                let signal = SIGNALS.iter().position(|&(_, letter)| letter == char::from(sign))?;
                Some(Line::Value(signal, value == b'1'))
            }
            _ => None,
        }
    }
}

/// "Plain decimal without leading zeros": a number is written in one way only.
fn plain_decimal(digits: &[u8]) -> Option<usize> {
    let digits = std::str::from_utf8(digits).ok()?;
    digits.parse().ok().filter(|number: &usize| number.to_string() == digits)
}

/// A time line and the value lines that follow it.
struct Moment {
    time: usize,
    values: Vec<(usize, bool)>,
}

/// What stands behind the header, if it is lines of the two kinds and a time comes first. Every line ends with a newline, the last
/// too.
fn moments(body: &[u8]) -> Option<Vec<Moment>> {
    let mut moments: Vec<Moment> = Vec::new();
    for line in body.strip_suffix(b"\n")?.split(|&byte| byte == b'\n') {
        match Line::of(line)? {
            Line::Time(time) => moments.push(Moment { time, values: Vec::new() }),
            Line::Value(signal, value) => moments.last_mut()?.values.push((signal, value)),
        }
    }
    Some(moments)
}

/// Whether a signal's values, in the order of their lines, are changes after the first one.
fn only_changes(moments: &[Moment], signal: usize) -> bool {
    let values = moments.iter().flat_map(|moment| &moment.values).filter(|(of, _)| *of == signal);
    values.map(|(_, value)| value).collect::<Vec<_>>().windows(2).all(|pair| pair[0] != pair[1])
}

/// The moments of a text, if the writer writes it for some log: each rule of the text is asked by itself.
fn good_moments(text: &[u8]) -> Option<Vec<Moment>> {
    let moments = moments(text.strip_prefix(HEADER.as_bytes())?)?;
    let (closing, clocks) = moments.split_last()?;
    let rules = [
        moments[0].time == 1,
        moments.is_sorted_by(|earlier, later| earlier.time < later.time),
        closing.time <= MOST_STEPS + 1,
        closing.values.is_empty(),
        clocks.iter().all(|moment| !moment.values.is_empty()),
        clocks.first().is_none_or(|first| first.values.len() == SIGNALS.len()),
        clocks.iter().all(|moment| moment.values.is_sorted_by(|(one, _), (next, _)| one < next)),
        (0..SIGNALS.len()).all(|signal| only_changes(clocks, signal)),
    ];
    rules.into_iter().all(|kept| kept).then_some(moments)
}

/// "Reading our own text back gives one byte per clock, the three signals as flags 1, 2, 4." None for a text that is not ours.
pub fn flags_in(text: &[u8]) -> Option<Vec<u8>> {
    let (mut flags, mut clocks) = (0, Vec::new());
    for pair in good_moments(text)?.windows(2) {
        for &(signal, value) in &pair[0].values {
            let (flag, _) = SIGNALS[signal];
            flags = if value { flags | flag } else { flags & !flag };
        }
        clocks.resize(pair[1].time - 1, flags);
    }
    Some(clocks)
}

/// "For the reader, 18 (index 0) exactly if the text is none that the writer writes, then 10."
pub fn read_vcd(text: &[u8], flags: &mut [u8]) -> Result<(), Refusal> {
    let clocks = flags_in(text).ok_or(Refusal::whole(Refusal::TEXT))?;
    room(flags, clocks.len())?.copy_from_slice(&clocks);
    Ok(())
}
