//! Logs for the writer of waveforms and texts for its reader: of real runs and of flags that change rarely or often, the same texts
//! damaged, all small damages of some short ones, and both sides of the limits.

use super::{refused, size, Limit};
use crate::calls::{Answer, Call, Input};
use crate::make;
use crate::model::records::{LOG_RECORD, MOST_STEPS};
use crate::model::waveform::{waveform, HEADER, MOST_TEXT};
use crate::random::Random;

/// Clocks on both sides of a time's next digit, and of the most.
const COUNTS: [usize; 19] = [0, 1, 2, 8, 9, 10, 11, 98, 99, 100, 101, 998, 999, 1000, 1001, 4158, 4159, 4160, 4161];

/// A log, of a run or of any flags; now and then one clock too long.
pub fn log(random: &mut Random, input: &Input) -> Vec<u8> {
    match random.below(6) {
        0 => make::log(&input.board, &make::steps(&input.list), &input.events),
        1 => make::log(&input.board, &input.steps, &[]),
        _ => {
            let count = if random.one_in(6) { random.pick(&COUNTS) } else { 20 * size(random, 30) + random.below(20) };
            records(random, count)
        }
    }
}

/// Log records in which some signals change now and then, or all of them in every clock; the bits beside the flags are any.
fn records(random: &mut Random, count: usize) -> Vec<u8> {
    let (rarely, all, beside) = (random.pick(&[1, 2, 8, 64, 1000]), random.one_in(3), random.pick(&[0, 0xF8]));
    let mut flags = random.byte() & 7;
    let mut log = Vec::new();
    for _ in 0..count {
        if random.one_in(rarely) {
            flags ^= if all { 7 } else { 1 + random.below(7) as u8 };
        }
        log.push(flags | random.byte() & beside);
        log.extend(&random.number().to_be_bytes()[..4]);
    }
    log
}

/// The text of a log, also of one that is too long.
pub fn text(random: &mut Random, input: &Input) -> Vec<u8> {
    text_of(&log(random, input))
}

fn text_of(log: &[u8]) -> Vec<u8> {
    waveform(log.as_chunks().0).into_bytes()
}

/// A damaged text, which may still be the text of another log.
pub fn damage(random: &mut Random, text: &mut Vec<u8>) {
    match random.below(10) {
        0 | 1 => damage_byte(random, text),
        2 | 3 => damage_lines(random, text),
        4 | 5 => damage_time(random, text),
        6 => damage_value(random, text),
        7 => text.truncate(place(random, text)),
        8 => text.extend(random.pick(&["\n", "#", "0L\n", "#2\n", "#4161\n", "\0", " ", "\r\n", HEADER]).bytes()),
        _ => damage_ends(random, text),
    }
}

/// A place in a text or at its end, mostly behind the header.
fn place(random: &mut Random, text: &[u8]) -> usize {
    let first = if random.one_in(8) { 0 } else { HEADER.len().min(text.len()) };
    first + random.below(text.len() + 1 - first)
}

/// A byte of the lines behind the header, or a blank or line end that others might have there, or any.
fn any_byte(random: &mut Random) -> u8 {
    let any = random.byte();
    if random.one_in(4) {
        any
    } else {
        random.pick(b"#0123456789LEC\n \r")
    }
}

/// One byte changed, let in or taken out.
fn damage_byte(random: &mut Random, text: &mut Vec<u8>) {
    let (at, byte) = (place(random, text), any_byte(random));
    match random.below(3) {
        0 if at < text.len() => text[at] = byte,
        1 if at < text.len() => _ = text.remove(at),
        _ => text.insert(at, byte),
    }
}

/// Two lines swapped, or one dropped or doubled.
fn damage_lines(random: &mut Random, text: &mut Vec<u8>) {
    let mut lines = lines(text);
    let header = HEADER.lines().count().min(lines.len());
    let first = if random.one_in(8) { 0 } else { header };
    if first == lines.len() {
        return;
    }
    let any = |random: &mut Random| first + random.below(lines.len() - first);
    let (at, other) = (any(random), any(random));
    match random.below(4) {
        0 => lines.swap(at, other),
        1 => lines.swap(at, (at + 1).min(other.max(at))),
        2 => _ = lines.remove(at),
        _ => lines.insert(other, lines[at].clone()),
    }
    *text = lines.concat();
}

fn lines(text: &[u8]) -> Vec<Vec<u8>> {
    text.split_inclusive(|&byte| byte == b'\n').map(<[u8]>::to_vec).collect()
}

/// Another time in one line, often the closing one, or in all of them one more.
fn damage_time(random: &mut Random, text: &mut Vec<u8>) {
    let mut lines = lines(text);
    let times: Vec<usize> = (0..lines.len()).filter(|&line| lines[line].starts_with(b"#")).collect();
    let Some(&closing) = times.last() else { return };
    let changed = match random.below(8) {
        0 => times,
        1..4 => vec![closing],
        _ => vec![random.pick(&times)],
    };
    let kind = if changed.len() > 1 { 0 } else { random.below(12) };
    for line in changed {
        let old: u64 = String::from_utf8_lossy(&lines[line][1..]).trim_end().parse().unwrap_or(7);
        lines[line] = other_time(random, old, kind).into_bytes();
    }
    *text = lines.concat();
}

/// A time line in place of an old one: near it or far off, over the most, too large for a number of 16, 32 or 64 bits, which would
/// leave the old one, or written in another way.
fn other_time(random: &mut Random, old: u64, kind: usize) -> String {
    match kind {
        0 | 1 => format!("#{}\n", old.wrapping_add(1)),
        2 => format!("#{}\n", old.wrapping_sub(1)),
        3 => format!("#{}\n", random.below(MOST_STEPS + 3)),
        4 => format!("#{}\n", random.pick(&[4160, 4161, 4162])),
        5 => format!("#{}\n", u128::from(old) + (1 << random.pick(&[8, 13, 16, 32, 64]))),
        6 => format!("#{}{old}\n", random.pick(&["0", "00", "+", " ", "-", "1"])),
        7 => format!("#{old}{}\n", random.pick(&[" ", "0", ".0", "\r", "e0"])),
        8 => random.pick(&["#\n", "#0\n", "\n", "# \n", "#x\n"]).to_string(),
        _ => format!("#{}\n", old.wrapping_add(random.below(100) as u64)),
    }
}

/// A value line with another value or letter.
fn damage_value(random: &mut Random, text: &mut [u8]) {
    let values: Vec<usize> = (HEADER.len()..text.len()).filter(|&at| b"LEC".contains(&text[at])).collect();
    if values.is_empty() {
        return;
    }
    let at = random.pick(&values);
    match random.below(3) {
        0 => text[at] = random.pick(b"LECDlec "),
        1 => text[at - 1] = random.pick(b"01xz2"),
        _ => text[at - 1] ^= 1,
    }
}

/// Line ends of other systems, in one line or all, or none at the last line.
fn damage_ends(random: &mut Random, text: &mut Vec<u8>) {
    let mut lines = lines(text);
    let Some(last) = lines.len().checked_sub(1) else { return };
    let any = random.below(lines.len());
    let end: &[u8] = random.pick(&[b"\r\n", b"\r", b"\n\n", b" \n"]);
    let changed = match random.below(4) {
        0 => 0..lines.len(),
        1 | 2 => any..any + 1,
        _ => {
            lines[last].pop();
            0..0
        }
    };
    for line in &mut lines[changed] {
        line.pop();
        line.extend(end);
    }
    *text = lines.concat();
}

/// Short texts, and from where on every byte of each is changed: the header is the same in all and changed in two. They are those of no
/// clock, of three, of ten with changes before and after the second digit, and of the most clocks without a change.
fn short_texts() -> [(Vec<u8>, usize); 4] {
    let of = |flags: &[u8]| text_of(&make::log_of(flags));
    let behind = HEADER.len();
    [(of(&[]), 0), (of(&[1, 6, 7]), 0), (of(&[3, 3, 3, 3, 3, 3, 3, 3, 2, 6]), behind), (of(&[1; MOST_STEPS]), behind)]
}

/// Every prefix of the short texts, the whole ones too.
pub fn prefixes() -> impl Iterator<Item = Vec<u8>> {
    short_texts().into_iter().flat_map(|(text, _)| (0..=text.len()).map(move |length| text[..length].to_vec()))
}

/// Every change of one byte to each other value, in the short texts.
pub fn changes() -> impl Iterator<Item = Vec<u8>> {
    short_texts().into_iter().flat_map(|(text, from)| {
        let changes = (from..text.len()).flat_map(|at| (1..=255).map(move |bits| (at, bits)));
        changes.map(move |(at, bits)| {
            let mut text = text.clone();
            text[at] ^= bits;
            text
        })
    })
}

/// The short texts with any one byte taken out, or one that such texts have let in anywhere behind the header.
pub fn bytes_less_or_more() -> impl Iterator<Item = Vec<u8>> {
    short_texts().into_iter().flat_map(|(text, _)| {
        let less = (0..text.len()).map(|at| [&text[..at], &text[at + 1..]].concat());
        let places = (HEADER.len()..=text.len()).flat_map(|at| b"#0123456789LEC\n".iter().map(move |byte| (at, *byte)));
        let more = places.map(|(at, byte)| [&text[..at], &[byte], &text[at..]].concat());
        less.chain(more).collect::<Vec<_>>()
    })
}

/// The text of a log of one clock.
pub fn one_clock() -> Vec<u8> {
    behind_the_header("#1\n1L\n0E\n0C\n#2\n")
}

fn behind_the_header(lines: &str) -> Vec<u8> {
    [HEADER, lines].concat().into_bytes()
}

/// Both sides of the limits of writer and reader.
pub fn limits() -> Vec<Limit> {
    let limit = |call, (what, input, answer)| Limit { what, call, input, answer };
    let written = writer_limits().into_iter().map(move |case| limit(Call::WriteVcd, case));
    written.chain(reader_limits().into_iter().map(move |case| limit(Call::ReadVcd, case))).collect()
}

fn writer_limits() -> Vec<(&'static str, Input, Answer)> {
    let of = |log: Vec<u8>, room| Input { log, room, ..Input::default() };
    let header = HEADER.len();
    let quiet = |clocks| vec![0; clocks * LOG_RECORD];
    let busy = make::busiest_log;
    vec![
        ("no clock, the header and closing time 1", of(quiet(0), header + 3), Ok(())),
        ("no clock, a byte short", of(quiet(0), header + 2), refused(10, 0)),
        ("no clock, no room", of(quiet(0), 0), refused(10, 0)),
        ("one clock, its room", of(quiet(1), header + 15), Ok(())),
        ("one clock, a byte short", of(quiet(1), header + 14), refused(10, 0)),
        ("8 clocks, closing time 9", of(quiet(8), header + 15), Ok(())),
        ("9 clocks, closing time 10", of(quiet(9), header + 16), Ok(())),
        ("9 clocks, a byte short", of(quiet(9), header + 15), refused(10, 0)),
        ("99 clocks, closing time 100", of(quiet(99), header + 17), Ok(())),
        ("99 clocks, a byte short", of(quiet(99), header + 16), refused(10, 0)),
        ("999 clocks, closing time 1000", of(quiet(999), header + 18), Ok(())),
        ("999 clocks, a byte short", of(quiet(999), header + 17), refused(10, 0)),
        ("4,160 clocks, their room", of(quiet(4160), header + 18), Ok(())),
        ("4,161 clocks", of(quiet(4161), MOST_TEXT), refused(2, 0)),
        ("4,161 clocks, no room", of(quiet(4161), 0), refused(2, 0)),
        ("a byte", of(vec![0], MOST_TEXT), refused(1, 0)),
        ("4 bytes, no room", of(vec![0; 4], 0), refused(1, 0)),
        ("6 bytes", of(vec![0; 6], MOST_TEXT), refused(1, 0)),
        ("a byte less than 4,160 clocks", of(vec![0; 20_799], MOST_TEXT), refused(1, 0)),
        ("a byte more than 4,161 clocks", of(vec![0; 20_806], MOST_TEXT), refused(1, 0)),
        ("the longest text, its room", of(busy(), 61_538), Ok(())),
        ("the longest text, a byte short", of(busy(), 61_537), refused(10, 0)),
        ("the longest text, a byte more", of(busy(), 61_539), Ok(())),
    ]
}

fn reader_limits() -> Vec<(&'static str, Input, Answer)> {
    let of = |lines: &str, room| Input { text: behind_the_header(lines), room, ..Input::default() };
    let busy = text_of(&make::busiest_log());
    vec![
        ("no byte", Input::default(), refused(18, 0)),
        ("the header alone", of("", 0), refused(18, 0)),
        ("no clock", of("#1\n", 0), Ok(())),
        ("no clock, no last newline", of("#1", 0), refused(18, 0)),
        ("one clock, its room", of("#1\n1L\n0E\n0C\n#2\n", 1), Ok(())),
        ("one clock, no room", of("#1\n1L\n0E\n0C\n#2\n", 0), refused(10, 0)),
        ("a value that repeats the old one, no room", of("#1\n1L\n0E\n0C\n#2\n1L\n#3\n", 0), refused(18, 0)),
        ("4,160 clocks, their room", of("#1\n1L\n0E\n0C\n#4161\n", 4160), Ok(())),
        ("4,160 clocks, a byte short", of("#1\n1L\n0E\n0C\n#4161\n", 4159), refused(10, 0)),
        ("closing time 4,162", of("#1\n1L\n0E\n0C\n#4162\n", 5000), refused(18, 0)),
        ("a change in clock 4,160", of("#1\n1L\n0E\n0C\n#4160\n1C\n#4161\n", 4160), Ok(())),
        ("a change in clock 4,161", of("#1\n1L\n0E\n0C\n#4161\n1C\n#4162\n", 5000), refused(18, 0)),
        ("the longest text, its room", Input { text: busy.clone(), room: 4160, ..Input::default() }, Ok(())),
        ("the longest text, a byte short", Input { text: busy, room: 4159, ..Input::default() }, refused(10, 0)),
    ]
}
