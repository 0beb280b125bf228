//! Writers and readers of waveforms that are wrong on purpose.

use super::*;
use crate::model::waveform::{HEADER, MOST_TEXT};

/// A writer that refuses as it should, and shows other flags in a clock, which it knows by its index.
fn miswrites(change: fn(usize, u8) -> u8, log: &[u8], text: &mut [u8]) -> Answer {
    (MODEL.write_vcd)(log, &mut text.to_vec())?;
    let mut other = log.to_vec();
    other.iter_mut().step_by(LOG_RECORD).enumerate().for_each(|(index, flags)| *flags = change(index, *flags));
    (MODEL.write_vcd)(&other, text)
}

#[test]
fn a_writer_that_takes_contention_for_the_enable_is_caught() {
    caught(Calls { write_vcd: |log, text| miswrites(|_, flags| flags & 5 | flags >> 1 & 2, log, text), ..MODEL });
}

#[test]
fn a_writer_that_is_wrong_in_the_last_clock_of_the_most_is_caught() {
    fn change(index: usize, flags: u8) -> u8 {
        flags ^ if index + 1 == MOST_STEPS { 4 } else { 0 }
    }
    caught(Calls { write_vcd: |log, text| miswrites(change, log, text), ..MODEL });
}

#[test]
fn a_writer_that_wants_room_for_the_longest_text_is_caught() {
    caught(Calls {
        write_vcd: |log, text| {
            let answer = (MODEL.write_vcd)(log, &mut text.to_vec());
            if answer.is_ok() && text.len() < MOST_TEXT {
                return Err(Refusal::whole(Refusal::OUTPUT));
            }
            (MODEL.write_vcd)(log, text)
        },
        ..MODEL
    });
}

/// The text that a wrong writer makes of a log's, in so much room.
fn rewritten(rewrite: fn(&[&str]) -> String, log: &[u8], text: &mut [u8]) -> Answer {
    let mut good = vec![0; Call::WriteVcd.full_size(&Input { log: log.to_vec(), ..Input::default() })];
    (MODEL.write_vcd)(log, &mut good)?;
    let good = String::from_utf8(good).expect("our text has letters, digits and signs");
    let wrong = rewrite(&good.split_inclusive('\n').collect::<Vec<_>>());
    room(text, wrong.len())?.copy_from_slice(wrong.as_bytes());
    Ok(())
}

#[test]
fn a_writer_that_closes_with_the_last_clock_is_caught() {
    fn rewrite(lines: &[&str]) -> String {
        let (closing, others) = lines.split_last().expect("every text has lines");
        let time: usize = closing[1..].trim_end().parse().expect("it ends with a time");
        format!("{}#{}\n", others.concat(), time.max(2) - 1)
    }
    caught(Calls { write_vcd: |log, text| rewritten(rewrite, log, text), ..MODEL });
}

#[test]
fn a_writer_that_repeats_the_level_in_every_change_is_caught() {
    fn rewrite(lines: &[&str]) -> String {
        let (mut level, mut text) = ("", String::new());
        for pair in lines.windows(2) {
            text += pair[0];
            let shown = if pair[1].ends_with("L\n") { pair[1] } else { "" };
            if pair[0].starts_with('#') && shown.is_empty() {
                text += level;
            }
            level = if shown.is_empty() { level } else { shown };
        }
        text + lines[lines.len() - 1]
    }
    caught(Calls { write_vcd: |log, text| rewritten(rewrite, log, text), ..MODEL });
}

/// A reader that takes every text that is ours once it is mended.
fn lenient(mend: fn(&[&[u8]]) -> Vec<u8>, text: &[u8], flags: &mut [u8]) -> Answer {
    let lines: Vec<&[u8]> = text.split_inclusive(|&byte| byte == b'\n').collect();
    (MODEL.read_vcd)(&mend(&lines), flags)
}

#[test]
fn a_reader_of_any_header_is_caught() {
    fn mend(lines: &[&[u8]]) -> Vec<u8> {
        [HEADER.as_bytes(), lines.get(9..).unwrap_or(&[]).concat().as_slice()].concat()
    }
    caught(Calls { read_vcd: |text, flags| lenient(mend, text, flags), ..MODEL });
}

#[test]
fn a_reader_that_wants_no_newline_at_the_end_is_caught() {
    fn mend(lines: &[&[u8]]) -> Vec<u8> {
        let text = lines.concat();
        [text.strip_suffix(b"\n").unwrap_or(&text), b"\n"].concat()
    }
    caught(Calls { read_vcd: |text, flags| lenient(mend, text, flags), ..MODEL });
}

#[test]
fn a_reader_of_other_line_ends_is_caught() {
    fn mend(lines: &[&[u8]]) -> Vec<u8> {
        let mended = |line: &&[u8]| line.strip_suffix(b"\r\n").map_or(line.to_vec(), |line| [line, b"\n"].concat());
        lines.iter().flat_map(mended).collect()
    }
    caught(Calls { read_vcd: |text, flags| lenient(mend, text, flags), ..MODEL });
}

#[test]
fn a_reader_of_values_that_repeat_is_caught() {
    fn mend(lines: &[&[u8]]) -> Vec<u8> {
        let repeats = |index: usize| {
            let line = lines[index];
            let same_signal = |other: &&&[u8]| other.len() == 3 && other[1..] == line[1..];
            line.len() == 3 && lines[..index].iter().rev().find(same_signal) == Some(&line)
        };
        (0..lines.len()).filter(|&index| !repeats(index)).flat_map(|index| lines[index]).copied().collect()
    }
    caught(Calls { read_vcd: |text, flags| lenient(mend, text, flags), ..MODEL });
}

#[test]
fn a_reader_of_values_in_any_order_is_caught() {
    fn mend(lines: &[&[u8]]) -> Vec<u8> {
        let mut lines = lines.to_vec();
        let order = |line: &&[u8]| b"LEC".iter().position(|letter| line.get(1) == Some(letter));
        for values in lines.chunk_by_mut(|one, next| order(one).is_some() && order(next).is_some()) {
            values.sort_by_key(order);
        }
        lines.concat()
    }
    caught(Calls { read_vcd: |text, flags| lenient(mend, text, flags), ..MODEL });
}

#[test]
fn a_reader_of_times_without_values_is_caught() {
    fn mend(lines: &[&[u8]]) -> Vec<u8> {
        let quiet = |index: usize| lines[index..].iter().take(2).filter(|line| line.starts_with(b"#")).count() == 2;
        (0..lines.len()).filter(|&index| !quiet(index)).flat_map(|index| lines[index]).copied().collect()
    }
    caught(Calls { read_vcd: |text, flags| lenient(mend, text, flags), ..MODEL });
}

/// A text with other times in its time lines.
fn retimed(lines: &[&[u8]], other: impl Fn(&str) -> String) -> Vec<u8> {
    let digits = |line: &[u8]| Some(std::str::from_utf8(line.strip_prefix(b"#")?.strip_suffix(b"\n")?).ok()?.to_string());
    let retime = |line: &&[u8]| digits(line).map_or(line.to_vec(), |digits| format!("#{}\n", other(&digits)).into_bytes());
    lines.iter().flat_map(retime).collect()
}

#[test]
fn a_reader_of_leading_zeros_is_caught() {
    fn mend(lines: &[&[u8]]) -> Vec<u8> {
        retimed(lines, |digits| digits.trim_start_matches('0').to_string())
    }
    caught(Calls { read_vcd: |text, flags| lenient(mend, text, flags), ..MODEL });
}

#[test]
fn a_reader_of_times_in_16_bits_is_caught() {
    fn mend(lines: &[&[u8]]) -> Vec<u8> {
        let over = |digits: &str| digits.parse::<usize>().ok().filter(|&time| time > 0xFFFF);
        retimed(lines, |digits| over(digits).map_or(digits.to_string(), |time| (time & 0xFFFF).to_string()))
    }
    caught(Calls { read_vcd: |text, flags| lenient(mend, text, flags), ..MODEL });
}

#[test]
fn a_reader_of_one_clock_too_many_is_caught() {
    fn mend(lines: &[&[u8]]) -> Vec<u8> {
        retimed(lines, |digits| if digits == "4162" { "4161" } else { digits }.to_string())
    }
    caught(Calls { read_vcd: |text, flags| lenient(mend, text, flags), ..MODEL });
}

#[test]
fn a_reader_that_writes_before_it_refuses_is_caught() {
    caught(Calls {
        read_vcd: |text, flags| (MODEL.read_vcd)(text, flags).inspect_err(|_| flags.iter_mut().take(1).for_each(|byte| *byte = 0)),
        ..MODEL
    });
}
