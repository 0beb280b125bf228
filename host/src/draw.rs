//! A transaction's 65 clocks as a drawing of text, one column for each clock.

use crate::model::records::{Transaction, LOG_RECORD};
use crate::model::wire::{LEVEL, SAMPLE, STATION};

const PARTS: &str = "<----------preamble------------>SSOOAAAAARRRRRTTDDDDDDDDDDDDDDDDI";

/// The drawing of one transaction's steps and its part of the log.
pub fn draw(steps: &[u8], log: &[u8]) -> String {
    let clocks = log.as_chunks::<LOG_RECORD>().0;
    let high = |clock: &[u8; LOG_RECORD]| clock[0] & LEVEL != 0;
    let mark = |here: bool, sign: char| if here { sign } else { ' ' };
    let tens = (1..=Transaction::CLOCKS).map(|clock| if clock % 10 == 0 { (b'0' + (clock / 10) as u8) as char } else { ' ' });
    let ones = (1..=Transaction::CLOCKS).map(|clock| (b'0' + (clock % 10) as u8) as char);
    let rows: [(&str, String); 8] = [
        ("clock", tens.collect()),
        ("", ones.collect()),
        ("part", PARTS.to_string()),
        ("level", clocks.iter().map(|clock| if high(clock) { '‾' } else { '_' }).collect()),
        ("", clocks.iter().map(|clock| if high(clock) { '1' } else { '0' }).collect()),
        ("station", clocks.iter().map(|clock| mark(clock[0] & STATION != 0, '#')).collect()),
        ("PHY", clocks.iter().map(|clock| mark(clock[1..] != [0; 4], '#')).collect()),
        ("samples", steps.iter().map(|&step| mark(step == SAMPLE, '^')).collect()),
    ];
    rows.iter().map(|(name, row)| format!("{}\n", format!("{name:<8}{row}").trim_end())).collect()
}
