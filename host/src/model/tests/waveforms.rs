//! Document 02, E3: texts byte by byte, the header among them, and texts that the writer never writes.

use super::*;
use crate::model::waveform::{flags_in, MOST_TEXT};

/// "Header and order come from fixed byte text and are given whole in the tests."
const HEADER: &[u8] = b"$version Taksherub $end\n\
    $comment MDIO wire, one time unit for each clock $end\n\
    $timescale 1 us $end\n\
    $scope module mdio $end\n\
    $var wire 1 L level $end\n\
    $var wire 1 E enable $end\n\
    $var wire 1 C contention $end\n\
    $upscope $end\n\
    $enddefinitions $end\n";

/// The text that has these lines behind the header.
fn text(lines: &str) -> Vec<u8> {
    [HEADER, lines.as_bytes()].concat()
}

/// A log with these flags, and masks that do not matter.
fn log(flags: &[u8]) -> Vec<u8> {
    flags.iter().enumerate().flat_map(|(clock, &flags)| [flags, clock as u8, 0xFF, 0x80, 7]).collect()
}

/// Holds a log's text to the lines wanted behind the header, and what is read back from it to the log's flags 1, 2 and 4.
fn shows(flags: &[u8], lines: &str) {
    gives(&text(lines), |text| write_vcd(&log(flags), text));
    let shown: Vec<u8> = flags.iter().map(|flags| flags & 7).collect();
    gives(&shown, |flags| read_vcd(&text(lines), flags));
}

#[test]
fn an_empty_log_gives_the_header_and_closing_time_1() {
    shows(&[], "#1\n");
}

#[test]
fn a_few_clocks_with_and_without_changes() {
    shows(&[3, 3, 2, 6, 6, 1], "#1\n1L\n1E\n0C\n#3\n0L\n#4\n1C\n#6\n1L\n0E\n0C\n#7\n");
    shows(&[1, 1, 1, 1, 3, 3, 7, 4, 4], "#1\n1L\n0E\n0C\n#5\n1E\n#7\n1C\n#8\n0L\n0E\n#10\n");
}

#[test]
fn one_clock_of_each_kind() {
    shows(&[0], "#1\n0L\n0E\n0C\n#2\n");
    shows(&[1], "#1\n1L\n0E\n0C\n#2\n");
    shows(&[2], "#1\n0L\n1E\n0C\n#2\n");
    shows(&[3], "#1\n1L\n1E\n0C\n#2\n");
    shows(&[4], "#1\n0L\n0E\n1C\n#2\n");
    shows(&[5], "#1\n1L\n0E\n1C\n#2\n");
    shows(&[6], "#1\n0L\n1E\n1C\n#2\n");
    shows(&[7], "#1\n1L\n1E\n1C\n#2\n");
}

#[test]
fn two_clocks_with_each_change() {
    shows(&[5, 5], "#1\n1L\n0E\n1C\n#3\n");
    shows(&[5, 4], "#1\n1L\n0E\n1C\n#2\n0L\n#3\n");
    shows(&[5, 7], "#1\n1L\n0E\n1C\n#2\n1E\n#3\n");
    shows(&[5, 6], "#1\n1L\n0E\n1C\n#2\n0L\n1E\n#3\n");
    shows(&[5, 1], "#1\n1L\n0E\n1C\n#2\n0C\n#3\n");
    shows(&[5, 0], "#1\n1L\n0E\n1C\n#2\n0L\n0C\n#3\n");
    shows(&[5, 3], "#1\n1L\n0E\n1C\n#2\n1E\n0C\n#3\n");
    shows(&[5, 2], "#1\n1L\n0E\n1C\n#2\n0L\n1E\n0C\n#3\n");
}

#[test]
fn other_bits_of_the_flags_do_not_count() {
    shows(&[0xF8, 0x00, 0x08, 0xF9, 0x01], "#1\n0L\n0E\n0C\n#4\n1L\n#6\n");
}

/// Flags of so many clocks: the level is 1 at first and changes in each of these.
fn toggled_at(clocks: &[usize], count: usize) -> Vec<u8> {
    (1..=count).map(|clock| (clocks.iter().filter(|&&change| change <= clock).count() + 1) as u8 & 1).collect()
}

#[test]
fn times_of_one_to_four_digits() {
    let first = "#1\n1L\n0E\n0C\n";
    for (at, lines, closing) in [
        ([8, 9, 10, 11], "#8\n0L\n#9\n1L\n#10\n0L\n#11\n1L\n", "#12\n"),
        ([98, 99, 100, 101], "#98\n0L\n#99\n1L\n#100\n0L\n#101\n1L\n", "#102\n"),
        ([998, 999, 1000, 1001], "#998\n0L\n#999\n1L\n#1000\n0L\n#1001\n1L\n", "#1002\n"),
        ([4157, 4158, 4159, 4160], "#4157\n0L\n#4158\n1L\n#4159\n0L\n#4160\n1L\n", "#4161\n"),
    ] {
        shows(&toggled_at(&at, at[3]), &[first, lines, closing].concat());
    }
    for (count, closing) in [(8, "#9\n"), (9, "#10\n"), (98, "#99\n"), (99, "#100\n"), (998, "#999\n"), (999, "#1000\n")] {
        shows(&vec![1; count], &[first, closing].concat());
    }
    shows(&[1; 4160], &[first, "#4161\n"].concat());
}

#[test]
fn the_longest_text() {
    let flags: Vec<u8> = (1..=4160).map(|clock| if clock % 2 == 1 { 7 } else { 0 }).collect();
    let values = |clock| if clock % 2 == 1 { "1L\n1E\n1C\n" } else { "0L\n0E\n0C\n" };
    let lines: String = (1..=4160).map(|clock| format!("#{clock}\n{}", values(clock))).collect();
    let lines = lines + "#4161\n";
    assert_eq!((HEADER.len(), text(&lines).len()), (239, 61_538));
    assert_eq!(MOST_TEXT, 61_538);
    shows(&flags, &lines);
}

#[test]
fn refusals_of_the_writer_in_their_order() {
    let mut output = vec![9; MOST_TEXT];
    for length in [1, 4, 6, 4160 * 5 - 1, 4160 * 5 + 1, 4161 * 5 + 1] {
        assert_eq!(write_vcd(&vec![0; length], &mut output), refused(1, 0), "{length} bytes: 1 before 2");
    }
    for clocks in [4161, 4162, 100_000] {
        assert_eq!(write_vcd(&vec![0; clocks * 5], &mut output), refused(2, 0), "{clocks} clocks");
        assert_eq!(write_vcd(&vec![0; clocks * 5], &mut []), refused(2, 0), "2 before 10");
    }
    assert_eq!(write_vcd(&[0], &mut []), refused(1, 0), "1 before 10");
    assert_eq!(write_vcd(&[], &mut output[..HEADER.len() + 2]), refused(10, 0));
    assert!(output.iter().all(|&byte| byte == 9));
    assert_eq!(write_vcd(&vec![0; 4160 * 5], &mut output), Ok(()));
}

/// Holds the reader to refusal 18: before 10 too, and with nothing written.
fn is_refused(text: &[u8]) {
    let mut output = vec![9; 5000];
    let shown = || String::from_utf8_lossy(text);
    assert_eq!(read_vcd(text, &mut output), refused(18, 0), "{}", shown());
    assert_eq!(read_vcd(text, &mut []), refused(18, 0), "{}", shown());
    assert!(output.iter().all(|&byte| byte == 9), "{}", shown());
}

#[test]
fn other_headers_are_refused() {
    let good = text("#1\n1L\n0E\n0C\n#2\n");
    assert_eq!(flags_in(&good), Some(vec![1]));
    for (from, to) in [
        ("Taksherub", "taksherub"),
        ("1 us", "1 ns"),
        ("1 us", "1  us"),
        ("module mdio", "module top"),
        ("level", "Level"),
        ("wire 1 L", "reg 1 L"),
        ("wire 1 L", "wire 1 D"),
        ("$upscope $end\n", ""),
        ("$version Taksherub $end\n", ""),
        ("$enddefinitions $end\n", "$enddefinitions $end\n$dumpvars\n"),
        ("$enddefinitions $end\n", "$enddefinitions $end\n\n"),
        ("$var wire 1 L level $end\n$var wire 1 E enable $end\n", "$var wire 1 E enable $end\n$var wire 1 L level $end\n"),
        ("$version", "\n$version"),
        ("$version", " $version"),
        ("$version", "\u{feff}$version"),
    ] {
        let other = String::from_utf8(good.clone()).unwrap().replacen(from, to, 1);
        assert_ne!(other.as_bytes(), good, "{from}");
        is_refused(other.as_bytes());
    }
    is_refused(&good[HEADER.len()..]);
    is_refused(&[HEADER, &good].concat());
    is_refused(&[good.clone(), good].concat());
}

#[test]
fn a_text_that_is_cut_off_is_refused() {
    let good = text("#1\n1L\n0E\n0C\n#10\n0L\n1E\n#11\n1C\n#12\n");
    let ends_a_text = |length: usize| match length - HEADER.len() {
        3 => Some(0),
        16 => Some(9),
        26 => Some(10),
        33 => Some(11),
        _ => None,
    };
    for length in 0..HEADER.len() {
        is_refused(&good[..length]);
    }
    for length in HEADER.len()..=good.len() {
        match ends_a_text(length) {
            Some(clocks) => assert_eq!(flags_in(&good[..length]).map(|flags| flags.len()), Some(clocks)),
            None => is_refused(&good[..length]),
        }
    }
}

#[test]
fn times_that_are_not_ours_are_refused() {
    for lines in [
        "",
        "\n",
        "#\n",
        "#0\n",
        "#2\n",
        "#01\n",
        "#+1\n",
        "#-1\n",
        "# 1\n",
        "#1 \n",
        "#1.0\n",
        "#1e0\n",
        "#0x1\n",
        "#1",
        "#1\n\n",
        "\n#1\n",
        "#1\n#1\n",
        "#1\n#2\n",
        "#2\n1L\n0E\n0C\n#3\n",
        "#0\n1L\n0E\n0C\n#2\n",
        "#01\n1L\n0E\n0C\n#2\n",
        "#1\n1L\n0E\n0C\n#1\n",
        "#1\n1L\n0E\n0C\n#0\n",
        "#1\n1L\n0E\n0C\n#02\n",
        "#1\n1L\n0E\n0C\n#002\n",
        "#1\n1L\n0E\n0C\n",
        "#1\n1L\n0E\n0C\n#2",
        "#1\n1L\n0E\n0C\n#2\n#3\n",
        "#1\n1L\n0E\n0C\n#2\n#3\n0L\n#4\n",
        "#1\n1L\n0E\n0C\n#5\n0L\n#5\n",
        "#1\n1L\n0E\n0C\n#5\n0L\n#4\n",
        "#1\n1L\n0E\n0C\n#5\n0L\n#5\n1L\n#6\n",
        "#1\n1L\n0E\n0C\n#5\n0L\n#4\n1L\n#6\n",
        "#1\n1L\n0E\n0C\n#10\n0L\n#9\n",
        "#1\n1L\n0E\n0C\n#4162\n",
        "#1\n1L\n0E\n0C\n#4161\n0L\n#4162\n",
        "#1\n1L\n0E\n0C\n#10000\n",
        "#1\n1L\n0E\n0C\n#65538\n",
        "#1\n1L\n0E\n0C\n#4294967298\n",
        "#1\n1L\n0E\n0C\n#18446744073709551618\n",
        "#1\n1L\n0E\n0C\n#340282366920938463463374607431768211458\n",
    ] {
        is_refused(&text(lines));
    }
    shows(&[1; 4160], "#1\n1L\n0E\n0C\n#4161\n");
}

#[test]
fn values_that_are_not_ours_are_refused() {
    for lines in [
        "1L\n#1\n",
        "1L\n0E\n0C\n#1\n",
        "#1\n1L\n#2\n",
        "#1\n1L\n0E\n#2\n",
        "#1\n1L\n0C\n#2\n",
        "#1\n0E\n0C\n#2\n",
        "#1\n#2\n1L\n0E\n0C\n#3\n",
        "#1\n1L\n0C\n0E\n#2\n",
        "#1\n0E\n1L\n0C\n#2\n",
        "#1\n0C\n0E\n1L\n#2\n",
        "#1\n1L\n1L\n0E\n0C\n#2\n",
        "#1\n0L\n1L\n0E\n0C\n#2\n",
        "#1\n1L\n0E\n0C\n0C\n#2\n",
        "#1\n1L\n0E\n0C\n0L\n#2\n",
        "#1\n1L\n0E\n0C\n#2\n1L\n#3\n",
        "#1\n1L\n0E\n0C\n#2\n0E\n#3\n",
        "#1\n1L\n0E\n0C\n#2\n0C\n#3\n",
        "#1\n1L\n0E\n0C\n#2\n0L\n0E\n#3\n",
        "#1\n1L\n0E\n0C\n#2\n1E\n#3\n1E\n#4\n",
        "#1\n1L\n0E\n0C\n#2\n1E\n0L\n#3\n",
        "#1\n1L\n0E\n0C\n#2\n1C\n1E\n#3\n",
        "#1\n1L\n0E\n0C\n#2\n0L\n1L\n#3\n",
        "#1\n1L\n0E\n0C\n#2\n0L\n",
        "#1\n1L\n0E\n0C\n#2\n0L\n1E\n1C\n",
        "#1\nxL\n0E\n0C\n#2\n",
        "#1\nzL\n0E\n0C\n#2\n",
        "#1\n1l\n0E\n0C\n#2\n",
        "#1\n1 L\n0E\n0C\n#2\n",
        "#1\nb1 L\n0E\n0C\n#2\n",
        "#1\n2L\n0E\n0C\n#2\n",
        "#1\n1D\n0E\n0C\n#2\n",
        "#1\n1L 0E 0C\n#2\n",
        "#1\n1L\n\n0E\n0C\n#2\n",
        "#1 1L\n0E\n0C\n#2\n",
    ] {
        is_refused(&text(lines));
    }
}

#[test]
fn bytes_behind_the_text_are_refused() {
    for lines in ["#1\n", "#1\n1L\n0E\n0C\n#2\n"] {
        for behind in ["\n", " ", "\0", "\r\n", "#", "0", "0L", "$end\n", "$dumpoff\n", "\n#3\n"] {
            is_refused(&text(&[lines, behind].concat()));
        }
    }
}

#[test]
fn other_line_ends_are_refused() {
    let good = text("#1\n1L\n0E\n0C\n#2\n");
    let ends: Vec<usize> = (0..good.len()).filter(|&at| good[at] == b'\n').collect();
    for &at in &ends {
        is_refused(&[&good[..at], b"\r", &good[at..]].concat());
        is_refused(&[&good[..at], b"\r", &good[at + 1..]].concat());
        is_refused(&[&good[..at], b" ", &good[at..]].concat());
        is_refused(&[&good[..at], b"\n", &good[at..]].concat());
    }
    is_refused(String::from_utf8(good).unwrap().replace('\n', "\r\n").as_bytes());
}
