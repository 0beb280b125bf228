//! The model against itself, and against the examples' expected text.

use std::fs;
use std::path::{Path, PathBuf};
use taksherub_host::calls::{Call, Input, MODEL};
use taksherub_host::draw::draw;
use taksherub_host::generate;
use taksherub_host::make::{board_p, capture, event, levels, log, log_of, phy, read, steps, write};
use taksherub_host::model::follower::{Follower, Whole, PREAMBLE};
use taksherub_host::model::listener::heard;
use taksherub_host::model::phy::{status, Event};
use taksherub_host::model::waveform::{flags_in, waveform};
use taksherub_host::model::wire::{CONTENTION, STATION};
use taksherub_host::model::{decode, listen, program, read_back, run, Board};
use taksherub_host::random::Random;
use taksherub_host::{old_box, tray};

/// Inputs that the plain machine takes, out of so many, and its answers.
fn good_inputs(seed: u64, count: usize) -> Vec<(Input, Vec<u8>)> {
    let mut random = Random::new(seed);
    let mut good = Vec::new();
    for _ in 0..count {
        let input = generate::input(&mut random, Call::Plain);
        let mut answers = vec![0; input.list.len()];
        if (MODEL.plain)(&input.board, &input.list, &input.events, &mut answers).is_ok() {
            good.push((input, answers));
        }
    }
    assert!(good.len() * 10 > count * 3, "only {} of {count} inputs were good", good.len());
    good
}

/// The answers to a list by the levels of its log, which the listener must read back.
fn wired(list: &[u8], log: &[u8]) -> Vec<u8> {
    let (mut answers, mut back) = (vec![8; list.len()], vec![9; list.len()]);
    decode(list, log, &mut answers).unwrap();
    listen(&capture(log), &mut back).unwrap();
    assert_eq!(back, answers);
    answers
}

/// From a fresh load, the answers by the wire are those of the plain machine, and its levels read back as these.
#[test]
fn both_machines_agree() {
    for (input, plainly) in good_inputs(3, 10_000) {
        let log = log(&input.board, &steps(&input.list), &input.events);
        assert_eq!(wired(&input.list, &log), plainly);
        assert!(log.iter().step_by(5).all(|flags| flags & CONTENTION == 0), "a translated list shows no contention");
    }
}

/// "From a hunting board": the levels of a second run, of a board that hunts and is not fresh, read back too.
#[test]
fn a_second_run_reads_back() {
    for (input, _) in good_inputs(5, 2_000) {
        let steps = steps(&input.list);
        let mut log = vec![9; 5 * steps.len()];
        let mut board = Board::load(&input.board).unwrap();
        run(&mut board, &steps, &input.events, &mut log).unwrap();
        run(&mut board, &steps, &[], &mut log).unwrap();
        wired(&input.list, &log);
    }
}

/// The generated captures give records of every status, none and the most of them; some frames give none, foreign ones among them, and
/// some are cut off.
#[test]
fn generated_captures_are_rich() {
    let mut random = Random::new(6);
    let (mut by_status, mut none, mut most, mut other_frames, mut foreign, mut cut_off) = ([0; 3], 0, 0, 0, 0, 0);
    for _ in 0..5_000 {
        let input = generate::input(&mut random, Call::Listen);
        if (MODEL.listen)(&input.capture, &mut [0; 390]).is_err() {
            continue;
        }
        let records: Vec<_> = heard(&input.capture).collect();
        records.iter().for_each(|record| by_status[usize::from(record[0])] += 1);
        none += usize::from(records.is_empty() && input.capture.len() > 64);
        most += usize::from(records.len() == 65);
        let mut follower = Follower::hunting(PREAMBLE);
        let frames = input.capture.iter().filter_map(|&level| match follower.hear(level == 1) {
            Some(Whole::Frame(frame)) => Some(frame),
            _ => None,
        });
        let starts: Vec<u32> = frames.map(|frame| frame >> 30).collect();
        other_frames += starts.len() - records.len();
        foreign += starts.iter().filter(|&&start| start == 0b00).count();
        cut_off += usize::from(follower.bits() > 0);
    }
    println!("records by status {by_status:?}, captures of none {none} and of the most {most}");
    println!("other frames {other_frames}, foreign {foreign}; captures that end inside a frame {cut_off}");
    assert!(by_status.iter().all(|&count| count > 2_000) && none > 100 && most > 10 && cut_off > 100);
    assert!(foreign > 1_000 && other_frames - foreign > 500);
}

/// What a log's waveform has to read back as.
fn flags_of(log: &[u8]) -> Vec<u8> {
    log.iter().step_by(5).map(|flags| flags & 7).collect()
}

/// The text of a log reads back as its flags, if the log is not too long.
#[test]
fn a_waveform_reads_back() {
    let mut random = Random::new(8);
    let (mut longest, mut too_long) = (0, 0);
    for _ in 0..3_000 {
        let log = generate::input(&mut random, Call::WriteVcd).log;
        let records = log.as_chunks().0;
        let expected = if records.len() > 4160 { None } else { Some(flags_of(records.as_flattened())) };
        longest += usize::from(records.len() == 4160);
        too_long += usize::from(expected.is_none());
        assert_eq!(flags_in(waveform(records).as_bytes()), expected);
    }
    println!("{longest} logs of the most clocks, {too_long} of more");
    assert!(longest > 10 && too_long > 100);
}

/// "18 exactly if the text is none that the writer writes": what is read, written again, is the text itself. Damaged texts are read
/// too, as other logs than before.
#[test]
fn what_is_read_is_written_again() {
    let mut random = Random::new(9);
    let generated = (0..10_000).map(|_| generate::input(&mut random, Call::ReadVcd).text);
    let texts = generated.chain(generate::prefixes()).chain(generate::changes()).chain(generate::bytes_less_or_more());
    let (mut read, mut refused) = (0, 0);
    for text in texts {
        let Some(flags) = flags_in(&text) else {
            refused += 1;
            continue;
        };
        assert_eq!(waveform(log_of(&flags).as_chunks().0).into_bytes(), text);
        read += 1;
    }
    println!("{read} texts read, {refused} refused");
    assert!(read > 3_000 && refused > 3_000);
}

/// The generated runs show answers and contention. Two PHYs never drive at once, whatever the steps: from a fresh load all that are
/// inside a frame are inside the same one, since a PHY that wants 32 ones starts only where one that wants a single 1 starts too.
#[test]
fn generated_runs_are_rich() {
    let mut random = Random::new(4);
    let (mut answering, mut against_the_station, mut two_phys) = (0, 0, 0);
    for _ in 0..5_000 {
        let input = generate::input(&mut random, Call::Run);
        let mut log = vec![0; 5 * input.steps.len()];
        if (MODEL.run)(&input.board, &input.steps, &input.events, &mut log).is_err() {
            continue;
        }
        let clocks = log.as_chunks::<5>().0;
        let drivers = |clock: &[u8; 5]| clock[1..].iter().map(|byte| byte.count_ones()).sum::<u32>();
        answering += usize::from(clocks.iter().any(|clock| drivers(clock) > 0));
        against_the_station += usize::from(clocks.iter().any(|clock| drivers(clock) > 0 && clock[0] & STATION != 0));
        two_phys += usize::from(clocks.iter().any(|clock| drivers(clock) > 1));
    }
    println!("{answering} runs with an answer, {against_the_station} with one against the station");
    assert!(answering > 500 && against_the_station > 100);
    assert_eq!(two_phys, 0);
}

fn examples() -> PathBuf {
    Path::new(env!("CARGO_MANIFEST_DIR")).join("../examples")
}

/// Every example, a tray or a capture, prints what it says it does.
#[test]
fn examples_print_what_is_expected() {
    let (mut trays, mut captures) = (0, 0);
    for entry in fs::read_dir(examples()).unwrap() {
        let folder = entry.unwrap().path();
        if !folder.is_dir() {
            continue;
        }
        let file = |name: &str| fs::read(folder.join(name)).unwrap();
        let printed = if folder.join("capture.rec").exists() {
            captures += 1;
            read_back(&file("capture.rec"))
        } else {
            trays += 1;
            program(&file("board.rec"), &file("list.rec"), &file("events.rec"))
        };
        assert_eq!(printed, String::from_utf8(file("expected")).unwrap(), "{}", folder.display());
    }
    assert!(trays >= 6 && captures >= 4, "{trays} trays, {captures} captures");
}

/// What the old box would have printed for a tray of the examples, and the ordinals of the lines in which that is not what is expected.
fn old_box_on(name: &str) -> (String, Vec<usize>) {
    let folder = examples().join(name);
    let printed = old_box::printed(&folder).unwrap();
    let expected = fs::read_to_string(folder.join("expected")).unwrap();
    assert_eq!(printed.lines().count(), expected.lines().count());
    let pairs = printed.lines().zip(expected.lines()).enumerate();
    let differing = pairs.filter(|(_, (old, ours))| old != ours).map(|(before, _)| before + 1).collect();
    (printed, differing)
}

/// The old box loses a break that begins and ends while a status word is on the wire, and no other of the examples. What it would
/// have printed for `tray-40` stands there.
#[test]
fn the_old_box_loses_a_break_inside_a_status_word() {
    let (printed, differing) = old_box_on("tray-40");
    assert_eq!(printed, fs::read_to_string(examples().join("tray-40/old-box")).unwrap());
    assert_eq!(differing, [25]);
    assert_eq!(old_box_on("break-at-45-and-46").1, [12]);
    for name in ["document-01", "reset", "silence"] {
        assert!(old_box_on(name).1.is_empty(), "{name}");
    }
}

/// `capture-40` is the capture of the run of `tray-40`, and reads back as what is printed for that tray.
#[test]
fn the_example_capture_is_that_of_the_tray() {
    let file = |name: &str| fs::read(examples().join(name)).unwrap();
    let run = tray::run(&examples().join("tray-40")).unwrap();
    assert_eq!(file("capture-40/capture.rec"), capture(&run.log));
    assert_eq!(file("capture-40/expected"), file("tray-40/expected"));
}

/// The waveforms among the examples are those of the trays that run, and read back as the flags of their logs.
#[test]
fn the_example_waveforms_are_those_of_the_trays() {
    let paths = || fs::read_dir(examples()).unwrap().map(|entry| entry.unwrap().path());
    let mut trays = 0;
    for folder in paths().filter(|path| path.join("list.rec").exists()) {
        if let Ok(run) = tray::run(&folder) {
            trays += 1;
            let stored = fs::read(folder.with_extension("vcd")).unwrap();
            assert_eq!(stored, waveform(run.log.as_chunks().0).into_bytes(), "{}", folder.display());
            assert_eq!(flags_in(&stored), Some(flags_of(&run.log)), "{}", folder.display());
        }
    }
    let stored = paths().filter(|path| path.extension().is_some_and(|ending| ending == "vcd")).count();
    assert!(trays >= 5 && stored == trays, "{trays} trays that run, {stored} waveforms");
}

fn page(name: &str) -> String {
    fs::read_to_string(Path::new(env!("CARGO_MANIFEST_DIR")).join("../docs").join(name)).unwrap()
}

/// docs/LINK.md names the status words that its parts show, and its table of last digits goes by the link bit.
#[test]
fn the_link_page_tells_the_link_bit() {
    let page = page("LINK.md");
    let board = [board_p(), phy(2, 0x00000003, &[(0, 0x2000), (1, 0x6000)], &[])].concat();
    let list = [read(1, 1), read(1, 1), read(1, 1), read(2, 1), read(2, 1)].concat();
    let happen = [(0, 1, Event::LinkUp), (0, 2, Event::LinkUp), (130, 1, Event::RemoteFault), (130, 1, Event::Jabber)];
    let events = happen.map(|(clock, address, what)| event(clock, address, what as u8)).concat();
    let printed = program(&board, &list, &events);
    let words: Vec<&str> = printed.lines().map(|line| &line[line.len() - 4..]).collect();
    assert_eq!(words, ["7849", "784D", "785F", "6000", "6004"]);
    assert!(words.iter().all(|word| page.contains(word)));
    let row = page.lines().find(|line| line.starts_with("| link bit |")).unwrap();
    let cells: Vec<&str> = row.split(" | ").skip(1).map(|cell| cell.trim_end_matches(" |")).collect();
    assert_eq!(cells, (0..16).map(|digit| if digit & status::LINK != 0 { "set" } else { "clear" }).collect::<Vec<_>>());
}

/// The drawings of docs/BENCH.md are the wire's.
#[test]
#[expect(clippy::unusual_byte_groupings, reason = "the groups are the frame's fields")]
fn the_bench_page_draws_the_wire() {
    let page = page("BENCH.md");
    let list = [write(3, 0, 0x1200), read(1, 1), read(2, 0)].concat();
    let foreign = levels(32, 0b00_01_01010_00011_10_0000101010111100);
    let steps = [steps(&list), foreign, vec![2]].concat();
    let log = log(&board_p(), &steps, &[]);
    for (steps, log) in steps.chunks(65).zip(log.chunks(325)) {
        let drawing = draw(steps, log);
        assert!(page.contains(&format!("```\n{drawing}```\n")), "the page lacks\n{drawing}");
    }
}
