//! The proved code through the door against the model, round by round: 64 transactions on 32 PHYs, without events and with the most, run
//! clock by clock, answered without a wire and exchanged; the log of the run read back, and it and another as waveforms, which are read
//! back too.

use std::collections::BTreeSet;
use std::hint::black_box;
use std::process::ExitCode;
use std::time::Instant;
use taksherub_host::calls::{Answer, Call, Calls, Input, MODEL};
use taksherub_host::door::DOOR;
use taksherub_host::make::{self, event, phy, read, write};
use taksherub_host::model::records::{ANSWER_RECORD, MOST_EVENTS, MOST_STEPS, MOST_TRANSACTIONS};
use taksherub_host::model::waveform::{waveform, MOST_TEXT};

const ROUNDS: usize = 200;
const CALLS_A_ROUND: usize = 20;

/// How many times the model's time the door's plain machine may take.
const PLAIN_GOAL: f64 = 2.0;
/// Million transactions a second that the door's listener has to reach.
const LISTENER_GOAL: f64 = 2.0;
/// Microseconds for a text of the most clocks that the door's writer has to stay under.
const WRITER_GOAL: f64 = 100.0;

fn main() -> ExitCode {
    if !cfg!(target_arch = "x86_64") {
        eprintln!("bench: the proved code is for x86-64, and its time under an emulator says nothing");
        return ExitCode::FAILURE;
    }
    println!("door, model and the ratio of their times, best of {ROUNDS} rounds of {CALLS_A_ROUND} calls");
    let [quiet, busy] = [0, MOST_EVENTS].map(full_bench);
    machines("without events", &quiet);
    machines(&format!("with {MOST_EVENTS} events"), &busy);
    frames(&busy);
    waveforms("the run's", &busy.log);
    waveforms("the longest", &make::busiest_log());
    ExitCode::SUCCESS
}

/// The most PHYs and transactions, with so many events spread over the clocks, and the run's log and capture.
fn full_bench(event_count: usize) -> Input {
    let board: Vec<u8> = (0..32).flat_map(|address| phy(address, 0x0000000F, &[(0, 0x3000), (1, 0x7849)], &[])).collect();
    let list: Vec<u8> = (0..32).flat_map(|address| [write(address, 0, 0x1200), read(address, 1)]).flatten().collect();
    let one_event = |k| event((k * MOST_STEPS / event_count) as u16, (k % 32) as u8, (k % 7 + 1) as u8);
    let events: Vec<u8> = (0..event_count).flat_map(one_event).collect();
    let steps = make::steps(&list);
    let log = make::log(&board, &steps, &events);
    let capture = make::capture(&log);
    Input { board, list, steps, events, log, capture, ..Input::default() }
}

/// Times the machine of clocks, the plain one, and an exchange.
fn machines(which: &str, input: &Input) {
    println!("{MOST_TRANSACTIONS} transactions on 32 PHYs, {MOST_STEPS} clocks, {which}");
    full_call(Call::Run, input).print("run", "ns a clock", |time| time / MOST_STEPS as f64);
    let plain = full_call(Call::Plain, input);
    plain.print("plain", "ns a transaction", |time| time / MOST_TRANSACTIONS as f64);
    plain.print_rate("plain");
    goal(&format!("at most {PLAIN_GOAL} times the model's time"), plain.ratio() <= PLAIN_GOAL);
    exchange(input).print_rate("exchange");
}

/// Times the station's half of an exchange, and the listener.
fn frames(input: &Input) {
    println!("{MOST_TRANSACTIONS} transactions on the wire");
    full_call(Call::Translate, input).print_rate("translate");
    full_call(Call::Decode, input).print_rate("decode");
    // One record more than a list has is room for every capture, and the door need not count the records first.
    for room in [MOST_TRANSACTIONS, MOST_TRANSACTIONS + 1] {
        let listen = one_call(Call::Listen, input, room * ANSWER_RECORD);
        listen.print_rate(&format!("listen, room for {room}"));
        goal(&format!("at least {LISTENER_GOAL} million"), millions_a_second(listen.door) >= LISTENER_GOAL);
    }
}

/// Times the writer on a log of the most clocks, with room for just its text and for the longest, and the reader on that text.
fn waveforms(whose: &str, log: &[u8]) {
    let text = waveform(log.as_chunks().0).into_bytes();
    println!("{whose} waveform of {MOST_STEPS} clocks, {} bytes", text.len());
    let input = Input { log: log.to_vec(), text, ..Input::default() };
    for room in BTreeSet::from([input.text.len(), MOST_TEXT]) {
        let written = one_call(Call::WriteVcd, &input, room);
        written.print(&format!("write, room for {room}"), "microseconds", microseconds);
        goal(&format!("under {WRITER_GOAL} microseconds"), microseconds(written.door) < WRITER_GOAL);
    }
    one_call(Call::ReadVcd, &input, MOST_STEPS).print("read", "microseconds", microseconds);
}

fn goal(what: &str, reached: bool) {
    println!("    the goal of {what} is {}", if reached { "met" } else { "NOT met" });
}

fn microseconds(time: f64) -> f64 {
    time / 1e3
}

/// Transactions, where a call works off the most in this time.
fn millions_a_second(time: f64) -> f64 {
    MOST_TRANSACTIONS as f64 * 1e3 / time
}

/// The best time of a call on each side, in nanoseconds.
struct Times {
    door: f64,
    model: f64,
}

impl Times {
    fn ratio(&self) -> f64 {
        self.door / self.model
    }

    fn print(&self, what: &str, unit: &str, measure: impl Fn(f64) -> f64) {
        let [door, model] = [self.door, self.model].map(measure);
        println!("  {what:24} {door:8.2} {model:8.2} {:8.2}   {unit}", self.ratio());
    }

    fn print_rate(&self, what: &str) {
        self.print(what, "million transactions a second", millions_a_second);
    }
}

/// Times a call with room for just its result.
fn full_call(call: Call, input: &Input) -> Times {
    one_call(call, input, call.full_size(input))
}

fn one_call(call: Call, input: &Input, room: usize) -> Times {
    in_turn(room, |calls, output| call.answer(calls, black_box(input), output))
}

/// Times what a station does with a list: its steps, their run, and the answers in the log.
fn exchange(input: &Input) -> Times {
    let Input { board, list, events, .. } = input;
    let [mut steps, mut log] = [Call::Translate, Call::Run].map(|call| vec![0; call.full_size(input)]);
    in_turn(Call::Decode.full_size(input), |calls, answers| {
        (calls.translate)(black_box(list), &mut steps)?;
        (calls.run)(black_box(board), &steps, black_box(events), &mut log)?;
        (calls.decode)(list, &log, answers)
    })
}

/// Times a call whose outputs on both sides must agree: the door's and the model's rounds in turn, so that both meet the same machine.
fn in_turn(room: usize, mut call: impl FnMut(&Calls, &mut [u8]) -> Answer) -> Times {
    let mut outputs = [vec![0; room], vec![0; room]];
    let mut best = [f64::INFINITY; 2];
    for _ in 0..ROUNDS {
        for (side, calls) in [DOOR, MODEL].iter().enumerate() {
            let start = Instant::now();
            for _ in 0..CALLS_A_ROUND {
                call(calls, black_box(&mut outputs[side])).expect("the input is good");
            }
            best[side] = best[side].min(start.elapsed().as_nanos() as f64 / CALLS_A_ROUND as f64);
        }
    }
    assert_eq!(outputs[0], outputs[1], "the two outputs differ");
    let [door, model] = best;
    Times { door, model }
}
