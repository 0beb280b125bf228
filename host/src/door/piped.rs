//! The proved code in a process of its own: `c/serve.c`, an x86-64 program that the kit's emulator runs, asked through two pipes.

use super::answer;
use crate::calls::Answer;
use std::io::{self, Read, Write};
use std::process::{ChildStdin, ChildStdout, Command, Stdio};
use std::sync::{LazyLock, Mutex};

/// The ends of the two pipes. The process ends when they close, with this program.
struct Server {
    requests: ChildStdin,
    responses: ChildStdout,
}

static SERVER: LazyLock<Mutex<Server>> = LazyLock::new(|| Mutex::new(Server::start().expect("the door's process starts")));

impl Server {
    fn start() -> io::Result<Server> {
        let mut command = Command::new(concat!(env!("CARGO_MANIFEST_DIR"), "/../tools/x86-64"));
        command.args(["run", concat!(env!("OUT_DIR"), "/serve")]);
        let process = command.stdin(Stdio::piped()).stdout(Stdio::piped()).spawn()?;
        Ok(Server { requests: process.stdin.expect("it is piped"), responses: process.stdout.expect("it is piped") })
    }

    /// A request and its response, as the head of `c/serve.c` says. The output's bytes go both ways, so that what a call leaves of them
    /// is seen.
    fn ask(&mut self, call: u8, inputs: &[&[u8]], output: &mut [u8]) -> io::Result<u64> {
        let mut request = vec![call];
        for slice in inputs.iter().copied().chain([&*output]) {
            request.extend((slice.len() as u64).to_le_bytes());
            request.extend(slice);
        }
        self.requests.write_all(&request)?;
        let mut code = [0; 8];
        self.responses.read_exact(&mut code)?;
        self.responses.read_exact(output)?;
        Ok(u64::from_le_bytes(code))
    }
}

fn ask(call: u8, inputs: &[&[u8]], output: &mut [u8]) -> Answer {
    let mut server = SERVER.lock().expect("no request before this one broke off");
    answer(server.ask(call, inputs, output).expect("the door's process answers"))
}

pub fn translate(list: &[u8], steps: &mut [u8]) -> Answer {
    ask(b't', &[list], steps)
}

pub fn run(board: &[u8], steps: &[u8], events: &[u8], log: &mut [u8]) -> Answer {
    ask(b'r', &[board, steps, events], log)
}

pub fn decode(list: &[u8], log: &[u8], answers: &mut [u8]) -> Answer {
    ask(b'd', &[list, log], answers)
}

pub fn plain(board: &[u8], list: &[u8], events: &[u8], answers: &mut [u8]) -> Answer {
    ask(b'p', &[board, list, events], answers)
}

pub fn listen(capture: &[u8], answers: &mut [u8]) -> Answer {
    ask(b'l', &[capture], answers)
}

pub fn write_vcd(log: &[u8], text: &mut [u8]) -> Answer {
    ask(b'w', &[log], text)
}

pub fn read_vcd(text: &[u8], flags: &mut [u8]) -> Answer {
    ask(b'v', &[text], flags)
}
