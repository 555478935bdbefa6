//! A program, started once for each input: what it writes to standard output and to standard error, and its status. It ends with status 0
//! whatever happens.

use crate::compared::Compared;
use crate::rows::sheet_of;
use std::fmt::{Debug, Formatter};
use std::fs::File;
use std::io::{Read, Write};
use std::process::{Child, Command, Stdio};
use std::thread::{sleep, spawn, JoinHandle};
use std::time::Duration;

pub struct Program {
    pub name: &'static str,
    /// the words of the command that starts it
    words: Vec<String>,
    /// what it says where a read failed, before the cause and after it, and where a write did
    unread: [&'static str; 2],
    unwritten: &'static str,
    /// what it does with an input, by the model
    does: fn(&[u8]) -> Did,
}

/// What a program did: standard output, standard error and status.
#[derive(PartialEq)]
pub struct Did {
    pub printed: Vec<u8>,
    pub complained: String,
    pub status: Option<i32>,
}

impl Did {
    pub fn printed(printed: Vec<u8>) -> Did {
        Did { printed, complained: String::new(), status: Some(0) }
    }

    pub fn complained(complained: String) -> Did {
        Did { printed: Vec::new(), complained, status: Some(0) }
    }
}

impl Debug for Did {
    fn fmt(&self, f: &mut Formatter<'_>) -> std::fmt::Result {
        write!(f, "printed \"{}\" complained {:?} status {:?}", self.printed.escape_ascii(), self.complained, self.status)
    }
}

impl Program {
    /// The program that this variable names: the words of the command that starts it, one to a line.
    pub fn named(variable: &str, name: &'static str, unread: [&'static str; 2], unwritten: &'static str, does: fn(&[u8]) -> Did) -> Option<Program> {
        let Ok(command) = std::env::var(variable) else {
            println!("trials: {name} was not run: {variable} does not name it");
            return None;
        };
        Some(Program { name, words: command.lines().map(str::to_string).collect(), unread, unwritten, does })
    }

    fn command(&self) -> Command {
        let mut command = Command::new(&self.words[0]);
        command.args(&self.words[1..]);
        command
    }

    /// The program with one descriptor closed, by the shell's means.
    fn closed(&self, descriptor: &str) -> Command {
        let mut command = Command::new("sh");
        command.args(["-c", &format!("exec \"$@\" {descriptor}"), "sh"]).args(&self.words);
        command
    }

    /// What it does with this input, which comes in pieces of so many bytes.
    pub fn given(&self, input: &[u8], piece: usize) -> Did {
        let mut child = start(self.command().stdin(Stdio::piped()).stdout(Stdio::piped()));
        let writer = feed(&mut child, input.to_vec(), piece);
        let did = ended(child);
        writer.join().expect("the input was written");
        did
    }

    pub fn does_as_model(&self, compared: &mut Compared, input: &[u8], piece: usize) {
        compared.same(self.name, self.given(input, piece), (self.does)(input), || format!("input {input:?}"));
    }

    /// Where nothing can be read: no byte on standard output, and one line on standard error that names the stream and the cause.
    pub fn unreadable_inputs(&self, compared: &mut Compared) {
        let complaint = |cause: &str| format!("{}: {cause}{}\n", self.unread[0], self.unread[1]);
        let directory = File::open(".").expect("a directory opens");
        let by_directory = start(self.command().stdin(directory).stdout(Stdio::piped()));
        self.complains(compared, "a directory as input", by_directory, complaint("Is a directory (errno 21)"));
        let by_closed = start(self.closed("<&-").stdout(Stdio::piped()));
        self.complains(compared, "a closed input", by_closed, complaint("Bad file descriptor (errno 9)"));
    }

    /// Where not all can be written, the same on standard error.
    pub fn unwritable_outputs(&self, compared: &mut Compared) {
        let complaint = |cause: &str| format!("{}: {cause}\n", self.unwritten);
        let sheet = sheet_of(1, 3, &[]);
        let device = File::create("/dev/full").expect("the full device opens");
        let mut by_device = start(self.command().stdin(Stdio::piped()).stdout(device));
        feed(&mut by_device, sheet.clone(), 8).join().expect("the input was written");
        self.complains(compared, "a full device as output", by_device, complaint("No space left on device (errno 28)"));
        let mut by_closed = start(self.closed(">&-").stdin(Stdio::piped()));
        feed(&mut by_closed, sheet.clone(), 8).join().expect("the input was written");
        self.complains(compared, "a closed output", by_closed, complaint("Bad file descriptor (errno 9)"));
        let mut by_gone = start(self.command().stdin(Stdio::piped()).stdout(Stdio::piped()));
        drop(by_gone.stdout.take());
        feed(&mut by_gone, sheet, 8).join().expect("the input was written");
        self.complains(compared, "a reader that has gone", by_gone, complaint("Broken pipe (errno 32)"));
    }

    fn complains(&self, compared: &mut Compared, case: &str, child: Child, complained: String) {
        compared.same(&format!("{}, {case}", self.name), ended(child), Did::complained(complained), String::new);
    }
}

fn start(command: &mut Command) -> Child {
    command.stderr(Stdio::piped()).spawn().expect("the program starts")
}

/// Writes the input in pieces of so many bytes, the first ones with a pause after each.
fn feed(child: &mut Child, input: Vec<u8>, piece: usize) -> JoinHandle<()> {
    let mut pipe = child.stdin.take().expect("its standard input is a pipe");
    spawn(move || {
        for (k, part) in input.chunks(piece).enumerate() {
            // a program that has read enough closes its input
            if pipe.write_all(part).and_then(|_| pipe.flush()).is_err() {
                break;
            }
            if k < 20 {
                sleep(Duration::from_millis(1));
            }
        }
    })
}

fn ended(mut child: Child) -> Did {
    let printed = bytes(child.stdout.take());
    let complained = String::from_utf8_lossy(&bytes(child.stderr.take())).into_owned();
    Did { printed, complained, status: child.wait().expect("the program ends").code() }
}

fn bytes(stream: Option<impl Read>) -> Vec<u8> {
    let mut bytes = Vec::new();
    stream.map(|mut s| s.read_to_end(&mut bytes).expect("what it writes can be read"));
    bytes
}
