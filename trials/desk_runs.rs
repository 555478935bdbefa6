//! Writes what crates/desk_runs is run on and what it must write: `stdin`, the sheets one after the other, each after its length in two
//! bytes; `stdout`, what the model prints for each, with an empty line after it; `sheets.txt`, what the sheets are.
//!
//!     desk_runs DIR

mod desk_classes;
mod desk_sheets;
#[allow(dead_code)]
mod draw;
mod model;
#[path = "../bench/questions.rs"]
#[allow(dead_code)]
mod questions;
#[allow(dead_code)]
mod rows;

use desk_sheets::Told;
use std::fs::write;
use std::path::Path;

const ABOUT: &str = "\
The sheets of `stdin`, in order: each stands there after its length in two bytes. After each action, or each header that is
refused, stands the line that it prints. The lines are those of a model in another language, written from the documents and not from the code
(docs/TRUST.md). `sh trials/desk_runs` writes this file, `stdin` and `stdout`.
";

/// How many bytes of standard input the crate reads.
const READ: usize = 98_304;

/// What the crate runs after the sheets: one of count 0 in 23 bytes of memory, which is too short, and in 24.
const IN_SHORT_MEMORY: &str = "MEMORY REFUSED 13\n\nSHEET 3 0\n\n";

fn main() {
    let dir = std::env::args().nth(1).expect("the folder to write to");
    let sheets = [desk_sheets::all(), desk_classes::all()].concat();
    let input: Vec<u8> = sheets.iter().flat_map(|told| [&(told.sheet.len() as u16).to_be_bytes(), &told.sheet[..]].concat()).collect();
    assert!(input.len() <= READ, "crates/desk_runs would not read all of {} bytes", input.len());
    let printed: String = sheets.iter().map(|told| printed(told) + "\n").collect();
    let about: String = sheets.iter().enumerate().map(|(k, told)| described(k + 1, told)).collect();
    let path = |name| Path::new(&dir).join(name);
    write(path("stdin"), input).expect("stdin is written");
    write(path("stdout"), printed + IN_SHORT_MEMORY).expect("stdout is written");
    write(path("sheets.txt"), ABOUT.to_string() + &about).expect("sheets.txt is written");
}

fn printed(told: &Told) -> String {
    String::from_utf8(model::run(&told.sheet)).expect("what is printed is text")
}

/// A sheet's title and its first line, and each action that is told with the line that it prints.
fn described(k: usize, told: &Told) -> String {
    let text = printed(told);
    let mut lines = text.lines();
    let mut about = format!("\n{k}. {} ({} bytes)\n", told.title, told.sheet.len());
    about += &format!("    {}\n", lines.next().expect("a first line"));
    for (action, line) in told.actions.iter().zip(lines) {
        about += &format!("    {action}: {line}\n");
    }
    about
}
