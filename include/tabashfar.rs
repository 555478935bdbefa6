//! Tabashfar for Rust: the entries of docs/RULES.md, over slices, safe to call, as a module of a program of edition 2018 or later. The
//! static library of the crate `face` is linked beside it; tabashfar.h says what each entry writes and answers, and what linking needs.
//!
//! A book is held by the program, as a sheet. A change writes the sheet of the book after it into lent memory and hands it back as
//! a part of that memory.
//!
//! A notice has a class, `BROKEN` or, where its links are only reserved, `BUSY`; a route has a choice, whether `ALL` notices count or `BROKEN_ONLY`.
//! The link test and the walk count all. A class or a choice above 1 is refused with 5. A sheet has version 1, with ten bytes an action, every
//! notice broken and every route over all, or version 2, with eleven, the class or the choice last; either will do wherever a sheet is
//! handed over. What is handed back has version 2 where any busy notice stands, and otherwise version 1.
//!
//! The whole life of a book, with two memories in turn; trials/hosts compiles and runs this text:
//!
//! ```ignore
//! mod tabashfar;
//!
//! use tabashfar::{ALL, BROKEN, BROKEN_ONLY, BUSY};
//!
//! fn main() -> Result<(), tabashfar::Refused> {
//!     let (mut one, mut two) = ([0; tabashfar::BOOK], [0; tabashfar::BOOK]);
//!     let book = tabashfar::open(3, &mut one)?;
//!     let book = tabashfar::file_links(book, 7, 0, 1, 4, BROKEN, &mut two)?;
//!     let book = tabashfar::file_pattern(book, 8, 0, 1, 3, 4, BROKEN, &mut one)?;
//!     let twice = tabashfar::file_switch(book, 7, 1, 2, BROKEN, &mut two).unwrap_err();
//!     let tag = tabashfar::route(book, 1, 0, ALL)?;
//!     let book = tabashfar::withdraw(book, 7, &mut two)?;
//!     let listed = tabashfar::listing(book, &mut one)?;
//!     assert_eq!(tabashfar::header(book)?, (3, 1, 1)); // one filing, of version 1
//!     let book = tabashfar::file_switch(book, 10, 1, 2, BUSY, &mut one)?;
//!     assert_eq!(tabashfar::header(book)?, (3, 2, 2)); // two filings, one of them busy: version 2
//!     let none = tabashfar::route(book, 1, 0, ALL).unwrap_err();
//!     let around = tabashfar::route(book, 1, 0, BROKEN_ONLY)?;
//!     assert_eq!(twice.number, 7); // 7 stood already: nothing was written, and the book was still in `one`
//!     assert_eq!((tag, listed), (8, 1));
//!     // no clear path: 8 and 10 stop the ways onward at stage 0, and 8 is the lowest
//!     assert_eq!((none.number, none.stage, none.notice), (11, 0, 8));
//!     assert_eq!(around, tag); // 10 is only busy: where the broken notices alone count, the path is as clear as before
//!     Ok(()) // the book is closed by doing nothing more
//! }
//! ```

// a program calls the entries that it needs
#![allow(dead_code)]

mod raw {
    unsafe extern "C" {
        pub fn tabashfar_tag_to_steps(n: u8, source: u16, tag: u32, memory: *mut u8, memory_len: usize) -> u64;
        pub fn tabashfar_steps_to_tag(n: u8, source: u16, memory: *const u8, memory_len: usize) -> u64;
        pub fn tabashfar_normal_form(n: u8, source: u16, tag: u32) -> u64;
        pub fn tabashfar_open(n: u8, memory: *mut u8, memory_len: usize) -> u64;
        pub fn tabashfar_file_links(
            sheet: *const u8, sheet_len: usize, number: u16, stage: u8, switch: u16, set: u8, class: u8, memory: *mut u8, memory_len: usize,
        ) -> u64;
        pub fn tabashfar_file_switch(
            sheet: *const u8, sheet_len: usize, number: u16, column: u8, switch: u16, class: u8, memory: *mut u8, memory_len: usize,
        ) -> u64;
        pub fn tabashfar_file_pattern(
            sheet: *const u8, sheet_len: usize, number: u16, stage: u8, value: u16, mask: u16, set: u8, class: u8, memory: *mut u8,
            memory_len: usize,
        ) -> u64;
        pub fn tabashfar_withdraw(sheet: *const u8, sheet_len: usize, number: u16, memory: *mut u8, memory_len: usize) -> u64;
        pub fn tabashfar_write(sheet: *const u8, sheet_len: usize, memory: *mut u8, memory_len: usize) -> u64;
        pub fn tabashfar_link(sheet: *const u8, sheet_len: usize, stage: u8, switch: u16, code: u8) -> u64;
        pub fn tabashfar_listing(sheet: *const u8, sheet_len: usize, memory: *mut u8, memory_len: usize) -> u64;
        pub fn tabashfar_route(sheet: *const u8, sheet_len: usize, source: u16, destination: u16, choice: u8) -> u64;
        pub fn tabashfar_routes(
            sheet: *const u8, sheet_len: usize, choice: u8, pairs: *const u16, pairs_len: usize, answers: *mut u64, answers_len: usize,
        ) -> u64;
        pub fn tabashfar_walk(sheet: *const u8, sheet_len: usize, source: u16, tag: u32) -> u64;
        pub fn tabashfar_header(sheet: *const u8, sheet_len: usize) -> u64;
        pub fn tabashfar_has_action(sheet: *const u8, sheet_len: usize, k: usize) -> u64;
        pub fn tabashfar_action_part(sheet: *const u8, sheet_len: usize, k: usize) -> u64;
        pub fn tabashfar_read_action(part: *const u8, part_len: usize) -> u64;
        pub fn tabashfar_action_fields(part: *const u8, part_len: usize, memory: *mut u16, memory_len: usize) -> u64;
        pub fn tabashfar_run(sheet: *const u8, sheet_len: usize, memory: *mut u8, memory_len: usize) -> u64;
    }
}

/// A number of the table. At 11 the stage comes with it and the number of a notice; otherwise both are 0.
#[derive(Clone, Copy, PartialEq, Eq, Debug)]
pub struct Refused {
    pub number: u8,
    pub stage: u8,
    pub notice: u16,
}

/// The value of an accepted call, or the refusal.
fn unpacked(answer: u64) -> Result<u64, Refused> {
    match (answer & 255) as u8 {
        0 => Ok(answer >> 8),
        number => Err(Refused { number, stage: (answer >> 8) as u8, notice: (answer >> 16) as u16 }),
    }
}

pub fn tag_to_steps(n: u8, source: u16, tag: u32, memory: &mut [u8]) -> Result<(), Refused> {
    unpacked(unsafe { raw::tabashfar_tag_to_steps(n, source, tag, memory.as_mut_ptr(), memory.len()) }).map(|_| ())
}

pub fn steps_to_tag(n: u8, source: u16, memory: &[u8]) -> Result<u32, Refused> {
    unpacked(unsafe { raw::tabashfar_steps_to_tag(n, source, memory.as_ptr(), memory.len()) }).map(|tag| tag as u32)
}

pub fn normal_form(n: u8, source: u16, tag: u32) -> Result<u32, Refused> {
    unpacked(unsafe { raw::tabashfar_normal_form(n, source, tag) }).map(|tag| tag as u32)
}

/// The bytes that have room for the sheet of every book: a header and 48 filings, of version 2.
pub const BOOK: usize = 8 + 11 * 48;

/// The classes of a notice.
pub const BROKEN: u8 = 0;
pub const BUSY: u8 = 1;

/// The choices of a route: which notices count.
pub const ALL: u8 = 0;
pub const BROKEN_ONLY: u8 = 1;

/// The sheet that lies at the front of the memory, or the refusal.
fn handed_back(answer: u64, memory: &[u8]) -> Result<&[u8], Refused> {
    unpacked(answer).map(|length| &memory[..length as usize])
}

/// The sheet of an empty book.
pub fn open(n: u8, memory: &mut [u8]) -> Result<&[u8], Refused> {
    handed_back(unsafe { raw::tabashfar_open(n, memory.as_mut_ptr(), memory.len()) }, memory)
}

/// The sheet of the book with the notice: a filing, of each target. A class above 1 is 5.
pub fn file_links<'a>(
    sheet: &[u8], number: u16, stage: u8, switch: u16, set: u8, class: u8, memory: &'a mut [u8],
) -> Result<&'a [u8], Refused> {
    let (lent, room) = (memory.as_mut_ptr(), memory.len());
    let answer = unsafe { raw::tabashfar_file_links(sheet.as_ptr(), sheet.len(), number, stage, switch, set, class, lent, room) };
    handed_back(answer, memory)
}

pub fn file_switch<'a>(
    sheet: &[u8], number: u16, column: u8, switch: u16, class: u8, memory: &'a mut [u8],
) -> Result<&'a [u8], Refused> {
    let (lent, room) = (memory.as_mut_ptr(), memory.len());
    let answer = unsafe { raw::tabashfar_file_switch(sheet.as_ptr(), sheet.len(), number, column, switch, class, lent, room) };
    handed_back(answer, memory)
}

pub fn file_pattern<'a>(
    sheet: &[u8], number: u16, stage: u8, value: u16, mask: u16, set: u8, class: u8, memory: &'a mut [u8],
) -> Result<&'a [u8], Refused> {
    let (lent, room) = (memory.as_mut_ptr(), memory.len());
    let answer =
        unsafe { raw::tabashfar_file_pattern(sheet.as_ptr(), sheet.len(), number, stage, value, mask, set, class, lent, room) };
    handed_back(answer, memory)
}

/// The sheet of the book without the notice.
pub fn withdraw<'a>(sheet: &[u8], number: u16, memory: &'a mut [u8]) -> Result<&'a [u8], Refused> {
    let answer = unsafe { raw::tabashfar_withdraw(sheet.as_ptr(), sheet.len(), number, memory.as_mut_ptr(), memory.len()) };
    handed_back(answer, memory)
}

/// The sheet of the book as it is, which is the same for every sheet that makes this book.
pub fn write<'a>(sheet: &[u8], memory: &'a mut [u8]) -> Result<&'a [u8], Refused> {
    let answer = unsafe { raw::tabashfar_write(sheet.as_ptr(), sheet.len(), memory.as_mut_ptr(), memory.len()) };
    handed_back(answer, memory)
}

/// The lowest number among the notices that stop the link, of both classes; `None` where it is clear.
pub fn link(sheet: &[u8], stage: u8, switch: u16, code: u8) -> Result<Option<u16>, Refused> {
    let answer = unsafe { raw::tabashfar_link(sheet.as_ptr(), sheet.len(), stage, switch, code) };
    unpacked(answer).map(|lowest| if lowest == 0 { None } else { Some(lowest as u16) })
}

/// How many notices stand; their filing actions, of eleven bytes each, lie at the front of the memory.
pub fn listing(sheet: &[u8], memory: &mut [u8]) -> Result<usize, Refused> {
    let answer = unsafe { raw::tabashfar_listing(sheet.as_ptr(), sheet.len(), memory.as_mut_ptr(), memory.len()) };
    unpacked(answer).map(|count| count as usize)
}

/// The tag of the first clear path. Where there is none, the notice is the lowest that stops any way onward at the stage named. Only notices
/// that count by the choice stop a link and are named; a choice above 1 is 5.
pub fn route(sheet: &[u8], source: u16, destination: u16, choice: u8) -> Result<u32, Refused> {
    unpacked(unsafe { raw::tabashfar_route(sheet.as_ptr(), sheet.len(), source, destination, choice) }).map(|tag| tag as u32)
}

/// Routes for many pairs over one book, with one choice for all: a source and its destination one after the other, and for each pair one number
/// at the front of the answers, which `answer` reads.
pub fn routes(sheet: &[u8], choice: u8, pairs: &[u16], answers: &mut [u64]) -> Result<(), Refused> {
    let answer = unsafe {
        raw::tabashfar_routes(sheet.as_ptr(), sheet.len(), choice, pairs.as_ptr(), pairs.len(), answers.as_mut_ptr(), answers.len())
    };
    unpacked(answer).map(|_| ())
}

/// What `route` answers, of a number that `routes` wrote.
pub fn answer(written: u64) -> Result<u32, Refused> {
    unpacked(written).map(|tag| tag as u32)
}

/// Whether the walk is clear. Where it is not, the notice is the lowest that stops its first stopped link. All notices count.
pub fn walk(sheet: &[u8], source: u16, tag: u32) -> Result<(), Refused> {
    unpacked(unsafe { raw::tabashfar_walk(sheet.as_ptr(), sheet.len(), source, tag) }).map(|_| ())
}

/// n, the action count and the version.
pub fn header(sheet: &[u8]) -> Result<(u8, u16, u16), Refused> {
    let answer = unsafe { raw::tabashfar_header(sheet.as_ptr(), sheet.len()) };
    unpacked(answer).map(|value| (value as u8, (value >> 8) as u16, (value >> 24) as u16))
}

pub fn has_action(sheet: &[u8], k: usize) -> Result<(), Refused> {
    unpacked(unsafe { raw::tabashfar_has_action(sheet.as_ptr(), sheet.len(), k) }).map(|_| ())
}

/// Action k as those ten or eleven bytes of the sheet themselves, or the empty part at its front.
pub fn action_part(sheet: &[u8], k: usize) -> &[u8] {
    let part = unsafe { raw::tabashfar_action_part(sheet.as_ptr(), sheet.len(), k) };
    let start = (part >> 8) as usize;
    &sheet[start..start + (part & 255) as usize]
}

/// 1 files, 2 withdraws, 3 routes; of a part of ten bytes, or of eleven with the class.
pub fn read_action(part: &[u8]) -> Result<u8, Refused> {
    unpacked(unsafe { raw::tabashfar_read_action(part.as_ptr(), part.len()) }).map(|action| action as u8)
}

/// The eight fields of an action, in the order of docs/RULES.md and the class last, at the front of the memory; the answer is that of `read_action`.
pub fn action_fields(part: &[u8], memory: &mut [u16]) -> Result<u8, Refused> {
    let answer = unsafe { raw::tabashfar_action_fields(part.as_ptr(), part.len(), memory.as_mut_ptr(), memory.len()) };
    unpacked(answer).map(|action| action as u8)
}

/// The fields of an action by name; the spare ones are 0. The class of a route is its choice.
#[derive(Clone, Copy, PartialEq, Eq, Debug)]
pub struct Fields {
    pub action: u8,
    pub number: u16,
    pub kind: u8,
    pub stage: u8,
    pub switch: u16,
    pub mask: u16,
    pub set: u8,
    pub class: u8,
}

pub fn fields(part: &[u8]) -> Result<Fields, Refused> {
    let mut f = [0; 8];
    action_fields(part, &mut f)?;
    let (action, kind, stage, set, class) = (f[0] as u8, f[2] as u8, f[3] as u8, f[6] as u8, f[7] as u8);
    Ok(Fields { action, number: f[1], kind, stage, switch: f[4], mask: f[5], set, class })
}

/// How many bytes of what the sheet prints lie at the front of the memory.
pub fn run(sheet: &[u8], memory: &mut [u8]) -> Result<usize, Refused> {
    let answer = unsafe { raw::tabashfar_run(sheet.as_ptr(), sheet.len(), memory.as_mut_ptr(), memory.len()) };
    unpacked(answer).map(|bytes| bytes as usize)
}
