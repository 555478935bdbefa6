//! The sheet of a book, by write and by the entries that change a book: memory around the edge, books of every count of notices after long
//! runs, and every answer alike over the sheet that was written, which has version 2 while a busy notice stands.

use crate::compared::Compared;
use crate::draw::Draw;
use crate::entries;
use crate::face;
use crate::model::{book_of, Book, Notice, BROKEN, BUSY};
use crate::rows::{filing, sheet_of, width, withdrawal, Row};

/// How many bytes the sheet of the book takes; 8 where there is none.
fn needed(book: &Result<Book, u8>) -> usize {
    book.as_ref().map_or(8, |b| b.sheet().len())
}

/// The book that a sheet makes, after a change.
fn after(sheet: &[u8], change: impl FnOnce(&mut Book) -> u8) -> Result<Book, u8> {
    let mut book = book_of(sheet)?;
    change(&mut book);
    Ok(book)
}

/// No memory, a byte short, exact, a byte more and more.
fn rooms(needed: usize) -> [usize; 5] {
    [0, needed - 1, needed, needed + 1, needed + 90]
}

pub fn writes(compared: &mut Compared, sheet: &[u8]) {
    for room in rooms(needed(&book_of(sheet))) {
        entries::write(compared, sheet, room);
    }
}

/// A filing and a withdrawal over the book that the rows make, and the listing of the book that each leaves.
pub fn changes(compared: &mut Compared, version: u16, n: u8, rows: &[Row], notice: Notice, withdrawn: u16) {
    let sheet = sheet_of(version, n, rows);
    for room in rooms(needed(&after(&sheet, |book| book.file(notice)))) {
        entries::file(compared, &sheet, notice, room);
    }
    for room in rooms(needed(&after(&sheet, |book| book.withdraw(withdrawn)))) {
        entries::withdraw(compared, &sheet, withdrawn, room);
    }
    for row in [filing(notice), withdrawal(withdrawn)] {
        let changed = sheet_of(version, n, &[rows, &[row]].concat());
        entries::listing(compared, &changed, &book_of(&changed), 528);
    }
}

/// Books of 0 to 48 notices.
pub fn every_count(compared: &mut Compared, draw: &mut Draw) {
    (0..=48).for_each(|count| (0..4).for_each(|_| leaving(compared, draw, count)));
}

/// A book of some count of notices.
pub fn after_a_run(compared: &mut Compared, draw: &mut Draw) {
    let count = draw.below(49) as usize;
    leaving(compared, draw, count);
}

/// A long run that leaves so many notices standing: the sheet of its book, and that sheet in the run's place.
fn leaving(compared: &mut Compared, draw: &mut Draw, count: usize) {
    let (version, n) = (draw.version(), 1 + draw.below(12) as u8);
    let near = draw.near(n);
    let sheet = sheet_of(version, n, &run_leaving(draw, version, n, &near, count));
    writes(compared, &sheet);
    let mut memory = [0; face::BOOK];
    let written = face::write(&sheet, &mut memory).expect("there is room for every book");
    let book = book_of(&sheet).expect("a good header");
    let version = if book.standing().iter().any(|notice| notice.class == BUSY) { 2 } else { 1 };
    let front = [0, version as u8, n, 0, count as u8];
    compared.same("notices written", (&written[3..8], written.len()), (&front, 8 + width(version) * count), || format!("sheet {sheet:?}"));
    alike(compared, draw, n, &near, written, &book);
    let (notice, withdrawn) = (draw.notice(n, &near), draw.standing(&book));
    changes(compared, version, n, &rows_of(version, written), notice, withdrawn);
    out_and_in_again(compared, written);
    // memory whose length has more than 16 bits
    for room in [65_536, 65_543] {
        entries::write(compared, &sheet, room);
        entries::file(compared, &sheet, notice, room);
        entries::withdraw(compared, &sheet, withdrawn, room);
    }
}

/// Every answer over a sheet that was written is that of the book of which it was written.
fn alike(compared: &mut Compared, draw: &mut Draw, n: u8, near: &[u16], written: &[u8], book: &Book) {
    let count = book.standing().len();
    let book = Ok(book.clone());
    writes(compared, written);
    entries::header(compared, written);
    entries::run(compared, written, 24 + 48 * count);
    entries::listing(compared, written, &book, 11 * count);
    for _ in 0..8 {
        let (source, destination) = (draw.pick(n, near), draw.pick(n, near));
        entries::route(compared, written, &book, (source, destination), draw.class());
        entries::walk(compared, written, &book, source, draw.tag(n));
        entries::link(compared, written, &book, draw.stage(n), source, draw.code());
    }
}

/// The rows of a sheet of this version.
fn rows_of(version: u16, sheet: &[u8]) -> Vec<Row> {
    let whole = |row: &[u8]| [row, &[0]].concat()[..11].try_into().expect("eleven bytes");
    sheet[8..].chunks(width(version)).map(whole).collect()
}

/// The busy notices of a sheet that was written are withdrawn, that of the highest number first, and filed again: what is handed back has version 2
/// while one stands, and in the end it is the same sheet.
fn out_and_in_again(compared: &mut Compared, written: &[u8]) {
    let standing = book_of(written).expect("a good header").standing();
    let busy: Vec<Notice> = standing.into_iter().filter(|notice| notice.class == BUSY).collect();
    let mut held = written.to_vec();
    let mut memory = [0; face::BOOK];
    for (left, notice) in busy.iter().enumerate().rev() {
        held = face::withdraw(&held, notice.number, &mut memory).expect("it stands").to_vec();
        has_version(compared, &held, if left > 0 { 2 } else { 1 });
    }
    for &notice in &busy {
        let length = entries::proved_filing(&held, notice, &mut memory).expect("it stood before");
        held = memory[..length].to_vec();
        has_version(compared, &held, 2);
    }
    compared.same("busy notices out and in again", &held[..], written, String::new);
}

fn has_version(compared: &mut Compared, sheet: &[u8], version: u8) {
    compared.same("version handed back", &sheet[3..5], &[0, version], || format!("sheet {sheet:?}"));
}

/// Some hundreds of actions of every kind, then filings, the refused too, or withdrawals, until so many notices stand.
fn run_leaving(draw: &mut Draw, version: u16, n: u8, near: &[u16], count: usize) -> Vec<Row> {
    let length = 100 + draw.below(300);
    let mut rows = draw.rows(version, n, near, length);
    let mut book = book_of(&sheet_of(version, n, &rows)).expect("a good header");
    loop {
        let standing = book.standing().len();
        if standing < count {
            let drawn = draw.notice(n, near);
            // in a sheet of version 1 every notice is broken
            let notice = Notice { class: if version == 1 { BROKEN } else { drawn.class }, ..drawn };
            book.file(notice);
            rows.push(filing(notice));
        } else if standing > count {
            let number = draw.standing(&book);
            book.withdraw(number);
            rows.push(withdrawal(number));
        } else {
            return rows;
        }
    }
}
