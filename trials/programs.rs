//! The two programs of the desk: `desk`, which prints a line for each action of a sheet, and `final_sheet`, which writes the sheet of its final
//! book. Each does what the model says, and what `final_sheet` writes comes out of it again and files every notice.

use crate::compared::Compared;
use crate::draw::Draw;
use crate::model;
use crate::overlaps;
use crate::program::{Did, Program};
use crate::rows::sheet_of;

pub fn all(compared: &mut Compared, draw: &mut Draw) {
    let desk = Program::named(
        "TRIALS_DESK",
        "desk",
        ["desk: standard input could not be read", "; nothing was run"],
        "desk: standard output did not take all lines",
        |input| Did::printed(model::run(input)),
    );
    let final_sheet = Program::named(
        "TRIALS_FINAL_SHEET",
        "final_sheet",
        ["final_sheet: standard input could not be read", "; nothing was written"],
        "final_sheet: standard output did not take the whole sheet",
        |input| match model::book_of(input) {
            Ok(book) => Did::printed(book.sheet()),
            Err(number) => Did::complained(format!("final_sheet: SHEET REFUSED {number}; nothing was written\n")),
        },
    );
    let mut small: Vec<Vec<u8>> = (0..40).map(|k| small_input(draw, k)).collect();
    small.push(Vec::new());
    small.extend((0..20).map(|_| overlaps::sheet(draw)));
    let large = large_inputs(draw);
    for program in desk.iter().chain(&final_sheet) {
        small.iter().enumerate().for_each(|(k, input)| program.does_as_model(compared, input, 1 + k % 9));
        large.iter().enumerate().for_each(|(k, input)| program.does_as_model(compared, input, 700 + 1000 * k));
        program.unreadable_inputs(compared);
        program.unwritable_outputs(compared);
    }
    if let (Some(desk), Some(final_sheet)) = (desk, final_sheet) {
        small.iter().chain(&large).for_each(|input| comes_out_again(compared, &desk, &final_sheet, input));
    }
}

/// Whole sheets, damaged ones, cut ones, and more than any sheet holds.
fn small_input(draw: &mut Draw, k: u32) -> Vec<u8> {
    let (version, n) = (draw.version(), draw.size());
    let near = draw.near(n);
    let count = [3, 0, 60, 12][k as usize % 4];
    let mut sheet = sheet_of(version, n, &draw.rows(version, n, &near, count));
    match k % 8 {
        1 => sheet.truncate(draw.below(9) as usize),
        3 => sheet[draw.below(8) as usize] ^= 1,
        5 => sheet.resize(50_000, 7),
        _ => {}
    }
    sheet
}

/// Sheets of both versions up to the longest of each and one byte and one action beyond it. No two actions of a sheet are the same.
fn large_inputs(draw: &mut Draw) -> Vec<Vec<u8>> {
    let first = [61, 255, 256, 257, 4095, 4096, 4097].map(|count| (1, count));
    let second = [256, 4095, 4096, 4097].map(|count| (2, count));
    let mut sheets = Vec::new();
    for (version, count) in first.into_iter().chain(second) {
        let sheet = sheet_of(version, 5, &draw.different_rows(version, 5, count));
        if count == 4096 {
            sheets.push([&sheet[..], &[0]].concat());
        }
        sheets.push(sheet);
    }
    sheets
}

/// What `final_sheet` writes comes out of it again, and the desk accepts every filing of it.
fn comes_out_again(compared: &mut Compared, desk: &Program, final_sheet: &Program, input: &[u8]) {
    let Ok(book) = model::book_of(input) else {
        return;
    };
    let written = final_sheet.given(input, 4096).printed;
    let again = final_sheet.given(&written, 4096);
    compared.same("final_sheet, its own sheet", again, Did::printed(written.clone()), || format!("input {input:?}"));
    let mut lines = format!("SHEET {} {}\n", book.size(), book.standing().len());
    book.standing().iter().for_each(|notice| lines += &format!("FILE {} OK\n", notice.number));
    compared.same("desk, the sheet of final_sheet", desk.given(&written, 4096), Did::printed(lines.into_bytes()), || format!("input {input:?}"));
}
