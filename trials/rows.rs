//! Sheets made of rows: the bytes of an action, class last.

use crate::model::{Notice, Target};
pub use crate::questions::action;

/// An action of version 2; without its last byte, the class, it is one of version 1.
pub type Row = [u8; 11];

/// How many bytes of a row an action has in a sheet of this version.
pub fn width(version: u16) -> usize {
    if version == 1 { 10 } else { 11 }
}

/// The sheet of these actions. In version 1 their classes are left out.
pub fn sheet_of(version: u16, n: u8, rows: &[Row]) -> Vec<u8> {
    let mut sheet = b"FSH".to_vec();
    sheet.extend(version.to_be_bytes());
    sheet.push(n);
    sheet.extend((rows.len() as u16).to_be_bytes());
    sheet.extend(rows.iter().flat_map(|row| &row[..width(version)]));
    sheet
}

/// Ten bytes of an action, and its class.
pub fn classed(ten: [u8; 10], class: u8) -> Row {
    let mut row = [class; 11];
    row[..10].copy_from_slice(&ten);
    row
}

pub fn filing(notice: Notice) -> Row {
    let k = u32::from(notice.number);
    let ten = match notice.target {
        Target::Links { stage, switch, set } => action(1, k, 1, stage.into(), switch.into(), 0, set.into()),
        Target::Switch { column, switch } => action(1, k, 2, column.into(), switch.into(), 0, 0),
        Target::Pattern { stage, value, mask, set } => action(1, k, 3, stage.into(), value.into(), mask.into(), set.into()),
    };
    classed(ten, notice.class)
}

pub fn withdrawal(number: u16) -> Row {
    classed(action(2, number.into(), 0, 0, 0, 0, 0), 0)
}

pub fn question(source: u16, destination: u16, choice: u8) -> Row {
    classed(action(3, 0, 0, 0, source.into(), destination.into(), 0), choice)
}
