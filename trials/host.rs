//! A host in Rust, as README's link line builds it: calls every entry of include/tabashfar.rs, on the worked example's fabric of three stages.

#[path = "../include/tabashfar.rs"]
mod tabashfar;

use tabashfar::{Fields, Refused, ALL, BROKEN, BROKEN_ONLY, BUSY};

/// n = 3, one action: file 7, links, stage 0, switch 1, minus
const SHEET: [u8; 18] = *b"FSH\0\x01\x03\0\x01\x01\0\x07\x01\0\0\x01\0\0\x04";

/// The same book with the switch notice 8: column 1, switch 2.
const FILED: [u8; 28] = *b"FSH\0\x01\x03\0\x02\x01\0\x07\x01\0\0\x01\0\0\x04\x01\0\x08\x02\x01\0\x02\0\0\0";

/// The same two notices, 7 broken and 8 busy: version 2.
const BUSY_TOO: [u8; 30] = *b"FSH\0\x02\x03\0\x02\x01\0\x07\x01\0\0\x01\0\0\x04\0\x01\0\x08\x02\x01\0\x02\0\0\0\x01";

fn refused<T>(number: u8) -> Result<T, Refused> {
    Err(Refused { number, stage: 0, notice: 0 })
}

fn stopped<T>(stage: u8, notice: u16) -> Result<T, Refused> {
    Err(Refused { number: 11, stage, notice })
}

/// The notices that are named where both links out of switch 1 toward 0 are stopped, and the destination at the last stage.
fn stopping() {
    let mut answers = [0; 2];
    assert_eq!(tabashfar::route(&FILED, 1, 0, ALL), stopped(0, 7));
    assert_eq!(tabashfar::routes(&FILED, ALL, &[1, 0, 3, 3], &mut answers), Ok(()));
    assert_eq!(answers.map(tabashfar::answer), [stopped(0, 7), Ok(3)]);
    assert_eq!(tabashfar::walk(&FILED, 1, 8), stopped(0, 8));
    let mut memory = [0; tabashfar::BOOK];
    let last = tabashfar::file_switch(&FILED, 65535, 3, 3, BROKEN, &mut memory).expect("the notice is accepted");
    assert_eq!(tabashfar::route(last, 3, 3, BROKEN_ONLY), stopped(2, 65535));
}

/// A busy notice comes in and goes out; classes that are none.
fn classes() {
    let mut memory = [0; tabashfar::BOOK];
    assert_eq!(tabashfar::file_switch(&SHEET, 8, 1, 2, BUSY, &mut memory), Ok(&BUSY_TOO[..]));
    assert_eq!(tabashfar::file_links(&SHEET, 9, 0, 2, 1, BUSY, &mut memory).map(<[u8]>::len), Ok(30));
    assert_eq!(tabashfar::file_pattern(&SHEET, 9, 0, 1, 3, 7, BUSY, &mut memory).map(<[u8]>::len), Ok(30));
    assert_eq!(tabashfar::file_switch(&SHEET, 8, 1, 2, 2, &mut memory), refused(5));
    assert_eq!(tabashfar::file_links(&SHEET, 9, 0, 2, 1, 2, &mut memory), refused(5));
    assert_eq!(tabashfar::file_pattern(&SHEET, 9, 0, 1, 3, 7, 2, &mut memory), refused(5));
    assert_eq!(tabashfar::withdraw(&BUSY_TOO, 8, &mut memory), Ok(&SHEET[..]));
    assert_eq!(tabashfar::write(&BUSY_TOO, &mut memory), Ok(&BUSY_TOO[..]));
    assert_eq!(tabashfar::header(&BUSY_TOO), Ok((3, 2, 2)));
    let part = tabashfar::action_part(&BUSY_TOO, 1);
    assert_eq!(part, &BUSY_TOO[19..]);
    assert_eq!(tabashfar::fields(part), Ok(Fields { action: 1, number: 8, kind: 2, stage: 1, switch: 2, mask: 0, set: 0, class: BUSY }));
}

/// What a busy notice stops, and for which routes; choices that are none.
fn choices() {
    let mut answers = [0; 2];
    assert_eq!(tabashfar::route(&BUSY_TOO, 1, 0, ALL), stopped(0, 7));
    assert_eq!(tabashfar::route(&BUSY_TOO, 1, 0, BROKEN_ONLY), Ok(8));
    assert_eq!(tabashfar::route(&BUSY_TOO, 1, 0, 2), refused(5));
    assert_eq!(tabashfar::routes(&BUSY_TOO, BROKEN_ONLY, &[1, 0, 3, 3], &mut answers), Ok(()));
    assert_eq!(answers.map(tabashfar::answer), [Ok(8), Ok(3)]);
    assert_eq!(tabashfar::routes(&BUSY_TOO, 2, &[1, 0, 1, 8], &mut answers), Ok(()));
    assert_eq!(answers.map(tabashfar::answer), [refused(5), refused(10)]);
    assert_eq!(tabashfar::link(&BUSY_TOO, 0, 1, 1), Ok(Some(8)));
    assert_eq!(tabashfar::walk(&BUSY_TOO, 1, 8), stopped(0, 8));
    let mut memory = [0; 22];
    assert_eq!(tabashfar::listing(&BUSY_TOO, &mut memory[..21]), refused(13));
    assert_eq!(tabashfar::listing(&BUSY_TOO, &mut memory), Ok(2));
    assert_eq!(memory, BUSY_TOO[8..]);
}

/// What hands a book back: each once accepted, and refused.
fn changes() {
    let mut memory = [0; tabashfar::BOOK];
    assert_eq!(tabashfar::open(3, &mut memory), Ok(&b"FSH\0\x01\x03\0\0"[..]));
    assert_eq!(tabashfar::open(13, &mut memory), refused(1));
    assert_eq!(tabashfar::open(3, &mut memory[..7]), refused(13));
    assert_eq!(tabashfar::file_links(&FILED, 9, 0, 2, 1, BROKEN, &mut memory).map(<[u8]>::len), Ok(38));
    assert_eq!(tabashfar::file_links(&SHEET, 7, 0, 2, 1, BROKEN, &mut memory), refused(7));
    assert_eq!(tabashfar::file_pattern(&SHEET, 9, 0, 1, 3, 7, BROKEN, &mut memory).map(<[u8]>::len), Ok(28));
    assert_eq!(tabashfar::file_pattern(&SHEET, 9, 0, 1, 1, 7, BROKEN, &mut memory), refused(6));
    assert_eq!(tabashfar::file_switch(&SHEET, 8, 1, 2, BROKEN, &mut memory), Ok(&FILED[..]));
    assert_eq!(tabashfar::file_switch(&SHEET, 8, 4, 2, BROKEN, &mut memory), refused(4));
    assert_eq!(tabashfar::withdraw(&FILED, 8, &mut memory), Ok(&SHEET[..]));
    assert_eq!(tabashfar::withdraw(&SHEET, 9, &mut memory), refused(9));
    assert_eq!(tabashfar::write(&FILED, &mut memory), Ok(&FILED[..]));
    assert_eq!(tabashfar::write(&FILED, &mut memory[..27]), refused(13));
}

fn main() {
    let mut memory = [0; 72];
    assert_eq!(tabashfar::tag_to_steps(3, 1, 8, &mut memory[..3]), Ok(()));
    assert_eq!(tabashfar::steps_to_tag(3, 1, &memory[..3]), Ok(8));
    assert_eq!(tabashfar::normal_form(3, 1, 40), Ok(8));
    changes();
    assert_eq!(tabashfar::link(&SHEET, 0, 1, 2), Ok(Some(7)));
    assert_eq!(tabashfar::link(&SHEET, 0, 1, 0), Ok(None));
    assert_eq!(tabashfar::listing(&SHEET, &mut memory[..11]), Ok(1));
    assert_eq!(tabashfar::route(&SHEET, 1, 0, ALL), Ok(8));
    let mut answers = [0; 3];
    assert_eq!(tabashfar::routes(&SHEET, ALL, &[1, 0, 1, 8], &mut answers), Ok(()));
    assert_eq!(answers.map(tabashfar::answer), [Ok(8), refused(10), Ok(0)]);
    assert_eq!(tabashfar::routes(&SHEET, ALL, &[1, 0, 1], &mut answers), refused(13));
    assert_eq!(tabashfar::walk(&SHEET, 1, 0), stopped(0, 7));
    stopping();
    classes();
    choices();
    assert_eq!(tabashfar::header(&SHEET), Ok((3, 1, 1)));
    assert_eq!(tabashfar::has_action(&SHEET, 1), refused(13));
    let part = tabashfar::action_part(&SHEET, 0);
    assert_eq!(part, &SHEET[8..]);
    assert_eq!(tabashfar::read_action(part), Ok(1));
    assert_eq!(tabashfar::action_fields(part, &mut [0; 7]), refused(13));
    assert_eq!(tabashfar::fields(part), Ok(Fields { action: 1, number: 7, kind: 1, stage: 0, switch: 1, mask: 0, set: 4, class: BROKEN }));
    assert_eq!(tabashfar::run(&SHEET, &mut memory), Ok(20));
    assert_eq!(&memory[..20], b"SHEET 3 1\nFILE 7 OK\n");
}
