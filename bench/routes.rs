//! Asks the proved router and the plain one the same million questions, sees that they agree, and prints both times: over a book that is
//! known to be sound, and with the book judged anew for each question; each with all notices counted (choice 0) and with the broken ones
//! alone (choice 1).
mod blocks;
mod plain;
mod questions;

use blocks::{measured, Side, BLOCKS, QUESTIONS, ROUNDS};
use questions::{filings, sheet, with_classes, Numbers, Pool, N};
use std::hint::black_box;

extern "C" {
    fn bench_standing(sheet: *const u8, sheet_len: usize) -> usize;
    fn bench_routes(sheet: *const u8, sheet_len: usize, choice: u8, pairs: *const u16, pairs_len: usize, answers: *mut u64, answers_len: usize) -> bool;
    fn bench_routed(sheet: *const u8, sheet_len: usize, choice: u8, pairs: *const u16, pairs_len: usize, answers: *mut u64, answers_len: usize) -> u64;
}

/// The proved router, over a sheet of filing actions: `route`, which judges the book, and `routed`, which need not.
fn proved_entry<const CHOICE: u8>(sheet: &[u8], pairs: &[u16], answers: &mut [u64]) {
    let (asked, room) = (pairs.as_ptr(), answers.as_mut_ptr());
    let taken = unsafe { bench_routes(sheet.as_ptr(), sheet.len(), CHOICE, asked, pairs.len(), room, answers.len()) };
    assert!(taken, "there is an answer's room for each pair");
}

fn proved_path<const CHOICE: u8>(sheet: &[u8], pairs: &[u16], answers: &mut [u64]) {
    let (asked, room) = (pairs.as_ptr(), answers.as_mut_ptr());
    let number = unsafe { bench_routed(sheet.as_ptr(), sheet.len(), CHOICE, asked, pairs.len(), room, answers.len()) };
    assert_eq!(number, 0, "there is an answer's room for each pair");
}

/// The plain router, over the same sheet. As the proved one it is compiled without knowing the choice.
fn answered(pairs: &[u16], answers: &mut [u64], route: impl Fn(u32, u32) -> plain::Answer) {
    for (pair, answer) in pairs.chunks_exact(2).zip(answers) {
        *answer = route(pair[0].into(), pair[1].into()).packed();
    }
}

fn plain_entry<const CHOICE: u8>(sheet: &[u8], pairs: &[u16], answers: &mut [u64]) {
    let (book, choice) = (plain::book(sheet), black_box(CHOICE));
    answered(pairs, answers, |s, d| plain::judged(black_box(&book), choice, s, d).expect("the book is sound"));
}

fn plain_path<const CHOICE: u8>(sheet: &[u8], pairs: &[u16], answers: &mut [u64]) {
    let (book, choice) = (plain::book(sheet), black_box(CHOICE));
    answered(pairs, answers, |s, d| plain::route(N, book.standing(), choice, s, d));
}

/// Asks both sides and answers whether they agree.
fn compared(what: &str, sides: [Side<u16>; 2], sheet: &[u8], pairs: &[u16]) -> bool {
    let [proved, plain] = measured(sheet, pairs, sides);
    let mut diverted = 0;
    let mut none = 0;
    let mut shown = 0;
    let differ = proved.differ(&plain);
    for (pair, (a, b)) in pairs.chunks_exact(2).zip(proved.answers.iter().zip(&plain.answers)) {
        match b & 255 {
            0 => diverted += (b >> (8 + N) != 0) as usize,
            _ => none += 1,
        }
        if a != b && shown < 5 {
            shown += 1;
            println!("from {} to {}: proved {a:x}, plain {b:x}", pair[0], pair[1]);
        }
    }
    println!("{what}");
    println!("diverted {diverted}, no path {none}, straight through {}", QUESTIONS - diverted - none);
    println!("proved {:.1} ms, {:.1} ns a route", proved.seconds * 1e3, proved.ns());
    println!("plain {:.1} ms, {:.1} ns a route", plain.seconds * 1e3, plain.ns());
    println!("ratio {:.2}", proved.seconds / plain.seconds);
    if differ == 0 {
        println!("agree");
    } else {
        println!("{differ} answers differ");
    }
    differ == 0
}

fn main() {
    let mut numbers = Numbers::fixed();
    let pool = Pool::new(&mut numbers);
    let rows = with_classes(&filings(&pool, &mut numbers));
    let sheet = sheet(&rows);
    let mut pairs = Vec::with_capacity(2 * QUESTIONS);
    for _ in 0..QUESTIONS {
        let (s, d) = pool.question(&mut numbers);
        pairs.extend([s as u16, d as u16]);
    }
    let standing = unsafe { bench_standing(sheet.as_ptr(), sheet.len()) };
    assert_eq!(standing, 48, "every notice stands");

    let busy = rows.iter().filter(|row| row[10] == 1).count();
    println!("questions {QUESTIONS} at n = {N}, {standing} notices standing, {busy} of them busy, {BLOCKS} blocks, best of {ROUNDS} for each block");
    let agree = [
        compared("over a book that is known to be sound, choice 0:", [proved_path::<0>, plain_path::<0>], &sheet, &pairs),
        compared("over a book that is known to be sound, choice 1:", [proved_path::<1>, plain_path::<1>], &sheet, &pairs),
        compared("with the book judged for each question, choice 0:", [proved_entry::<0>, plain_entry::<0>], &sheet, &pairs),
        compared("with the book judged for each question, choice 1:", [proved_entry::<1>, plain_entry::<1>], &sheet, &pairs),
    ];
    if agree.contains(&false) {
        std::process::exit(1);
    }
}
