//! Asks the proved router and the plain one the same million questions, sees that they agree, and prints both times, for each choice. The proved
//! one is asked as a host asks it: a sheet of 48 filings, and many pairs in one call. What one pair costs in a call of its own is printed beside it.
mod blocks;
#[path = "../include/tabashfar.rs"]
mod face;
#[allow(dead_code)]
mod plain;
mod questions;

use blocks::{measured, timed, Side, BLOCKS, QUESTIONS, ROUNDS};
use questions::{filings, sheet, with_classes, Numbers, Pool, N};
use std::hint::black_box;

/// So many of the questions are asked in calls of their own.
const CALLS: usize = 2_000;

/// The proved router, over a sheet of filing actions.
fn proved<const CHOICE: u8>(sheet: &[u8], pairs: &[u16], answers: &mut [u64]) {
    face::routes(sheet, CHOICE, pairs, answers).expect("there is an answer's room for each pair");
}

/// The plain router, over the same sheet. As the proved one it is compiled without knowing the choice.
fn plain<const CHOICE: u8>(sheet: &[u8], pairs: &[u16], answers: &mut [u64]) {
    let (book, choice) = (plain::book(sheet), black_box(CHOICE));
    for (pair, answer) in pairs.chunks_exact(2).zip(answers) {
        *answer = plain::route(N, book.standing(), choice, pair[0].into(), pair[1].into()).packed();
    }
}

/// The best time of one route in a call of its own, which makes the book for it.
fn alone(sheet: &[u8], choice: u8, pairs: &[u16]) -> f64 {
    let calls = || {
        for pair in pairs[..2 * CALLS].chunks_exact(2) {
            let _ = black_box(face::route(black_box(sheet), pair[0], pair[1], choice));
        }
    };
    (0..ROUNDS).map(|_| timed(calls)).fold(f64::INFINITY, f64::min) / CALLS as f64
}

/// How many are diverted, and how many have no clear path.
fn kinds(answers: &[u64]) -> (usize, usize) {
    let none = answers.iter().filter(|&a| a & 255 != 0).count();
    (answers.iter().filter(|&a| a & 255 == 0 && a >> (8 + N) != 0).count(), none)
}

/// Asks both sides and answers whether they agree.
fn compared<const CHOICE: u8>(sheet: &[u8], pairs: &[u16]) -> bool {
    let sides: [Side<u16>; 2] = [proved::<CHOICE>, plain::<CHOICE>];
    let [by_proof, by_hand] = measured(sheet, pairs, sides);
    let one = alone(sheet, CHOICE, pairs);

    let (diverted, none) = kinds(&by_hand.answers);
    println!("choice {CHOICE}:");
    println!("diverted {diverted}, no path {none}, straight through {}", QUESTIONS - diverted - none);
    println!("proved {:.1} ms, {:.1} ns a route", by_proof.seconds * 1e3, by_proof.ns());
    println!("plain {:.1} ms, {:.1} ns a route", by_hand.seconds * 1e3, by_hand.ns());
    println!("ratio {:.2}", by_proof.seconds / by_hand.seconds);
    println!("a host pays {:.1} ns for one of many in tabashfar_routes, {:.1} ns for one in a call of tabashfar_route", by_proof.ns(), one * 1e9);
    let differ = by_proof.differ(&by_hand);
    for ((pair, a), b) in pairs.chunks_exact(2).zip(&by_proof.answers).zip(&by_hand.answers).filter(|((_, a), b)| a != b).take(5) {
        println!("from {} to {}: proved {:?}, plain {:?}", pair[0], pair[1], face::answer(*a), face::answer(*b));
    }
    if differ == 0 {
        println!("agree");
    } else {
        println!("{differ} answers differ");
    }
    differ == 0
}

fn main() {
    let mut numbers = Numbers::fixed();
    let pool = Pool::new(&mut numbers);
    let rows = with_classes(&filings(&pool, &mut numbers));
    let sheet = sheet(&rows);
    let mut pairs = Vec::with_capacity(2 * QUESTIONS);
    for _ in 0..QUESTIONS {
        let (s, d) = pool.question(&mut numbers);
        pairs.extend([s as u16, d as u16]);
    }
    assert_eq!(face::listing(&sheet, &mut [0; 11 * 48]), Ok(48), "every notice stands");

    let busy = rows.iter().filter(|row| row[10] == 1).count();
    println!("questions {QUESTIONS} at n = {N}, 48 notices standing, {busy} of them busy, {BLOCKS} blocks, best of {ROUNDS} for each block");
    if !(compared::<0>(&sheet, &pairs) & compared::<1>(&sheet, &pairs)) {
        std::process::exit(1);
    }
}
