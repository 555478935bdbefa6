//! Asks for the same million links by the proved link test, in one pass and as it was before, and by a plain one, sees that all agree, and prints the
//! times; and what stops the three links of a switch, by one pass and by three.
mod blocks;
#[allow(dead_code)] // the links need its notices alone
mod plain;
mod plain_links;
mod questions;

use blocks::{measured, Measured, Side, BLOCKS, QUESTIONS, ROUNDS};
use plain::Target;
use questions::{filings, sheet, with_classes, Numbers, Pool, N};
use std::hint::black_box;

extern "C" {
    fn bench_links(sheet: *const u8, sheet_len: usize, links: *const u32, links_len: usize, answers: *mut u64, answers_len: usize, form: u8) -> bool;
}

/// The forms of crates/bench_links.
const ONE_PASS: u8 = 0;
const AS_IT_WAS: u8 = 1;
const TOGETHER: u8 = 2;
const ONE_BY_ONE: u8 = 3;

fn proved<const FORM: u8>(sheet: &[u8], links: &[u32], answers: &mut [u64]) {
    let taken = unsafe { bench_links(sheet.as_ptr(), sheet.len(), links.as_ptr(), links.len(), answers.as_mut_ptr(), answers.len(), FORM) };
    assert!(taken, "there is an answer's room for each link");
}

/// The plain link test over a book that each question is handed, by reference or as a copy of its own.
fn plain<const COPIED: bool>(sheet: &[u8], links: &[u32], answers: &mut [u64]) {
    let book = plain::book(sheet);
    for (&link, answer) in links.iter().zip(answers) {
        let asked = |book: &plain::Book| plain_links::link(book, (link >> 16) as u8, link as u16, (link >> 24) as u8);
        let told = if COPIED { asked(black_box(&{ *black_box(&book) })) } else { asked(black_box(&book)) };
        *answer = match told {
            Ok(number) => u64::from(number) << 8,
            Err(refusal) => refusal.into(),
        };
    }
}

/// A link as crates/bench_links takes it: every second one is drawn from all over the fabric, the others from where a notice speaks of.
fn drawn(notices: &[plain::Notice], numbers: &mut Numbers) -> u32 {
    let (stage, switch) = if numbers.below(2) == 0 {
        (numbers.below(N), numbers.below(1 << N))
    } else {
        match notices[numbers.below(notices.len() as u32) as usize].target {
            Target::Links { stage, switch, .. } | Target::Pattern { stage, value: switch, .. } => (stage.into(), switch.into()),
            Target::Switch { column, switch } => (column.saturating_sub(1).into(), switch.into()),
        }
    };
    switch | stage << 16 | numbers.below(3) << 24
}

fn told(what: &str, side: &Measured, beside: &Measured) {
    println!("{what} {:.1} ns, ratio {:.2}", side.ns(), side.seconds / beside.seconds);
}

/// Whether two sides agree.
fn agree(what: &str, differ: usize) -> bool {
    if differ == 0 {
        println!("{what} agree");
    } else {
        println!("{what}: {differ} answers differ");
    }
    differ == 0
}

fn main() {
    let mut numbers = Numbers::fixed();
    let pool = Pool::new(&mut numbers);
    let sheet = sheet(&with_classes(&filings(&pool, &mut numbers)));
    let book = plain::book(&sheet);
    let links: Vec<u32> = (0..QUESTIONS).map(|_| drawn(&book.notices, &mut numbers)).collect();

    let busy = book.notices.iter().filter(|x| x.class == 1).count();
    println!("links {QUESTIONS} at n = {N}, 48 notices standing, {busy} of them busy, {BLOCKS} blocks, best of {ROUNDS} for each block");
    let sides: [Side<u32>; 4] = [proved::<ONE_PASS>, proved::<AS_IT_WAS>, plain::<false>, plain::<true>];
    let [now, before, by_hand, copied] = measured(&sheet, &links, sides);
    let stopped = by_hand.answers.iter().filter(|&&a| a != 0).count();
    println!("the link test: stopped {stopped}, clear {}", QUESTIONS - stopped);
    told("proved, in one pass", &now, &by_hand);
    told("proved, as it was", &before, &by_hand);
    told("plain", &by_hand, &by_hand);
    told("plain, each question with a copy of the book", &copied, &by_hand);
    let links_agree = [("in one pass", now), ("as it was", before), ("with copies", copied)]
        .iter()
        .all(|(side, answers)| agree(&format!("{side} and plain"), answers.differ(&by_hand)));

    println!("what stops the three links of a switch:");
    let [together, apart] = measured(&sheet, &links, [proved::<TOGETHER>, proved::<ONE_BY_ONE>]);
    told("proved, in one pass", &together, &apart);
    told("proved, in three", &apart, &apart);
    if !(links_agree & agree("one pass and three", together.differ(&apart))) {
        std::process::exit(1);
    }
}
