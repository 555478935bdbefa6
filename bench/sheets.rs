//! Runs a full sheet by the proved program's function and by a plain one, sees that the bytes printed agree, and prints both
//! times. The sheet: 48 filings, 4,046 routes, and a withdrawal and a new filing in their midst; in version 1, and in version 2 with
//! notices of both classes and routes of both choices.
#[path = "../include/tabashfar.rs"]
#[allow(dead_code)]
mod face;
#[allow(dead_code)] // the sheet asks for routes alone
mod plain;
mod plain_sheet;
mod questions;

use questions::{action, filings, sheet, with_classes, Numbers, Pool, N};
use std::hint::black_box;
use std::time::Instant;

const COUNT: usize = 4096;
const ROOM: usize = 24 + 48 * COUNT;
const ROUNDS: usize = 400;

fn proved(sheet: &[u8], memory: &mut [u8]) -> usize {
    face::run(sheet, memory).expect("the memory has room for every line")
}

/// Its actions, of version 1.
fn full_sheet() -> Vec<[u8; 10]> {
    let mut numbers = Numbers::fixed();
    let pool = Pool::new(&mut numbers);
    let mut rows = filings(&pool, &mut numbers);
    let first = rows[0];
    for k in 48..COUNT {
        rows.push(match k {
            2000 => [2, first[1], first[2], 0, 0, 0, 0, 0, 0, 0],
            2001 => first,
            _ => {
                let (s, d) = pool.question(&mut numbers);
                action(3, 0, 0, 0, s, d, 0)
            }
        });
    }
    rows
}

/// Runs the sheet by both sides and answers whether they agree.
fn compared(what: &str, sheet: &[u8]) -> bool {
    let mut memory = [vec![0u8; ROOM], vec![0xffu8; ROOM]];
    let mut best = [f64::INFINITY; 2];
    let mut wrote = [0; 2];
    for _ in 0..ROUNDS {
        for (side, run) in [proved, plain_sheet::run].into_iter().enumerate() {
            let began = Instant::now();
            wrote[side] = run(black_box(sheet), &mut memory[side]);
            best[side] = best[side].min(began.elapsed().as_secs_f64());
        }
    }
    println!("{what}");
    println!("proved {:.1} us a sheet", best[0] * 1e6);
    println!("plain {:.1} us a sheet", best[1] * 1e6);
    println!("ratio {:.2}", best[0] / best[1]);
    let agree = memory[0][..wrote[0]] == memory[1][..wrote[1]];
    if agree {
        println!("agree on {} bytes", wrote[0]);
    } else {
        println!("the bytes printed differ");
    }
    agree
}

fn main() {
    let rows = full_sheet();
    println!("a sheet of {COUNT} actions at n = {N}, 48 notices standing, best of {ROUNDS} runs");
    let one = compared("version 1:", &sheet(&rows));
    let two = compared("version 2, classes and choices mixed:", &sheet(&with_classes(&rows)));
    if !(one && two) {
        std::process::exit(1);
    }
}
