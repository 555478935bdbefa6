//! Trials of the proved controller against the model: every entry of docs/RULES.md, through the static library of the crate `face`, and the
//! programs themselves, through standard input. A disagreement ends the run and prints the case in full.
//!
//!     trials [ROUNDS [SEED]]     ROUNDS random cases of each kind; 400 and a fixed seed where none are given

mod cases;
mod classes;
mod compared;
mod draw;
mod entries;
#[path = "../include/tabashfar.rs"]
mod face;
mod life;
mod model;
mod overlaps;
mod program;
mod programs;
#[path = "../bench/questions.rs"]
#[allow(dead_code)]
mod questions;
mod ranges;
mod rows;
mod written;

use compared::Compared;
use draw::Draw;
use questions::Numbers;

const SEED: u64 = 0x7461_6261_7368_6661;

fn main() {
    let mut words = std::env::args().skip(1);
    let rounds: u32 = words.next().map_or(400, |w| w.parse().expect("ROUNDS is a number"));
    let seed: u64 = words.next().map_or(SEED, |w| w.parse().expect("SEED is a number"));
    println!("trials: {rounds} rounds, seed {seed}");
    let mut compared = Compared::default();
    let mut draw = Draw(Numbers(seed.max(1)));
    ranges::all(&mut compared, &mut draw);
    cases::smallest_fabrics(&mut compared);
    cases::orders_of_numbers(&mut compared);
    classes::all(&mut compared, &mut draw);
    cases::large_sheets(&mut compared, &mut draw);
    written::every_count(&mut compared, &mut draw);
    life::longest(&mut compared, &mut draw);
    for _ in 0..rounds {
        (0..200).for_each(|_| cases::random_tags(&mut compared, &mut draw));
        (0..20).for_each(|_| cases::random_book(&mut compared, &mut draw));
        (0..60).for_each(|_| cases::damaged_sheet(&mut compared, &mut draw));
        (0..60).for_each(|_| cases::random_part(&mut compared, &mut draw));
        cases::full_book(&mut compared, &mut draw);
        written::after_a_run(&mut compared, &mut draw);
        life::random(&mut compared, &mut draw);
        classes::random(&mut compared, &mut draw);
        (0..6).for_each(|_| overlaps::random(&mut compared, &mut draw));
    }
    programs::all(&mut compared, &mut draw);
    compared.report();
}
