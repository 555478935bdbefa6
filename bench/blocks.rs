//! A million fixed questions in blocks, each block asked of every side in turn, and all of it several times over. A side's time is the sum of its best
//! time for each block.
use std::hint::black_box;
use std::time::Instant;

pub const QUESTIONS: usize = 1_000_000;
pub const BLOCKS: usize = 100;
pub const ROUNDS: usize = 9;

/// Answers the questions of a block over a sheet of filings, one number each.
pub type Side<Asked> = fn(&[u8], &[Asked], &mut [u64]);

pub struct Measured {
    pub answers: Vec<u64>,
    pub seconds: f64,
}

impl Measured {
    /// For one question.
    pub fn ns(&self) -> f64 {
        self.seconds * 1e9 / QUESTIONS as f64
    }

    /// How many answers are not those of another side.
    pub fn differ(&self, other: &Measured) -> usize {
        self.answers.iter().zip(&other.answers).filter(|(a, b)| a != b).count()
    }
}

pub fn timed(work: impl FnOnce()) -> f64 {
    let began = Instant::now();
    work();
    began.elapsed().as_secs_f64()
}

/// A question is so many numbers of `asked` as there are for each. The sides' answers begin as different numbers, none of which is an answer.
pub fn measured<Asked, const SIDES: usize>(sheet: &[u8], asked: &[Asked], sides: [Side<Asked>; SIDES]) -> [Measured; SIDES] {
    let numbers = asked.len() / BLOCKS;
    let size = QUESTIONS / BLOCKS;
    let mut answers: [Vec<u64>; SIDES] = std::array::from_fn(|side| vec![u64::MAX - side as u64; QUESTIONS]);
    let mut best = [[f64::INFINITY; BLOCKS]; SIDES];
    for _ in 0..ROUNDS {
        for k in 0..BLOCKS {
            let block = &asked[k * numbers..(k + 1) * numbers];
            for side in 0..SIDES {
                let room = &mut answers[side][k * size..(k + 1) * size];
                let took = timed(|| sides[side](black_box(sheet), black_box(block), room));
                best[side][k] = best[side][k].min(took);
            }
        }
    }
    let mut answers = answers.into_iter();
    best.map(|blocks| Measured { answers: answers.next().expect("one for each side"), seconds: blocks.iter().sum() })
}
