//! The link test in plain Rust, written for speed from docs/RULES.md alone and sharing nothing with the proved one. Like that one it judges the book
//! that it is given, as number 16 asks, with every question.
//! All notices count, whatever their class.
use crate::plain::{is_nothing, Book, Target, PLACES};

/// 0 where the link is clear, otherwise the lowest number that stops it; or the table's number of a refusal.
pub type Answer = Result<u16, u8>;

/// 16, 4, 12.
pub fn link(book: &Book, stage: u8, switch: u16, code: u8) -> Answer {
    let n = book.n as u8;
    if !(1..=12).contains(&book.n) || book.count > PLACES {
        return Err(16);
    }
    let size = 1u16 << n;
    // where there is no such link the book is judged all the same
    let refusal = if stage >= n || switch >= size { 4 } else { 12 };
    let none = refusal == 4 || code > 2;
    let end = match code {
        1 => switch.wrapping_add(1u16.wrapping_shl(stage.into())) & (size - 1),
        2 => switch.wrapping_sub(1u16.wrapping_shl(stage.into())) & (size - 1),
        _ => switch,
    };
    let has = |set: u8| set.wrapping_shr(code.into()) & 1 != 0;
    let bad_set = |set: u8| set.wrapping_sub(1) > 6;
    let mut last = 0;
    let mut lowest = 0;
    for x in &book.notices[..book.count] {
        if x.number <= last || x.class > 1 {
            return Err(16);
        }
        last = x.number;
        let named = match x.target {
            Target::Links { stage: i, switch: j, set } => {
                if i >= n || j >= size || bad_set(set) {
                    return Err(16);
                }
                i == stage && j == switch && has(set)
            }
            Target::Switch { column, switch: j } => {
                if column > n || j >= size {
                    return Err(16);
                }
                if column == 0 {
                    stage == 0 && j == switch
                } else {
                    column - 1 == stage && j == end
                }
            }
            Target::Pattern { stage: i, value, mask, set } => {
                if i >= n || bad_set(set) || mask >= size || value & mask != value || mask & mask.wrapping_sub(1) == 0 {
                    return Err(16);
                }
                i == stage && switch & mask == value && has(set)
            }
        };
        if named && lowest == 0 {
            lowest = x.number;
        }
    }
    if !book.notices[book.count..].iter().all(is_nothing) {
        return Err(16);
    }
    if none {
        return Err(refusal);
    }
    Ok(lowest)
}
