//! A router in plain Rust, written for speed from docs/RULES.md alone and sharing nothing with the proved one. As the proved router does, it
//! answers each question from the list of notices and keeps nothing between two questions. `route` tests no book, `judged` tests the one that
//! it is given, as number 16 asks, in the same pass over its notices.
//!
//! The switches of column i that can lie on a path from s to d agree with d in their low i bits, and lie less than 2^i away
//! from s on either side. There are two: the bit i of one is right, and it goes straight; the other one forks. So a notice is
//! held against two labels, and most notices touch neither.
//!
//! Where no path is clear the notices are gone through once more, by rising number: the first counted one that stops a way onward is named.
//!
//! A question's choice is 0 where all notices count, and 1 where the broken ones do, those of class 0, alone.

#[derive(Clone, Copy)]
pub enum Target {
    Links { stage: u8, switch: u16, set: u8 },
    Switch { column: u8, switch: u16 },
    Pattern { stage: u8, value: u16, mask: u16, set: u8 },
}

#[derive(Clone, Copy, PartialEq, Eq, Debug)]
pub enum Answer {
    Tag(u32),
    None { stage: u32, by: u16 },
}

impl Answer {
    /// As include/tabashfar.h says.
    pub fn packed(self) -> u64 {
        match self {
            Answer::Tag(tag) => u64::from(tag) << 8,
            Answer::None { stage, by } => 11 | u64::from(stage) << 8 | u64::from(by) << 16,
        }
    }
}

/// Of class 0, broken, or 1, busy.
#[derive(Clone, Copy)]
pub struct Notice {
    pub number: u16,
    pub class: u8,
    pub target: Target,
}

impl Notice {
    #[inline(always)]
    fn counts(&self, choice: u8) -> bool {
        self.class & choice == 0
    }
}

/// A walk is the states it has used, the first of them highest; of two walks the lesser comes first. From this number on it
/// is no clear walk.
const LOST: u32 = 1 << 13;

/// The set that stands for a switch that may not be entered, or in column 0 not left, beside straight 1, plus 2 and minus 4.
const CLOSED: u8 = 8;

/// Where the four bits of a column start. A product with one of these costs less than a shift by a variable.
const PLACE: [u64; 16] = {
    let mut place = [0; 16];
    let mut i = 0;
    while i < 16 {
        place[i] = 1 << (4 * i);
        i += 1;
    }
    place
};

/// The two switches of each column.
struct Columns {
    straight: [u16; 16],
    fork: [u16; 16],
}

impl Columns {
    #[inline(always)]
    fn new(n: u32, source: u16, distance: u16) -> Columns {
        let mut columns = Columns { straight: [0; 16], fork: [0; 16] };
        for i in 0..16 {
            (columns.straight[i], columns.fork[i]) = switches(n, source, distance, i);
        }
        columns
    }
}

/// The two switches of column i: the one that goes straight, and the one that forks.
#[inline(always)]
fn switches(n: u32, source: u16, distance: u16, i: usize) -> (u16, u16) {
    let all = ((1u32 << n) - 1) as u16;
    let high = source.wrapping_add(distance & ((1 << i) - 1));
    let bit = distance & (1 << i);
    (high.wrapping_sub(bit) & all, high.wrapping_add(bit).wrapping_sub(1 << i) & all)
}

/// Four bits a column for each of its two switches: the set of its links that are stopped, and CLOSED.
struct Marks {
    straight: u64,
    fork: u64,
}

impl Marks {
    #[inline(always)]
    fn add(&mut self, i: usize, set: u8, straight: bool, fork: bool) {
        let bits = set as u64 * PLACE[i];
        self.straight |= bits & (straight as u64).wrapping_neg();
        self.fork |= bits & (fork as u64).wrapping_neg();
    }

    /// A notice of one switch: it is one of the two in few questions.
    #[inline(always)]
    fn add_one(&mut self, i: usize, set: u8, straight: bool, fork: bool) {
        if straight | fork {
            self.add(i, set, straight, fork);
        }
    }

    /// Marks what the notice stops, if it counts. None where it is judged, and filing refuses its target for itself.
    #[inline(always)]
    fn add_notice<const JUDGED: bool>(&mut self, n: u32, x: &Notice, counts: bool, columns: &Columns) -> Option<()> {
        let outside = |switch: u16| switch as u32 >= 1 << n;
        let bad_set = |set: u8| set.wrapping_sub(1) > 6;
        match x.target {
            Target::Links { stage, switch, set } => {
                if JUDGED && (stage as u32 >= n || outside(switch) || bad_set(set)) {
                    return None;
                }
                let i = stage as usize & 15;
                if counts {
                    self.add_one(i, set, columns.straight[i] == switch, columns.fork[i] == switch);
                }
            }
            Target::Switch { column, switch } => {
                if JUDGED && (column as u32 > n || outside(switch)) {
                    return None;
                }
                let i = column as usize & 15;
                if counts {
                    self.add_one(i, CLOSED, columns.straight[i] == switch, columns.fork[i] == switch);
                }
            }
            Target::Pattern { stage, value, mask, set } => {
                if JUDGED && (stage as u32 >= n || bad_set(set) || outside(mask) || value & mask != value || mask & mask.wrapping_sub(1) == 0) {
                    return None;
                }
                let i = stage as usize & 15;
                if counts {
                    self.add(i, set, columns.straight[i] & mask == value, columns.fork[i] & mask == value);
                }
            }
        }
        Some(())
    }

    /// Of the notices that count: with ALL every one of them, otherwise the broken ones. None where they are judged, and no filings make them.
    #[inline(always)]
    fn new<const JUDGED: bool, const ALL: bool>(n: u32, standing: &[Notice], columns: &Columns) -> Option<Marks> {
        let mut marks = Marks { straight: 0, fork: 0 };
        let mut last = 0;
        for x in standing {
            if JUDGED && (x.number <= last || x.class > 1) {
                return None;
            }
            last = x.number;
            let counts = ALL || x.class == 0;
            if JUDGED || counts {
                marks.add_notice::<JUDGED>(n, x, counts, columns)?;
            }
        }
        Some(marks)
    }
}

/// LOST where the set has a bit.
fn lost(set: u64, bit: u32) -> u32 {
    (set >> bit & 1) as u32 * LOST
}

/// The walks that arrive at the two switches of a column, and what is left of the question from there on.
#[derive(Clone, Copy)]
struct Walks {
    straight: u32,
    fork: u32,
    distance: u32,
    digits: u32,
    right: u64,
    wrong: u64,
}

impl Walks {
    /// Those that begin. None where the notices are judged, and no filings make them.
    #[inline(always)]
    fn new<const JUDGED: bool>(n: u32, standing: &[Notice], choice: u8, source: u32, destination: u32) -> Option<Walks> {
        let distance = destination.wrapping_sub(source);
        let columns = Columns::new(n, source as u16, distance as u16);
        // where all notices count no class is looked at
        let marks = if choice == 0 { Marks::new::<JUDGED, true> } else { Marks::new::<JUDGED, false> }(n, standing, &columns)?;
        let (straight, fork) = if distance & 1 == 0 { (0, LOST) } else { (LOST, 0) };
        Some(Walks { straight, fork, distance, digits: destination, right: marks.straight, wrong: marks.fork })
    }

    /// Crosses a stage.
    #[inline(always)]
    fn cross(&mut self) {
        // One of plus and minus leads from the fork to where the other switch's straight link leads, the other one away.
        let (plus, minus) = (lost(self.wrong, 1), lost(self.wrong, 2));
        let (near, far) = if self.distance & 1 == 0 { (plus, minus) } else { (minus, plus) };
        let state = (self.digits ^ self.distance) & 1;
        let met = (self.straight * 2 + lost(self.right, 0)).min(self.fork * 2 + (state ^ 1) + near);
        let away = self.fork * 2 + state + far;
        // which of the next column's two switches they lead to
        let turned = ((self.distance ^ self.distance >> 1) & 1).wrapping_neg() & (met ^ away);
        self.distance >>= 1;
        self.digits >>= 1;
        self.right >>= 4;
        self.wrong >>= 4;
        self.straight = (met ^ turned) + lost(self.right, 3);
        self.fork = (away ^ turned) + lost(self.wrong, 3);
    }

    #[inline(always)]
    fn first(&self) -> u32 {
        self.straight.min(self.fork)
    }

    /// Whether the switch where they begin is CLOSED: no walk leaves it.
    #[inline(always)]
    fn dead(&self) -> bool {
        let source = if self.distance & 1 == 0 { self.right } else { self.wrong };
        source & CLOSED as u64 != 0
    }
}

pub fn route(n: u32, standing: &[Notice], choice: u8, source: u32, destination: u32) -> Answer {
    crossed(n, standing, choice, Walks::new::<false>(n, standing, choice, source, destination).expect("nothing is judged"))
}

/// The walks are those that begin.
#[inline(always)]
fn crossed(n: u32, standing: &[Notice], choice: u8, begun: Walks) -> Answer {
    let mut walks = begun;
    let mut crossed = 0;
    for _ in 0..n {
        walks.cross();
        crossed += (walks.first() < LOST) as u32;
    }
    if begun.dead() {
        crossed = 0;
    }
    if crossed < n {
        return none(n, standing, choice, begun, crossed);
    }
    let states = walks.first().reverse_bits() >> (32 - n);
    Answer::Tag(begun.digits | states << n)
}

/// No clear walk crosses this stage.
#[cold]
#[inline(never)]
fn none(n: u32, standing: &[Notice], choice: u8, begun: Walks, stage: u32) -> Answer {
    let source = begun.digits.wrapping_sub(begun.distance);
    let mut walks = begun;
    for _ in 0..stage {
        walks.cross();
    }
    let ways = Ways::new(n, source as u16, begun.distance as u16, stage, &walks);
    Answer::None { stage, by: ways.lowest(standing, choice) }
}

/// The ways onward at a stage that no clear walk crosses: out of those of its two switches that a clear walk reaches.
struct Ways {
    stage: u8,
    straight: Option<u16>,
    fork: Option<u16>,
    /// where they lead
    ends: [Option<u16>; 2],
}

impl Ways {
    /// The walks are those that arrive at the stage.
    #[inline(always)]
    fn new(n: u32, source: u16, distance: u16, stage: u32, walks: &Walks) -> Ways {
        let (straight, fork) = switches(n, source, distance, stage as usize);
        let straight = (walks.straight < LOST).then_some(straight);
        let fork = (walks.fork < LOST).then_some(fork);
        // a fork leads to both switches of the next column
        let (one, other) = switches(n, source, distance, stage as usize + 1);
        let ends = if fork.is_some() { [Some(one), Some(other)] } else { [straight; 2] };
        Ways { stage: stage as u8, straight, fork, ends }
    }

    /// Whether a notice stops one of them that has this set and names these switches.
    #[inline(always)]
    fn stopped(&self, set: u8, named: impl Fn(u16) -> bool) -> bool {
        set & 1 != 0 && self.straight.is_some_and(&named) || set & 6 != 0 && self.fork.is_some_and(&named)
    }

    #[inline(always)]
    fn stopped_by(&self, target: Target) -> bool {
        match target {
            Target::Links { switch, set, .. } => self.stopped(set, |label| label == switch),
            Target::Switch { column: 0, switch } => self.stopped(7, |label| label == switch),
            Target::Switch { switch, .. } => self.ends.contains(&Some(switch)),
            Target::Pattern { value, mask, set, .. } => self.stopped(set, |label| label & mask == value),
        }
    }

    /// The lowest counted number that stops one of them. Few notices are of the stage, so that is looked at first.
    #[inline(always)]
    fn lowest(&self, standing: &[Notice], choice: u8) -> u16 {
        let stops = |x: &&Notice| stage_of(x.target) == self.stage && x.counts(choice) && self.stopped_by(x.target);
        standing.iter().find(stops).expect("every way onward is stopped").number
    }
}

/// The stage whose links the target names.
#[inline(always)]
fn stage_of(target: Target) -> u8 {
    match target {
        Target::Links { stage, .. } | Target::Pattern { stage, .. } => stage,
        Target::Switch { column, .. } => column.saturating_sub(1),
    }
}

/// The proved book's contents: the notices that stand come first, by rising number, and every other place holds nothing.
#[derive(Clone, Copy)]
pub struct Book {
    pub n: u32,
    pub count: usize,
    pub notices: [Notice; PLACES],
}

pub const PLACES: usize = 48;
const NOTHING: Notice = Notice { number: 0, class: 0, target: Target::Links { stage: 0, switch: 0, set: 0 } };

pub fn is_nothing(x: &Notice) -> bool {
    x.number == 0 && x.class == 0 && matches!(x.target, Target::Links { stage: 0, switch: 0, set: 0 })
}

impl Book {
    pub fn standing(&self) -> &[Notice] {
        &self.notices[..self.count]
    }
}

/// 16, 10, 5. 16 is for a book that no accepted opening, filings and withdrawings make.
pub fn judged(book: &Book, choice: u8, source: u32, destination: u32) -> Result<Answer, u8> {
    let n = book.n;
    if !(1..=12).contains(&n) || book.count > PLACES {
        return Err(16);
    }
    let (standing, rest) = book.notices.split_at(book.count);
    // where a label is outside, the book is judged all the same
    let Some(begun) = Walks::new::<true>(n, standing, choice, source, destination) else {
        return Err(16);
    };
    if !rest.iter().all(is_nothing) {
        return Err(16);
    }
    if source >> n != 0 || destination >> n != 0 {
        return Err(10);
    }
    if choice > 1 {
        return Err(5);
    }
    Ok(crossed(n, standing, choice, begun))
}

/// The notice of a filing action; one of ten bytes has class 0.
fn filed(row: &[u8]) -> Notice {
    let word = |at: usize| u16::from_be_bytes([row[at], row[at + 1]]);
    let target = match row[3] {
        1 => Target::Links { stage: row[4], switch: word(5), set: row[9] },
        2 => Target::Switch { column: row[4], switch: word(5) },
        _ => Target::Pattern { stage: row[4], value: word(5), mask: word(7), set: row[9] },
    };
    Notice { number: word(1), class: row.get(10).copied().unwrap_or(0), target }
}

/// The book of a sheet of filings that are all accepted.
pub fn book(sheet: &[u8]) -> Book {
    let length = if sheet[4] == 1 { 10 } else { 11 };
    let mut book = Book { n: sheet[5].into(), count: 0, notices: [NOTHING; PLACES] };
    for row in sheet[8..].chunks_exact(length) {
        book.notices[book.count] = filed(row);
        book.count += 1;
    }
    book.notices[..book.count].sort_by_key(|x| x.number);
    book
}
