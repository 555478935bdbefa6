//! A reference model of docs/RULES.md, by the most obvious means. Sentences in quotation marks stand there. It was written from the
//! rules alone, without sight of the proved code.
#![allow(dead_code)]

use std::collections::BTreeSet;

/// "Straight has code 0"
const STRAIGHT: u8 = 0;
/// "Plus has code 1"
const PLUS: u8 = 1;
/// "Minus has code 2"
const MINUS: u8 = 2;

/// "A book has room for 48 notices standing together."
const MOST_NOTICES: usize = 48;
/// "a count of more than 4,096 actions"
const MOST_ACTIONS: u16 = 4096;
/// "A sheet begins with a header of eight bytes: the letters FSH, the version in two bytes, n in one, and the count of actions in two."
const HEADER_LENGTH: usize = 8;
/// "An action has ten bytes in version 1"
const ACTION_LENGTH: usize = 10;
/// docs/RULES.md, 'The sheet': "In version 2 it has eleven, the class at the end."
const CLASSED_LENGTH: usize = 11;

/// docs/RULES.md, 'Classes': "The class of a notice is 0, broken, or 1, busy"
pub const BROKEN: u8 = 0;
/// docs/RULES.md, 'Classes': "0, broken, or 1, busy"
pub const BUSY: u8 = 1;
/// docs/RULES.md, 'Classes': "Where a filing has its class a route has its choice: 0, and all notices count"
pub const ALL: u8 = 0;
/// docs/RULES.md, 'Classes': "1, and the broken ones alone do"
pub const BROKEN_ONLY: u8 = 1;

/// "A notice has a number from 1 to 65535, a target of one of three kinds, and a class"
#[derive(Clone, Copy, PartialEq, Eq, Debug)]
pub enum Target {
    Links { stage: u8, switch: u16, set: u8 },
    Switch { column: u8, switch: u16 },
    Pattern { stage: u8, value: u16, mask: u16, set: u8 },
}

/// "A notice has a number from 1 to 65535, a target of one of three kinds, and a class"; docs/RULES.md, 'Classes': "The class of a notice is 0, broken, or 1,
/// busy"
#[derive(Clone, Copy, PartialEq, Eq, Debug)]
pub struct Notice {
    pub number: u16,
    pub target: Target,
    pub class: u8,
}

/// "A book has room for 48 notices": the size n and the standing notices, kept by rising number.
#[derive(Clone, PartialEq, Eq, Debug)]
pub struct Book {
    n: u8,
    notices: Vec<Notice>,
}

/// What comes with 11: "no path is clear, with the stage named and a notice's number; for a walk, the first stage at which it meets a
/// stopped link", and the number of a notice.
#[derive(Clone, Copy, PartialEq, Eq, Debug)]
pub struct Stopped {
    pub stage: u8,
    pub notice: u16,
}

/// "Action 1 is a filing", "Action 2 is a withdrawal", "Action 3 is a route"; docs/RULES.md, 'Classes': "all notices count, or the broken ones alone".
#[derive(Clone, Copy, PartialEq, Eq, Debug)]
pub enum Action {
    File(Notice),
    Withdraw(u16),
    Route { source: u16, destination: u16, choice: u8 },
}

// ---------------------------------------------------------------------------------------------------------
// Fabric. The private functions below are called only after n was found to be 1 to 12 and labels below N.
// ---------------------------------------------------------------------------------------------------------

/// "n is 0 or above 12"
fn size_is_outside(n: u8) -> bool {
    n < 1 || n > 12
}

/// "Its size N is 2^n"
fn labels(n: u8) -> u32 {
    2u32.pow(u32::from(n))
}

/// "Switches stand in columns, numbered from 0 to n, and every column has one switch for each label"
fn is_label(n: u8, label: u16) -> bool {
    u32::from(label) < labels(n)
}

/// "Every label is taken modulo N, whether it falls below 0 or reaches N."
fn reduced(n: u8, number: i32) -> u16 {
    number.rem_euclid(labels(n) as i32) as u16
}

/// "Plus has code 1 and lands on j + 2^i"
fn plus_of(n: u8, stage: u8, switch: u16) -> u16 {
    reduced(n, i32::from(switch) + 2i32.pow(u32::from(stage)))
}

/// "Minus has code 2 and lands on j - 2^i"
fn minus_of(n: u8, stage: u8, switch: u16) -> u16 {
    reduced(n, i32::from(switch) - 2i32.pow(u32::from(stage)))
}

/// "Three links leave switch j at stage i. Straight has code 0 and lands on j. Plus has code 1 and lands on j +
/// 2^i. Minus has code 2 and lands on j - 2^i."
pub fn far_end(n: u8, stage: u8, switch: u16, code: u8) -> u16 {
    match code {
        PLUS => plus_of(n, stage, switch),
        MINUS => minus_of(n, stage, switch),
        _ => switch,
    }
}

/// "a label with d's low i+1 bits" (here: in its low `bits` bits)
fn agrees(label: u16, destination: u16, bits: u8) -> bool {
    let size = 2u32.pow(u32::from(bits));
    u32::from(label) % size == u32::from(destination) % size
}

// ---------------------------------------------------------------------------------------------------------
// Tags and steps.
// ---------------------------------------------------------------------------------------------------------

/// "Bits are counted from the lowest, which is bit 0."
fn bit(number: u32, position: u8) -> u32 {
    (number >> position) & 1
}

/// "A tag has 2n bits: it is less than 2^(2n)."
fn is_tag(n: u8, tag: u32) -> bool {
    tag < 2u32.pow(2 * u32::from(n))
}

/// "The low n bits hold the destination"
fn destination_of(n: u8, tag: u32) -> u16 {
    (tag % labels(n)) as u16
}

/// "for switch j at stage i and t, which is bit i of the destination:" and the table of links that follows.
fn link_taken(stage: u8, switch: u16, t: u32, state: u32) -> u8 {
    match (bit(u32::from(switch), stage), t, state) {
        (0, 0, _) => STRAIGHT,
        (0, _, 0) => PLUS,
        (0, _, _) => MINUS,
        (_, 1, _) => STRAIGHT,
        (_, _, 0) => MINUS,
        (_, _, _) => PLUS,
    }
}

/// "The low n bits hold the destination, and bit n+i holds the state of stage i." So the n codes, stage 0 first.
fn steps_of(n: u8, source: u16, tag: u32) -> Vec<u8> {
    let mut steps = Vec::new();
    let mut switch = source;
    for stage in 0..n {
        let code = link_taken(stage, switch, bit(tag, stage), bit(tag, n + stage));
        steps.push(code);
        switch = far_end(n, stage, switch, code);
    }
    steps
}

/// "Steps are a row of n codes, that of stage 0 in front." So the label at which they arrive.
fn arrival(n: u8, source: u16, steps: &[u8]) -> u16 {
    let mut switch = source;
    for (stage, &code) in (0..n).zip(steps) {
        switch = far_end(n, stage, switch, code);
    }
    switch
}

/// "Steps taken from a source have exactly one normal tag: it has the destination that they lead to, and state 0 at each straight step."
fn normal_tag(n: u8, source: u16, steps: &[u8]) -> u32 {
    let mut tag = u32::from(arrival(n, source, steps));
    let mut switch = source;
    for (stage, &code) in (0..n).zip(steps) {
        let state = match (bit(u32::from(switch), stage), code) {
            (0, MINUS) => 1,
            (1, PLUS) => 1,
            _ => 0,
        };
        tag += state * 2u32.pow(u32::from(n + stage));
        switch = far_end(n, stage, switch, code);
    }
    tag
}

/// "Tag to steps (n, source, tag, memory): 1, 10, 12, 13. The first n bytes of the memory are written."
pub fn tag_to_steps(n: u8, source: u16, tag: u32, memory: &mut [u8]) -> u8 {
    if size_is_outside(n) {
        return 1;
    }
    if !is_label(n, source) {
        return 10;
    }
    if !is_tag(n, tag) {
        return 12;
    }
    if memory.len() < usize::from(n) {
        return 13;
    }
    for (place, code) in memory.iter_mut().zip(steps_of(n, source, tag)) {
        *place = code;
    }
    0
}

/// "Steps to tag (n, source, memory): 1, 10, 13, 12. It reads n bytes and none after them."
pub fn steps_to_tag(n: u8, source: u16, memory: &[u8]) -> Result<u32, u8> {
    if size_is_outside(n) {
        return Err(1);
    }
    if !is_label(n, source) {
        return Err(10);
    }
    if memory.len() < usize::from(n) {
        return Err(13);
    }
    let steps = &memory[..usize::from(n)];
    if steps.iter().any(|&code| code > 2) {
        return Err(12);
    }
    Ok(normal_tag(n, source, steps))
}

/// "Normal form (n, source, tag): 1, 10, 12." "A tag that is turned into steps and back loses the state bits of its
/// straight steps and nothing else".
pub fn normal_form(n: u8, source: u16, tag: u32) -> Result<u32, u8> {
    if size_is_outside(n) {
        return Err(1);
    }
    if !is_label(n, source) {
        return Err(10);
    }
    if !is_tag(n, tag) {
        return Err(12);
    }
    Ok(normal_tag(n, source, &steps_of(n, source, tag)))
}

/// "two paths are compared at the first stage where they differ, and the one with state 0 there goes before the
/// other": all paths from source to destination, each as its steps, in that order (stage 0's state weighs most).
///
/// A link of stage i moves by 0 or 2^i, so it leaves the low i bits of the label alone. A path to d therefore
/// agrees with d in bit i from column i+1 on, and at each stage it takes a link that the table gives for d's
/// bit: the straight link alone, or one of plus and minus, state 0 and state 1. A walk that always does so
/// agrees with d in all n bits at the end, so it is a path to d.
///
/// The list is lengthened stage by stage; each entry is replaced, in place, by its longer ones, state 0 first,
/// so entries that parted earlier keep their order.
pub fn paths(n: u8, source: u16, destination: u16) -> Vec<Vec<u8>> {
    let mut begun: Vec<(u16, Vec<u8>)> = vec![(source, Vec::new())];
    for stage in 0..n {
        let t = bit(u32::from(destination), stage);
        let mut longer = Vec::new();
        for (switch, steps) in begun {
            let first = link_taken(stage, switch, t, 0);
            let second = link_taken(stage, switch, t, 1);
            let codes = if first == second { vec![first] } else { vec![first, second] };
            for code in codes {
                let mut more = steps.clone();
                more.push(code);
                longer.push((far_end(n, stage, switch, code), more));
            }
        }
        begun = longer;
    }
    begun.into_iter().map(|(_, steps)| steps).collect()
}

// ---------------------------------------------------------------------------------------------------------
// Notices and the book.
// ---------------------------------------------------------------------------------------------------------

/// "The set is a sum, of 1 for straight, 2 for plus and 4 for minus, and lies between 1 and 7"
fn set_has(set: u8, code: u8) -> bool {
    let weight = match code {
        STRAIGHT => 1,
        PLUS => 2,
        _ => 4,
    };
    set & weight != 0
}

/// The stage whose links the target names: "Links, kind 1: a stage below n", "In column i, other than 0, it names three links of stage i-1",
/// "Pattern, kind 3: a stage below n"; docs/RULES.md, 'Notices': in column 0 "of stage 0".
fn stage_of(target: Target) -> u8 {
    match target {
        Target::Links { stage, .. } | Target::Pattern { stage, .. } => stage,
        Target::Switch { column: 0, .. } => 0,
        Target::Switch { column, .. } => column - 1,
    }
}

/// "Links, kind 1: a stage below n, a switch and a set". "Switch, kind 2: a column from 0 to n, and a switch j. In column i, other than 0, it names
/// three links of stage i-1, those that end at j: straight out of j, plus out of j - 2^(i-1), minus out of j + 2^(i-1)." docs/RULES.md, 'Notices':
/// "In column 0, where no link ends, it names the three links of stage 0 that leave the switch". "Pattern, kind 3: a stage below n, a value, a mask
/// and a set. It names the links of the set at every switch that has the value's bits where the mask has ones."
///
/// Whether the target names the link with this code of switch j at the stage `at`.
pub fn names(n: u8, target: Target, at: u8, j: u16, code: u8) -> bool {
    if stage_of(target) != at {
        return false;
    }
    match target {
        Target::Links { switch, set, .. } => j == switch && set_has(set, code),
        Target::Switch { column: 0, switch } => j == switch,
        Target::Switch { switch, .. } => match code {
            STRAIGHT => j == switch,
            PLUS => j == minus_of(n, at, switch),
            _ => j == plus_of(n, at, switch),
        },
        Target::Pattern { value, mask, set, .. } => j & mask == value && set_has(set, code),
    }
}

/// "a stage, column or switch that the fabric does not have (the value of a pattern is left to 5)"
fn is_outside_the_fabric(n: u8, target: Target) -> bool {
    match target {
        Target::Links { stage, switch, .. } => stage >= n || !is_label(n, switch),
        Target::Switch { column, switch } => column > n || !is_label(n, switch),
        Target::Pattern { stage, .. } => stage >= n,
    }
}

/// "a set of 0 or above 7, a one of the mask at bit n or higher, a value with a one outside of the mask"
fn has_a_bad_set_mask_or_value(n: u8, target: Target) -> bool {
    match target {
        Target::Links { set, .. } => set < 1 || set > 7,
        Target::Switch { .. } => false,
        Target::Pattern { value, mask, set, .. } => {
            set < 1 || set > 7 || u32::from(mask) >= labels(n) || value & mask != value
        }
    }
}

/// docs/RULES.md, 'Classes': "a class of 2 or more"
fn is_no_class(class: u8) -> bool {
    class > 1
}

/// docs/RULES.md, 'Classes': "all notices count, or the broken ones alone": whether a notice of this class counts for such a route.
fn counts(choice: u8, class: u8) -> bool {
    choice == ALL || choice == BROKEN_ONLY && class == BROKEN
}

/// "A mask of no ones or of one is too wide. With n = 1 there is no other, so every pattern is refused."
fn is_too_wide(target: Target) -> bool {
    match target {
        Target::Pattern { mask, .. } => mask.count_ones() < 2,
        _ => false,
    }
}

/// "Open (n): 1. It then hands back a book of size 0 without notices, to which every entry over a book says 16.
/// Otherwise it hands back an empty book of size n."
pub fn open(n: u8) -> (Book, u8) {
    if size_is_outside(n) {
        (Book { n: 0, notices: Vec::new() }, 1)
    } else {
        (Book { n, notices: Vec::new() }, 0)
    }
}

impl Book {
    /// "a book of size 0 without notices" after a refused opening, "Otherwise it hands back an empty book of size n".
    pub fn size(&self) -> u8 {
        self.n
    }

    /// "the notices that stand, the lowest number first"
    pub fn standing(&self) -> Vec<Notice> {
        self.notices.clone()
    }

    /// "a book to which no accepted opening, filings and withdrawals lead": the fields are private and only `open`,
    /// `file` and `withdraw` write them, so the book of a refused opening is the only such book.
    fn cannot_be_produced(&self) -> bool {
        size_is_outside(self.n)
    }

    /// "the number stands already" and, where not so, "no notice of this number stands"
    fn stands(&self, number: u16) -> bool {
        self.notices.iter().any(|notice| notice.number == number)
    }

    /// docs/RULES.md, 'Classes': the notices of which "stopped by a notice that counts" speaks.
    fn counted(&self, choice: u8) -> impl Iterator<Item = &Notice> {
        self.notices.iter().filter(move |notice| counts(choice, notice.class))
    }

    /// "A link may be named by more than one notice." docs/RULES.md, 'Classes': it is "stopped by a notice that counts" while any that stands and counts names
    /// it.
    fn stopped(&self, choice: u8, stage: u8, switch: u16, code: u8) -> bool {
        self.counted(choice).any(|notice| names(self.n, notice.target, stage, switch, code))
    }

    /// docs/RULES.md, 'The book': "clear, or the lowest number of a notice that stops the link"
    fn lowest_that_stops(&self, choice: u8, stage: u8, switch: u16, code: u8) -> Option<u16> {
        let stopping = self.counted(choice).filter(|notice| names(self.n, notice.target, stage, switch, code));
        stopping.map(|notice| notice.number).min()
    }

    /// "the first stage at which it meets a stopped link", if any, with "A walk hands on the number that the link test gives."; "A path of
    /// n links is clear where no link of it is stopped."
    fn first_stopped(&self, choice: u8, source: u16, steps: &[u8]) -> Option<Stopped> {
        let mut switch = source;
        for (stage, &code) in (0..self.n).zip(steps) {
            if let Some(notice) = self.lowest_that_stops(choice, stage, switch, code) {
                return Some(Stopped { stage, notice });
            }
            switch = far_end(self.n, stage, switch, code);
        }
        None
    }

    /// "a stage is named: the lowest i for which no walk of i+1 clear links out of s ends at a label with d's low i+1
    /// bits"
    ///
    /// Column by column, the set of labels at which clear walks arrive, over all three links. Of column k only the
    /// labels that agree with d in the low k bits are kept. This changes nothing: the links of stages k and later
    /// move by multiples of 2^k (and N is a multiple of 2^k), so a walk that disagrees with d in the low k bits at
    /// column k disagrees in them ever after and arrives at none of the labels the sentence asks for.
    ///
    /// None where there is no such i; then a clear walk of n links arrives at d, which is a clear path.
    fn stage_named(&self, choice: u8, source: u16, destination: u16) -> Option<u8> {
        let mut reached = BTreeSet::from([source]);
        for stage in 0..self.n {
            let mut next = BTreeSet::new();
            for &switch in &reached {
                for code in [STRAIGHT, PLUS, MINUS] {
                    let label = far_end(self.n, stage, switch, code);
                    if !self.stopped(choice, stage, switch, code) && agrees(label, destination, stage + 1) {
                        next.insert(label);
                    }
                }
            }
            if next.is_empty() {
                return Some(stage);
            }
            reached = next;
        }
        None
    }

    /// docs/RULES.md, 'Routes': "a switch at which a clear walk has arrived": the labels at which clear walks of so many links from the source
    /// arrive, wherever they lead, over all three links of every switch.
    fn reached_clear(&self, choice: u8, source: u16, links: u8) -> Vec<u16> {
        let mut reached = vec![source];
        for stage in 0..links {
            let here: Vec<&Notice> = self.counted(choice).filter(|notice| stage_of(notice.target) == stage).collect();
            let mut arrives = vec![false; labels(self.n) as usize];
            for switch in reached {
                for code in [STRAIGHT, PLUS, MINUS] {
                    if !here.iter().any(|notice| names(self.n, notice.target, stage, switch, code)) {
                        arrives[usize::from(far_end(self.n, stage, switch, code))] = true;
                    }
                }
            }
            reached = (0..=u16::MAX).zip(arrives).filter(|&(_, arrives)| arrives).map(|(label, _)| label).collect();
        }
        reached
    }

    /// docs/RULES.md, 'Routes': "A way onward is a link of the stage named: it leaves a switch at which a clear walk has arrived, and it
    /// leads toward the destination", as its switch and its code. Toward the destination leads a link of stage i whose far end is "a
    /// label with d's low i+1 bits".
    pub fn ways_onward(&self, choice: u8, source: u16, destination: u16, stage: u8) -> Vec<(u16, u8)> {
        let mut ways = Vec::new();
        for switch in self.reached_clear(choice, source, stage) {
            for code in [STRAIGHT, PLUS, MINUS] {
                if agrees(far_end(self.n, stage, switch, code), destination, stage + 1) {
                    ways.push((switch, code));
                }
            }
        }
        ways
    }

    /// docs/RULES.md, 'Routes': "The number named is the lowest of a notice that counts and stops a way onward." docs/RULES.md,
    /// 'Classes': "the number after `BY`, which is that of a notice that counts"
    ///
    /// There is such a way, and each is stopped: otherwise another stage would have been named.
    fn notice_named(&self, choice: u8, source: u16, destination: u16, stage: u8) -> u16 {
        let ways = self.ways_onward(choice, source, destination, stage);
        let stops_a_way = |target: Target| ways.iter().any(|&(switch, code)| names(self.n, target, stage, switch, code));
        let stopping = self.counted(choice).filter(|notice| stops_a_way(notice.target));
        stopping.map(|notice| notice.number).min().expect("a notice stops a way onward")
    }

    /// "File (book, notice): 16, 3, 4, 5, 6, 7, 8." "a refused change gives the book back unchanged." docs/RULES.md, 'Classes': a class
    /// above 1 is 5, "of a filing where the set and the mask are judged".
    pub fn file(&mut self, notice: Notice) -> u8 {
        if self.cannot_be_produced() {
            return 16;
        }
        if notice.number == 0 {
            return 3;
        }
        if is_outside_the_fabric(self.n, notice.target) {
            return 4;
        }
        if has_a_bad_set_mask_or_value(self.n, notice.target) || is_no_class(notice.class) {
            return 5;
        }
        if is_too_wide(notice.target) {
            return 6;
        }
        if self.stands(notice.number) {
            return 7;
        }
        if self.notices.len() >= MOST_NOTICES {
            return 8;
        }
        self.notices.push(notice);
        self.notices.sort_by_key(|standing| standing.number);
        0
    }

    /// "Withdraw (book, number): 16, 3, 9." "After a withdrawal the number is free again, and so is the place."
    pub fn withdraw(&mut self, number: u16) -> u8 {
        if self.cannot_be_produced() {
            return 16;
        }
        if number == 0 {
            return 3;
        }
        if !self.stands(number) {
            return 9;
        }
        self.notices.retain(|notice| notice.number != number);
        0
    }

    /// "Link test (book, stage, switch, code): 16, 4, 12." docs/RULES.md, 'The book': "The link test answers clear, or the lowest number of a
    /// notice that stops the link." docs/RULES.md, 'Classes': "Link test and walk have no choice: for them every notice counts."
    pub fn link(&self, stage: u8, switch: u16, code: u8) -> Result<Option<u16>, u8> {
        if self.cannot_be_produced() {
            return Err(16);
        }
        if stage >= self.n || !is_label(self.n, switch) {
            return Err(4);
        }
        if code > 2 {
            return Err(12);
        }
        Ok(self.lowest_that_stops(ALL, stage, switch, code))
    }

    /// "Route (book, source, destination, choice): 16, 10, 5, 11." "Of the paths from s to d that are clear one is the first: two paths are
    /// compared at the first stage where they differ, and the one with state 0 there goes before the other. So stage 0 weighs most. A route
    /// answers the normal tag of the first clear path." docs/RULES.md, 'Classes': a choice above 1 is 5, "of a route after 10 and before 11".
    pub fn route(&self, source: u16, destination: u16, choice: u8) -> Result<u32, (u8, Option<Stopped>)> {
        if self.cannot_be_produced() {
            return Err((16, None));
        }
        if !is_label(self.n, source) || !is_label(self.n, destination) {
            return Err((10, None));
        }
        if is_no_class(choice) {
            return Err((5, None));
        }
        for steps in paths(self.n, source, destination) {
            if self.first_stopped(choice, source, &steps).is_none() {
                return Ok(normal_tag(self.n, source, &steps));
            }
        }
        let named = |stage| Stopped { stage, notice: self.notice_named(choice, source, destination, stage) };
        Err((11, self.stage_named(choice, source, destination).map(named)))
    }

    /// "Walk (book, source, tag): 16, 10, 12, 11, 17. Past these the walk is clear." docs/RULES.md, 'Classes': "Link test and walk have no choice: for them
    /// every notice counts."
    pub fn walk(&self, source: u16, tag: u32) -> Result<(), (u8, Option<Stopped>)> {
        if self.cannot_be_produced() {
            return Err((16, None));
        }
        if !is_label(self.n, source) {
            return Err((10, None));
        }
        if !is_tag(self.n, tag) {
            return Err((12, None));
        }
        let steps = steps_of(self.n, source, tag);
        if let Some(stopped) = self.first_stopped(ALL, source, &steps) {
            return Err((11, Some(stopped)));
        }
        if arrival(self.n, source, &steps) != destination_of(self.n, tag) {
            return Err((17, None));
        }
        Ok(())
    }

    /// "Listing (book, memory): 16, 13. It writes the notices that stand, the lowest number first, each as the eleven
    /// bytes of its filing, the class at the end. They lie at the front of the memory, and what follows them is left.
    /// The answer is their count."
    pub fn listing(&self, memory: &mut [u8]) -> Result<usize, u8> {
        if self.cannot_be_produced() {
            return Err(16);
        }
        if memory.len() < CLASSED_LENGTH * self.notices.len() {
            return Err(13);
        }
        for (place, notice) in memory.chunks_exact_mut(CLASSED_LENGTH).zip(&self.notices) {
            place.copy_from_slice(&filing_action(*notice));
        }
        Ok(self.notices.len())
    }

    /// docs/RULES.md, 'Writing a book': "The sheet has version 2 where some notice that stands is busy"
    fn version_written(&self) -> u16 {
        if self.notices.iter().any(|notice| notice.class == BUSY) { 2 } else { 1 }
    }

    /// docs/RULES.md, 'Writing a book': "A book is written as a sheet: the header, then a filing of every notice that stands, the lowest number first."
    pub fn sheet(&self) -> Vec<u8> {
        let version = self.version_written();
        let mut sheet = b"FSH".to_vec();
        sheet.extend(version.to_be_bytes());
        sheet.push(self.n);
        sheet.extend((self.notices.len() as u16).to_be_bytes());
        for notice in &self.notices {
            sheet.extend(&filing_action(*notice)[..action_length(version)]);
        }
        sheet
    }

    /// docs/RULES.md, 'Writing a book': "The answer is the length of the sheet, and the bytes after it are left." "The numbers are 16, then 13."
    pub fn write(&self, memory: &mut [u8]) -> Result<usize, u8> {
        if self.cannot_be_produced() {
            return Err(16);
        }
        let sheet = self.sheet();
        if memory.len() < sheet.len() {
            return Err(13);
        }
        for (place, byte) in memory.iter_mut().zip(&sheet) {
            *place = *byte;
        }
        Ok(sheet.len())
    }
}

// ---------------------------------------------------------------------------------------------------------
// The sheet.
// ---------------------------------------------------------------------------------------------------------

/// "In every number of two bytes the high byte comes first."
fn two_bytes(high: u8, low: u8) -> u16 {
    u16::from_be_bytes([high, low])
}

/// docs/RULES.md, 'The sheet': "An action has ten bytes in version 1. In version 2 it has eleven".
fn action_length(version: u16) -> usize {
    if version == 2 { CLASSED_LENGTH } else { ACTION_LENGTH }
}

/// "the action in one byte, the number in two, the kind in one, the stage in one, the switch in two, the mask in two, the set in one", and by
/// docs/RULES.md, 'Classes' "the class at the end"; "Action 1 is a filing, and its kind is that of the target. In kind 1 the mask is 0. In kind
/// 2 the column stands in the stage's byte, mask and set are 0. In kind 3 the value stands where the switch does."
fn filing_action(notice: Notice) -> [u8; CLASSED_LENGTH] {
    let (kind, stage, switch, mask, set) = match notice.target {
        Target::Links { stage, switch, set } => (1, stage, switch, 0, set),
        Target::Switch { column, switch } => (2, column, switch, 0, 0),
        Target::Pattern { stage, value, mask, set } => (3, stage, value, mask, set),
    };
    let number = notice.number.to_be_bytes();
    let switch = switch.to_be_bytes();
    let mask = mask.to_be_bytes();
    [1, number[0], number[1], kind, stage, switch[0], switch[1], mask[0], mask[1], set, notice.class]
}

/// "Header (sheet): 14, 1, 15. Past these it answers n, the count and the version." "A sheet of version 1 is 8 + 10 x count
/// bytes long, and one of version 2 is 8 + 11 x count. The count may be 0." docs/RULES.md, 'The sheet': "In version 2 it has
/// eleven"; "Sheets of version 1 are still run". The version is answered too, after the count.
pub fn header(sheet: &[u8]) -> Result<(u8, u16, u16), u8> {
    if sheet.len() < HEADER_LENGTH || sheet[..3] != *b"FSH" {
        return Err(14);
    }
    let version = two_bytes(sheet[3], sheet[4]);
    if version != 1 && version != 2 {
        return Err(14);
    }
    let n = sheet[5];
    if size_is_outside(n) {
        return Err(1);
    }
    let count = two_bytes(sheet[6], sheet[7]);
    if count > MOST_ACTIONS || sheet.len() != HEADER_LENGTH + action_length(version) * usize::from(count) {
        return Err(15);
    }
    Ok((n, count, version))
}

/// "Is action k there (sheet, k), k from 0 on: the header's number where that is refused, then 13 where the count
/// is k or less."
pub fn has_action(sheet: &[u8], k: usize) -> Result<(), u8> {
    let (_, count, _) = header(sheet)?;
    if k >= usize::from(count) {
        return Err(13);
    }
    Ok(())
}

/// "Part of action k (sheet, k): where the entry before accepts, a part of the caller's own sheet, the ten or eleven bytes
/// of the action; where it refuses, the empty part at the front of the sheet." docs/RULES.md, 'The sheet': "An action has
/// ten bytes in version 1. In version 2 it has eleven".
pub fn action_part(sheet: &[u8], k: usize) -> &[u8] {
    match (header(sheet), has_action(sheet, k)) {
        (Ok((_, _, version)), Ok(())) => {
            let start = HEADER_LENGTH + action_length(version) * k;
            &sheet[start..start + action_length(version)]
        }
        _ => &sheet[..0],
    }
}

/// docs/RULES.md, 'Entries': "A part of either length is read": a part without its class, and the class. "Sheets of version 1 are still run. Each
/// notice of theirs is broken, and each route counts all."
fn without_class(part: &[u8]) -> Result<(&[u8], u8), u8> {
    match part.len() {
        ACTION_LENGTH => Ok((part, 0)),
        CLASSED_LENGTH => Ok((&part[..ACTION_LENGTH], part[ACTION_LENGTH])),
        _ => Err(13),
    }
}

/// "Action reader (part): 13, 2. Past these it answers the action and its fields." 2 is "an action or a kind that is not known, a spare field
/// that is not 0, or a class that may not stand there; in bytes alone": "Action 1 is a filing, and its kind is that of the target. In kind 1
/// the mask is 0. In kind 2 the column stands in the stage's byte, mask and set are 0. In kind 3 the value stands where the switch does. Action
/// 2 is a withdrawal: it has the number, and 0 in every other field. Action 3 is a route: the source in the switch, the destination in the
/// mask, the choice in the class, and 0 in every other field." docs/RULES.md, 'Classes': "In bytes a class of 2 or more is a fault, number 2,
/// and so is any class but 0 on a withdrawal".
pub fn read_action(part: &[u8]) -> Result<Action, u8> {
    let (part, class) = without_class(part)?;
    if is_no_class(class) {
        return Err(2);
    }
    let action = part[0];
    let number = two_bytes(part[1], part[2]);
    let kind = part[3];
    let stage = part[4];
    let switch = two_bytes(part[5], part[6]);
    let mask = two_bytes(part[7], part[8]);
    let set = part[9];
    match action {
        1 => {
            let target = match kind {
                1 if mask == 0 => Target::Links { stage, switch, set },
                2 if mask == 0 && set == 0 => Target::Switch { column: stage, switch },
                3 => Target::Pattern { stage, value: switch, mask, set },
                _ => return Err(2),
            };
            Ok(Action::File(Notice { number, target, class }))
        }
        2 if kind == 0 && stage == 0 && switch == 0 && mask == 0 && set == 0 && class == 0 => Ok(Action::Withdraw(number)),
        3 if number == 0 && kind == 0 && stage == 0 && set == 0 => {
            Ok(Action::Route { source: switch, destination: mask, choice: class })
        }
        _ => Err(2),
    }
}

// ---------------------------------------------------------------------------------------------------------
// A book that a host holds: it is handed over as a sheet, and "Both changes give the book back beside the answer"
// as the sheet of the book after the change. The header's number comes first, then the entry's own, then 13 where
// the memory is shorter than that sheet; "On a refusal no byte of lent memory is written".
// ---------------------------------------------------------------------------------------------------------

/// The book that a sheet's actions make, "runs it from an empty book"; the header's number where it is refused.
pub fn book_of(sheet: &[u8]) -> Result<Book, u8> {
    let (n, count, _) = header(sheet)?;
    let (mut book, _) = open(n);
    for k in 0..usize::from(count) {
        match read_action(action_part(sheet, k)) {
            Ok(Action::File(notice)) => drop(book.file(notice)),
            Ok(Action::Withdraw(number)) => drop(book.withdraw(number)),
            _ => {}
        }
    }
    Ok(book)
}

/// The sheet of the book after a change, where the change answered 0.
fn handed_back(book: &Book, answer: u8, memory: &mut [u8]) -> Result<usize, u8> {
    if answer != 0 {
        return Err(answer);
    }
    book.write(memory)
}

pub fn open_for_host(n: u8, memory: &mut [u8]) -> Result<usize, u8> {
    let (book, answer) = open(n);
    handed_back(&book, answer, memory)
}

pub fn file_for_host(sheet: &[u8], notice: Notice, memory: &mut [u8]) -> Result<usize, u8> {
    let mut book = book_of(sheet)?;
    let answer = book.file(notice);
    handed_back(&book, answer, memory)
}

pub fn withdraw_for_host(sheet: &[u8], number: u16, memory: &mut [u8]) -> Result<usize, u8> {
    let mut book = book_of(sheet)?;
    let answer = book.withdraw(number);
    handed_back(&book, answer, memory)
}

pub fn write_for_host(sheet: &[u8], memory: &mut [u8]) -> Result<usize, u8> {
    book_of(sheet)?.write(memory)
}

// ---------------------------------------------------------------------------------------------------------
// What is printed.
// ---------------------------------------------------------------------------------------------------------

/// "`OK`, or `REFUSED` and the number of the refusal"
fn ok_or_refused(answer: u8) -> String {
    if answer == 0 {
        "OK".to_string()
    } else {
        format!("REFUSED {answer}")
    }
}

/// "`TAG` and the 2n bits of the tag, bit 0 first; `NONE`, the stage, `BY` and the number of the notice named; or `REFUSED` and the number of
/// the refusal"
fn tag_none_or_refused(n: u8, answer: Result<u32, (u8, Option<Stopped>)>) -> String {
    match answer {
        Ok(tag) => {
            let bits: String = (0..2 * n).map(|position| if bit(tag, position) == 1 { '1' } else { '0' }).collect();
            format!("TAG {bits}")
        }
        Err((_, Some(Stopped { stage, notice }))) => format!("NONE {stage} BY {notice}"),
        Err((number, None)) => format!("REFUSED {number}"),
    }
}

/// "For every action comes one line more, and a line feed ends each of them." (here without its LF) "After `FILE` or
/// `WITHDRAW` come the number of the notice", "After `ROUTE` come source and destination", "An action with a fault
/// of layout prints `ACTION REFUSED 2`." "2 is judged before anything that the entry itself checks."
fn line_of_action(book: &mut Book, part: &[u8]) -> String {
    match read_action(part) {
        Err(number) => format!("ACTION REFUSED {number}"),
        Ok(Action::File(notice)) => format!("FILE {} {}", notice.number, ok_or_refused(book.file(notice))),
        Ok(Action::Withdraw(number)) => format!("WITHDRAW {number} {}", ok_or_refused(book.withdraw(number))),
        Ok(Action::Route { source, destination, choice }) => {
            let answer = tag_none_or_refused(book.size(), book.route(source, destination, choice));
            format!("ROUTE {source} {destination} {answer}")
        }
    }
}

/// "The program takes a sheet from standard input and runs it from an empty book. The first line is `SHEET n
/// count`, or, where the header is refused, `SHEET REFUSED k` and nothing after it. For every action comes one line
/// more, and a line feed ends each of them."
pub fn run(sheet: &[u8]) -> Vec<u8> {
    let (n, count, _) = match header(sheet) {
        Err(number) => return format!("SHEET REFUSED {number}\n").into_bytes(),
        Ok(answer) => answer,
    };
    let mut printed = format!("SHEET {n} {count}\n");
    let (mut book, _) = open(n);
    for k in 0..usize::from(count) {
        printed += &line_of_action(&mut book, action_part(sheet, k));
        printed += "\n";
    }
    printed.into_bytes()
}
