//! What the cases are drawn from. Good values are drawn most often; bad ones over the whole range of their type, those that are bad by one
//! high bit alone among them.

use crate::model::{far_end, tag_to_steps, Book, Notice, Target, BROKEN};
use crate::questions::Numbers;
use crate::rows::{filing, question, width, withdrawal, Row};
use std::collections::BTreeSet;

pub struct Draw(pub Numbers);

/// The link with this code of a switch at a stage, and where it leads.
#[derive(Clone, Copy)]
pub struct Link {
    pub stage: u8,
    pub switch: u16,
    pub code: u8,
    pub far_end: u16,
}

impl Draw {
    pub fn below(&mut self, bound: u32) -> u32 {
        self.0.below(bound)
    }

    pub fn one_in(&mut self, k: u32) -> bool {
        self.below(k) == 0
    }

    fn any(&mut self) -> u64 {
        u64::from(self.below(1 << 16)) << 48 | u64::from(self.below(1 << 24)) << 24 | u64::from(self.below(1 << 24))
    }

    /// A number of `width` bits that is not below 2^bits: the edge, one high bit over good low bits, or anything.
    fn beyond(&mut self, bits: u32, width: u32) -> u64 {
        let last = u64::MAX >> (64 - width);
        if bits >= width {
            return self.any() & last;
        }
        let low = self.any() & !(u64::MAX << bits);
        match self.below(5) {
            0 => 1 << bits,
            1 => last,
            2 => self.any() & last | 1 << bits,
            _ => 1 << (bits + self.below(width - bits)) | low,
        }
    }

    /// 1 to 12, or any byte.
    pub fn size(&mut self) -> u8 {
        if self.one_in(10) { self.below(256) as u8 } else { 1 + self.below(12) as u8 }
    }

    pub fn label(&mut self, n: u8) -> u16 {
        let bits = u32::from(n.clamp(1, 12));
        if self.one_in(12) { self.beyond(bits, 16) as u16 } else { self.below(1 << bits) as u16 }
    }

    pub fn tag(&mut self, n: u8) -> u32 {
        let bits = 2 * u32::from(n.clamp(1, 12));
        if self.one_in(8) { self.beyond(bits, 32) as u32 } else { self.below(1 << bits) }
    }

    pub fn code(&mut self) -> u8 {
        if self.one_in(8) { self.below(256) as u8 } else { self.below(3) as u8 }
    }

    pub fn stage(&mut self, n: u8) -> u8 {
        match self.below(16) {
            0 => n,
            1 => self.below(256) as u8,
            _ => self.below(n.max(1).into()) as u8,
        }
    }

    fn set(&mut self) -> u8 {
        if self.one_in(12) { self.below(256) as u8 } else { 1 + self.below(7) as u8 }
    }

    /// The class of a notice, or the choice of a route: 0 or 1, or any byte.
    pub fn class(&mut self) -> u8 {
        if self.one_in(16) { self.below(256) as u8 } else { self.below(2) as u8 }
    }

    /// A sheet's version.
    pub fn version(&mut self) -> u16 {
        1 + self.below(2) as u16
    }

    /// Few numbers, so that they are used again, or any.
    pub fn number(&mut self) -> u16 {
        if self.one_in(12) { self.below(1 << 16) as u16 } else { self.below(61) as u16 }
    }

    /// So many different numbers in no order: few and close, or any, with the least and the greatest among them, and some that differ in one
    /// of their two bytes alone.
    pub fn numbers(&mut self, count: usize) -> Vec<u16> {
        let close = self.one_in(2);
        let mut numbers = Vec::new();
        while numbers.len() < count {
            let number = match self.below(8) {
                0 => [1, 255, 256, 257, 65535][self.below(5) as usize],
                1 => 256 * self.below(8) as u16 + self.below(4) as u16,
                _ if close => 1 + self.below(100) as u16,
                _ => 1 + self.below(65535) as u16,
            };
            if number != 0 && !numbers.contains(&number) {
                numbers.push(number);
            }
        }
        numbers
    }

    /// The number of a notice that stands, where one does.
    pub fn standing(&mut self, book: &Book) -> u16 {
        let notices = book.standing();
        if notices.is_empty() { self.number() } else { notices[self.below(notices.len() as u32) as usize].number }
    }

    /// An action's place in a sheet of so many: one that is there, or not, by a little or by a high bit alone.
    pub fn place(&mut self, count: usize) -> usize {
        let there = self.below(count.max(1) as u32) as usize;
        match self.below(6) {
            0 => count,
            1 => there | 1 << (8 + self.below(56)),
            2 => there + 256 * self.below(1 << 20) as usize,
            3 => self.any() as usize,
            _ => there,
        }
    }

    pub fn bytes(&mut self, most: u32) -> Vec<u8> {
        (0..self.below(most + 1)).map(|_| self.below(256) as u8).collect()
    }

    /// Steps for `steps_to_tag`, and sometimes a byte that is no code among them.
    pub fn codes(&mut self, most: u32) -> Vec<u8> {
        let mut codes: Vec<u8> = (0..self.below(most + 1)).map(|_| self.below(3) as u8).collect();
        if !codes.is_empty() && self.one_in(4) {
            let at = self.below(codes.len() as u32) as usize;
            codes[at] = self.below(256) as u8;
        }
        codes
    }

    /// A few labels that questions and notices share.
    pub fn near(&mut self, n: u8) -> Vec<u16> {
        (0..4).map(|_| self.below(1 << n.clamp(1, 12)) as u16).collect()
    }

    /// A label near these, or any.
    pub fn pick(&mut self, n: u8, near: &[u16]) -> u16 {
        if self.one_in(2) { self.label(n) } else { near[self.below(near.len() as u32) as usize] }
    }

    /// A notice near these labels, of either class or none.
    pub fn notice(&mut self, n: u8, near: &[u16]) -> Notice {
        Notice { class: self.class(), ..self.broken(n, near) }
    }

    /// A broken notice near these labels, so that several name one link and routes between them meet it.
    fn broken(&mut self, n: u8, near: &[u16]) -> Notice {
        let number = self.number();
        let stage = self.stage(n);
        let label = self.pick(n, near);
        let size = 1u32 << n.clamp(1, 12);
        let moved = ((u32::from(label) + (1 << self.below(n.clamp(1, 12).into()))) % size) as u16;
        let switch = if self.one_in(3) { moved } else { label };
        let target = match self.below(3) {
            0 => Target::Links { stage, switch, set: self.set() },
            1 => Target::Switch { column: stage.wrapping_add(self.below(2) as u8), switch },
            _ => {
                let mask = if self.one_in(12) { self.below(65536) } else { self.below(size) | self.below(size) } as u16;
                let value = if self.one_in(12) { self.below(65536) as u16 } else { switch & mask };
                Target::Pattern { stage, value, mask, set: self.set() }
            }
        };
        Notice { number, target, class: BROKEN }
    }

    /// A target that names this link, and perhaps others: the link's far end is given too.
    pub fn naming(&mut self, n: u8, link: Link) -> Target {
        let Link { stage, switch, code, far_end } = link;
        let set = 1 << code | if self.one_in(3) { self.below(8) as u8 } else { 0 };
        match self.below(if n == 1 { 2 } else { 3 }) {
            0 => Target::Links { stage, switch, set },
            1 if stage == 0 && self.one_in(2) => Target::Switch { column: 0, switch },
            1 => Target::Switch { column: stage + 1, switch: far_end },
            _ => {
                let mut mask = self.below(1 << n) as u16;
                while mask.count_ones() < 2 {
                    mask |= 1 << self.below(n.into());
                }
                Target::Pattern { stage, value: switch & mask, mask, set }
            }
        }
    }

    /// The link of this stage on a path of the undamaged fabric, any of those from source to destination.
    pub fn link_between(&mut self, n: u8, source: u16, destination: u16, stage: u8) -> Link {
        let tag = u32::from(destination) | self.below(1 << n) << n;
        let mut steps = [0; 12];
        tag_to_steps(n, source, tag, &mut steps);
        let mut switch = source;
        for i in 0..stage {
            switch = far_end(n, i, switch, steps[usize::from(i)]);
        }
        let code = steps[usize::from(stage)];
        Link { stage, switch, code, far_end: far_end(n, stage, switch, code) }
    }

    /// An action: a filing mostly, a withdrawal, a route, or bytes that are none of them; of version 1 without a class.
    pub fn row(&mut self, version: u16, n: u8, near: &[u16]) -> Row {
        let mut row = match self.below(10) {
            0..=5 => filing(self.broken(n, near)),
            6 | 7 => withdrawal(self.number()),
            8 => question(self.pick(n, near), self.pick(n, near), 0),
            _ => {
                let mut row = filing(self.broken(n, near));
                row[self.below(10) as usize] ^= 1 << self.below(8);
                row
            }
        };
        let has_class = version == 2 && (row[0] != 2 || self.one_in(8));
        row[10] = if has_class { self.class() } else { 0 };
        row
    }

    pub fn rows(&mut self, version: u16, n: u8, near: &[u16], count: u32) -> Vec<Row> {
        (0..count).map(|_| self.row(version, n, near)).collect()
    }

    /// So many actions of which no two are the same in a sheet of this version.
    pub fn different_rows(&mut self, version: u16, n: u8, count: usize) -> Vec<Row> {
        let near = self.near(n);
        let mut seen = BTreeSet::new();
        let mut rows = Vec::new();
        while rows.len() < count {
            let row = self.row(version, n, &near);
            if seen.insert(row[..width(version)].to_vec()) {
                rows.push(row);
            }
        }
        rows
    }
}
