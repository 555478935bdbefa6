//! A book in the hands of a host: it is opened, and each change is made over the sheet that the last accepted one handed back, in two memories in
//! turn, as include/tabashfar.h shows it. The model's book lives through the same changes without ever being a sheet.

use crate::compared::Compared;
use crate::draw::Draw;
use crate::entries::{self, number};
use crate::face;
use crate::model::{self, Action, Book};
use crate::rows::{sheet_of, withdrawal, Row};

struct Host {
    /// the book is the sheet of so many bytes in memory[at]
    memory: [[u8; face::BOOK]; 2],
    at: usize,
    length: usize,
    /// the model's book
    book: Book,
    /// every action but the changes that had too little memory
    actions: Vec<Row>,
}

impl Host {
    fn opened(compared: &mut Compared, n: u8) -> Host {
        let mut memory = [[170; face::BOOK]; 2];
        let opened = number(face::open(n, &mut memory[0]).map(<[u8]>::len));
        compared.same("a host's life, open", opened, Ok(8), || format!("n {n}"));
        Host { memory, at: 0, length: 8, book: model::open(n).0, actions: Vec::new() }
    }

    fn sheet(&self) -> &[u8] {
        &self.memory[self.at][..self.length]
    }

    /// An action over the sheet in hand, a change with so many bytes of the other memory lent to it.
    fn acts(&mut self, compared: &mut Compared, row: Row, room: usize) {
        let answer = match model::read_action(&row) {
            Ok(Action::File(notice)) => {
                let mut after = self.book.clone();
                let own = after.file(notice);
                self.changes(compared, row, room, (after, own), |sheet, lent| number(entries::proved_filing(sheet, notice, lent)))
            }
            Ok(Action::Withdraw(k)) => {
                let mut after = self.book.clone();
                let own = after.withdraw(k);
                self.changes(compared, row, room, (after, own), |sheet, lent| number(entries::proved_withdrawing(sheet, k, lent)))
            }
            Ok(Action::Route { source, destination, choice }) => {
                entries::route(compared, self.sheet(), &Ok(self.book.clone()), (source, destination), choice);
                Ok(0)
            }
            Err(_) => Ok(0),
        };
        if answer != Err(13) {
            self.actions.push(row);
        }
    }

    /// A change, and what it answers: the model's book after it, and its own number, are given.
    fn changes(
        &mut self, compared: &mut Compared, row: Row, room: usize, (after, own): (Book, u8),
        proved: impl FnOnce(&[u8], &mut [u8]) -> Result<usize, u8>,
    ) -> Result<usize, u8> {
        let (before, lent) = (self.sheet().to_vec(), self.memory[1 - self.at]);
        let given = proved(&before, &mut self.memory[1 - self.at][..room]);
        let mut left = lent;
        let answer = if own == 0 { after.write(&mut left[..room]) } else { Err(own) };
        let case = || format!("sheet {before:?} action {row:?} room {room}");
        compared.same("a host's life, a change", (given, self.memory[1 - self.at]), (answer, left), case);
        if let Ok(length) = answer {
            if before[4] != left[4] {
                compared.tempts(if left[4] == 2 { "a host's life, from version 1 to 2" } else { "a host's life, from version 2 to 1" });
            }
            (self.at, self.length, self.book) = (1 - self.at, length, after);
        }
        answer
    }

    /// How many bytes the sheet has after this action, where it is a change that is accepted; otherwise as many as now.
    fn needed(&self, row: &Row) -> usize {
        let mut after = self.book.clone();
        match model::read_action(row) {
            Ok(Action::File(notice)) => drop(after.file(notice)),
            Ok(Action::Withdraw(number)) => drop(after.withdraw(number)),
            _ => {}
        }
        after.sheet().len()
    }

    /// The sheet in hand is that of one long sheet of the same actions.
    fn ends(&self, compared: &mut Compared) {
        let all = sheet_of(2, self.book.size(), &self.actions);
        let mut memory = [0; face::BOOK];
        let written = number(face::write(&all, &mut memory));
        compared.same("a host's life, all of it as one sheet", written, Ok(self.sheet()), || format!("sheet {all:?}"));
        compared.same("a host's life, the model's book", self.sheet(), &self.book.sheet(), || format!("sheet {all:?}"));
    }
}

/// So many actions, in stretches in which the book fills and in which it empties. In some lives busy notices are so rare that the last one goes
/// and another comes.
fn lived(compared: &mut Compared, draw: &mut Draw, count: u32) {
    let n = 1 + draw.below(12) as u8;
    let near = draw.near(n);
    let rare = [1, 4, 40][draw.below(3) as usize];
    let mut host = Host::opened(compared, n);
    for k in 0..count {
        let fills = k / 300 % 2 == 0;
        let withdraws = draw.one_in(if fills { 30 } else { 2 });
        let version = if draw.one_in(rare) { 2 } else { 1 };
        let row = if withdraws { withdrawal(draw.standing(&host.book)) } else { draw.row(version, n, &near) };
        let edge = host.needed(&row) + draw.below(24) as usize - 8;
        let room = if draw.one_in(6) { edge.min(face::BOOK) } else { face::BOOK };
        host.acts(compared, row, room);
    }
    host.ends(compared);
}

pub fn random(compared: &mut Compared, draw: &mut Draw) {
    let count = 100 + draw.below(500);
    lived(compared, draw, count);
}

/// As many actions as one sheet may have.
pub fn longest(compared: &mut Compared, draw: &mut Draw) {
    (0..4).for_each(|_| lived(compared, draw, 4096));
}
