//! Random books, damaged sheets, full books and the largest sheets, and every stopped set of the smallest fabrics.

use crate::compared::Compared;
use crate::draw::Draw;
use crate::entries::{self, action_at, action_reader, header, link, listing, route, routes, run, walk};
use crate::face;
use crate::model::{self, book_of, Notice, Target, ALL, BROKEN, BROKEN_ONLY};
use crate::rows::{action, classed, filing, sheet_of, withdrawal, Row};
use crate::written;
use std::collections::BTreeMap;

/// Tags and steps at a random size.
pub fn random_tags(compared: &mut Compared, draw: &mut Draw) {
    let n = draw.size();
    let (source, tag, memory) = (draw.label(n), draw.tag(n), draw.codes(16));
    entries::tags(compared, n, source, tag, &memory);
}

/// A random book, every entry over it, and the sheet that made it.
pub fn random_book(compared: &mut Compared, draw: &mut Draw) {
    let (version, n) = (draw.version(), draw.size());
    let near = draw.near(n);
    let count = match draw.below(4) {
        0 => draw.below(4),
        1 => 100 + draw.below(60),
        _ => draw.below(40),
    };
    let rows = draw.rows(version, n, &near, count);
    let sheet = sheet_of(version, n, &rows);
    let book = book_of(&sheet);
    for _ in 0..12 {
        let (source, destination, choice) = (draw.pick(n, &near), draw.pick(n, &near), draw.class());
        route(compared, &sheet, &book, (source, destination), choice);
        // a tag that is clear of the notices that count, or was before one of its bits was changed, or any
        let tag = match face::route(&sheet, source, destination, choice) {
            Ok(tag) if draw.one_in(2) => tag ^ (draw.below(2) << draw.below(2 * u32::from(n.clamp(1, 12)))),
            _ => draw.tag(n),
        };
        walk(compared, &sheet, &book, source, tag);
        let (stage, code) = (draw.stage(n), draw.code());
        link(compared, &sheet, &book, stage, source, code);
    }
    let pairs: Vec<u16> = (0..draw.below(14)).map(|_| draw.pick(n, &near)).collect();
    routes(compared, &sheet, &book, draw.class(), &pairs, draw.below(10) as usize);
    let standing = book.as_ref().map_or(0, |b| b.standing().len());
    for room in [0, 10 * standing, 11 * standing, (11 * standing).saturating_sub(1), 11 * standing + 7] {
        listing(compared, &sheet, &book, room);
    }
    let (notice, withdrawn) = (draw.notice(n, &near), draw.number());
    written::changes(compared, version, n, &rows, notice, withdrawn);
    let room = 24 + 48 * rows.len();
    for room in [room, room - 1, room + 9, 23] {
        run(compared, &sheet, room);
    }
}

/// A sheet with bytes changed, cut off or added.
pub fn damaged_sheet(compared: &mut Compared, draw: &mut Draw) {
    let (version, n) = (draw.version(), draw.size());
    let near = draw.near(n);
    let count = draw.below(6);
    let mut sheet = sheet_of(version, n, &draw.rows(version, n, &near, count));
    for _ in 0..draw.below(3) {
        let at = draw.below(sheet.len() as u32) as usize;
        sheet[at] = if draw.one_in(2) { draw.below(256) as u8 } else { sheet[at].wrapping_add(1) };
    }
    match draw.below(6) {
        0 => sheet.truncate(draw.below(sheet.len() as u32 + 1) as usize),
        1 => sheet.extend(draw.bytes(12)),
        2 => sheet = draw.bytes(30),
        _ => {}
    }
    header(compared, &sheet);
    for _ in 0..6 {
        let k = draw.place(count as usize);
        action_at(compared, &sheet, k);
        action_reader(compared, model::action_part(&sheet, k), draw.below(10) as usize);
    }
    run(compared, &sheet, 24 + 48 * (count as usize + 3));
    let book = book_of(&sheet);
    let (source, destination, choice) = (draw.label(n), draw.label(n), draw.class());
    route(compared, &sheet, &book, (source, destination), choice);
    routes(compared, &sheet, &book, choice, &[source, destination, destination], draw.below(3) as usize);
    routes(compared, &sheet, &book, choice, &[source, destination, destination, source], draw.below(4) as usize);
    written::writes(compared, &sheet);
    let room = draw.below(80) as usize;
    entries::file(compared, &sheet, draw.notice(n, &near), room);
    entries::withdraw(compared, &sheet, draw.number(), room);
}

/// Parts of every length, and ten or eleven bytes with one that matters.
pub fn random_part(compared: &mut Compared, draw: &mut Draw) {
    let part = draw.bytes(13);
    action_reader(compared, &part, draw.below(11) as usize);
    let (n, near) = (12, draw.near(12));
    let mut twelve = [&draw.row(2, n, &near)[..], &[0]].concat();
    twelve[draw.below(11) as usize] = [0, 1, 2, 3, 4, 255][draw.below(6) as usize];
    for length in 9..=12 {
        action_reader(compared, &twelve[..length], draw.below(11) as usize);
    }
}

/// 48 notices and the 49th, numbers used again.
pub fn full_book(compared: &mut Compared, draw: &mut Draw) {
    let (version, n) = (draw.version(), 3 + draw.below(10) as u8);
    let mut links = |number: u32| {
        let ten = action(1, number, 1, draw.below(n.into()), draw.below(1 << n), 0, 1 + draw.below(7));
        classed(ten, draw.below(2) as u8)
    };
    let mut rows: Vec<Row> = (1..=48).rev().map(&mut links).collect();
    let gone = 1 + draw.below(48) as u16;
    for step in 0..3 {
        let sheet = sheet_of(version, n, &rows);
        let book = book_of(&sheet);
        let number = if step == 2 { gone } else { 100 + draw.below(9) as u16 };
        let target = Target::Switch { column: n, switch: draw.below(1 << n) as u16 };
        written::changes(compared, version, n, &rows, Notice { number, target, class: draw.class() }, gone);
        listing(compared, &sheet, &book, 479 + step);
        listing(compared, &sheet, &book, 527 + step);
        rows.push(withdrawal(gone));
    }
}

/// Sheets around 256 actions and up to as many as a sheet may have, and one more, of both versions; no two of their actions are the same.
pub fn large_sheets(compared: &mut Compared, draw: &mut Draw) {
    for count in [61, 255, 256, 257, 511, 1000, 4095, 4096, 4097] {
        for version in [1, 2] {
            large_sheet(compared, draw, version, count);
        }
    }
}

/// So many actions, and the sheet with a byte less and a byte more.
fn large_sheet(compared: &mut Compared, draw: &mut Draw, version: u16, count: usize) {
    let n = 3 + draw.below(6) as u8;
    let sheet = sheet_of(version, n, &draw.different_rows(version, n, count));
    let mut longer = sheet.clone();
    longer.push(0);
    for cut in [&sheet, &sheet[..sheet.len() - 1], &longer] {
        header(compared, cut);
        run(compared, cut, 24 + 48 * count);
    }
    for k in (0..count + 3).chain((0..400).map(|_| draw.place(count))).chain([usize::MAX]) {
        action_at(compared, &sheet, k);
        action_reader(compared, face::action_part(&sheet, k), 8);
    }
    let book = book_of(&sheet);
    listing(compared, &sheet, &book, 528);
    written::writes(compared, &sheet);
}

/// n = 1 and 2: every tag and all steps; every stopped set at n = 1, and every set of up to three links at n = 2.
pub fn smallest_fabrics(compared: &mut Compared) {
    for n in 1..=2 {
        every_tag(compared, n);
    }
    let one = links(1);
    for stopped in 0..1u32 << one.len() {
        let set: Vec<_> = one.iter().enumerate().filter(|(k, _)| stopped >> k & 1 == 1).map(|(_, &l)| l).collect();
        every_question(compared, 1, &stopping(&set), true);
    }
    let two = links(2);
    for a in 0..two.len() {
        for b in a..two.len() {
            for c in b..two.len() {
                every_question(compared, 2, &stopping(&[two[a], two[b], two[c]]), a == b || b == c);
            }
        }
    }
}

/// The same stopped sets with a notice for each link: at n = 1 with their numbers in every order, at n = 2 in one order or another.
pub fn orders_of_numbers(compared: &mut Compared) {
    let one = links(1);
    for stopped in 0..1u32 << one.len() {
        let set: Vec<_> = one.iter().enumerate().filter(|(k, _)| stopped >> k & 1 == 1).map(|(_, &l)| l).collect();
        orders(set.len() as u16).iter().for_each(|numbers| every_question(compared, 1, &one_by_one(&set, numbers), true));
    }
    let (two, three) = (links(2), orders(3));
    for a in 0..two.len() {
        for b in 0..a {
            for c in 0..b {
                let numbers = &three[(a + b + c) % three.len()];
                every_pair(compared, 2, &one_by_one(&[two[a], two[b], two[c]], numbers));
            }
        }
    }
}

/// The numbers from 1 to so many, in every order.
fn orders(count: u16) -> Vec<Vec<u16>> {
    if count == 0 {
        return vec![Vec::new()];
    }
    let mut all = Vec::new();
    for order in orders(count - 1) {
        for place in 0..=order.len() {
            let mut longer = order.clone();
            longer.insert(place, count);
            all.push(longer);
        }
    }
    all
}

/// A broken notice for each link, with these numbers.
pub fn one_by_one(links: &[(u8, u16, u8)], numbers: &[u16]) -> Vec<Row> {
    let stopping = |&(stage, switch, code): &(u8, u16, u8)| Target::Links { stage, switch, set: 1 << code };
    let notices = links.iter().map(stopping).zip(numbers);
    notices.map(|(target, &number)| filing(Notice { number, target, class: BROKEN })).collect()
}

fn every_tag(compared: &mut Compared, n: u8) {
    for source in 0..=1u16 << n {
        for tag in 0..=1u32 << (2 * n) {
            entries::tags(compared, n, source, tag, &[0, 0, 9]);
        }
        for steps in 0..256u32 {
            entries::steps(compared, n, source, &[(steps % 4) as u8, (steps / 4 % 4) as u8, (steps / 16) as u8][..usize::from(n)]);
        }
    }
}

/// All links of a fabric: stage, switch and code.
pub fn links(n: u8) -> Vec<(u8, u16, u8)> {
    (0..n).flat_map(|i| (0..1u16 << n).flat_map(move |j| (0..3).map(move |c| (i, j, c)))).collect()
}

/// The notices that stop exactly these links, a set for each switch of each stage.
fn stopping(links: &[(u8, u16, u8)]) -> Vec<Row> {
    let mut sets: BTreeMap<(u8, u16), u8> = BTreeMap::new();
    for &(stage, switch, code) in links {
        *sets.entry((stage, switch)).or_insert(0) |= 1 << code;
    }
    let notices = (1..).zip(sets).map(|(number, ((stage, switch), set))| {
        let target = Target::Links { stage, switch, set };
        Notice { number, target, class: BROKEN }
    });
    notices.map(filing).collect()
}

/// All pairs over one stopped set, in one call for each choice.
pub fn every_pair(compared: &mut Compared, n: u8, rows: &[Row]) {
    let sheet = sheet_of(2, n, rows);
    let book = book_of(&sheet);
    let pairs: Vec<u16> = (0..=1u16 << n).flat_map(|s| (0..=1u16 << n).flat_map(move |d| [s, d])).collect();
    for choice in [ALL, BROKEN_ONLY] {
        routes(compared, &sheet, &book, choice, &pairs, pairs.len() / 2);
    }
}

/// All pairs over one stopped set, in one call and each in its own, and all tags and links where they are asked for.
fn every_question(compared: &mut Compared, n: u8, rows: &[Row], tags: bool) {
    every_pair(compared, n, rows);
    let sheet = sheet_of(1, n, rows);
    let book = book_of(&sheet);
    for source in 0..1u16 << n {
        for destination in 0..1u16 << n {
            route(compared, &sheet, &book, (source, destination), ALL);
        }
        for tag in 0..if tags { 1u32 << (2 * n) } else { 0 } {
            walk(compared, &sheet, &book, source, tag);
        }
        for stage in 0..if tags { n } else { 0 } {
            (0..3).for_each(|code| link(compared, &sheet, &book, stage, source, code));
        }
    }
}
