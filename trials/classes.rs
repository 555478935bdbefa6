//! docs/RULES.md, 'Classes': where a class or a choice is refused, which sheets of the two versions are one, and what a route over the broken
//! notices only answers beside one over a book that has no others.

use crate::cases::{every_pair, links, one_by_one};
use crate::compared::Compared;
use crate::draw::Draw;
use crate::entries::{self, number};
use crate::face;
use crate::model::{book_of, Book, Notice, Target, ALL, BROKEN, BROKEN_ONLY, BUSY};
use crate::overlaps::broken_alone;
use crate::rows::{filing, sheet_of, width, Row};

pub fn all(compared: &mut Compared, draw: &mut Draw) {
    orders_of_refusals(compared);
    smallest_fabrics(compared);
    (0..20).for_each(|_| lengths_of_both(compared, draw));
}

pub fn random(compared: &mut Compared, draw: &mut Draw) {
    versions_alike(compared, draw);
    broken_only(compared, draw);
    lengths_of_both(compared, draw);
}

/// Filings with every set of faults, over a book with room and over a full one: "File (book, notice): 16, 3, 4, 5, 6, 7, 8", a class above 1 "where the set and
/// the mask are judged".
fn orders_of_refusals(compared: &mut Compared) {
    let standing = |number: u16| {
        let target = Target::Switch { column: 0, switch: number % 8 };
        filing(Notice { number, target, class: (number % 2) as u8 })
    };
    for sheet in [3, 47, 48].map(|count| sheet_of(2, 3, &(1..=count).map(standing).collect::<Vec<Row>>())) {
        for number in [0, 1, 2, 49] {
            for target in targets() {
                for class in [0, 1, 2, 3, 128, 255] {
                    entries::file(compared, &sheet, Notice { number, target, class }, 536);
                    entries::file(compared, &sheet, Notice { number, target, class }, 0);
                }
            }
        }
    }
}

/// Targets of each kind for n = 3, with and without what 4, 5 and 6 refuse.
fn targets() -> Vec<Target> {
    let mut targets = Vec::new();
    for stage in [0, 3] {
        for set in [0, 1, 8] {
            targets.extend([1, 8].map(|switch| Target::Links { stage, switch, set }));
            targets.extend([(1, 3), (1, 1), (4, 3), (0, 11), (8, 8)].map(|(value, mask)| Target::Pattern { stage, value, mask, set }));
        }
    }
    for column in [0, 3, 4] {
        targets.extend([1, 8].map(|switch| Target::Switch { column, switch }));
    }
    targets
}

/// n = 1 with each link clear, broken or busy, and n = 2 with every three links, each broken or busy: all pairs with both choices.
fn smallest_fabrics(compared: &mut Compared) {
    let one = links(1);
    for kinds in 0..3u32.pow(one.len() as u32) {
        let kind = |k: usize| (kinds / 3u32.pow(k as u32) % 3) as u8;
        let stopped: Vec<usize> = (0..one.len()).filter(|&k| kind(k) > 0).collect();
        let named: Vec<_> = stopped.iter().map(|&k| one[k]).collect();
        let classes: Vec<u8> = stopped.iter().map(|&k| kind(k) - 1).collect();
        every_pair(compared, 1, &with_classes(one_by_one(&named, &[6, 5, 4, 3, 2, 1]), &classes));
    }
    let two = links(2);
    for a in 0..two.len() {
        for b in 0..a {
            for c in 0..b {
                let rows = one_by_one(&[two[a], two[b], two[c]], &[2, 1, 3]);
                for classes in [[0, 0, 1], [0, 1, 0], [1, 0, 0], [0, 1, 1], [1, 0, 1], [1, 1, 0], [1, 1, 1]] {
                    every_pair(compared, 2, &with_classes(rows.clone(), &classes));
                }
            }
        }
    }
}

fn with_classes(mut rows: Vec<Row>, classes: &[u8]) -> Vec<Row> {
    rows.iter_mut().zip(classes).for_each(|(row, &class)| row[10] = class);
    rows
}

/// A sheet of version 1 and that of version 2 with class 0 everywhere: they print the same, and every entry over them answers the same.
/// "Sheets of version 1 are still run. Each notice of theirs is broken, and each route counts all."
fn versions_alike(compared: &mut Compared, draw: &mut Draw) {
    let n = draw.size();
    let near = draw.near(n);
    let count = draw.below(60);
    let rows = draw.rows(1, n, &near, count);
    let [one, two] = [1, 2].map(|version| sheet_of(version, n, &rows));
    let case = || format!("sheet {one:?}");
    let printed = |sheet: &[u8]| {
        let mut memory = vec![0; 24 + 48 * rows.len()];
        (number(face::run(sheet, &mut memory)), memory)
    };
    compared.same("both versions, what is printed", printed(&one), printed(&two), case);
    let written = |sheet: &[u8]| number(face::write(sheet, &mut [0; face::BOOK]).map(<[u8]>::to_vec));
    compared.same("both versions, the sheet written", written(&one), written(&two), case);
    for _ in 0..8 {
        let (source, destination) = (draw.pick(n, &near), draw.pick(n, &near));
        let over_all = face::route(&one, source, destination, ALL);
        for (sheet, choice) in [(&two, ALL), (&one, BROKEN_ONLY), (&two, BROKEN_ONLY)] {
            let case = || format!("sheet {sheet:?} from {source} to {destination} choice {choice}");
            compared.same("no busy notice, both choices and versions", face::route(sheet, source, destination, choice), over_all, case);
        }
    }
}

/// A route over the broken notices only is the route over a book of these alone, with either choice; a walk and the link test count the busy ones.
fn broken_only(compared: &mut Compared, draw: &mut Draw) {
    let n = 1 + draw.below(12) as u8;
    let near = draw.near(n);
    let count = draw.below(70);
    let sheet = sheet_of(2, n, &draw.rows(2, n, &near, count));
    let book = book_of(&sheet).expect("a good header");
    let broken = broken_alone(&book).sheet();
    let all_broken = classed_alike(&book, BROKEN);
    let all_busy = classed_alike(&book, BUSY);
    for _ in 0..12 {
        let (source, destination) = (draw.pick(n, &near), draw.pick(n, &near));
        let case = || format!("sheet {sheet:?} from {source} to {destination}");
        let asked = |sheet: &[u8], choice| face::route(sheet, source, destination, choice);
        for choice in [ALL, BROKEN_ONLY] {
            compared.same("broken notices only, and no others", asked(&sheet, BROKEN_ONLY), asked(&broken, choice), case);
            compared.same("all notices, and all of them broken", asked(&sheet, ALL), asked(&all_broken, choice), case);
        }
        compared.same("all notices, and all of them busy", asked(&sheet, ALL), asked(&all_busy, ALL), case);
        compared.same("all notices busy, and none", asked(&all_busy, BROKEN_ONLY), asked(&sheet_of(1, n, &[]), BROKEN_ONLY), case);
        let (tag, stage, code) = (draw.tag(n), draw.stage(n), draw.code());
        for other in [&all_broken, &all_busy] {
            compared.same("a walk, whatever the classes", face::walk(&sheet, source, tag), face::walk(other, source, tag), case);
            let link = |sheet: &[u8]| face::link(sheet, stage, source, code);
            compared.same("the link test, whatever the classes", link(&sheet), link(other), case);
        }
    }
}

/// The sheet of the same notices, all of one class.
fn classed_alike(book: &Book, class: u8) -> Vec<u8> {
    let rows: Vec<Row> = book.standing().into_iter().map(|notice| filing(Notice { class, ..notice })).collect();
    sheet_of(2, book.size(), &rows)
}

/// Eleven actions of version 1 are as long as ten of version 2: the same bytes after either header.
fn lengths_of_both(compared: &mut Compared, draw: &mut Draw) {
    let n = 1 + draw.below(12) as u8;
    let near = draw.near(n);
    let version = draw.version();
    let mut sheet = sheet_of(version, n, &draw.rows(version, n, &near, if version == 1 { 11 } else { 10 }));
    for (version, count) in [(1, 11), (2, 10), (1, 10), (2, 11)] {
        (sheet[4], sheet[7]) = (version, count);
        entries::header(compared, &sheet);
        entries::run(compared, &sheet, 24 + 48 * 11);
        let book = book_of(&sheet);
        entries::listing(compared, &sheet, &book, width(2) * 11);
        entries::write(compared, &sheet, face::BOOK);
        (0..12).for_each(|k| entries::action_at(compared, &sheet, k));
    }
}
