//! Each argument over its whole range where that is small, and bit by bit where it is not.

use crate::compared::Compared;
use crate::draw::Draw;
use crate::entries;
use crate::model::{book_of, far_end, Notice, Target, ALL, BROKEN, BROKEN_ONLY, BUSY};
use crate::rows::{filing, question, sheet_of, withdrawal, Row};

pub fn all(compared: &mut Compared, draw: &mut Draw) {
    sizes(compared);
    pairs(compared, draw);
    for n in 1..=12 {
        labels(compared, n);
        labels_in_one_call(compared, n);
        tags(compared, draw, n);
        codes(compared, draw, n);
        notices(compared, n);
        columns(compared, draw, n);
    }
    numbers(compared);
    numbers_named(compared);
    choices(compared);
    headers(compared);
    versions(compared);
    counts(compared);
    parts(compared);
    (0..=10).for_each(|room| entries::action_reader(compared, &withdrawal(0xABCD), room));
    (0..=10).for_each(|room| entries::action_reader(compared, &withdrawal(0xABCD)[..10], room));
}

/// n over all bytes.
fn sizes(compared: &mut Compared) {
    for n in 0..=255 {
        for room in [0, 7, 8, 9, 488, 536, 65_536, 65_543] {
            entries::open(compared, n, room);
        }
        entries::tags(compared, n, 0, 0, &[0; 12]);
        for version in [1, 2] {
            entries::header(compared, &sheet_of(version, n, &[]));
            entries::run(compared, &sheet_of(version, n, &[question(0, 1, 0)]), 72);
        }
    }
}

/// Sources, destinations and switches over all numbers of 16 bits that are no labels, and the labels at the edge.
fn labels(compared: &mut Compared, n: u8) {
    let sheet = sheet_of(1, n, &[]);
    let book = book_of(&sheet);
    for label in (1u16 << n) - 1..=u16::MAX {
        entries::route(compared, &sheet, &book, (label, 0), ALL);
        entries::route(compared, &sheet, &book, (0, label), ALL);
        entries::walk(compared, &sheet, &book, label, 0);
        entries::link(compared, &sheet, &book, 0, label, 0);
        if label % 16 == 0 {
            entries::tags(compared, n, label, 0, &[0; 12]);
        }
    }
}

/// The same labels and more, of one call: as a source, and as a destination.
fn labels_in_one_call(compared: &mut Compared, n: u8) {
    let target = Target::Links { stage: 0, switch: 0, set: 1 };
    let sheet = sheet_of(2, n, &[filing(Notice { number: 1, target, class: BUSY })]);
    let book = book_of(&sheet);
    let pairs: Vec<u16> = ((1u16 << n) / 2..=u16::MAX).flat_map(|label| [label, 0, 0, label]).collect();
    for choice in [0, 1, 2] {
        entries::routes(compared, &sheet, &book, choice, &pairs, pairs.len() / 2 + 1);
    }
}

/// Every length of pairs and every room up to some, over sheets whose headers are good and bad.
fn pairs(compared: &mut Compared, draw: &mut Draw) {
    let near = draw.near(4);
    let good = sheet_of(2, 4, &draw.rows(2, 4, &near, 12));
    let (mut marked, mut sized, mut counted) = (good.clone(), good.clone(), good.clone());
    marked[0] ^= 1;
    sized[5] = 13;
    counted[7] += 1;
    for sheet in [good, marked, sized, counted, Vec::new()] {
        let book = book_of(&sheet);
        for length in 0..40 {
            for room in 0..24 {
                let pairs: Vec<u16> = (0..length).map(|_| draw.pick(4, &near)).collect();
                entries::routes(compared, &sheet, &book, draw.class(), &pairs, room);
            }
        }
    }
}

/// Tags that have one bit at 2n or above, over low bits that are zero, one or anything.
fn tags(compared: &mut Compared, draw: &mut Draw, n: u8) {
    let sheet = sheet_of(1, n, &[]);
    let book = book_of(&sheet);
    let good = 1u32 << (2 * n);
    for position in 2 * n..32 {
        for low in [0, good - 1, draw.below(good), draw.below(good)] {
            let tag = low | 1 << position;
            entries::tags(compared, n, 0, tag, &[0; 12]);
            entries::walk(compared, &sheet, &book, 0, tag);
        }
    }
}

/// Every byte as the code of a link, and at every place among n steps.
fn codes(compared: &mut Compared, draw: &mut Draw, n: u8) {
    let sheet = sheet_of(1, n, &[]);
    let book = book_of(&sheet);
    for code in 0..=255 {
        entries::link(compared, &sheet, &book, 0, 0, code);
        for place in 0..usize::from(n) {
            let mut steps: Vec<u8> = (0..n).map(|_| draw.below(3) as u8).collect();
            steps[place] = code;
            entries::steps(compared, n, 0, &steps);
        }
    }
}

/// Stages, columns, sets, masks and classes of a notice over all their bytes and bits.
fn notices(compared: &mut Compared, n: u8) {
    let sheet = sheet_of(1, n, &[]);
    let mut classed = |target, class| {
        let notice = Notice { number: 1, target, class };
        [0, 17, 18, 19].iter().for_each(|&room| entries::file(compared, &sheet, notice, room));
    };
    for class in 0..=255 {
        classed(Target::Links { stage: 0, switch: 0, set: 1 }, class);
        classed(Target::Switch { column: 0, switch: 0 }, class);
        classed(Target::Pattern { stage: 0, value: 0, mask: 3, set: 7 }, class);
    }
    let mut file = |target| classed(target, BROKEN);
    for byte in 0..=255 {
        file(Target::Links { stage: byte, switch: 0, set: 1 });
        file(Target::Links { stage: 0, switch: 0, set: byte });
        file(Target::Switch { column: byte, switch: 0 });
        file(Target::Pattern { stage: byte, value: 0, mask: 3, set: 7 });
        file(Target::Pattern { stage: 0, value: 0, mask: 3, set: byte });
    }
    for high in 0..16 {
        for low in 0..16 {
            let mask = 1 << high | 1 << low;
            file(Target::Pattern { stage: 0, value: mask, mask, set: 7 });
            file(Target::Pattern { stage: 0, value: 1 << low, mask: 3, set: 7 });
            file(Target::Links { stage: 0, switch: mask, set: 7 });
            file(Target::Switch { column: 0, switch: mask });
        }
    }
}

/// A switch notice in each column, beside a links notice of stage 0 or one of the next switch in column 0, whose number is higher or lower, of
/// either class: every link of the labels around the switch, routes between them and a walk from each.
fn columns(compared: &mut Compared, draw: &mut Draw, n: u8) {
    for column in 0..=n {
        let switch = draw.below(1 << n) as u16;
        let links = Target::Links { stage: 0, switch, set: 1 + draw.below(7) as u8 };
        let next = Target::Switch { column: 0, switch: far_end(n, 0, switch, 1) };
        let mut around: Vec<u16> = (0..n).flat_map(|i| [1, 2].map(|code| far_end(n, i, switch, code))).collect();
        around.push(switch);
        for (number, beside, target) in [(1, 2, links), (2, 1, links), (1, 2, next), (2, 1, next)] {
            let notices = [(number, Target::Switch { column, switch }), (beside, target)];
            let sheet = sheet_of(2, n, &notices.map(|(number, target)| filing(Notice { number, target, class: draw.below(2) as u8 })));
            let book = book_of(&sheet);
            for &label in &around {
                (0..3 * n).for_each(|link| entries::link(compared, &sheet, &book, link / 3, label, link % 3));
                entries::walk(compared, &sheet, &book, label, draw.below(1 << (2 * n)));
                entries::route(compared, &sheet, &book, (switch, label), BROKEN_ONLY);
                for &destination in &around {
                    entries::route(compared, &sheet, &book, (label, destination), ALL);
                }
            }
        }
    }
}

/// Every number of 16 bits, filed and withdrawn where a few stand.
fn numbers(compared: &mut Compared) {
    let notice = |number| Notice { number, target: Target::Links { stage: 0, switch: 0, set: 1 }, class: BROKEN };
    let sheet = sheet_of(1, 3, &[1, 2, 256, 257, 4096, 65535].map(notice).map(filing));
    for number in 0..=u16::MAX {
        entries::file(compared, &sheet, notice(number), 78);
        entries::file(compared, &sheet, Notice { class: BUSY, ..notice(number) }, 85);
        entries::withdraw(compared, &sheet, number, 58);
    }
}

/// Every number of 16 bits, filed beside one that names the same link: the lower is named.
fn numbers_named(compared: &mut Compared) {
    let target = Target::Links { stage: 0, switch: 0, set: 1 };
    for number in 0..=u16::MAX {
        let sheet = sheet_of(1, 3, &[0x1234, number].map(|number| filing(Notice { number, target, class: BROKEN })));
        let book = book_of(&sheet);
        entries::link(compared, &sheet, &book, 0, 0, 0);
        entries::walk(compared, &sheet, &book, 0, 0);
        entries::route(compared, &sheet, &book, (0, 0), ALL);
    }
}

/// Every byte as a choice: with a label that is none, 10 comes before; with no clear path over any notice, or over the busy one alone, 5 comes
/// before 11.
fn choices(compared: &mut Compared) {
    let stopping = |number, label, class| Notice { number, target: Target::Switch { column: 3, switch: label }, class };
    let sheet = sheet_of(2, 3, &[stopping(1, 1, BUSY), stopping(2, 2, BROKEN)].map(filing));
    let refused = &sheet[..sheet.len() - 1];
    for choice in 0..=255 {
        for sheet in [&sheet[..], refused] {
            let book = book_of(sheet);
            for pair in [(0, 0), (0, 1), (0, 2), (8, 0), (0, 8), (8, 8)] {
                entries::route(compared, sheet, &book, pair, choice);
            }
            for room in [5, 6, 7] {
                entries::routes(compared, sheet, &book, choice, &[0, 0, 0, 1, 0, 2, 8, 0, 0, 8, 8, 8], room);
            }
        }
    }
}

/// Every byte at every place of a header of either version, and every part of one.
fn headers(compared: &mut Compared) {
    let notice = Notice { number: 1, target: Target::Switch { column: 0, switch: 0 }, class: BUSY };
    for sheet in [1, 2].map(|version| sheet_of(version, 3, &[question(0, 1, 0)])) {
        for place in 0..8 {
            for byte in 0..=255 {
                let mut changed = sheet.clone();
                changed[place] = byte;
                entries::header(compared, &changed);
                entries::routes(compared, &changed, &book_of(&changed), ALL, &[0, 1, 1, 8], 3);
                for room in [0, 536] {
                    entries::write(compared, &changed, room);
                    entries::file(compared, &changed, notice, room);
                    entries::withdraw(compared, &changed, 1, room);
                }
            }
        }
        for length in 0..sheet.len() {
            entries::header(compared, &sheet[..length]);
            entries::write(compared, &sheet[..length], 536);
        }
    }
}

/// Every version of 16 bits, in sheets of the lengths that one action takes in either version, and of eight bytes.
fn versions(compared: &mut Compared) {
    let (mut one, mut none) = (sheet_of(2, 3, &[question(0, 1, 0)]), sheet_of(2, 3, &[]));
    for version in 0..=u16::MAX {
        for sheet in [&mut one, &mut none] {
            sheet[3..5].copy_from_slice(&version.to_be_bytes());
        }
        for sheet in [&one[..], &one[..18], &none] {
            entries::header(compared, sheet);
        }
    }
}

/// Every count of 16 bits, for either version in a sheet of the length that it asks for, of a byte less and of a byte more, and in one of the
/// length that the other version asks for.
fn counts(compared: &mut Compared) {
    let mut bytes = vec![0; 8 + 11 * 65535 + 1];
    for (version, here, there) in [(1, 10, 11), (2, 11, 10)] {
        bytes[..6].copy_from_slice(&[b'F', b'S', b'H', 0, version, 3]);
        for count in 0..=u16::MAX {
            bytes[6..8].copy_from_slice(&count.to_be_bytes());
            let length = 8 + here * usize::from(count);
            for length in [8, length - 1, length, length + 1, 8 + there * usize::from(count)] {
                entries::header(compared, &bytes[..length]);
            }
        }
    }
}

/// Every byte at every place of an action, for each action and kind, in ten bytes and in eleven with each class; parts of other lengths.
fn parts(compared: &mut Compared) {
    let number = 0x0102;
    let targets = [
        Target::Links { stage: 3, switch: 0x0405, set: 6 },
        Target::Switch { column: 3, switch: 0x0405 },
        Target::Pattern { stage: 3, value: 0x0405, mask: 0x0607, set: 1 },
    ];
    for class in 0..=2 {
        let mut rows: Vec<Row> = targets.iter().map(|&target| filing(Notice { number, target, class })).collect();
        let mut withdrawn = withdrawal(number);
        withdrawn[10] = class;
        rows.extend([withdrawn, question(0x0102, 0x0304, class)]);
        for row in rows {
            (0..11).for_each(|place| every_byte(compared, row, place));
            let long = [row, row].concat();
            (0..=22).for_each(|length| entries::action_reader(compared, &long[..length], 9));
        }
    }
}

/// Every byte at this place of an action, with its class and without.
fn every_byte(compared: &mut Compared, mut row: Row, place: usize) {
    for byte in 0..=255 {
        row[place] = byte;
        entries::action_reader(compared, &row, 8);
        entries::action_reader(compared, &row[..10], 8);
    }
}
