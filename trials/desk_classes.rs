//! The sheets of version 2 that crates/desk_runs runs: busy notices and broken ones, routes with either choice, and what is refused where a class or a
//! version is none.

use crate::desk_sheets::{bytes, example_acts, fault_acts, header, links, pattern, route, sheet_in, switch, withdraw, Act, Told};
use crate::draw::Draw;
use crate::questions::Numbers;
use crate::rows::sheet_of;

pub fn all() -> Vec<Told> {
    let mut all = vec![example(), busy_example(), choices(), lowest_broken(), full(), class_faults(), faults()];
    all.extend(counts());
    all.extend(lengths());
    all.extend(headers());
    all.extend(one_length());
    all.extend([smallest(), largest(), different()]);
    all
}

fn sheet(title: &str, n: u8, acts: Vec<Act>) -> Told {
    sheet_in(2, &format!("version 2: {title}"), n, acts)
}

fn with_class(class: u8, (words, mut row): Act) -> Act {
    row[10] = class;
    (format!("{words}, class {class}"), row)
}

fn busy((words, mut row): Act) -> Act {
    row[10] = 1;
    (format!("{words}, busy"), row)
}

/// A route for which the broken notices alone count.
fn over_broken(source: u16, destination: u16) -> Act {
    let (words, mut row) = route(source, destination);
    row[10] = 1;
    (format!("{words}, broken only"), row)
}

fn example() -> Told {
    sheet("01's example, every class 0: the lines of version 1", 3, example_acts())
}

/// The worked example with its last filing busy: the way that it stops is clear where broken notices alone count.
fn busy_example() -> Told {
    let mut acts = example_acts();
    acts[7] = busy(switch(10, 1, 2));
    acts.extend([over_broken(1, 0), withdraw(8), over_broken(1, 0), route(1, 0), over_broken(0, 8)]);
    sheet("01's example with notice 10 busy, and routes over broken notices only", 3, acts)
}

fn choices() -> Told {
    sheet(
        "one link, by a busy notice and by a broken one, each with the other and without; a number used again with another class",
        3,
        vec![
            busy(links(7, 1, 5, 1)),
            route(5, 5),
            over_broken(5, 5),
            links(8, 1, 5, 1),
            route(5, 5),
            over_broken(5, 5),
            links(7, 2, 5, 1),
            withdraw(7),
            route(5, 5),
            over_broken(5, 5),
            busy(links(8, 2, 5, 1)),
            withdraw(8),
            busy(links(8, 1, 5, 1)),
            over_broken(5, 5),
            route(5, 5),
            links(7, 1, 5, 1),
            over_broken(5, 5),
            route(5, 5),
        ],
    )
}

fn lowest_broken() -> Told {
    sheet(
        "after BY the lowest number among those that count, and the stage and the tag by them alone",
        3,
        vec![
            busy(links(5, 0, 1, 6)),
            pattern(20, 0, 1, 3, 2),
            links(30, 0, 1, 4),
            busy(switch(10, 1, 2)),
            route(1, 0),
            over_broken(1, 0),
            withdraw(20),
            over_broken(1, 0),
            route(1, 0),
            switch(40, 3, 0),
            route(1, 0),
            over_broken(1, 0),
            busy(switch(1, 3, 0)),
            over_broken(1, 0),
            busy(links(2, 1, 2, 7)),
            over_broken(1, 0),
            withdraw(5),
            withdraw(10),
            route(1, 0),
            links(41, 1, 2, 1),
            links(42, 1, 2, 6),
            over_broken(1, 0),
            busy(switch(3, 0, 6)),
            route(6, 6),
            over_broken(6, 6),
        ],
    )
}

fn full() -> Told {
    let filing = |k: u16| links(k, (k % 3) as u8, k % 8, 1 + (k % 7) as u8);
    let mut acts: Vec<Act> = (1..=48).rev().map(|k| if k % 2 == 0 { busy(filing(k)) } else { filing(k) }).collect();
    acts.extend([
        links(49, 0, 0, 1),
        busy(links(49, 0, 0, 1)),
        busy(links(47, 0, 0, 1)),
        links(48, 0, 0, 1),
        busy(pattern(49, 0, 0, 1, 1)),
        withdraw(20),
        links(49, 0, 0, 1),
        busy(switch(50, 0, 0)),
        withdraw(1),
        busy(switch(1, 3, 3)),
        route(3, 3),
        over_broken(3, 3),
        over_broken(0, 5),
    ]);
    sheet("48 stand, every second one busy: 8, and 7 before it, over both classes", 3, acts)
}

fn class_faults() -> Told {
    sheet(
        "a class that is none is a layout fault, whatever else is wrong",
        3,
        vec![
            with_class(2, links(7, 0, 1, 4)),
            with_class(2, switch(7, 1, 2)),
            with_class(2, pattern(7, 0, 1, 3, 4)),
            with_class(128, links(7, 0, 1, 4)),
            with_class(255, links(7, 0, 1, 4)),
            with_class(2, links(0, 3, 8, 0)),
            with_class(2, pattern(7, 0, 1, 1, 4)),
            with_class(2, route(1, 0)),
            with_class(255, route(1, 0)),
            with_class(2, route(8, 0)),
            with_class(1, withdraw(7)),
            with_class(2, withdraw(7)),
            with_class(128, withdraw(7)),
            with_class(1, withdraw(0)),
            busy(links(7, 0, 1, 4)),
            with_class(1, withdraw(7)),
            route(1, 0),
            over_broken(1, 0),
            withdraw(7),
            withdraw(7),
            busy(links(0, 0, 1, 4)),
            busy(switch(7, 4, 2)),
            busy(links(7, 0, 1, 8)),
            busy(pattern(7, 0, 1, 1, 4)),
        ],
    )
}

fn faults() -> Told {
    let with_either = |(k, act): (usize, Act)| if k % 2 == 0 && act.1[0] != 2 { with_class(1, act) } else { act };
    let acts = fault_acts().into_iter().enumerate().map(with_either).collect();
    sheet("a layout fault of each kind in eleven bytes, some of them with class 1", 3, acts)
}

fn counts() -> Vec<Told> {
    vec![sheet("count 0", 3, vec![]), sheet("count 1", 3, vec![over_broken(2, 6)])]
}

fn lengths() -> Vec<Told> {
    let whole = example().sheet;
    let mut as_first = whole.clone();
    as_first[4] = 1;
    let first = sheet_in(1, "", 3, example_acts()).sheet;
    let mut as_second = first.clone();
    as_second[4] = 2;
    vec![
        bytes("version 2: 01's example without its last byte", whole[..128].to_vec()),
        bytes("version 2: 01's example with a byte more", [&whole[..], &[0]].concat()),
        bytes("version 2: 01's example without its last action", whole[..118].to_vec()),
        bytes("version 1 over eleven bytes an action", as_first),
        bytes("version 2 over ten bytes an action", as_second),
    ]
}

fn headers() -> Vec<Told> {
    let mut all = Vec::new();
    for version in [3, 258, 512, 65535] {
        all.push(bytes(&format!("version {version}"), header(b"FSH", version, 3, 0)));
    }
    all.push(bytes("version 2, wrong mark, n = 0 and a wrong length: 14", header(b"XSH", 2, 0, 9)));
    all.push(bytes("version 3, n = 0 and a wrong length: 14", header(b"FSH", 3, 0, 9)));
    all.push(bytes("version 2, n = 13 and a wrong length: 1", header(b"FSH", 2, 13, 9)));
    all.push(bytes("version 2, count 1 and no action: 15", header(b"FSH", 2, 3, 1)));
    all.push(bytes("version 2, count 65,535: 15", header(b"FSH", 2, 3, 65535)));
    all
}

/// Ten actions of version 2 are as long as eleven of version 1.
fn one_length() -> [Told; 2] {
    let filings = (1..=8).map(|k| busy(links(k, 0, k - 1, 7)));
    let ten = sheet("ten actions", 3, filings.chain([route(0, 0), over_broken(0, 0)]).collect());
    let mut eleven = ten.sheet.clone();
    (eleven[4], eleven[7]) = (1, 11);
    [ten, bytes("the same bytes as eleven actions of version 1", eleven)]
}

fn smallest() -> Told {
    sheet(
        "n = 1",
        1,
        vec![
            busy(links(1, 0, 0, 2)),
            route(0, 1),
            over_broken(0, 1),
            links(2, 0, 0, 4),
            route(0, 1),
            over_broken(0, 1),
            withdraw(1),
            links(1, 0, 0, 2),
            over_broken(0, 1),
            busy(pattern(3, 0, 1, 1, 7)),
            busy(switch(3, 1, 0)),
            route(0, 0),
            over_broken(0, 0),
            over_broken(1, 0),
            over_broken(2, 0),
            over_broken(0, 2),
        ],
    )
}

fn largest() -> Told {
    sheet(
        "n = 12",
        12,
        vec![
            busy(links(65535, 11, 4095, 1)),
            over_broken(4095, 4095),
            route(4095, 4095),
            pattern(256, 11, 4095, 4095, 1),
            busy(switch(255, 12, 4095)),
            over_broken(4095, 4095),
            route(4095, 4095),
            busy(links(1, 0, 1, 4)),
            links(2, 1, 2, 4),
            route(1, 0),
            over_broken(1, 0),
            busy(links(3, 11, 2048, 6)),
            route(1, 0),
            over_broken(1, 0),
            busy(switch(4, 12, 4096)),
            over_broken(4096, 0),
            over_broken(65535, 65535),
        ],
    )
}

/// More actions than a byte counts, drawn with a fixed seed.
fn different() -> Told {
    let mut draw = Draw(Numbers::fixed());
    bytes("version 2: 300 actions of which no two are the same", sheet_of(2, 6, &draw.different_rows(2, 6, 300)))
}
