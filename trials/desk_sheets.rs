//! The sheets that crates/desk_runs runs, those of version 1: every refusal that is printed, every layout fault, counts and lengths. Each has a
//! title, and words for its actions where they are told one by one.

use crate::draw::Draw;
use crate::model::{Notice, Target, ALL, BROKEN};
use crate::questions::Numbers;
use crate::rows::{classed, filing, question, sheet_of, withdrawal, Row};

#[derive(Clone)]
pub struct Told {
    pub title: String,
    pub sheet: Vec<u8>,
    pub actions: Vec<String>,
}

/// An action, and what it is in words.
pub type Act = (String, Row);

fn file(words: String, number: u16, target: Target) -> Act {
    (format!("file {number}: {words}"), filing(Notice { number, target, class: BROKEN }))
}

pub fn links(number: u16, stage: u8, switch: u16, set: u8) -> Act {
    file(format!("links, stage {stage}, switch {switch}, set {set}"), number, Target::Links { stage, switch, set })
}

pub fn switch(number: u16, column: u8, switch: u16) -> Act {
    file(format!("switch, column {column}, switch {switch}"), number, Target::Switch { column, switch })
}

pub fn pattern(number: u16, stage: u8, value: u16, mask: u16, set: u8) -> Act {
    let words = format!("pattern, stage {stage}, value {value}, mask {mask}, set {set}");
    file(words, number, Target::Pattern { stage, value, mask, set })
}

pub fn withdraw(number: u16) -> Act {
    (format!("withdraw {number}"), withdrawal(number))
}

pub fn route(source: u16, destination: u16) -> Act {
    (format!("route {source} to {destination}"), question(source, destination, ALL))
}

/// Ten bytes that are no action.
fn fault(words: &str, ten: [u8; 10]) -> Act {
    (words.to_string(), classed(ten, 0))
}

pub fn sheet_in(version: u16, title: &str, n: u8, acts: Vec<Act>) -> Told {
    let (actions, rows): (Vec<String>, Vec<Row>) = acts.into_iter().unzip();
    Told { title: title.to_string(), sheet: sheet_of(version, n, &rows), actions }
}

fn sheet(title: &str, n: u8, acts: Vec<Act>) -> Told {
    sheet_in(1, title, n, acts)
}

/// A sheet whose actions are not told one by one.
pub fn bytes(title: &str, sheet: Vec<u8>) -> Told {
    Told { title: title.to_string(), sheet, actions: Vec::new() }
}

pub fn all() -> Vec<Told> {
    let mut all = vec![example(), filings(), full(), withdrawings(), routes(), faults()];
    all.extend(notices_named());
    all.extend([dead_card(), label_of_a_dead_card()]);
    all.extend(counts());
    all.extend(lengths());
    all.extend(headers());
    all.extend([smallest(), largest(), morning(), different()]);
    all
}

fn example() -> Told {
    sheet("01's example", 3, example_acts())
}

pub fn example_acts() -> Vec<Act> {
    vec![
        route(1, 0),
        links(7, 0, 1, 4),
        pattern(8, 0, 1, 3, 4),
        switch(7, 1, 2),
        withdraw(7),
        route(1, 0),
        pattern(9, 0, 1, 1, 7),
        switch(10, 1, 2),
        route(1, 0),
        withdraw(9),
        route(8, 0),
    ]
}

fn filings() -> Told {
    sheet(
        "refusals of a filing: 3, 4, 5, 6 and 7, each for each target that can give it",
        3,
        vec![
            links(0, 3, 8, 0),
            links(1, 3, 0, 0),
            links(1, 2, 8, 0),
            switch(1, 4, 0),
            switch(1, 3, 8),
            pattern(1, 3, 0, 3, 1),
            links(65535, 255, 65535, 255),
            links(1, 2, 7, 0),
            links(1, 2, 7, 8),
            pattern(1, 0, 0, 3, 0),
            pattern(1, 0, 0, 3, 8),
            pattern(1, 0, 0, 11, 1),
            pattern(1, 0, 4, 3, 1),
            pattern(1, 0, 8, 0, 1),
            pattern(1, 0, 1, 1, 1),
            pattern(1, 0, 0, 0, 1),
            links(1, 2, 7, 7),
            links(1, 0, 0, 1),
            switch(1, 0, 0),
            pattern(1, 0, 1, 3, 1),
            switch(2, 3, 7),
            switch(3, 0, 7),
            pattern(65535, 2, 7, 7, 7),
        ],
    )
}

fn full() -> Told {
    let mut acts: Vec<Act> = (1..=48).rev().map(|k| links(k, (k % 3) as u8, k % 8, 1 + (k % 7) as u8)).collect();
    acts.extend([
        links(49, 0, 0, 1),
        links(48, 0, 0, 1),
        pattern(49, 0, 0, 1, 1),
        withdraw(20),
        links(49, 0, 0, 1),
        switch(50, 0, 0),
        withdraw(1),
        switch(1, 3, 3),
        route(0, 5),
        route(3, 3),
    ]);
    sheet("48 stand: 8, and 7 before it; a number and a place used again", 3, acts)
}

fn withdrawings() -> Told {
    let acts = vec![withdraw(0), withdraw(1), links(1, 0, 0, 1), withdraw(2), withdraw(1), withdraw(1), withdraw(65535)];
    sheet("refusals of a withdrawing: 3 and 9", 3, acts)
}

fn routes() -> Told {
    sheet(
        "refusals of a route: 10; none, at each stage; and a route around each",
        3,
        vec![
            route(8, 0),
            route(0, 8),
            route(65535, 65535),
            route(5, 5),
            links(1, 1, 5, 1),
            route(5, 5),
            route(5, 4),
            withdraw(1),
            links(1, 0, 1, 4),
            route(1, 0),
            links(2, 1, 2, 4),
            route(1, 0),
            links(3, 2, 4, 4),
            route(1, 0),
            links(4, 2, 4, 2),
            route(1, 0),
            withdraw(3),
            route(1, 0),
            switch(5, 1, 2),
            route(1, 0),
            switch(6, 1, 0),
            route(1, 0),
            route(0, 7),
            route(7, 0),
        ],
    )
}

fn faults() -> Told {
    sheet("a layout fault of each kind: unknown actions and kinds, and each spare field", 3, fault_acts())
}

/// Each fault of ten bytes, and then three actions without one.
pub fn fault_acts() -> Vec<Act> {
    vec![
        fault("action 0", [0, 0, 0, 0, 0, 0, 0, 0, 0, 0]),
        fault("action 4", [4, 0, 7, 1, 0, 0, 1, 0, 0, 4]),
        fault("action 255", [255, 0, 0, 0, 0, 0, 0, 0, 0, 0]),
        fault("kind 0", [1, 0, 7, 0, 0, 0, 1, 0, 0, 4]),
        fault("kind 4", [1, 0, 7, 4, 0, 0, 1, 0, 0, 4]),
        fault("kind 255", [1, 0, 7, 255, 0, 0, 1, 0, 0, 4]),
        fault("links with a mask", [1, 0, 7, 1, 0, 0, 1, 0, 1, 4]),
        fault("links with the highest bit of the mask", [1, 0, 7, 1, 0, 0, 1, 128, 0, 4]),
        fault("a switch with a mask", [1, 0, 7, 2, 1, 0, 2, 1, 0, 0]),
        fault("a switch with a set", [1, 0, 7, 2, 1, 0, 2, 0, 0, 1]),
        fault("number 0, and links with a mask", [1, 0, 0, 1, 0, 0, 1, 0, 1, 4]),
        fault("a withdrawal with a kind", [2, 0, 7, 1, 0, 0, 0, 0, 0, 0]),
        fault("a withdrawal with a stage", [2, 0, 7, 0, 1, 0, 0, 0, 0, 0]),
        fault("a withdrawal with a switch", [2, 0, 7, 0, 0, 0, 1, 0, 0, 0]),
        fault("a withdrawal with the high byte of a switch", [2, 0, 7, 0, 0, 1, 0, 0, 0, 0]),
        fault("a withdrawal with a mask", [2, 0, 7, 0, 0, 0, 0, 0, 1, 0]),
        fault("a withdrawal with a set", [2, 0, 7, 0, 0, 0, 0, 0, 0, 1]),
        fault("a route with a number", [3, 0, 1, 0, 0, 0, 1, 0, 0, 0]),
        fault("a route with the high byte of a number", [3, 1, 0, 0, 0, 0, 1, 0, 0, 0]),
        fault("a route with a kind", [3, 0, 0, 1, 0, 0, 1, 0, 0, 0]),
        fault("a route with a stage", [3, 0, 0, 0, 1, 0, 1, 0, 0, 0]),
        fault("a route with a set", [3, 0, 0, 0, 0, 0, 1, 0, 0, 1]),
        links(7, 0, 1, 4),
        withdraw(7),
        route(1, 0),
    ]
}

/// Routes with no clear path, where several notices could be named.
fn notices_named() -> Vec<Told> {
    vec![overlap(), fork(), last_stage(), not_reached(), last_number()]
}

fn overlap() -> Told {
    sheet(
        "several notices name the one way onward: the lowest number, which was not filed first, and the next one where it is withdrawn",
        3,
        vec![
            links(9, 1, 5, 1),
            pattern(300, 1, 1, 3, 1),
            switch(4, 2, 5),
            links(6, 1, 5, 7),
            links(1, 1, 5, 6),
            links(2, 0, 4, 7),
            links(3, 2, 5, 7),
            route(5, 5),
            withdraw(4),
            route(5, 5),
            withdraw(6),
            route(5, 5),
            withdraw(9),
            route(5, 5),
            withdraw(300),
            route(5, 5),
            withdraw(3),
            route(5, 5),
        ],
    )
}

fn fork() -> Told {
    sheet(
        "the arms of a fork stopped by different notices: the lower of both, on the arm of state 0 and on that of state 1",
        3,
        vec![
            links(20, 0, 1, 4),
            links(30, 0, 1, 2),
            route(1, 0),
            switch(10, 1, 2),
            route(1, 0),
            switch(15, 1, 0),
            route(1, 0),
            withdraw(10),
            route(1, 0),
            withdraw(15),
            route(1, 0),
            withdraw(20),
            links(20, 1, 2, 6),
            route(1, 0),
            links(40, 0, 1, 7),
            links(50, 0, 0, 7),
            route(1, 0),
        ],
    )
}

fn last_stage() -> Told {
    sheet(
        "the last stage: plus and minus of a fork, and the straight link of the other switch, each by its own notice",
        3,
        vec![
            links(13, 2, 4, 4),
            links(12, 2, 4, 2),
            links(14, 2, 0, 1),
            route(1, 0),
            withdraw(12),
            links(16, 2, 4, 2),
            route(1, 0),
            links(11, 2, 0, 1),
            route(1, 0),
            switch(5, 3, 0),
            route(1, 0),
            links(3, 2, 0, 6),
            links(2, 2, 4, 1),
            switch(1, 3, 4),
            route(1, 0),
            route(1, 4),
        ],
    )
}

fn not_reached() -> Told {
    sheet(
        "a lower number on a switch that no clear walk reaches, at another stage, or on a link that leads elsewhere: not named",
        3,
        vec![
            links(50, 0, 1, 2),
            links(60, 1, 0, 1),
            links(5, 1, 2, 6),
            route(1, 0),
            links(1, 1, 0, 6),
            links(2, 2, 0, 7),
            links(3, 0, 0, 7),
            route(1, 0),
            withdraw(50),
            route(1, 0),
            links(4, 0, 1, 2),
            route(1, 0),
            withdraw(60),
            withdraw(2),
            route(1, 0),
        ],
    )
}

fn last_number() -> Told {
    sheet(
        "numbers of two bytes, up to 65535: the lowest as a number, and not by its low or its high byte",
        12,
        vec![
            links(65535, 11, 4095, 1),
            route(4095, 4095),
            pattern(65280, 11, 4095, 4095, 1),
            route(4095, 4095),
            switch(511, 12, 4095),
            route(4095, 4095),
            links(512, 11, 4095, 7),
            route(4095, 4095),
            links(256, 11, 4095, 1),
            route(4095, 4095),
            links(255, 11, 4095, 1),
            route(4095, 4095),
            withdraw(255),
            route(4095, 4095),
            withdraw(256),
            withdraw(511),
            withdraw(512),
            withdraw(65280),
            route(4095, 4095),
        ],
    )
}

fn label_of_a_dead_card() -> Told {
    sheet(
        "the label of a dead card is reached at a later stage: there neither its notice is named nor one of an earlier column",
        3,
        vec![switch(1, 0, 4), switch(2, 1, 0), links(9, 1, 4, 1), links(8, 1, 6, 6), route(5, 4), withdraw(8), route(5, 4), route(4, 5)],
    )
}

fn dead_card() -> Told {
    sheet(
        "a dead card in column 0: no route leaves it, those of other sources go on, to its label too; the lowest number out of it",
        3,
        vec![
            switch(6, 0, 5),
            route(5, 5),
            route(5, 4),
            route(5, 2),
            route(4, 5),
            route(6, 5),
            links(3, 0, 5, 1),
            route(5, 5),
            route(5, 4),
            switch(2, 1, 4),
            route(5, 4),
            switch(1, 0, 4),
            route(5, 4),
            route(4, 4),
            withdraw(2),
            withdraw(6),
            route(5, 4),
            route(5, 5),
        ],
    )
}

fn counts() -> Vec<Told> {
    vec![
        sheet("count 0", 3, vec![]),
        sheet("count 1", 3, vec![route(2, 6)]),
        bytes("count 4,096, every action zero", sheet_of(1, 12, &[[0; 11]; 4096])),
        bytes("count 4,097, of the right length", sheet_of(1, 12, &[[0; 11]; 4097])),
    ]
}

fn lengths() -> Vec<Told> {
    let whole = example().sheet;
    let longer = |more: &[u8]| [&whole[..], more].concat();
    let one_counted = [b'F', b'S', b'H', 0, 1, 3, 0, 1].to_vec();
    vec![
        bytes("01's example without its last byte", whole[..117].to_vec()),
        bytes("01's example with a byte more", longer(&[0])),
        bytes("01's example without its last action", whole[..108].to_vec()),
        bytes("01's example with an action more", longer(&withdrawal(1)[..10])),
        bytes("a header that counts one action, and no action", one_counted),
        bytes("no bytes", vec![]),
        bytes("seven bytes", sheet_of(1, 3, &[])[..7].to_vec()),
        bytes("eight bytes", sheet_of(1, 12, &[])),
    ]
}

pub fn header(mark: &[u8], version: u16, n: u8, count: u16) -> Vec<u8> {
    [mark, &version.to_be_bytes(), &[n], &count.to_be_bytes()].concat()
}

fn headers() -> Vec<Told> {
    let mut all = Vec::new();
    for mark in ["fSH", "FsH", "FSh", "HSF"] {
        all.push(bytes(&format!("mark {mark}"), header(mark.as_bytes(), 1, 3, 0)));
    }
    for version in [0, 2, 256, 257] {
        all.push(bytes(&format!("version {version}"), header(b"FSH", version, 3, 0)));
    }
    for n in [0, 13, 255] {
        all.push(bytes(&format!("n = {n}"), header(b"FSH", 1, n, 0)));
    }
    all.push(bytes("wrong mark, n = 0 and a wrong length: 14", header(b"XSH", 1, 0, 9)));
    all.push(bytes("n = 0 and a wrong length: 1", header(b"FSH", 1, 0, 9)));
    all.push(bytes("count 65,535: 15", header(b"FSH", 1, 3, 65535)));
    all
}

fn smallest() -> Told {
    sheet(
        "n = 1",
        1,
        vec![
            route(0, 1),
            route(1, 0),
            route(0, 0),
            route(1, 1),
            links(1, 0, 0, 2),
            route(0, 1),
            links(2, 0, 0, 4),
            route(0, 1),
            route(0, 0),
            pattern(3, 0, 1, 1, 7),
            pattern(3, 0, 0, 0, 7),
            pattern(3, 0, 1, 3, 7),
            switch(3, 1, 0),
            route(0, 0),
            route(1, 0),
            switch(4, 2, 0),
            links(5, 1, 0, 1),
            links(5, 0, 2, 1),
            route(2, 0),
            route(0, 2),
        ],
    )
}

fn largest() -> Told {
    sheet(
        "n = 12",
        12,
        vec![
            route(0, 4095),
            route(4095, 0),
            route(1, 0),
            route(1365, 2730),
            links(1, 0, 1, 4),
            route(1, 0),
            links(2, 1, 2, 4),
            route(1, 0),
            links(3, 11, 2048, 6),
            route(1, 0),
            pattern(4, 11, 0, 3, 7),
            route(0, 4),
            route(0, 1),
            switch(5, 12, 4095),
            route(0, 4095),
            route(4095, 4095),
            links(6, 12, 0, 1),
            links(6, 11, 4096, 1),
            switch(7, 12, 4096),
            pattern(8, 11, 4095, 4095, 7),
            pattern(9, 0, 0, 4096, 1),
            route(4096, 0),
            route(0, 4096),
            route(65535, 65535),
        ],
    )
}

fn morning() -> Told {
    bytes("a morning at the desk: examples/morning.txt", include_bytes!("../examples/morning.sheet").to_vec())
}

/// More actions than a byte counts, drawn with a fixed seed.
fn different() -> Told {
    let mut draw = Draw(Numbers::fixed());
    bytes("300 actions of which no two are the same", sheet_of(1, 6, &draw.different_rows(1, 6, 300)))
}
