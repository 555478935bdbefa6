//! Books of notices that overlap, for what docs/RULES.md, 'Routes', asks of the notice named: many of them name links between one source and one
//! destination, most of these at one stage, so that often no path is clear and several notices could be named. They are filed in no order of their
//! numbers, and some are withdrawn. Then the notice that was named is withdrawn and the question asked again, until a path is clear. Some notices are
//! busy, and some routes count the broken ones only (docs/RULES.md, 'Classes').

use crate::compared::Compared;
use crate::draw::Draw;
use crate::entries::{link, route, routes, run, walk};
use crate::model::{self, book_of, names, Book, Notice, Stopped, Target, ALL, BROKEN, BROKEN_ONLY};
use crate::rows::{filing, question, sheet_of, withdrawal, Row};

/// A size, and the source and the destination between which the notices lie.
struct Between {
    n: u8,
    source: u16,
    destination: u16,
    /// the stage at which most notices lie
    stage: u8,
}

impl Between {
    fn drawn(draw: &mut Draw) -> Between {
        let n = 1 + draw.below(12) as u8;
        let mut label = || draw.below(1 << n) as u16;
        let (source, destination) = (label(), label());
        let stage = if draw.one_in(3) { n - 1 } else { draw.below(n.into()) as u8 };
        Between { n, source, destination, stage }
    }

    /// A target that names a link on a path, of the one stage mostly.
    fn target(&self, draw: &mut Draw) -> Target {
        let stage = if draw.one_in(3) { draw.below(self.n.into()) as u8 } else { self.stage };
        let named = draw.link_between(self.n, self.source, self.destination, stage);
        draw.naming(self.n, named)
    }

    /// A target that stops what leads to a switch from which a path goes on at the one stage, or what leaves its label in column 0.
    fn before(&self, draw: &mut Draw) -> Target {
        let switch = draw.link_between(self.n, self.source, self.destination, self.stage).switch;
        let column = if draw.one_in(2) { 0 } else { self.stage };
        Target::Switch { column, switch }
    }

    /// Filings and withdrawals; a number that was withdrawn is sometimes filed again with another target and class. All notices of some books are
    /// broken.
    fn changes(&self, draw: &mut Draw) -> Vec<Row> {
        let count = 1 + draw.below(44) as usize;
        let classes = 1 + draw.below(2);
        let mut rows = Vec::new();
        let mut withdrawn = Vec::new();
        for number in draw.numbers(count) {
            let target = if draw.one_in(8) { self.before(draw) } else { self.target(draw) };
            rows.push(filing(Notice { number, target, class: draw.below(classes) as u8 }));
            if draw.one_in(8) {
                rows.push(withdrawal(number));
                withdrawn.push(number);
            }
            if draw.one_in(4) {
                let again = |number| Notice { number, target: self.target(draw), class: draw.below(classes) as u8 };
                rows.extend(withdrawn.pop().map(again).map(filing));
            }
        }
        rows
    }

    /// The one source and destination, or one of them with another, a link of some stage away.
    fn pair(&self, draw: &mut Draw) -> (u16, u16) {
        let (source, destination) = (self.source, self.destination);
        let mut moved = |label| model::far_end(self.n, draw.below(self.n.into()) as u8, label, 1);
        let (other_source, other_destination) = (moved(source), moved(destination));
        match draw.below(4) {
            0 => (other_source, destination),
            1 => (source, other_destination),
            _ => (source, destination),
        }
    }
}

/// A sheet of such notices, with a route after some of its changes.
pub fn sheet(draw: &mut Draw) -> Vec<u8> {
    let between = Between::drawn(draw);
    let mut rows = Vec::new();
    for row in between.changes(draw) {
        rows.push(row);
        if draw.one_in(3) {
            let (source, destination) = between.pair(draw);
            rows.push(question(source, destination, draw.below(2) as u8));
        }
    }
    sheet_of(2, between.n, &rows)
}

pub fn random(compared: &mut Compared, draw: &mut Draw) {
    let between = Between::drawn(draw);
    let n = between.n;
    let rows = between.changes(draw);
    let made = sheet_of(2, n, &rows);
    let book = book_of(&made);
    let mut pairs = Vec::new();
    for _ in 0..6 {
        let (source, destination) = between.pair(draw);
        asked(compared, n, &rows, (source, destination), draw.below(2) as u8);
        pairs.extend([source, destination]);
        let tag = u32::from(destination) | draw.below(1 << n) << n;
        walk(compared, &made, &book, source, tag);
        let stage = draw.below(n.into()) as u8;
        let tested = draw.link_between(n, source, destination, stage);
        link(compared, &made, &book, stage, tested.switch, tested.code);
    }
    routes(compared, &made, &book, draw.below(2) as u8, &pairs, pairs.len() / 2);
    withdrawn_until_clear(compared, &between, rows, draw.below(2) as u8);
    let printed = sheet(draw);
    run(compared, &printed, 24 + 48 * (printed.len() / 11));
}

/// A route over the book that the rows make, and what else its answer might have been.
fn asked(compared: &mut Compared, n: u8, rows: &[Row], pair: (u16, u16), choice: u8) -> Option<Stopped> {
    let sheet = sheet_of(2, n, rows);
    let book = book_of(&sheet);
    let named = route(compared, &sheet, &book, pair, choice);
    let mut counted = book.ok()?;
    if choice == BROKEN_ONLY {
        busy_tempts(compared, &counted, pair, named);
        counted = broken_alone(&counted);
    }
    temptations(compared, &counted, rows, pair, named?);
    named
}

/// The notice that is named is withdrawn, and the next one named, until a path is clear.
fn withdrawn_until_clear(compared: &mut Compared, between: &Between, mut rows: Vec<Row>, choice: u8) {
    while let Some(stopped) = asked(compared, between.n, &rows, (between.source, between.destination), choice) {
        rows.push(withdrawal(stopped.notice));
    }
}

/// The book of those notices that are broken.
pub fn broken_alone(book: &Book) -> Book {
    let (mut alone, _) = model::open(book.size());
    for notice in book.standing().into_iter().filter(|notice| notice.class == BROKEN) {
        alone.file(notice);
    }
    alone
}

/// Counts, for a route over the broken notices only, where the busy ones would change its answer.
fn busy_tempts(compared: &mut Compared, book: &Book, (source, destination): (u16, u16), named: Option<Stopped>) {
    let over_all = book.route(source, destination, ALL);
    match (named, over_all) {
        (None, Err(_)) => compared.tempts("over broken notices only, a path is clear, and none over all"),
        (None, Ok(tag)) if book.route(source, destination, BROKEN_ONLY) != Ok(tag) => compared.tempts("over broken notices only, another path"),
        (Some(broken), Err((_, Some(all)))) if broken.stage != all.stage => compared.tempts("over broken notices only, another stage"),
        (Some(broken), Err((_, Some(all)))) if broken != all => compared.tempts("over broken notices only, another notice at the same stage"),
        _ => {}
    }
}

/// Counts, for a route with no clear path, what would tempt to another number than the one named. All notices of the book count for it.
fn temptations(compared: &mut Compared, book: &Book, rows: &[Row], (source, destination): (u16, u16), named: Stopped) {
    let Stopped { stage, notice } = named;
    let n = book.size();
    let ways = book.ways_onward(ALL, source, destination, stage);
    compared.tempts("no clear path, over notices that overlap");
    if stage == n - 1 {
        compared.tempts("no clear path, at the last stage");
    }
    if let Some(dead) = book.standing().iter().find(|x| x.target == Target::Switch { column: 0, switch: source }) {
        compared.tempts("no clear path, the source is a dead card of column 0");
        if dead.number != notice {
            compared.tempts("no clear path, the source is a dead card and another notice has the lowest number");
        }
    }
    if first_filed(book, rows, stage, &ways) != Some(notice) {
        compared.tempts("no clear path, the lowest number was not filed first");
    }
    if has_arms_stopped_apart(book, stage, &ways) {
        compared.tempts("no clear path, both arms of a fork stopped by different notices");
    }
    if lowest_on_first_arms(book, stage, &ways, destination) != Some(notice) {
        compared.tempts("no clear path, the lowest number is on the arm of state 1 alone");
    }
    if met_by_state_0(book, source, destination) != Some(notice) {
        compared.tempts("no clear path, the walk of state 0 meets another notice");
    }
    let of_lower_number: Vec<Target> = book.standing().iter().filter(|x| x.number < notice).map(|x| x.target).collect();
    if stage > 0 && of_lower_number.iter().any(|&target| is_a_card_that(target, |column, label| column == 0 && ways.iter().any(|way| way.0 == label))) {
        compared.tempts("no clear path, a lower number on a card of column 0 whose label the ways leave later");
    }
    let ends: Vec<u16> = ways.iter().map(|way| model::far_end(n, stage, way.0, way.1)).collect();
    if of_lower_number.iter().any(|&target| is_a_card_that(target, |column, label| column <= stage && ends.contains(&label))) {
        compared.tempts("no clear path, a lower number on a card of an earlier column whose label the ways lead to");
    }
    let undamaged = links_between(n, source, destination);
    let lower = |stage: u8, switch: u16, code: u8| matches!(book.link(stage, switch, code), Ok(Some(k)) if k < notice);
    let reached = |switch: u16| ways.iter().any(|way| way.0 == switch);
    if undamaged.iter().any(|&(i, j, c)| i == stage && !reached(j) && lower(i, j, c)) {
        compared.tempts("no clear path, a lower number at the stage named, on a switch that is not reached");
    }
    if undamaged.iter().any(|&(i, j, c)| i < stage && lower(i, j, c)) {
        compared.tempts("no clear path, a lower number at an earlier stage");
    }
    if undamaged.iter().any(|&(i, j, c)| i > stage && lower(i, j, c)) {
        compared.tempts("no clear path, a lower number at a later stage");
    }
}

/// Whether the target is a switch with such a column and label.
fn is_a_card_that(target: Target, such: impl Fn(u8, u16) -> bool) -> bool {
    matches!(target, Target::Switch { column, switch } if such(column, switch))
}

/// Of the notices that stop a way onward, the number of the one that was filed first.
fn first_filed(book: &Book, rows: &[Row], stage: u8, ways: &[(u16, u8)]) -> Option<u16> {
    let stops_a_way = |x: &Notice| ways.iter().any(|&(switch, code)| names(book.size(), x.target, stage, switch, code));
    let filed_at = |x: &Notice| rows.iter().rposition(|row| *row == filing(*x));
    book.standing().into_iter().filter(stops_a_way).min_by_key(filed_at).map(|x| x.number)
}

/// Whether two ways leave one switch and the lowest numbers that stop them differ.
fn has_arms_stopped_apart(book: &Book, stage: u8, ways: &[(u16, u8)]) -> bool {
    let lowest = |&(switch, code): &(u16, u8)| book.link(stage, switch, code);
    ways.iter().any(|one| ways.iter().any(|other| one.0 == other.0 && lowest(one) != lowest(other)))
}

/// The lowest number that stops a straight way or one of state 0.
fn lowest_on_first_arms(book: &Book, stage: u8, ways: &[(u16, u8)], destination: u16) -> Option<u16> {
    // state 0 turns to the side on which the bit of the destination lies
    let turn = if destination >> stage & 1 == 1 { 1 } else { 2 };
    let first = ways.iter().filter(|way| way.1 == 0 || way.1 == turn);
    first.filter_map(|&(switch, code)| book.link(stage, switch, code).expect("a link of the fabric")).min()
}

/// The notice that the walk with every state 0 names.
fn met_by_state_0(book: &Book, source: u16, destination: u16) -> Option<u16> {
    book.walk(source, destination.into()).err().and_then(|(_, stopped)| stopped).map(|stopped| stopped.notice)
}

/// All links on paths of the undamaged fabric: stage, switch and code.
fn links_between(n: u8, source: u16, destination: u16) -> Vec<(u8, u16, u8)> {
    let mut links = Vec::new();
    for steps in model::paths(n, source, destination) {
        let mut switch = source;
        for (stage, code) in (0..n).zip(steps) {
            links.push((stage, switch, code));
            switch = model::far_end(n, stage, switch, code);
        }
    }
    links.sort();
    links.dedup();
    links
}
