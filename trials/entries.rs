//! Every entry of docs/RULES.md, once by the proved library and once by the model: what it answers, and each place of the memory lent to it.

use crate::compared::Compared;
use crate::face::{self, Refused};
use crate::model::{self, Action, Book, Notice, Stopped, Target, ALL, BROKEN_ONLY};

/// A refusal as the model gives it: the number, and at 11 the stage and the notice. With another number both have to be 0.
fn told<T>(answer: Result<T, Refused>) -> Result<T, (u8, Option<Stopped>)> {
    answer.map_err(|Refused { number, stage, notice }| {
        let alone = number != 11 && stage == 0 && notice == 0;
        (number, if alone { None } else { Some(Stopped { stage, notice }) })
    })
}

pub fn number<T>(answer: Result<T, Refused>) -> Result<T, u8> {
    answer.map_err(|why| why.number)
}

/// 0, or the table's number.
fn code(answer: Result<(), Refused>) -> u8 {
    answer.map_or_else(|why| why.number, |_| 0)
}

/// Tag to steps, steps to tag and the normal form.
pub fn tags(compared: &mut Compared, n: u8, source: u16, tag: u32, memory: &[u8]) {
    let case = || format!("n {n} source {source} tag {tag} memory {memory:?}");
    let (mut proved, mut plain) = (memory.to_vec(), memory.to_vec());
    let answers = (code(face::tag_to_steps(n, source, tag, &mut proved)), model::tag_to_steps(n, source, tag, &mut plain));
    compared.same("tag to steps", (answers.0, proved), (answers.1, plain), case);
    steps(compared, n, source, memory);
    compared.same("normal form", number(face::normal_form(n, source, tag)), model::normal_form(n, source, tag), case);
}

pub fn steps(compared: &mut Compared, n: u8, source: u16, memory: &[u8]) {
    let case = || format!("n {n} source {source} memory {memory:?}");
    compared.same("steps to tag", number(face::steps_to_tag(n, source, memory)), model::steps_to_tag(n, source, memory), case);
}

/// A route from a source to a destination with a choice; where no path is clear, what the model names.
pub fn route(
    compared: &mut Compared, sheet: &[u8], book: &Result<Book, u8>, (source, destination): (u16, u16), choice: u8,
) -> Option<Stopped> {
    let plain = book.as_ref().map_err(|&k| (k, None)).and_then(|b| b.route(source, destination, choice));
    let entry = match (plain, choice) {
        (Ok(_), ALL) => "route, a tag",
        (Ok(_), _) => "route over broken notices only, a tag",
        (Err((11, _)), ALL) => "route, no clear path",
        (Err((11, _)), _) => "route over broken notices only, no clear path",
        (Err((5, _)), _) => "route, no such choice",
        (Err(_), _) => "route, refused",
    };
    let case = || format!("sheet {sheet:?} from {source} to {destination} choice {choice}");
    compared.same(entry, told(face::route(sheet, source, destination, choice)), plain, case);
    plain.err().and_then(|(_, stopped)| stopped)
}

/// What a route answers as one number, as include/tabashfar.h says.
fn packed(answer: Result<u32, (u8, Option<Stopped>)>) -> u64 {
    match answer {
        Ok(tag) => u64::from(tag) << 8,
        Err((number, None)) => u64::from(number),
        Err((number, Some(Stopped { stage, notice }))) => u64::from(number) + 256 * (u64::from(stage) + 256 * u64::from(notice)),
    }
}

/// Routes for many pairs in one call, against the model's routes one after the other; the room asked for is include/tabashfar.h's.
pub fn routes(compared: &mut Compared, sheet: &[u8], book: &Result<Book, u8>, choice: u8, pairs: &[u16], room: usize) {
    let (mut proved, mut plain) = (vec![0xAAAA_AAAA_AAAA_AAAA; room], vec![0xAAAA_AAAA_AAAA_AAAA; room]);
    let short = pairs.len() % 2 == 1 || 2 * room < pairs.len();
    let answer = book.as_ref().map_err(|&k| k).and_then(|b| if short { Err(13) } else { Ok(b) });
    if let Ok(b) = answer {
        pairs.chunks(2).zip(&mut plain).for_each(|(pair, place)| *place = packed(b.route(pair[0], pair[1], choice)));
    }
    let entry = match (answer.is_ok(), choice) {
        (true, ALL) => "routes in one call",
        (true, BROKEN_ONLY) => "routes over broken notices only in one call",
        (true, _) => "routes in one call, no such choice",
        (false, _) => "routes in one call, refused",
    };
    let given = number(face::routes(sheet, choice, pairs, &mut proved));
    let case = || format!("sheet {sheet:?} choice {choice} pairs {pairs:?} room {room}");
    compared.same(entry, (given, proved), (answer.map(|_| ()), plain), case);
}

pub fn walk(compared: &mut Compared, sheet: &[u8], book: &Result<Book, u8>, source: u16, tag: u32) {
    let plain = book.as_ref().map_err(|&k| (k, None)).and_then(|b| b.walk(source, tag));
    let entry = if matches!(plain, Err((11, _))) { "walk, a stopped link" } else { "walk" };
    compared.same(entry, told(face::walk(sheet, source, tag)), plain, || format!("sheet {sheet:?} source {source} tag {tag}"));
}

pub fn link(compared: &mut Compared, sheet: &[u8], book: &Result<Book, u8>, stage: u8, switch: u16, code: u8) {
    let plain = book.as_ref().map_err(|&k| k).and_then(|b| b.link(stage, switch, code));
    let case = || format!("sheet {sheet:?} stage {stage} switch {switch} code {code}");
    let entry = if matches!(plain, Ok(Some(_))) { "link, stopped" } else { "link" };
    compared.same(entry, number(face::link(sheet, stage, switch, code)), plain, case);
}

pub fn listing(compared: &mut Compared, sheet: &[u8], book: &Result<Book, u8>, room: usize) {
    let (mut proved, mut plain) = (vec![170; room], vec![170; room]);
    let answer = book.as_ref().map_err(|&k| k).and_then(|b| b.listing(&mut plain));
    compared.same("listing", (number(face::listing(sheet, &mut proved)), proved), (answer, plain), || format!("sheet {sheet:?} room {room}"));
}

/// What hands a book back, by both sides, each over so many bytes of memory: what is answered, and every byte after it.
fn hands_back(
    compared: &mut Compared, entry: &str, room: usize, proved: impl FnOnce(&mut [u8]) -> Result<usize, Refused>,
    plain: impl FnOnce(&mut [u8]) -> Result<usize, u8>, case: impl Fn() -> String,
) {
    let (mut by_proof, mut by_model) = (vec![170; room], vec![170; room]);
    let answers = (number(proved(&mut by_proof)), plain(&mut by_model));
    let entry = match answers.1 {
        Ok(_) => entry.to_string(),
        Err(13) => format!("{entry}, memory too short"),
        Err(_) => format!("{entry}, refused"),
    };
    compared.same(&entry, (answers.0, by_proof), (answers.1, by_model), || format!("{} room {room}", case()));
}

pub fn open(compared: &mut Compared, n: u8, room: usize) {
    let proved = |memory: &mut [u8]| face::open(n, memory).map(<[u8]>::len);
    hands_back(compared, "open", room, proved, |memory| model::open_for_host(n, memory), || format!("n {n}"));
}

/// The filing of a notice, by the entry that its target has.
pub fn proved_filing(sheet: &[u8], x: Notice, memory: &mut [u8]) -> Result<usize, Refused> {
    let filed = match x.target {
        Target::Links { stage, switch, set } => face::file_links(sheet, x.number, stage, switch, set, x.class, memory),
        Target::Switch { column, switch } => face::file_switch(sheet, x.number, column, switch, x.class, memory),
        Target::Pattern { stage, value, mask, set } => face::file_pattern(sheet, x.number, stage, value, mask, set, x.class, memory),
    };
    filed.map(<[u8]>::len)
}

pub fn file(compared: &mut Compared, sheet: &[u8], notice: Notice, room: usize) {
    let plain = |memory: &mut [u8]| model::file_for_host(sheet, notice, memory);
    hands_back(compared, "file", room, |memory| proved_filing(sheet, notice, memory), plain, || format!("sheet {sheet:?} {notice:?}"));
}

pub fn proved_withdrawing(sheet: &[u8], withdrawn: u16, memory: &mut [u8]) -> Result<usize, Refused> {
    face::withdraw(sheet, withdrawn, memory).map(<[u8]>::len)
}

pub fn withdraw(compared: &mut Compared, sheet: &[u8], withdrawn: u16, room: usize) {
    let proved = |memory: &mut [u8]| proved_withdrawing(sheet, withdrawn, memory);
    let plain = |memory: &mut [u8]| model::withdraw_for_host(sheet, withdrawn, memory);
    hands_back(compared, "withdraw", room, proved, plain, || format!("sheet {sheet:?} withdraw {withdrawn}"));
}

pub fn write(compared: &mut Compared, sheet: &[u8], room: usize) {
    let proved = |memory: &mut [u8]| face::write(sheet, memory).map(<[u8]>::len);
    hands_back(compared, "write", room, proved, |memory| model::write_for_host(sheet, memory), || format!("sheet {sheet:?}"));
}

pub fn header(compared: &mut Compared, sheet: &[u8]) {
    compared.same("sheet header", number(face::header(sheet)), model::header(sheet), || format!("sheet {sheet:?}"));
}

/// Whether action k is there, and which bytes of the sheet it is.
pub fn action_at(compared: &mut Compared, sheet: &[u8], k: usize) {
    let case = || format!("sheet {sheet:?} k {k}");
    compared.same("has action", number(face::has_action(sheet, k)), model::has_action(sheet, k), case);
    let place = |part: &[u8]| (part.as_ptr() as usize - sheet.as_ptr() as usize, part.len());
    compared.same("action part", place(face::action_part(sheet, k)), place(model::action_part(sheet, k)), case);
}

/// "the action in one byte, the number in two, the kind in one, the stage in one, the switch in two, the mask in two, the set in one", and "the class at the
/// end", as the model's action has them.
fn fields_of(action: Action) -> [u16; 8] {
    match action {
        Action::File(Notice { number, target, class }) => match target {
            Target::Links { stage, switch, set } => [1, number, 1, stage.into(), switch, 0, set.into(), class.into()],
            Target::Switch { column, switch } => [1, number, 2, column.into(), switch, 0, 0, class.into()],
            Target::Pattern { stage, value, mask, set } => [1, number, 3, stage.into(), value, mask, set.into(), class.into()],
        },
        Action::Withdraw(number) => [2, number, 0, 0, 0, 0, 0, 0],
        Action::Route { source, destination, choice } => [3, 0, 0, 0, source, destination, 0, choice.into()],
    }
}

/// The action reader: which action it is, its fields by name, and its fields in memory of so many places.
pub fn action_reader(compared: &mut Compared, part: &[u8], room: usize) {
    let plain = model::read_action(part).map(fields_of);
    let case = || format!("part {part:?} room {room}");
    compared.same("action reader", number(face::read_action(part)).map(u16::from), plain.map(|f| f[0]), case);
    let by_name =
        |f: face::Fields| [f.action.into(), f.number, f.kind.into(), f.stage.into(), f.switch, f.mask, f.set.into(), f.class.into()];
    compared.same("fields of an action", number(face::fields(part)).map(by_name), plain, case);
    let (mut proved, mut memory) = (vec![0xAAAA; room], vec![0xAAAA; room]);
    let answer = plain.and_then(|f| if room < 8 { Err(13) } else { Ok(f) });
    if let Ok(fields) = answer {
        memory[..8].copy_from_slice(&fields);
    }
    let given = number(face::action_fields(part, &mut proved)).map(u16::from);
    compared.same("fields in memory", (given, proved), (answer.map(|f| f[0]), memory), case);
}

/// Running a sheet; the model's text is right for any room, and the room asked for is include/tabashfar.h's.
pub fn run(compared: &mut Compared, sheet: &[u8], room: usize) {
    let count = model::header(sheet).map_or(0, |(_, count, _)| usize::from(count));
    let (mut proved, mut plain) = (vec![170; room], vec![170; room]);
    let text = model::run(sheet);
    let answer = if room < 24 + 48 * count { Err(13) } else { Ok(text.len()) };
    if answer.is_ok() {
        plain[..text.len()].copy_from_slice(&text);
    }
    compared.same("running a sheet", (number(face::run(sheet, &mut proved)), proved), (answer, plain), || format!("sheet {sheet:?} room {room}"));
}
