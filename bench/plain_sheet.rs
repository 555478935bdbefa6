//! A runner of sheets in plain Rust, written for speed. It shares no code with the proved one; its checks follow the definitions in
//! specs/, so that it is a measure of cost and no second reading of docs/RULES.md.
use crate::plain::{route, Answer, Notice, Target, PLACES};

/// The notices that stand, by rising number.
struct Book {
    n: u32,
    standing: Vec<Notice>,
}

fn word(high: u8, low: u8) -> u16 {
    u16::from_be_bytes([high, low])
}

impl Book {
    /// Why the notice is refused, whatever stands. Its class was seen to be 0 or 1 where it was read.
    fn refusal(&self, notice: Notice) -> Option<u8> {
        let size = 1u32 << self.n;
        let bad_set = |set: u8| set < 1 || set > 7;
        let (outside, bad, wide) = match notice.target {
            Target::Links { stage, switch, set } => (stage as u32 >= self.n || switch as u32 >= size, bad_set(set), false),
            Target::Switch { column, switch } => (column as u32 > self.n || switch as u32 >= size, false, false),
            Target::Pattern { stage, value, mask, set } => {
                (stage as u32 >= self.n, bad_set(set) || mask as u32 >= size || value & mask != value, mask.count_ones() < 2)
            }
        };
        match () {
            _ if notice.number == 0 => Some(3),
            _ if outside => Some(4),
            _ if bad => Some(5),
            _ if wide => Some(6),
            _ => None,
        }
    }

    fn place(&self, number: u16) -> Result<usize, usize> {
        self.standing.binary_search_by_key(&number, |x| x.number)
    }

    fn file(&mut self, notice: Notice) -> Option<u8> {
        if let Some(refusal) = self.refusal(notice) {
            return Some(refusal);
        }
        match self.place(notice.number) {
            Ok(_) => Some(7),
            Err(_) if self.standing.len() == PLACES => Some(8),
            Err(place) => {
                self.standing.insert(place, notice);
                None
            }
        }
    }

    fn withdraw(&mut self, number: u16) -> Option<u8> {
        if number == 0 {
            return Some(3);
        }
        match self.place(number) {
            Ok(place) => {
                self.standing.remove(place);
                None
            }
            Err(_) => Some(9),
        }
    }
}

/// The lowest eight bits as digits, the lowest first: byte i of the product keeps bit i alone, and any bit in a byte carries into its highest.
fn spread(bits: u64) -> [u8; 8] {
    let each = u64::from_le_bytes([1; 8]);
    let alone = (bits & 0xff) * each & u64::from_le_bytes([1, 2, 4, 8, 16, 32, 64, 128]);
    ((alone + 0x7f * each) >> 7 & each | b'0' as u64 * each).to_le_bytes()
}

struct Text<'a> {
    memory: &'a mut [u8],
    at: usize,
}

impl Text<'_> {
    fn say(&mut self, bytes: &[u8]) {
        self.memory[self.at..self.at + bytes.len()].copy_from_slice(bytes);
        self.at += bytes.len();
    }

    fn number(&mut self, mut x: u16) {
        let count = 1 + [9, 99, 999, 9999].iter().filter(|&&most| x > most).count();
        for byte in self.memory[self.at..self.at + count].iter_mut().rev() {
            *byte = b'0' + (x % 10) as u8;
            x /= 10;
        }
        self.at += count;
    }

    fn told(&mut self, refusal: Option<u8>) {
        match refusal {
            None => self.say(b" OK\n"),
            Some(k) => self.refused(k),
        }
    }

    fn refused(&mut self, k: u8) {
        self.say(b" REFUSED ");
        self.number(k as u16);
        self.say(b"\n");
    }

    fn tag(&mut self, n: u32, tag: u32) {
        self.say(b" TAG ");
        let bits = 2 * n as usize;
        let mut rest = tag as u64;
        let mut eights = self.memory[self.at..self.at + bits].chunks_exact_mut(8);
        for eight in &mut eights {
            eight.copy_from_slice(&spread(rest));
            rest >>= 8;
        }
        for byte in eights.into_remainder() {
            *byte = b'0' + (rest & 1) as u8;
            rest >>= 1;
        }
        self.at += bits;
        self.say(b"\n");
    }
}

/// How many bytes an action has, n, and the action count.
fn header(sheet: &[u8]) -> Result<(usize, u32, u16), u8> {
    if sheet.len() < 8 || sheet[..4] != *b"FSH\0" {
        return Err(14);
    }
    let length = match sheet[4] {
        1 => 10,
        2 => 11,
        _ => return Err(14),
    };
    let count = word(sheet[6], sheet[7]);
    if !(1..=12).contains(&sheet[5]) {
        return Err(1);
    }
    if count > 4096 || sheet.len() != 8 + length * count as usize {
        return Err(15);
    }
    Ok((length, sheet[5] as u32, count))
}

fn filing(p: &[u8]) -> Option<Target> {
    let (stage, switch, mask, set) = (p[4], word(p[5], p[6]), word(p[7], p[8]), p[9]);
    match p[3] {
        1 if mask == 0 => Some(Target::Links { stage, switch, set }),
        2 if mask == 0 && set == 0 => Some(Target::Switch { column: stage, switch }),
        3 => Some(Target::Pattern { stage, value: switch, mask, set }),
        _ => None,
    }
}

/// The last byte is a notice's class and a route's choice; an action of ten bytes has 0 there.
fn line(book: &mut Book, p: &[u8], last: u8, text: &mut Text) {
    let number = word(p[1], p[2]);
    if p[0] == 1 && last <= 1 {
        if let Some(target) = filing(p) {
            text.say(b"FILE ");
            text.number(number);
            return text.told(book.file(Notice { number, class: last, target }));
        }
    } else if p[0] == 2 && last == 0 && p[3..].iter().all(|&x| x == 0) {
        text.say(b"WITHDRAW ");
        text.number(number);
        return text.told(book.withdraw(number));
    } else if p[0] == 3 && last <= 1 && number == 0 && p[3] == 0 && p[4] == 0 && p[9] == 0 {
        return route_line(book, last, word(p[5], p[6]), word(p[7], p[8]), text);
    }
    text.say(b"ACTION");
    text.refused(2);
}

fn route_line(book: &Book, choice: u8, source: u16, destination: u16, text: &mut Text) {
    text.say(b"ROUTE ");
    text.number(source);
    text.say(b" ");
    text.number(destination);
    if source >> book.n != 0 || destination >> book.n != 0 {
        return text.refused(10);
    }
    match route(book.n, &book.standing, choice, source as u32, destination as u32) {
        Answer::Tag(tag) => text.tag(book.n, tag),
        Answer::None { stage, by } => {
            text.say(b" NONE ");
            text.number(stage as u16);
            text.say(b" BY ");
            text.number(by);
            text.say(b"\n");
        }
    }
}

/// Runs a sheet into memory that is long enough, and answers how many bytes it wrote.
pub fn run(sheet: &[u8], memory: &mut [u8]) -> usize {
    let mut text = Text { memory, at: 0 };
    text.say(b"SHEET");
    match header(sheet) {
        Err(k) => text.refused(k),
        Ok((length, n, count)) => {
            text.say(b" ");
            text.number(n as u16);
            text.say(b" ");
            text.number(count);
            text.say(b"\n");
            let mut book = Book { n, standing: Vec::with_capacity(PLACES) };
            for part in sheet[8..].chunks_exact(length) {
                line(&mut book, &part[..10], part.get(10).copied().unwrap_or(0), &mut text);
            }
        }
    }
    text.at
}
