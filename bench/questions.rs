//! The fixed questions and notices that both benches use: few enough labels that 48 notices are dense around their routes.

pub const N: u32 = 12;

/// A fixed sequence of numbers (xorshift).
pub struct Numbers(pub u64);

impl Numbers {
    pub fn fixed() -> Numbers {
        Numbers(0x9E37_79B9_7F4A_7C15)
    }

    /// Another one: with classes and without, the same notices and questions are drawn.
    fn of_classes() -> Numbers {
        Numbers(0xD1B5_4A32_D192_ED03)
    }

    pub fn below(&mut self, bound: u32) -> u32 {
        self.0 ^= self.0 << 13;
        self.0 ^= self.0 >> 7;
        self.0 ^= self.0 << 17;
        ((self.0 >> 32) as u32) % bound
    }
}

/// The labels that are asked for.
pub struct Pool {
    sources: Vec<u32>,
    destinations: Vec<u32>,
}

impl Pool {
    pub fn new(numbers: &mut Numbers) -> Pool {
        let mut labels = |k: usize| (0..k).map(|_| numbers.below(1 << N)).collect::<Vec<u32>>();
        Pool { sources: labels(24), destinations: labels(24) }
    }

    pub fn question(&self, numbers: &mut Numbers) -> (u32, u32) {
        let s = self.sources[numbers.below(self.sources.len() as u32) as usize];
        let d = self.destinations[numbers.below(self.destinations.len() as u32) as usize];
        (s, d)
    }
}

/// The ten bytes of an action.
pub fn action(what: u8, number: u32, kind: u8, stage: u32, switch: u32, mask: u32, set: u32) -> [u8; 10] {
    let (x, j, m) = ((number as u16).to_be_bytes(), (switch as u16).to_be_bytes(), (mask as u16).to_be_bytes());
    [what, x[0], x[1], kind, stage as u8, j[0], j[1], m[0], m[1], set as u8]
}

/// A sheet of version 1 where an action has ten bytes, of version 2 where it has eleven.
pub fn sheet<const LENGTH: usize>(rows: &[[u8; LENGTH]]) -> Vec<u8> {
    let version = LENGTH as u8 - 9;
    let count = (rows.len() as u16).to_be_bytes();
    let mut sheet = vec![b'F', b'S', b'H', 0, version, N as u8, count[0], count[1]];
    sheet.extend(rows.concat());
    sheet
}

/// 48 filings, a third of each kind, each on a switch that some asked route can meet; one of them is of a source, in column 0.
pub fn filings(pool: &Pool, numbers: &mut Numbers) -> Vec<[u8; 10]> {
    let size = 1 << N;
    let mut rows = Vec::new();
    for k in 0..48 {
        let (s, d) = pool.question(numbers);
        let i = numbers.below(N);
        let near = |i: u32, below: bool| {
            let step = 1 << i;
            (s + (d + size - s) % step + if below { size - step } else { 0 }) % size
        };
        let below = numbers.below(2) == 1;
        let row = match k % 3 {
            0 => action(1, 1000 - k, 1, i, near(i, below), 0, 1 + numbers.below(7)),
            1 if k == 1 => action(1, 1000 - k, 2, 0, s, 0, 0),
            1 => action(1, 1000 - k, 2, i + 1, near(i + 1, below), 0, 0),
            _ => {
                let mut mask = 0u32;
                while mask.count_ones() < 4 {
                    mask |= 1 << numbers.below(N);
                }
                action(1, 1000 - k, 3, i, near(i, below) & mask, mask, 1 << numbers.below(3))
            }
        };
        rows.push(row);
    }
    rows
}

/// The same actions in eleven bytes: by lot one filing in three is of a busy notice, and one route in two asks for the broken ones alone.
pub fn with_classes(rows: &[[u8; 10]]) -> Vec<[u8; 11]> {
    let mut numbers = Numbers::of_classes();
    let mut last = |what: u8| match what {
        1 => (numbers.below(3) == 0) as u8,
        3 => numbers.below(2) as u8,
        _ => 0,
    };
    rows.iter().map(|&[a, b, c, d, e, f, g, h, i, j]| [a, b, c, d, e, f, g, h, i, j, last(a)]).collect()
}
