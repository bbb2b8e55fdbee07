// The inputs that are timed. compare/ holds both sides' answers to them against each other.
pub struct Dice(pub u64);

impl Dice {
    pub fn bits(&mut self) -> u64 {
        self.0 ^= self.0 << 13;
        self.0 ^= self.0 >> 7;
        self.0 ^= self.0 << 17;
        self.0.wrapping_mul(0x2545_f491_4f6c_dd1d) >> 16
    }

    pub fn below(&mut self, n: u64) -> usize {
        (self.bits() % n) as usize
    }

    pub fn ascii(&mut self, n: usize) -> Vec<u8> {
        (0..n).map(|_| 0x20 + self.below(95) as u8).collect()
    }

    pub fn mixed(&mut self, n: usize) -> Vec<u8> {
        let mut s = String::new();
        while s.len() < n {
            let c = match self.below(6) {
                0 => 0xa0 + self.below(0x300) as u32,
                1 => 0x2000 + self.below(0x300) as u32,
                _ => 0x20 + self.below(95) as u32,
            };
            s.push(char::from_u32(c).unwrap());
        }
        s.into_bytes()
    }
}

fn escaped(out: &mut Vec<u8>, bytes: &[u8]) {
    for &b in bytes {
        out.push(b);
        if b == 0xdf {
            out.push(0xde);
        }
    }
}

fn value(d: &mut Dice, out: &mut Vec<u8>) {
    match d.below(10) {
        0..=2 => out.push(d.below(64) as u8),
        3 | 4 => {
            out.push(0xd3);
            let x = (d.bits() as i16).to_be_bytes();
            escaped(out, &x);
        }
        5..=8 => {
            out.push(0xd5);
            let x = (d.below(10000) as f32 / 100.0 - 90.0).to_be_bytes();
            escaped(out, &x);
        }
        _ => string(d, out, 16),
    }
}

fn string(d: &mut Dice, out: &mut Vec<u8>, most: u64) {
    let n = 1 + d.below(most);
    out.push(0x7f + n as u8);
    let s = d.ascii(n);
    out.extend(s);
}

fn node(out: &mut Vec<u8>, id: i32) {
    out.push(0xd7);
    escaped(out, &id.to_be_bytes());
}

pub const START: [u8; 2] = [0xdf, 0xd1];

/// The length and seed of each stream that is decoded, and whether its values are strings alone.
pub const STREAMS: [(usize, u64, bool); 3] = [(1 << 20, 1, false), (1 << 20, 2, true), (65000, 1, false)];

/// A stream's nodes with their values, in order; START stands before them.
pub fn values(len: usize, seed: u64, strings: bool) -> Vec<Vec<u8>> {
    let mut d = Dice(seed);
    let mut all = Vec::new();
    let mut total = START.len();
    while total < len {
        let mut pair = Vec::new();
        node(&mut pair, d.below(100000) as i32);
        if strings {
            string(&mut d, &mut pair, 64);
        } else {
            value(&mut d, &mut pair);
        }
        total += pair.len();
        all.push(pair);
    }
    all
}

/// 1,024 nodes in rising order.
pub fn capture() -> Vec<u8> {
    let mut d = Dice(3);
    let mut out = START.to_vec();
    for id in 0..1024 {
        node(&mut out, 1000 + 7 * id);
        value(&mut d, &mut out);
    }
    out
}

fn name(d: &mut Dice, out: &mut Vec<u8>, most: u64) {
    let n = d.below(most);
    out.push(n as u8);
    let s = d.ascii(n);
    out.extend(s);
}

/// Definitions of all eight types.
pub fn bodies() -> Vec<Vec<u8>> {
    let mut d = Dice(4);
    (0..1000u16).map(|i| {
        let kind = i % 8;
        let mut b = d.bits().to_be_bytes().to_vec();
        b.extend(i.to_be_bytes());
        name(&mut d, &mut b, 12);
        name(&mut d, &mut b, 24);
        b.extend((kind * 16 + 1).to_be_bytes());
        match kind {
            1 | 2 => b.extend([0xc2, 0xb4, 0, 0, 0x41, 0x20, 0, 0, 0, 0, 4, 0]),
            4 => b.extend([0, 0, 0, 0, 0, 0, 0, 99]),
            5 | 6 => {
                let n = 2 + d.below(8);
                b.extend((n as u16).to_be_bytes());
                for _ in 0..n {
                    if kind == 5 {
                        name(&mut d, &mut b, 10);
                    } else {
                        b.extend([0x41, 0x20, 0, 0]);
                    }
                    name(&mut d, &mut b, 20);
                }
            }
            7 => b.extend([0, 16]),
            _ => {}
        }
        b
    }).collect()
}

pub enum Order {
    Int(i32, i32),
    Float(i32, f32),
    Text(i32, String),
}

/// With no df in a value, so that both sides write the same bytes.
pub fn orders() -> Vec<Order> {
    let mut d = Dice(5);
    (0..1000).map(|_| {
        let id = d.below(100000) as i32;
        match d.below(3) {
            0 => Order::Int(id, d.bits() as i16 as i32 & !0x0101),
            1 => Order::Float(id, d.below(200) as f32 / 2.0 - 90.0),
            _ => {
                let n = d.below(24);
                Order::Text(id, String::from_utf8(d.ascii(n)).unwrap())
            }
        }
    }).collect()
}

/// A packet of so many readings.
pub fn packet(readings: usize) -> Vec<u8> {
    let mut d = Dice(7);
    (0..4 + 2 * readings).map(|_| d.bits() as u8).collect()
}

/// What no string of UTF-8 has: characters cut short, stray tails, overlong forms, surrogates, numbers past the last character.
pub const BROKEN: [&[u8]; 24] = [
    &[0xc3], &[0xdf], &[0xe2], &[0xe2, 0x82], &[0xe0, 0xa0], &[0xed, 0x9f], &[0xef, 0xbf], &[0xf0], &[0xf0, 0x9f], &[0xf0, 0x9f, 0x98], &[0xf4, 0x8f, 0xbf],
    &[0x80], &[0xbf], &[0xc3, 0xa9, 0x80], &[0xe2, 0x82, 0xac, 0xbf], &[0xf0, 0x9f, 0x98, 0x80, 0x80],
    &[0xc0, 0x80], &[0xe0, 0x9f, 0xbf], &[0xf0, 0x8f, 0xbf, 0xbf], &[0xed, 0xa0, 0x80], &[0xed, 0xbf, 0xbf], &[0xf4, 0x90, 0x80, 0x80], &[0xf5, 0x80, 0x80, 0x80], &[0xff],
];

/// The bytes with others from a place on.
pub fn with(s: &[u8], at: usize, piece: &[u8]) -> Vec<u8> {
    [&s[..at], piece, &s[s.len().min(at + piece.len())..]].concat()
}

/// The mixed strings, each broken at a random place.
pub fn broken_strings() -> Vec<Vec<u8>> {
    let mut d = Dice(8);
    let mut broken = |s: Vec<u8>| loop {
        let bad = with(&s, d.below(s.len() as u64 + 1), BROKEN[d.below(BROKEN.len() as u64)]);
        if std::str::from_utf8(&bad).is_err() {
            return bad;
        }
    };
    strings(true).into_iter().map(&mut broken).collect()
}

pub fn strings(mixed: bool) -> Vec<Vec<u8>> {
    let mut d = Dice(6);
    (0..1000).map(|_| {
        let n = 4 + d.below(28);
        if mixed { d.mixed(n) } else { d.ascii(n) }
    }).collect()
}
