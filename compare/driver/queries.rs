// The orders of a run: everything small, and random ones around each boundary.
use crate::orders::Order;

/// Numbers that a seed fixes (xorshift).
pub struct Dice(u64);

impl Dice {
    pub fn new(seed: u64) -> Self {
        Dice(seed.wrapping_mul(0x9e37_79b9_7f4a_7c15) | 1)
    }

    pub fn bits(&mut self) -> u64 {
        self.0 ^= self.0 << 13;
        self.0 ^= self.0 >> 7;
        self.0 ^= self.0 << 17;
        self.0.wrapping_mul(0x2545_f491_4f6c_dd1d) >> 16
    }

    pub fn below(&mut self, n: u64) -> usize {
        (self.bits() % n) as usize
    }

    pub fn one_in(&mut self, n: u64) -> bool {
        self.below(n) == 0
    }

    pub fn any(&mut self) -> u8 {
        self.bits() as u8
    }

    pub fn of(&mut self, list: &[u8]) -> u8 {
        list[self.below(list.len() as u64)]
    }

    /// A byte that matters to escapes, tokens or UTF-8 more often than not.
    pub fn telling(&mut self) -> u8 {
        match self.below(8) {
            0 | 1 => 0xdf,
            2 => 0xd0 + self.below(15) as u8,
            3 => self.of(&[0x00, 0x3f, 0x40, 0x7f, 0x80, 0x81, 0xbf, 0xc0, 0xcf, 0xff]),
            4 => self.of(&[0xd1, 0xd3, 0xd4, 0xd5, 0xd7, 0xdf, 0xde]),
            5 => 0x20 + self.below(95) as u8,
            _ => self.any(),
        }
    }

    pub fn telling_bytes(&mut self, n: usize) -> Vec<u8> {
        (0..n).map(|_| self.telling()).collect()
    }

    pub fn word(&mut self, n: usize) -> Vec<u8> {
        let edge = [0u8, 1, 0x3f, 0x40, 0x7f, 0x80, 0xde, 0xdf, 0xe0, 0xff];
        (0..n).map(|_| if self.one_in(2) { self.of(&edge) } else { self.any() }).collect()
    }

    /// UTF-8 of about n bytes, sometimes spoiled.
    pub fn string(&mut self, n: usize) -> Vec<u8> {
        let wide = self.below(4);
        let mut s = String::new();
        while s.len() < n {
            let c = match if wide == 0 { self.below(4) } else { 0 } {
                1 => 0x80 + self.below(0x780) as u32,
                2 => 0x800 + self.below(0xd000) as u32,
                3 => 0x10000 + self.below(0x100000) as u32,
                _ => 0x20 + self.below(95) as u32,
            };
            s.push(char::from_u32(c).unwrap_or('?'));
        }
        while s.len() > n {
            s.pop();
        }
        let mut b = s.into_bytes();
        while b.len() < n {
            b.push(b'x');
        }
        if n > 0 && self.one_in(12) {
            let at = self.below(n as u64);
            b[at] = self.any();
        }
        b
    }

    pub fn length(&mut self) -> usize {
        let edges = [0, 1, 2, 15, 16, 17, 63, 64, 65, 66, 127, 128, 222, 223, 224, 225, 254, 255, 256];
        if self.one_in(2) { self.below(20) } else { edges[self.below(edges.len() as u64)] }
    }
}

pub fn escaped(bytes: &[u8]) -> Vec<u8> {
    let mut out = Vec::new();
    for &b in bytes {
        out.push(b);
        if b == 0xdf {
            out.push(0xde);
        }
    }
    out
}

// A definition's body, all in order: parent, id, index, names, flags, what the type adds.
fn whole_body(d: &mut Dice) -> Vec<u8> {
    let mut b = d.word(10);
    for _ in 0..2 {
        let n = if d.one_in(8) { d.below(256) } else { d.below(12) };
        b.push(n as u8);
        let s = d.string(n);
        b.extend(s);
    }
    let flags = d.word(2);
    let kind = flags[1] >> 4;
    b.extend(flags);
    match kind {
        1 | 2 => b.extend(d.word(12)),
        4 => b.extend(d.word(8)),
        7 => b.extend(d.word(2)),
        5 | 6 => {
            let n = if d.one_in(10) { d.below(60) } else { d.below(5) };
            b.extend((n as u16).to_be_bytes());
            for _ in 0..n {
                if kind == 6 {
                    b.extend(d.word(4));
                }
                for _ in 0..(7 - kind) {
                    let m = if d.one_in(20) { d.below(256) } else { d.below(9) };
                    b.push(m as u8);
                    let s = d.string(m);
                    b.extend(s);
                }
            }
        }
        _ => {}
    }
    if d.one_in(4) {
        let n = d.below(6);
        b.extend(d.word(n));
    }
    b
}

// Cut, or with a byte altered, left out or put in, up to three times; or as it was.
pub fn damaged(d: &mut Dice, mut b: Vec<u8>) -> Vec<u8> {
    for _ in 0..d.below(4) {
        if b.is_empty() {
            return b;
        }
        let at = d.below(b.len() as u64);
        match d.below(5) {
            0 => b.truncate(at),
            1 => b[at] = d.telling(),
            2 => {
                b.remove(at);
            }
            3 => b.insert(at, d.telling()),
            _ => b[at] = b[at].wrapping_add(d.of(&[1, 255, 0x80])),
        }
    }
    b
}

// A string of n bytes after its token byte.
fn string_token(d: &mut Dice, first: u8, n: usize, out: &mut Vec<u8>) {
    out.push(first);
    let s = d.string(n);
    out.extend(escaped(&s));
}

// A token byte and n bytes.
fn number_token(d: &mut Dice, first: u8, n: usize, out: &mut Vec<u8>) {
    out.push(first);
    let w = d.word(n);
    out.extend(escaped(&w));
}

pub fn token(d: &mut Dice, out: &mut Vec<u8>) {
    match d.below(11) {
        0 => out.push(d.below(64) as u8),
        1 => {
            let n = d.below(64);
            string_token(d, 0x80 + n as u8, n + 1, out);
        }
        2 => {
            let n = d.below(16);
            string_token(d, 0xc0 + n as u8, n + 1, out);
        }
        3 => out.push(d.of(&[0xd0, 0xde, 0xd8, 0xda, 0xdb, 0xdc, 0xdd, 0x40, 0x7f, 0xe0, 0xff])),
        4 => {
            let n = d.length().max(1);
            out.push(0xd1);
            out.extend(escaped(&[(n - 1) as u8]));
            let s = d.string(n);
            out.extend(escaped(&s));
        }
        5 => number_token(d, 0xd3, 2, out),
        6 | 7 => {
            let first = d.of(&[0xd4, 0xd5, 0xd6, 0xd7]);
            number_token(d, first, 4, out);
        }
        8 => number_token(d, 0xd2, 2, out),
        9 => number_token(d, 0xd9, 1, out),
        _ => definition_token(d, out),
    }
}

fn definition_token(d: &mut Dice, out: &mut Vec<u8>) {
    let b = whole_body(d);
    let b = damaged(d, b);
    if d.one_in(3) {
        out.extend([0xdf, 0xd0 + d.below(14) as u8]);
    }
    out.push(0xdf);
    let n = if d.one_in(6) { d.below(40) } else { b.len() };
    out.extend(count_units(d, n));
    out.extend(escaped(&b));
}

// A count, one in four times, and always over 65,535, as a 32-bit one after count 0; now and then one that no stream has the units of.
fn count_units(d: &mut Dice, n: usize) -> Vec<u8> {
    if n <= 65535 && !d.one_in(4) {
        return escaped(&(n as u16).to_be_bytes());
    }
    let n = if d.one_in(40) { [65536 + n, 0x1000000 + n, 0xffff_ffff][d.below(3)] } else { n };
    let mut out = vec![0, 0];
    out.extend(escaped(&(n as u32).to_be_bytes()));
    out
}

pub fn tokens(d: &mut Dice, n: usize) -> Vec<u8> {
    let mut out = Vec::new();
    if !d.one_in(4) {
        out.extend([0xdf, 0xd0 + d.below(14) as u8]);
    }
    for _ in 0..n {
        token(d, &mut out);
        if d.one_in(12) {
            out.extend([0xdf, 0xd0 + d.below(14) as u8]);
        }
    }
    out
}

// A body whose count is around 4,096, or far over it.
fn long_body(d: &mut Dice) -> Vec<u8> {
    let edges = [4090, 4094, 4095, 4096, 4097, 4098, 5000, 65535];
    let n = edges[d.below(edges.len() as u64)];
    let mut b = whole_body(d);
    while b.len() < n {
        b.push(d.of(&[0x00, 0x41, 0xdf, 0xff]));
    }
    b.truncate(n);
    let mut out = vec![0xdf, 0xd1, 0xdf];
    out.extend(count_units(d, n));
    out.extend(escaped(&b));
    out.truncate(64000);
    out.extend([0x05, 0xde]);
    out
}

fn room(d: &mut Dice, most: usize) -> usize {
    if d.one_in(4) { d.below(most as u64 / 8 + 1) } else { most }
}

fn id(d: &mut Dice) -> i32 {
    let w = d.word(4);
    i32::from_be_bytes([w[0], w[1], w[2], w[3]])
}

fn integer(d: &mut Dice) -> i32 {
    let edges = [0, 63, 64, -1, 223, 32767, 32768, -32768, -32769, i32::MAX, i32::MIN, 0xdfdf, -8225];
    match d.below(3) {
        0 => edges[d.below(edges.len() as u64)],
        1 => d.below(140000) as i32 - 70000,
        _ => d.bits() as i32,
    }
}

fn written(d: &mut Dice) -> Order {
    let room = room(d, 512);
    let mut to = id(d);
    match d.below(6) {
        0 | 1 => Order::SetInt { room, id: to, value: integer(d) },
        2 => Order::SetFloat { room, id: to, bits: id(d) as u32 },
        3 => {
            let n = if d.one_in(6) { 250 + d.below(60) } else { d.length() };
            Order::SetString { room, id: to, bytes: d.string(n) }
        }
        4 => {
            let n = 1 + d.below(2);
            let w = d.word(n);
            Order::Format { room, id: to, prefix: w[0], suffix: w.get(1).copied() }
        }
        _ => {
            if d.one_in(8) {
                to = 0;
            }
            if d.one_in(2) { Order::AskDefinition { room, id: to } } else { Order::AskData { room, id: to } }
        }
    }
}

fn meters(d: &mut Dice) -> Order {
    let room = room(d, 512);
    let ids = id(d) as u32;
    let last = if d.one_in(20) { 65535 } else { ids as u16 };
    let edges = [0, 1, 2, 63, 64, 65, 66, 255];
    let count = if d.one_in(2) { d.below(8) } else { edges[d.below(8)] };
    let items = meter_items(d, count.min(64));
    Order::AskMeters { room, port: (ids >> 16) as u16, last, count: count as u8, fill: None, items }
}

pub fn meter_items(d: &mut Dice, n: usize) -> Vec<u8> {
    let mut items = Vec::new();
    for _ in 0..n {
        items.push(d.below(16) as u8);
        let index = d.word(1)[0];
        items.push(index);
    }
    items
}

fn keep_alive(d: &mut Dice) -> Order {
    let last = if d.one_in(6) { d.below(700) } else { d.below(6) };
    let most = last * 13 + 5;
    let room = if d.one_in(4) { d.below(most as u64) } else { most };
    let w = d.word(2);
    Order::KeepAlive { room, last: last as u16, port: u16::from_be_bytes([w[0], w[1]]) }
}

fn packet(d: &mut Dice) -> Order {
    let edges = [0, 1, 2, 3, 4, 5, 6, 7, 8190, 8191, 8192, 8193, 8194];
    let n = if d.one_in(16) { edges[d.below(13)] } else { d.below(80) };
    let room = if d.one_in(4) { d.below(n as u64 / 2 + 1) } else { 4100 };
    Order::Packet { room, bytes: d.word(n) }
}

fn getter(d: &mut Dice) -> Order {
    let kind = d.below(3) as u8;
    let bytes = if kind == 2 {
        let n = d.length();
        let s = d.string(n);
        match String::from_utf8(s) {
            Ok(s) => s.into_bytes(),
            Err(_) => vec![b'x'],
        }
    } else if d.one_in(2) {
        (d.below(2001) as i32 - 1000).to_be_bytes().to_vec()
    } else {
        d.word(4)
    };
    Order::Getters(kind, bytes)
}

fn pieces(d: &mut Dice) -> Order {
    let size = if d.one_in(2) { 1 + d.below(4) } else { 1 + d.below(40) };
    let n = 1 + d.below(4);
    let s = tokens(d, n);
    Order::Pieces(vec![size as u16], damaged(d, s))
}

/// A random order and its kind.
pub fn random(d: &mut Dice) -> (&'static str, Order) {
    match d.below(40) {
        0..=7 => {
            let n = if d.one_in(30) { d.length() } else { d.below(24) };
            ("random streams", Order::Stream(d.telling_bytes(n)))
        }
        8..=15 => {
            let n = 1 + d.below(6);
            let s = tokens(d, n);
            ("valid streams, damaged", Order::Stream(damaged(d, s)))
        }
        16..=18 => ("streams in pieces", pieces(d)),
        19..=24 => {
            let b = whole_body(d);
            ("definitions, cut and damaged", Order::Definition(damaged(d, b)))
        }
        25..=29 => ("set orders, requests, ids", written(d)),
        30..=31 => ("meter requests", meters(d)),
        32 => ("keep-alives", keep_alive(d)),
        33..=34 => ("packets", packet(d)),
        35..=36 => ("getters", getter(d)),
        37 => {
            let n = d.length();
            ("UTF-8", Order::Utf8(d.string(n)))
        }
        38 => {
            let n = 2 + d.below(6);
            let lead = [0x41, 0x7f, 0x80, 0xbf, 0xc1, 0xc2, 0xdf, 0xe0, 0xed, 0xef, 0xf0, 0xf4, 0xf5, 0x9f, 0xa0, 0x8f, 0x90];
            ("UTF-8", Order::Utf8((0..n).map(|_| d.of(&lead)).collect()))
        }
        _ => {
            if d.one_in(40) {
                return ("counts around 4,096", Order::Stream(long_body(d)));
            }
            let n = 40 + d.below(300);
            ("random streams", Order::Stream(d.telling_bytes(n)))
        }
    }
}

/// All 65,536 flags, with enough bytes after them for any type and with fewer.
pub fn flags(mut each: impl FnMut(&'static str, Order)) {
    for flags in 0..=0xffffu16 {
        let mut b = vec![0, 0, 0, 1, 0xff, 0xff, 0xff, 0xfe, 0, 7, 1, b'a', 0];
        b.extend(flags.to_be_bytes());
        each("all flags", Order::Definition(b.clone()));
        b.extend([0, 1, 2, b'a', b'b', 1, b'c', 0xbf, 0x80, 0, 0, 0, 0, 9, 9]);
        each("all flags", Order::Definition(b));
    }
}

/// Fronts of up to n bytes, to each of which one byte more is tried.
pub fn fronts(n: usize, mut each: impl FnMut(Vec<u8>)) {
    for len in 0..=n {
        for x in 0..(1usize << (8 * len)) {
            each(x.to_be_bytes()[8 - len..].to_vec());
        }
    }
}

/// All keep-alives that there can be, and streams of one byte.
pub fn large(mut each: impl FnMut(&'static str, Order)) {
    for port in [0u16, 223, 0xdfdf, 65535] {
        for last in [65535u16, 65534, 57311, 255, 224] {
            for room in [800000, 4000] {
                each("keep-alives", Order::KeepAlive { room, last, port });
            }
        }
    }
    for byte in [0x00, 0x40, 0x3f, 0xdf, 0xde, 0x80, 0xd0] {
        for n in [2047, 2048, 2049, 4096, 65535, 65536] {
            each("streams of one byte", Order::Stream(vec![byte; n]));
            let mut b = vec![0xdf, 0xd1];
            b.extend(vec![byte; n - 2]);
            each("streams of one byte", Order::Stream(b));
        }
    }
}
