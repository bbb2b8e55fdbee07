// The orders of `shell` that libwing can answer too, and their text. The making of a line stands here alone.

/// What is asked. Room is how many bytes (or readings) the lent output has.
#[derive(Clone, PartialEq)]
pub enum Order {
    Stream(Vec<u8>),
    /// A stream and the sizes of its pieces, used round and round.
    Pieces(Vec<u16>, Vec<u8>),
    /// The 256 streams that are one byte longer.
    Streams(Vec<u8>),
    Definition(Vec<u8>),
    Utf8(Vec<u8>),
    Utf8s(Vec<u8>),
    /// 1 to 256 bytes, at every place of a string of 256.
    Places(Vec<u8>),
    SetInt { room: usize, id: i32, value: i32 },
    SetFloat { room: usize, id: i32, bits: u32 },
    SetString { room: usize, id: i32, bytes: Vec<u8> },
    Format { room: usize, id: i32, prefix: u8, suffix: Option<u8> },
    AskDefinition { room: usize, id: i32 },
    AskData { room: usize, id: i32 },
    /// Kind and index of each meter; the entries past them are the filler.
    AskMeters { room: usize, port: u16, last: u16, count: u8, fill: Option<(u8, u8)>, items: Vec<u8> },
    KeepAlive { room: usize, last: u16, port: u16 },
    Packet { room: usize, bytes: Vec<u8> },
    /// 0 integer, 1 float, 2 string, and its bytes.
    Getters(u8, Vec<u8>),
}

use Order::*;

/// The longest line that shell takes, and the most bytes that it holds.
const LINE: usize = 16384;
pub const HELD: usize = 80000;

/// The bytes that one line `more ..` adds.
const CHUNK: usize = 8000;

const DIGITS: &[u8; 16] = b"0123456789abcdef";

pub fn pairs(bytes: &[u8]) -> String {
    let mut s = Vec::with_capacity(2 * bytes.len());
    for b in bytes {
        s.push(DIGITS[(b >> 4) as usize]);
        s.push(DIGITS[(b & 15) as usize]);
    }
    String::from_utf8(s).unwrap()
}

/// The bytes as a word of a line.
pub fn hex(bytes: &[u8]) -> String {
    if bytes.is_empty() { "-".into() } else { pairs(bytes) }
}

impl Order {
    /// The words before the bytes, with the space after each.
    fn front(&self) -> String {
        match self {
            Stream(_) => "stream ".into(),
            Pieces(sizes, _) if sizes.len() == 1 => format!("pieces {} ", sizes[0]),
            Pieces(sizes, _) => format!("piecelist {} ", sizes.iter().map(|n| n.to_string()).collect::<Vec<_>>().join(",")),
            Streams(_) => "streams ".into(),
            Definition(_) => "definition ".into(),
            Utf8(_) => "utf8 ".into(),
            Utf8s(_) => "utf8s ".into(),
            Places(_) => "places ".into(),
            SetInt { room, id, value } => format!("setint {room} {id} {value}"),
            SetFloat { room, id, bits } => format!("setfloat {room} {id} {bits:08x}"),
            SetString { room, id, .. } => format!("setstring {room} {id} "),
            Format { room, id, prefix, suffix } => format!("format {room} {id} {prefix:02x} {}", suffix.map_or("-".into(), |b| pairs(&[b]))),
            AskDefinition { room, id } => format!("askdefinition {room} {id}"),
            AskData { room, id } => format!("askdata {room} {id}"),
            AskMeters { room, port, last, count, fill: None, .. } => format!("askmeters {room} {port} {last} {count} "),
            AskMeters { room, port, last, count, fill: Some((kind, index)), .. } => format!("askmetersfill {room} {port} {last} {count} {kind:02x}{index:02x} "),
            KeepAlive { room, last, port } => format!("keepalive {room} {last} {port}"),
            Packet { room, .. } => format!("packet {room} "),
            Getters(kind, _) => format!("getters {kind} "),
        }
    }

    /// The bytes at the end of the line, of orders that have them.
    pub fn bytes(&self) -> Option<&[u8]> {
        match self {
            Stream(b) | Pieces(_, b) | Streams(b) | Definition(b) | Utf8(b) | Utf8s(b) | Places(b) | Getters(_, b) => Some(b),
            SetString { bytes, .. } | Packet { bytes, .. } => Some(bytes),
            AskMeters { items, .. } => Some(items),
            _ => None,
        }
    }

    /// The order on other bytes, for orders that are made smaller where they differ.
    pub fn on(&self, bytes: Vec<u8>) -> Option<Order> {
        match self {
            Stream(_) => Some(Stream(bytes)),
            Pieces(sizes, _) => Some(Pieces(sizes.clone(), bytes)),
            Definition(_) => Some(Definition(bytes)),
            Utf8(_) => Some(Utf8(bytes)),
            _ => None,
        }
    }

    /// The same with another room for the output.
    pub fn in_room(&self, n: usize) -> Order {
        let mut o = self.clone();
        match &mut o {
            SetInt { room, .. } | SetFloat { room, .. } | SetString { room, .. } | Format { room, .. } | AskDefinition { room, .. }
            | AskData { room, .. } | AskMeters { room, .. } | KeepAlive { room, .. } | Packet { room, .. } => *room = n,
            _ => {}
        }
        o
    }

    /// How many bytes it is about; the numbers before them count by their widths, one size for all pieces.
    pub fn len(&self) -> usize {
        let numbers = match self {
            Pieces(..) | Packet { .. } => 2,
            SetString { .. } => 6,
            AskMeters { .. } => 7,
            Getters(..) => 1,
            _ => 0,
        };
        numbers + self.bytes().map_or(0, |b| b.len())
    }

    /// How many of the comparison's cases it stands for.
    pub fn cases(&self) -> u64 {
        match self {
            Streams(_) | Utf8s(_) => 256,
            Places(b) => 257 - b.len() as u64,
            _ => 1,
        }
    }

    /// The order as one line, without its end.
    pub fn text(&self) -> String {
        self.front() + &self.bytes().map_or(String::new(), hex)
    }

    /// The bytes in parts that go ahead in lines of their own: none where the order fits one line.
    fn ahead(&self) -> Vec<&[u8]> {
        match self.bytes() {
            Some(b) if self.front().len() + 2 * b.len() + "sum ".len() > LINE => b.chunks(CHUNK).collect(),
            _ => Vec::new(),
        }
    }

    /// All lines of the order, each with its end.
    pub fn lines(&self, sum: bool) -> String {
        let sum = if sum { "sum " } else { "" };
        let ahead = self.ahead();
        if ahead.is_empty() {
            return format!("{sum}{}\n", self.text());
        }
        let mut s: String = ahead.iter().map(|part| format!("more {}\n", pairs(part))).collect();
        s += &format!("{sum}{}+\n", self.front());
        s
    }

    /// The answers to the lines that go ahead.
    pub fn held(&self) -> Vec<String> {
        let mut n = 0;
        self.ahead().iter().map(|part| {
            n += part.len();
            format!("held {n}\n")
        }).collect()
    }
}

/// The bytes of a word of hex pairs.
pub fn unpaired(s: &str) -> Option<Vec<u8>> {
    if s == "-" {
        return Some(Vec::new());
    }
    let digit = |c: u8| (c as char).to_digit(16).map(|d| d as u8);
    let pair = |p: &[u8]| Some(digit(p[0])? * 16 + digit(*p.get(1)?)?);
    s.as_bytes().chunks(2).map(pair).collect()
}

fn number<T: std::str::FromStr>(s: &str) -> Option<T> {
    s.parse().ok()
}

fn of_bytes(word: &str, b: Vec<u8>) -> Option<Order> {
    Some(match word {
        "stream" => Stream(b),
        "streams" => Streams(b),
        "definition" => Definition(b),
        "utf8" => Utf8(b),
        "utf8s" => Utf8s(b),
        "places" if (1..=256).contains(&b.len()) => Places(b),
        _ => return None,
    })
}

fn of_room(word: &str, room: usize, words: &[&str]) -> Option<Order> {
    Some(match (word, words) {
        ("packet", [h]) => Packet { room, bytes: unpaired(h)? },
        ("askdefinition", [id]) => AskDefinition { room, id: number(id)? },
        ("askdata", [id]) => AskData { room, id: number(id)? },
        ("setint", [id, x]) => SetInt { room, id: number(id)?, value: number(x)? },
        ("setfloat", [id, h]) => SetFloat { room, id: number(id)?, bits: u32::from_str_radix(h, 16).ok()? },
        ("setstring", [id, h]) => SetString { room, id: number(id)?, bytes: unpaired(h)? },
        ("keepalive", [last, port]) => KeepAlive { room, last: number(last)?, port: number(port)? },
        ("format", [id, p, s]) => Format { room, id: number(id)?, prefix: unpaired(p)?[0], suffix: unpaired(s)?.first().copied() },
        ("askmeters", [port, last, count, h]) =>
            AskMeters { room, port: number(port)?, last: number(last)?, count: number(count)?, fill: None, items: unpaired(h)? },
        ("askmetersfill", [port, last, count, f, h]) => {
            let f = unpaired(f)?;
            AskMeters { room, port: number(port)?, last: number(last)?, count: number(count)?, fill: Some((f[0], *f.get(1)?)), items: unpaired(h)? }
        }
        _ => return None,
    })
}

/// An order of one line.
pub fn read(line: &str) -> Option<Order> {
    let words: Vec<&str> = line.split(' ').collect();
    match words.as_slice() {
        [word, h] => of_bytes(word, unpaired(h)?),
        ["getters", kind, h] => Some(Getters(number(kind)?, unpaired(h)?)),
        ["pieces" | "piecelist", list, h] => {
            let sizes: Option<Vec<u16>> = list.split(',').map(number).collect();
            Some(Pieces(sizes?, unpaired(h)?))
        }
        [word, room, rest @ ..] => of_room(word, number(room)?, rest),
        _ => None,
    }
}
