// Lines for damage alone: orders of every kind, the mirror's among them, in form or with bytes altered, and plain noise.
use crate::orders::{pairs, Order};
use crate::queries::{self, tokens, Dice};
use std::io::{BufWriter, Write};

fn number(d: &mut Dice) -> String {
    let edges = ["0", "1", "63", "64", "128", "263", "264", "1023", "1024", "1026", "1027", "16384", "16385", "65535", "65536", "270864", "2147483647",
        "2147483648", "4294967296", "18446744073709551616", "-1", "-2147483648", "-2147483649", "-", "+", "00", "1,2", "007"];
    if d.one_in(3) { edges[d.below(edges.len() as u64)].into() } else { (d.below(300) as i64 - 20).to_string() }
}

fn bytes(d: &mut Dice) -> String {
    let n = 1 + d.below(5);
    let s = match d.below(4) {
        0 => tokens(d, n),
        1 => d.string(n),
        2 => d.word(4),
        _ => d.telling_bytes(n),
    };
    if s.is_empty() || d.one_in(20) { ["-", "+", ""][d.below(3)].into() } else { pairs(&s) }
}

/// Orders that libwing has no answer to, 02's among them. N stands for a number and H for bytes.
const FORMS: [&str; 63] = [
    "new N", "new N N", "new N N N", "feed H", "feed H", "feed H", "repeat N H", "int N N N", "int N N 18", "float N H N", "string N H N", "string N H 512",
    "dump", "lookup N", "record N", "recall N", "recall 16384", "poke N H", "count N", "peek N N", "more H", "mores N H", "earlier H H H", "stream +", "pieces N +", "piecelist N,N,N +",
    "packet N +", "definition +", "sum stream +", "sum piecelist N,1,N +", "cuts H", "item N H", "step N N N H", "walk H", "units H", "state N N H",
    "state N 1 H", "lent H", "splits H", "getstring N H", "askmetersfill N N N N H H", "sum dump",
    "define N N N N N N H H N N N H H H N", "define N N 7 N N 1 00000000 3f800000 N N 16 H H H N", "define 1 -2 7 5 1 0 00000000 00000000 0 1 0 41 - H 64", "again H",
    "load H", "loads N H", "load 69642c6b696e642c76616c75650a2d322c662c33663830303030300a312c692c350a322c732c343134320a",
    "lines 69642c6b696e642c76616c75650a312c692c350aH", "print N", "print 16384",
    "places H", "sum places H",
    "window N", "window 4", "reading N", "figures", "readings N,N,N N", "readings N,-1,5 20", "ring", "hold N N N N N N,N,N", "hold 2 2 1 2 3 1,2",
];

fn formed(d: &mut Dice) -> String {
    let mut s = String::new();
    for c in FORMS[d.below(FORMS.len() as u64)].chars() {
        match c {
            'N' => s += &number(d),
            'H' => s += &bytes(d),
            _ => s.push(c),
        }
    }
    s
}

// One order's lines, without the last end. Long answers of the mirror come seldom: most mirrors are small.
fn order(d: &mut Dice) -> Vec<u8> {
    let sum = d.one_in(2);
    let s = match d.below(8) {
        0 | 1 => formed(d),
        2 => format!("new {} {}", d.below(6), d.below(264)),
        3 => format!("feed {}", bytes(d)),
        4 => format!("more {}", bytes(d)),
        _ => {
            let (_, o): (_, Order) = queries::random(d);
            o.lines(sum)
        }
    };
    s.trim_end().as_bytes().to_vec()
}

// A byte altered, all after a place left out, a byte put in, or a part repeated, up to twice.
fn spoiled(d: &mut Dice, mut l: Vec<u8>) -> Vec<u8> {
    for _ in 0..d.below(3) {
        if l.is_empty() {
            return l;
        }
        let at = d.below(l.len() as u64);
        match d.below(5) {
            0 => l[at] = d.bits() as u8,
            1 => l.truncate(at),
            2 => l.insert(at, b"0d\nf: #-+,"[d.below(10)]),
            3 => l.extend_from_within(at..),
            _ => l[at] = b" 09af-"[d.below(6)],
        }
    }
    l
}

pub fn lines(count: u64, seed: u64) {
    let mut out = BufWriter::new(std::io::stdout().lock());
    let mut d = Dice::new(seed);
    for _ in 0..count {
        let mut l = match d.below(12) {
            0 => {
                let n = d.below(60);
                (0..n).map(|_| d.bits() as u8).collect()
            }
            1 if d.one_in(50) => vec![b'a' + d.below(26) as u8; 16380 + d.below(9)],
            _ => order(&mut d),
        };
        if !d.one_in(3) {
            l = spoiled(&mut d, l);
        }
        l.push(b'\n');
        out.write_all(&l).unwrap();
    }
}
