//! Orders of docs/ORDERS.md, answered by this crate: a line each from standard input, a line each to standard output.
//!
//! All of the parts 'Mirror' and 'Document 02'; of the others those that the crate has calls for, without `sum` and held bytes.
//! `bindings/histories` holds the answers against the model of 01 and of 02's requests. Where two of the crate's ways to one answer differ, a `!` stands in it.
mod definitions;
mod listings;
mod mirrors;
mod singles;
mod windows;
mod words;

use mirrors::Held;
use std::io::{self, BufRead, Write};
use windows::Watched;

/// The longest line.
const LINE: usize = 16384;

/// What the orders before have left: the mirror, and the window over readings.
#[derive(Default)]
struct Kept {
    held: Held,
    watched: Watched,
}

fn order(kept: &mut Kept, line: &[u8]) -> Option<String> {
    let text = std::str::from_utf8(line).ok()?;
    let all: Vec<&str> = text.split(' ').collect();
    let (name, given) = all.split_first()?;
    let Kept { held, watched } = kept;
    held.order(name, given)
        .or_else(|| held.listing(name, given))
        .or_else(|| watched.order(name, given))
        .or_else(|| singles::order(name, given))
}

fn answer(kept: &mut Kept, line: &[u8]) -> Vec<u8> {
    if line.len() > LINE {
        return b"?".to_vec();
    }
    if line.is_empty() || line[0] == b'#' {
        return line.to_vec();
    }
    match order(kept, line) {
        Some(text) => text.into_bytes(),
        None => [b"? ", line].concat(),
    }
}

fn main() -> io::Result<()> {
    let mut kept = Kept::default();
    let mut out = io::BufWriter::new(io::stdout().lock());
    for line in io::stdin().lock().split(b'\n') {
        out.write_all(&answer(&mut kept, &line?))?;
        out.write_all(b"\n")?;
    }
    out.flush()
}
