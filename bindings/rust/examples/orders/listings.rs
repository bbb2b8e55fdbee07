//! Listings printed and loaded. A load takes a table whatever it holds: it goes straight to the library, and through a mirror too
//! where the parts make one.
use crate::mirrors::{cleared, only_7, output, refused, Held, BEFORE};
use crate::words::{count, hex};
use whistleloam::{raw, LoadRefusal, Mirror, LISTING_MAX};

const ROOM: u64 = 16384;
const UINT32: u64 = u32::MAX as u64;
/// The most bytes that a `loads` order makes.
const TEXT: usize = 65600;

fn mark(agrees: bool) -> &'static str {
    if agrees {
        ""
    } else {
        "!"
    }
}

impl Held {
    pub fn listing(&mut self, name: &str, w: &[&str]) -> Option<String> {
        match (name, w.len()) {
            ("load", 1) => Some(self.load(&hex(w[0])?, false)),
            ("loads", 2) => self.loads(w),
            ("lines", 1) => Some(self.load(&hex(w[0])?, true)),
            ("print", 1) => Some(self.print(count(w[0], ROOM)?)),
            _ => None,
        }
    }

    fn loads(&mut self, w: &[&str]) -> Option<String> {
        let (times, block) = (count(w[0], UINT32)?, hex(w[1])?);
        if times.saturating_mul(block.len()) > TEXT {
            return None;
        }
        Some(self.load(&if block.is_empty() { block } else { block.repeat(times) }, false))
    }

    /// `loaded N`, or the refusal, with its line if that is asked for.
    fn load(&mut self, text: &[u8], lines: bool) -> String {
        let (before, mirror) = (self.table.clone(), self.mirror());
        let got = raw::load(text, &mut self.table);
        let answer = LoadRefusal::check(&got).map(|_| got.count);
        if answer.is_ok() {
            self.count = got.count;
            raw::state_fresh(&mut self.state);
        }
        let agrees = match answer {
            Ok(_) => self.print_all() == text,
            Err(_) => self.table == before,
        };
        let fault = mark(agrees && mirror.map_or(true, |mirror| self.loaded_too(mirror, text, answer)));
        match answer {
            Ok(records) => format!("loaded {records}{fault}"),
            Err(why) if lines => format!("{} line {}{fault}", refused(why.refusal()), why.line().unwrap_or(0)),
            Err(why) => refused(why.refusal()) + fault,
        }
    }

    /// Whether a load through the mirror that was here answers and leaves the same.
    fn loaded_too(&self, mut mirror: Mirror, text: &[u8], answer: Result<usize, LoadRefusal>) -> bool {
        let loaded = mirror.load(text);
        let parts = (mirror.state(), mirror.table(), mirror.count());
        loaded == answer && parts == (&self.state[..], &self.table[..], self.count)
    }

    /// The listing of a mirror that was loaded, by the crate's own way.
    fn print_all(&self) -> Vec<u8> {
        let mirror = self.mirror().expect("a loaded table is taken");
        mirror.print().expect("an output long enough").into_bytes()
    }

    /// Through the mirror for the room; where the parts make none, straight to the library.
    fn print(&self, room: usize) -> String {
        let mut out = vec![BEFORE; room];
        match self.mirror() {
            Ok(mirror) => {
                let written = mirror.print_into(&mut out);
                output("printed", &out, written) + mark(listed(&mirror))
            }
            Err(_) => {
                let why = only_7(raw::print(&self.table, self.count, &mut out).status);
                output("printed", &out, Err(why))
            }
        }
    }
}

/// 02: a listing of at most 65,536 bytes, loaded into as many places as it has records, gives an equal mirror but for the origins,
/// which are 0.
fn listed(mirror: &Mirror) -> bool {
    let text = mirror.print().expect("an output long enough");
    let mut other = Mirror::new(mirror.len().max(1)).expect("1 to 1,024 places");
    text.len() > LISTING_MAX || (other.load(&text) == Ok(mirror.len()) && other == cleared(mirror))
}
