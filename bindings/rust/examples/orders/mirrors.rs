//! The part 'Mirror': one mirror in parts, so that its table can be poked. Where the parts make a mirror, the calls go through it;
//! where they do not, straight to the library, which must refuse them with the same number.
use crate::words::{bits, count, hex, int32, pairs};
use whistleloam::{raw, Counts, Decoder, Entry, Mirror, Origin, Refusal, Value, PLACE_WIDTH};

const MEMORY: u64 = 1026 * PLACE_WIDTH as u64;
const UINT32: u64 = u32::MAX as u64;
/// What an output holds before a call.
pub const BEFORE: u8 = 0xaa;

pub struct Held {
    pub state: Vec<u8>,
    pub table: Vec<u8>,
    pub count: usize,
    fill: u8,
    /// The mirror of the last dump, and its text with the origins.
    last: Option<(Mirror, String)>,
}

impl Default for Held {
    fn default() -> Held {
        Held { state: Decoder::new().save(), table: Vec::new(), count: 0, fill: 0, last: None }
    }
}

/// With the good beside 1 and 5.
pub fn refused(why: Refusal) -> String {
    let good = why.good().map_or(String::new(), |good| format!(" good {good}"));
    format!("refused {}{good}", why.number())
}

fn value_text(value: &Value) -> String {
    match value {
        Value::Int(x) => format!("i,{x}"),
        Value::Float(bits) => format!("f,{bits:08x}"),
        Value::String(s) => format!("s,{}", pairs(s.as_bytes()).replace('-', "")),
    }
}

fn record_text(id: i32, value: &Value) -> String {
    format!("{id},{}", value_text(value))
}

fn entry_text(e: &Entry) -> String {
    format!("{} origin {}", record_text(e.id, &e.value), e.origin as u8)
}

/// Where in a place its origin stands.
const ORIGIN: usize = 5;

/// 02: for what a recall rebuilds and a listing loads "the origin is set aside: all other bytes agree and its origins are 0".
pub fn cleared(mirror: &Mirror) -> Mirror {
    let mut table = mirror.table().to_vec();
    table.chunks_mut(PLACE_WIDTH).take(mirror.count()).for_each(|place| place[ORIGIN] = 0);
    Mirror::from_parts(mirror.state(), table, mirror.count()).expect("a table with origins 0")
}

/// The bytes that a call says it wrote, after a word, and whether those after them are as they were.
pub fn output(word: &str, out: &[u8], written: Result<usize, Refusal>) -> String {
    let len = *written.as_ref().unwrap_or(&0);
    let clean = if out[len..].iter().all(|b| *b == BEFORE) { "clean" } else { "dirt" };
    match written {
        Ok(len) => format!("{word} {} {clean}", pairs(&out[..len])),
        Err(why) => format!("{} {clean}", refused(why)),
    }
}

fn sent(out: &[u8], written: Result<usize, Refusal>) -> String {
    output("sent", out, written)
}

/// 7 where the parts make no mirror; another status would be a fault.
pub fn only_7(status: i32) -> Refusal {
    Refusal::check(status).expect_err("a table that makes no mirror was taken")
}

impl Held {
    pub fn order(&mut self, name: &str, w: &[&str]) -> Option<String> {
        match (name, w.len()) {
            ("new", 1..=3) => self.new(w),
            ("feed", 1) => Some(self.feed(&hex(w[0])?)),
            ("repeat", 2) => self.repeat(w),
            ("int", 3) => self.set(w, Value::Int(int32(w[1])?)),
            ("float", 3) => self.set(w, Value::Float(bits(w[1])?)),
            ("string", 3) => self.string(w),
            ("dump", 0) => Some(self.dump()),
            ("lookup", 1) => Some(self.lookup(int32(w[0])?)),
            ("record", 1) => Some(self.record(count(w[0], UINT32)?)),
            ("recall", 1) => Some(self.recall(count(w[0], 16384)?)),
            ("poke", 2) => self.poke(w),
            ("count", 1) => {
                self.count = count(w[0], UINT32)?;
                Some(format!("count {}", self.count))
            }
            ("peek", 2) => self.peek(w),
            _ => None,
        }
    }

    fn new(&mut self, w: &[&str]) -> Option<String> {
        let places = count(w[0], 1026)?;
        let extra = count(w.get(1).unwrap_or(&"0"), PLACE_WIDTH as u64 - 1)?;
        let fill = count(w.get(2).unwrap_or(&"0"), 255)? as u8;
        let size = places * PLACE_WIDTH + extra;
        if size as u64 > MEMORY {
            return None;
        }
        let last = self.last.take();
        *self = Held { table: vec![fill; size], fill, last, ..Held::default() };
        Some(format!("places {places}"))
    }

    pub fn mirror(&self) -> Result<Mirror, Refusal> {
        Mirror::from_parts(&self.state, self.table.clone(), self.count)
    }

    fn keep(&mut self, mirror: &Mirror) {
        self.state.copy_from_slice(mirror.state());
        self.table.copy_from_slice(mirror.table());
        self.count = mirror.count();
    }

    fn feed(&mut self, bytes: &[u8]) -> String {
        let fed = match self.mirror() {
            Ok(mut mirror) => {
                let fed = mirror.feed(bytes);
                self.keep(&mirror);
                fed
            }
            Err(_) => Err(only_7(raw::feed(&mut self.state, &mut self.table, self.count, bytes).status)),
        };
        match fed {
            Ok(Counts { stored, unplaced, strings_refused, definitions_read, definitions_refused, ends }) => {
                format!("fed {stored} {unplaced} {strings_refused} {definitions_read} {definitions_refused} {ends}")
            }
            Err(why) => refused(why),
        }
    }

    fn repeat(&mut self, w: &[&str]) -> Option<String> {
        let (times, bytes) = (count(w[0], UINT32)?, hex(w[1])?);
        if times.saturating_mul(bytes.len()) > 65600 {
            return None;
        }
        Some(self.feed(&if bytes.is_empty() { bytes } else { bytes.repeat(times) }))
    }

    fn set(&mut self, w: &[&str], value: Value) -> Option<String> {
        let (id, room) = (int32(w[0])?, count(w[2], 512)?);
        let mut out = vec![BEFORE; room];
        let set = match self.mirror() {
            Ok(mut mirror) => {
                let set = mirror.set_into(id, &value, &mut out);
                self.keep(&mirror);
                set
            }
            Err(_) => Err(only_7(raw::set_int(&mut self.table, self.count, &mut out, id, 0).status)),
        };
        Some(sent(&out, set))
    }

    /// Bytes that are not UTF-8 are no value of the crate's: they go straight to the library.
    fn string(&mut self, w: &[&str]) -> Option<String> {
        let bytes = hex(w[1])?;
        match String::from_utf8(bytes) {
            Ok(text) => self.set(w, Value::String(text)),
            Err(e) => {
                let (id, room, bytes) = (int32(w[0])?, count(w[2], 512)?, e.into_bytes());
                let mut out = vec![BEFORE; room];
                let set = raw::set_string(&mut self.table, self.count, &mut out, id, &bytes);
                self.count = set.count;
                Some(sent(&out, Refusal::check_with(set.status, set.good).map(|_| set.len)))
            }
        }
    }

    fn lookup(&self, id: i32) -> String {
        match self.mirror().map(|mirror| mirror.lookup(id)) {
            Ok(Some(number)) => format!("at {number}"),
            Ok(None) => "none".to_string(),
            Err(_) => refused(only_7(raw::lookup(&self.table, self.count, id).status)),
        }
    }

    fn record(&self, number: usize) -> String {
        let mirror = match self.mirror() {
            Ok(mirror) => mirror,
            Err(_) => return refused(only_7(raw::record(&self.table, self.count, number).status)),
        };
        match mirror.entry(number) {
            Ok(entry) => {
                let byte = self.table[number * PLACE_WIDTH + ORIGIN];
                let told = mirror.origin(entry.id) == Some(entry.origin) && entry.origin as u8 == byte;
                let plain = mirror.record(number) == Ok((entry.id, entry.value.clone()));
                entry_text(&entry) + if told && plain { "" } else { "!" }
            }
            Err(why) => refused(why),
        }
    }

    fn recall(&self, room: usize) -> String {
        let mut out = vec![BEFORE; room];
        let written = match self.mirror() {
            Ok(mirror) => mirror.recall_into(&mut out),
            Err(_) => Err(only_7(raw::recall(&self.table, self.count, &mut out).status)),
        };
        sent(&out, written)
    }

    /// By its places alone a table is not refused here: one of none or over 1,024 holds no record but those poked into it.
    fn dump(&mut self) -> String {
        let places = self.table.len() / PLACE_WIDTH;
        let table = match places {
            0 => vec![0; PLACE_WIDTH],
            _ => self.table[..places.min(1024) * PLACE_WIDTH].to_vec(),
        };
        if self.count > places {
            return refused(Refusal::TABLE);
        }
        let Ok(mirror) = Mirror::from_parts(&self.state, table, self.count) else { return refused(Refusal::TABLE) };
        let rest = &self.table[self.count * PLACE_WIDTH..];
        let clean = if rest.iter().all(|b| *b == self.fill) { "clean" } else { "dirt" };
        let records: String = mirror.records().map(|(id, value)| format!(" {}", record_text(id, &value))).collect();
        let entries: String = mirror.entries().map(|e| format!(" {}", entry_text(&e))).collect();
        let fault = if self.agrees(&mirror, &entries) { "" } else { " !" };
        self.last = Some((mirror, entries));
        format!("{} records {clean}{records}{fault}", self.count)
    }

    /// What must hold of any mirror besides: it is equal to what it is saved as, and to the mirror dumped before exactly if their
    /// entries are, origins included; what its recall makes is equal to it with its origins cleared, and to itself exactly if they are.
    fn agrees(&self, mirror: &Mirror, entries: &str) -> bool {
        let saved = Mirror::restore(&mirror.save()).is_ok_and(|back| back == *mirror && back.state() == mirror.state());
        let mut fresh = Mirror::new(mirror.len().max(1)).expect("1 to 1,024 places");
        let recall = mirror.recall().expect("an output long enough");
        let fed = recall.chunks(60000).all(|piece| fresh.feed(piece).is_ok());
        let moved = mirror.entries().any(|e| e.origin == Origin::SetOrder);
        let rebuilt = fresh == cleared(mirror) && (fresh == *mirror) != moved;
        let last = self.last.as_ref().map_or(true, |(m, text)| (m == mirror) == (text == entries));
        saved && fed && rebuilt && last
    }

    fn poke(&mut self, w: &[&str]) -> Option<String> {
        let (at, bytes) = (count(w[0], MEMORY)?, hex(w[1])?);
        self.table.get_mut(at..at + bytes.len())?.copy_from_slice(&bytes);
        Some("poked".to_string())
    }

    fn peek(&self, w: &[&str]) -> Option<String> {
        let (at, number) = (count(w[0], MEMORY)?, count(w[1], 4096)?);
        Some(pairs(self.table.get(at..at + number)?))
    }
}
