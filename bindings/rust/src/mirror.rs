use crate::origin::origin_of;
use crate::raw;
use crate::{Entry, LoadRefusal, Origin, Refusal, Value, LINE_MAX, PLACES_MAX, PLACE_WIDTH, SET_MAX, STATE_SIZE};
use std::fmt;

/// The last value of each node: a decoder state, a table of places and the number of records in it.
///
/// Two mirrors are equal if their records are, origins included; places and decoders do not matter. To set the origins
/// aside, compare `a.records().eq(b.records())`. Every call but [`Mirror::state`] and the like tests the whole table
/// first, some 8 µs for 1,024 records, so bytes are best fed in large pieces.
#[derive(Clone)]
pub struct Mirror {
    state: Box<[u8]>,
    table: Box<[u8]>,
    count: usize,
}

/// What the bytes of a feed held.
#[derive(Clone, Copy, Debug, Default, PartialEq, Eq)]
pub struct Counts {
    /// Values stored.
    pub stored: u32,
    /// Values of new nodes, with no place left.
    pub unplaced: u32,
    /// Strings that are not UTF-8.
    pub strings_refused: u32,
    /// Definitions that the parser takes.
    pub definitions_read: u32,
    /// Definitions with refusal 2 to 5.
    pub definitions_refused: u32,
    /// Ends of an answer: libwing's `RequestEnd`.
    pub ends: u32,
}

/// A fresh decoder state, made by the library.
pub(crate) fn fresh_state() -> Box<[u8]> {
    let mut state = vec![0; STATE_SIZE].into_boxed_slice();
    lay_fresh(&mut state);
    state
}

/// The same where another stood.
fn lay_fresh(state: &mut [u8]) {
    let written = raw::state_fresh(state);
    // The one refusal is 9, for an output that is too short. An archive with longer states would be another library.
    assert_eq!(
        (written.status, written.len),
        (0, STATE_SIZE),
        "libwing_c.a has states of another size than this crate"
    );
}

/// A state of version 1 as today's.
pub(crate) fn carried_state(saved: &[u8]) -> Result<Box<[u8]>, Refusal> {
    let mut state = vec![0; STATE_SIZE].into_boxed_slice();
    let over = raw::state_carry_over(saved, &mut state);
    Refusal::check_with(over.status, over.good)?;
    Ok(state)
}

/// The bytes of a listing's header.
const HEADER: usize = 14;

/// The library has tested the bytes; Rust's own test stands in for `unsafe`.
fn text_of(bytes: &[u8]) -> Result<&str, Refusal> {
    std::str::from_utf8(bytes).map_err(|e| Refusal::StringNotUtf8 { good: e.valid_up_to() })
}

/// The value of a kind 0 to 2; a string's bytes stand at the front of `text`.
pub(crate) fn value_of(kind: u8, bits: u32, len: u16, text: &[u8]) -> Result<Value, Refusal> {
    match kind {
        0 => Ok(Value::Int(bits as i32)),
        1 => Ok(Value::Float(bits)),
        _ => {
            let bytes = text.get(..usize::from(len)).ok_or(Refusal::STRING_LONG)?;
            Ok(Value::from(text_of(bytes)?))
        }
    }
}

impl Mirror {
    /// A fresh mirror of 1 to 1,024 places. Refused: 7.
    pub fn new(places: usize) -> Result<Mirror, Refusal> {
        if !(1..=PLACES_MAX).contains(&places) {
            return Err(Refusal::TABLE);
        }
        let table = vec![0; places * PLACE_WIDTH].into_boxed_slice();
        Ok(Mirror { state: fresh_state(), table, count: 0 })
    }

    /// Takes the console's bytes, broken off anywhere, and stores the last value of each node, with [`Origin::Console`]. It
    /// allocates nothing.
    ///
    /// What the console sends is never a reason to refuse: what cannot be stored is counted. Refused: 14, over 65,536
    /// bytes.
    pub fn feed(&mut self, bytes: &[u8]) -> Result<Counts, Refusal> {
        let fed = raw::feed(&mut self.state, &mut self.table, self.count, bytes);
        Refusal::check(fed.status)?;
        self.count = fed.count;
        Ok(Counts {
            stored: fed.stored,
            unplaced: fed.unplaced,
            strings_refused: fed.strings_refused,
            definitions_read: fed.definitions_read,
            definitions_refused: fed.definitions_refused,
            ends: fed.ends,
        })
    }

    /// Stores a value, with [`Origin::SetOrder`], and gives the bytes to send to the console. Refused: 10, 6.
    ///
    /// ```
    /// let mut mirror = whistleloam::Mirror::new(2)?;
    /// assert_eq!(mirror.set(7, 223)?, [0xd7, 0, 0, 0, 7, 0xd3, 0, 0xdf, 0xde]);
    /// mirror.set(8, -2.5)?;
    /// assert_eq!(mirror.set(9, "Saal").unwrap_err().number(), 6);
    /// # Ok::<(), whistleloam::Refusal>(())
    /// ```
    pub fn set(&mut self, id: i32, value: impl Into<Value>) -> Result<Vec<u8>, Refusal> {
        let mut out = [0; SET_MAX];
        let len = self.set_into(id, &value.into(), &mut out)?;
        Ok(out[..len].to_vec())
    }

    /// The same into an output of yours; how many bytes of it to send. It allocates nothing. Refused: 10, 6, 9.
    pub fn set_into(&mut self, id: i32, value: &Value, out: &mut [u8]) -> Result<usize, Refusal> {
        let table = &mut self.table;
        let set = match value {
            Value::Int(x) => raw::set_int(table, self.count, out, id, *x),
            Value::Float(bits) => raw::set_float(table, self.count, out, id, *bits),
            Value::String(s) => raw::set_string(table, self.count, out, id, s.as_bytes()),
        };
        Refusal::check_with(set.status, set.good)?;
        self.count = set.count;
        Ok(set.len)
    }

    /// The bytes that set a console, or another mirror, to every value held here. They do not say who gave a value: a fresh
    /// mirror that is fed them has the same records, each with [`Origin::Console`].
    pub fn recall(&self) -> Result<Vec<u8>, Refusal> {
        let mut out = vec![0; 2 + SET_MAX * self.count];
        let len = self.recall_into(&mut out)?;
        out.truncate(len);
        Ok(out)
    }

    /// The same into an output of yours, of 2 bytes and up to 395 for each record. It allocates nothing. Refused: 9.
    pub fn recall_into(&self, out: &mut [u8]) -> Result<usize, Refusal> {
        let written = raw::recall(&self.table, self.count, out);
        Refusal::check_with(written.status, written.good)?;
        Ok(written.len)
    }

    /// The listing of the mirror, to be kept, read or mailed: a line `id,kind,value`, then one for each record in order.
    /// [`load`](Mirror::load) makes a mirror with the same records of one of at most 65,536 bytes. Origins are not listed.
    ///
    /// ```
    /// use whistleloam::{Mirror, Refusal};
    ///
    /// let mut mirror = Mirror::new(128)?;
    /// mirror.set(1, 5)?;
    /// mirror.set(-2, 1.0)?;
    /// mirror.set(2, "AB")?;
    /// let text = mirror.print()?;
    /// assert_eq!(text, "id,kind,value\n-2,f,3f800000\n1,i,5\n2,s,4142\n");
    ///
    /// let mut other = Mirror::new(3)?;
    /// assert_eq!(other.load(&text)?, 3);
    /// assert!(other.records().eq(mirror.records()) && other.print()? == text);
    ///
    /// // The third line is not after the second.
    /// let why = other.load("id,kind,value\n7,i,1\n7,i,2\n").unwrap_err();
    /// assert_eq!((why.refusal(), why.line()), (Refusal::ID_ORDER, Some(3)));
    /// assert_eq!(other.print()?, text);
    /// # Ok::<(), Refusal>(())
    /// ```
    pub fn print(&self) -> Result<String, Refusal> {
        let mut out = vec![0; HEADER + LINE_MAX * self.count];
        let len = self.print_into(&mut out)?;
        out.truncate(len);
        // The library writes ASCII; Rust's own test stands in for `unsafe`.
        String::from_utf8(out).map_err(|e| Refusal::StringNotUtf8 { good: e.utf8_error().valid_up_to() })
    }

    /// The same into an output of yours, of 14 bytes and up to 527 for each record; how many bytes of it the listing has.
    /// It allocates nothing. Refused: 9.
    pub fn print_into(&self, out: &mut [u8]) -> Result<usize, Refusal> {
        let written = raw::print(&self.table, self.count, out);
        Refusal::check_with(written.status, written.good)?;
        Ok(written.len)
    }

    /// Loads a listing of at most 65,536 bytes, as [`print`](Mirror::print) gives it: its records, each with
    /// [`Origin::Console`], take the place of all that were here, and the decoder is a fresh one. How many records there are.
    /// It allocates nothing.
    ///
    /// A text that is refused changes nothing, and says which line decided. Refused: 14; then by the first bad line 17, a
    /// header or line out of form, 18, an id not above the one before, 10, 1 with what is good of the string; then 6, more
    /// records than places.
    pub fn load(&mut self, text: impl AsRef<[u8]>) -> Result<usize, LoadRefusal> {
        let loaded = raw::load(text.as_ref(), &mut self.table);
        LoadRefusal::check(&loaded)?;
        self.count = loaded.count;
        lay_fresh(&mut self.state);
        Ok(loaded.count)
    }

    /// The number of a node's record, if it has one.
    pub fn lookup(&self, id: i32) -> Option<usize> {
        let found = raw::lookup(&self.table, self.count, id);
        (found.status == 1).then_some(found.number)
    }

    /// The last value of a node, if there is one.
    pub fn get(&self, id: i32) -> Option<Value> {
        let (_, value) = self.record(self.lookup(id)?).ok()?;
        Some(value)
    }

    /// Who gave a node its last value, if there is one.
    ///
    /// ```
    /// use whistleloam::{Mirror, Origin};
    ///
    /// let mut mirror = Mirror::new(128)?;
    /// mirror.set(7, 63)?;
    /// assert_eq!((mirror.origin(7), mirror.origin(8)), (Some(Origin::SetOrder), None));
    /// // The console says the same value: now it is the console's.
    /// mirror.feed(&[0xd7, 0, 0, 0, 7, 0x3f])?;
    /// assert_eq!(mirror.origin(7), Some(Origin::Console));
    /// # Ok::<(), whistleloam::Refusal>(())
    /// ```
    pub fn origin(&self, id: i32) -> Option<Origin> {
        let record = raw::record(&self.table, self.count, self.lookup(id)?);
        (record.status == 0).then(|| origin_of(record.origin))
    }

    /// The record of a number, from 0: its node and value. Refused: 14.
    pub fn record(&self, number: usize) -> Result<(i32, Value), Refusal> {
        let Entry { id, value, .. } = self.entry(number)?;
        Ok((id, value))
    }

    /// The same with its origin. Refused: 14.
    pub fn entry(&self, number: usize) -> Result<Entry, Refusal> {
        let record = raw::record(&self.table, self.count, number);
        Refusal::check(record.status)?;
        let value = value_of(record.kind, record.value, record.len, &record.string)?;
        Ok(Entry { id: record.id, value, origin: origin_of(record.origin) })
    }

    /// Every record, in rising order of the signed ids. Each step tests the table: a page of strips, not a hot loop.
    pub fn records(&self) -> Records<'_> {
        Records(self.entries())
    }

    /// The same with the origins, as to see which strips were moved at the box.
    ///
    /// ```
    /// use whistleloam::{Mirror, Origin};
    ///
    /// let mut mirror = Mirror::new(128)?;
    /// mirror.feed(&[0xd7, 0, 0, 0, 1, 5])?;
    /// mirror.set(7, 63)?;
    /// let moved: Vec<i32> = mirror.entries().filter(|e| e.origin == Origin::SetOrder).map(|e| e.id).collect();
    /// assert_eq!(moved, [7]);
    /// # Ok::<(), whistleloam::Refusal>(())
    /// ```
    pub fn entries(&self) -> Entries<'_> {
        Entries { mirror: self, number: 0 }
    }

    /// How many nodes have a value.
    pub fn len(&self) -> usize {
        self.count
    }

    /// Whether no node has a value.
    pub fn is_empty(&self) -> bool {
        self.count == 0
    }

    /// How many nodes there is room for.
    pub fn places(&self) -> usize {
        self.table.len() / PLACE_WIDTH
    }

    /// Everything as plain bytes, to be kept in a file: the decoder state (4,123 bytes, a half-read token in it), the
    /// count and the places (4 bytes each, big-endian), then the records (264 bytes each: id 4, kind 1, origin 1, length
    /// 2, payload 256).
    pub fn save(&self) -> Vec<u8> {
        let mut out = self.state.to_vec();
        out.extend_from_slice(&(self.count as u32).to_be_bytes());
        out.extend_from_slice(&(self.places() as u32).to_be_bytes());
        out.extend_from_slice(&self.table[..self.count * PLACE_WIDTH]);
        out
    }

    /// The mirror that was saved, origins included; what was saved before there were any, with a byte 0 in their place, is
    /// the console's. Refused: 8, if the bytes do not begin with a sound state; 7, if there are too few or too many after it
    /// or they are no sound table.
    pub fn restore(saved: &[u8]) -> Result<Mirror, Refusal> {
        let state = saved.get(..STATE_SIZE).ok_or(Refusal::STATE)?;
        Refusal::check(raw::state_check(state))?;
        Mirror::with_rest(state, &saved[STATE_SIZE..])
    }

    /// The mirror that was saved under version 1, by a release before a definition's count could have 32 bits. Its decoder reads on
    /// where that one stood; count and records are the same. Refused: 8, also if the state has taken any of the four units after a count of
    /// 0; 7, as [`restore`](Mirror::restore) has it. After an 8 the records can still go on with a fresh decoder, on a new
    /// connection: `docs/BOX.md` of the repository says how, by [`from_parts`](Mirror::from_parts).
    pub fn carry_over(saved: &[u8]) -> Result<Mirror, Refusal> {
        let state = carried_state(saved.get(..STATE_SIZE).ok_or(Refusal::STATE)?)?;
        Mirror::with_rest(&state, &saved[STATE_SIZE..])
    }

    /// Of a state, and of the count, the places and the records after it.
    fn with_rest(state: &[u8], rest: &[u8]) -> Result<Mirror, Refusal> {
        let (count, places) = (number_at(rest, 0)?, number_at(rest, 4)?);
        let records = &rest[8..];
        if !(1..=PLACES_MAX).contains(&places) || count > places || records.len() != count * PLACE_WIDTH {
            return Err(Refusal::TABLE);
        }
        let mut table = vec![0; places * PLACE_WIDTH];
        table[..records.len()].copy_from_slice(records);
        Mirror::from_parts(state, table, count)
    }

    /// A mirror of parts kept elsewhere, as [`state`](Mirror::state), [`table`](Mirror::table) and
    /// [`count`](Mirror::count) gave them. Refused: 8, 7.
    pub fn from_parts(state: &[u8], table: Vec<u8>, count: usize) -> Result<Mirror, Refusal> {
        Refusal::check(raw::state_check(state))?;
        Refusal::check(raw::table_check(&table, count))?;
        Ok(Mirror { state: state.into(), table: table.into_boxed_slice(), count })
    }

    /// The decoder state's bytes.
    pub fn state(&self) -> &[u8] {
        &self.state
    }

    /// The table's bytes, those after the last record too.
    pub fn table(&self) -> &[u8] {
        &self.table
    }

    /// The number of records, the same as [`len`](Mirror::len).
    pub fn count(&self) -> usize {
        self.count
    }
}

fn number_at(bytes: &[u8], at: usize) -> Result<usize, Refusal> {
    let field = bytes.get(at..at + 4).ok_or(Refusal::TABLE)?;
    Ok(field.iter().fold(0, |n, &b| n << 8 | usize::from(b)))
}

/// By the library's own call: count and records, origins included.
impl PartialEq for Mirror {
    fn eq(&self, other: &Mirror) -> bool {
        raw::same(&self.table, self.count, &other.table, other.count) == 1
    }
}

impl Eq for Mirror {}

impl fmt::Debug for Mirror {
    fn fmt(&self, f: &mut fmt::Formatter) -> fmt::Result {
        write!(f, "Mirror of {} places ", self.places())?;
        f.debug_map().entries(self.entries().map(|e| (e.id, Told(e)))).finish()
    }
}

/// A value in a mirror's text: two mirrors that are not equal differ there, so what a set order gave is marked.
struct Told(Entry);

impl fmt::Debug for Told {
    fn fmt(&self, f: &mut fmt::Formatter) -> fmt::Result {
        match self.0.origin {
            Origin::Console => write!(f, "{:?}", self.0.value),
            Origin::SetOrder => write!(f, "{:?} by a set order", self.0.value),
        }
    }
}

impl<'a> IntoIterator for &'a Mirror {
    type Item = (i32, Value);
    type IntoIter = Records<'a>;

    fn into_iter(self) -> Records<'a> {
        self.records()
    }
}

/// The records of a mirror, one by one.
#[derive(Clone)]
pub struct Records<'a>(Entries<'a>);

impl Iterator for Records<'_> {
    type Item = (i32, Value);

    fn next(&mut self) -> Option<(i32, Value)> {
        self.0.next().map(|e| (e.id, e.value))
    }

    fn size_hint(&self) -> (usize, Option<usize>) {
        self.0.size_hint()
    }
}

impl ExactSizeIterator for Records<'_> {}

/// The same with their origins.
#[derive(Clone)]
pub struct Entries<'a> {
    mirror: &'a Mirror,
    number: usize,
}

impl Iterator for Entries<'_> {
    type Item = Entry;

    fn next(&mut self) -> Option<Entry> {
        let entry = self.mirror.entry(self.number).ok()?;
        self.number += 1;
        Some(entry)
    }

    fn size_hint(&self) -> (usize, Option<usize>) {
        let left = self.mirror.count - self.number;
        (left, Some(left))
    }
}

impl ExactSizeIterator for Entries<'_> {}
