// What `shell` must answer to an order, made with libwing. Where the list of differences says that libwing answers
// otherwise than the rules, the rules' answer is made from what libwing has read or written, and counted.
use std::collections::BTreeMap;
use std::panic::{catch_unwind, AssertUnwindSafe};
use crate::orders::Order;
use wing::memory::PORT;
use wing::{Error, Meter, NodeType, WingConsole, WingNodeData, WingNodeDef, WingResponse};

/// How often each listed difference was met, and how many events and refusals the streams had since they were last asked for.
#[derive(Default)]
pub struct Tally(pub BTreeMap<&'static str, u64>, pub u64);

impl Tally {
    fn met(&mut self, what: &'static str) {
        *self.0.entry(what).or_default() += 1;
    }
}

const DIGITS: &[u8; 16] = b"0123456789abcdef";

fn hex(out: &mut Vec<u8>, bytes: &[u8]) {
    for b in bytes {
        out.push(DIGITS[(b >> 4) as usize]);
        out.push(DIGITS[(b & 15) as usize]);
    }
}

fn refused(out: &mut Vec<u8>, why: u8) {
    out.extend_from_slice(&[b'r', b'0' + why / 10, b'0' + why % 10]);
}

fn length(out: &mut Vec<u8>, n: usize) {
    hex(out, &(n as u16).to_be_bytes());
}

// 1 or 5, and how many leading bytes of the string are good.
fn refused_string(out: &mut Vec<u8>, why: u8, good: usize) {
    refused(out, why);
    out.push(b'g');
    length(out, good);
}

fn flag(out: &mut Vec<u8>, yes: bool) {
    out.push(b'0' + yes as u8);
}

/// What from_bytes panics for.
enum Cause {
    PastTheEnd,
    /// With the good that the error says.
    NotUtf8(usize),
}

/// A panic's words, as the cause that stands for them in the list.
fn cause_of(panic: Box<dyn std::any::Any + Send>) -> Option<Cause> {
    let words = match panic.downcast_ref::<String>() {
        Some(s) => s.as_str(),
        None => panic.downcast_ref::<&str>()?,
    };
    if words.contains("out of bounds") || words.contains("out of range") {
        Some(Cause::PastTheEnd)
    } else {
        Some(Cause::NotUtf8(good_in(words)?))
    }
}

// Of the words of a Utf8Error.
fn good_in(words: &str) -> Option<usize> {
    let (_, rest) = words.split_once("Utf8Error { valid_up_to: ")?;
    rest.split(|c: char| !c.is_ascii_digit()).next()?.parse().ok()
}

fn string(out: &mut Vec<u8>, mark: u8, s: &str) {
    out.push(mark);
    hex(out, s.as_bytes());
}

fn details(out: &mut Vec<u8>, d: &WingNodeDef) {
    match d.node_type {
        NodeType::Node | NodeType::FaderLevel => out.push(b'-'),
        NodeType::LinearFloat | NodeType::LogarithmicFloat => {
            out.push(b'f');
            hex(out, &d.min_float.unwrap().to_bits().to_be_bytes());
            hex(out, &d.max_float.unwrap().to_bits().to_be_bytes());
            hex(out, &d.steps.unwrap().to_be_bytes());
        }
        NodeType::Integer => {
            out.push(b'i');
            hex(out, &d.min_int.unwrap().to_be_bytes());
            hex(out, &d.max_int.unwrap().to_be_bytes());
        }
        NodeType::StringEnum | NodeType::FloatEnum => items(out, d),
        NodeType::String => {
            out.push(b's');
            hex(out, &d.max_string_len.unwrap().to_be_bytes());
        }
    }
}

// The count, each item, none after them; the last one again, asked for by its number; 14 for the number past it.
fn items(out: &mut Vec<u8>, d: &WingNodeDef) {
    let mut each: Vec<Vec<u8>> = Vec::new();
    for i in d.string_enum.iter().flatten() {
        let mut t = Vec::new();
        string(&mut t, b',', &i.item);
        string(&mut t, b'/', &i.long_item);
        each.push(t);
    }
    for i in d.float_enum.iter().flatten() {
        let mut t = vec![b','];
        hex(&mut t, &i.item.to_bits().to_be_bytes());
        string(&mut t, b'/', &i.long_item);
        each.push(t);
    }
    out.push(b'c');
    hex(out, &(each.len() as u16).to_be_bytes());
    for t in &each {
        out.extend_from_slice(t);
    }
    out.extend_from_slice(b"-#");
    match each.last() {
        Some(t) => out.extend_from_slice(t),
        None => refused(out, 14),
    }
    refused(out, 14);
}

fn fields(out: &mut Vec<u8>, d: &WingNodeDef) {
    hex(out, &d.parent_id.to_be_bytes());
    hex(out, &d.id.to_be_bytes());
    hex(out, &d.index.to_be_bytes());
    string(out, b'n', &d.name);
    string(out, b'l', &d.long_name);
    out.push(b'k');
    hex(out, &[d.get_type() as u8, d.get_unit() as u8]);
    flag(out, d.is_read_only());
    details(out, d);
}

fn body_refused(out: &mut Vec<u8>, panic: Box<dyn std::any::Any + Send>, t: &mut Tally) {
    match cause_of(panic) {
        Some(Cause::PastTheEnd) => {
            t.met("a definition field past the end");
            refused(out, 4);
        }
        Some(Cause::NotUtf8(good)) => {
            t.met("a definition string not UTF-8");
            refused_string(out, 5, good);
        }
        None => out.extend_from_slice(b"!panic"),
    }
}

pub fn definition(out: &mut Vec<u8>, body: &[u8], t: &mut Tally) {
    match catch_unwind(|| WingNodeDef::from_bytes(body)) {
        Ok(d) => fields(out, &d),
        Err(panic) => body_refused(out, panic, t),
    }
}

fn value(out: &mut Vec<u8>, node: i32, d: &WingNodeData) {
    let kind = match (d.has_int(), d.has_float(), d.has_string()) {
        (true, false, false) => b'i',
        (false, true, false) => b'f',
        (false, false, true) => b's',
        _ => b'!',
    };
    out.push(kind);
    hex(out, &node.to_be_bytes());
    match kind {
        b'i' => hex(out, &d.get_int().to_be_bytes()),
        b'f' => hex(out, &d.get_float().to_bits().to_be_bytes()),
        _ => hex(out, d.get_string().as_bytes()),
    }
}

// A definition that libwing has read: its body with what the parser says, unless its count is refused.
fn read_body(out: &mut Vec<u8>, count: u32, body: &[u8], parsed: std::thread::Result<WingNodeDef>, t: &mut Tally) {
    if count > 4096 {
        t.met("count over 4,096");
        return refused(out, 2);
    }
    out.push(b'b');
    hex(out, body);
    out.push(b':');
    match parsed {
        Ok(d) => {
            fields(out, &d);
            if d.raw != body {
                out.extend_from_slice(b"!raw");
            }
        }
        Err(panic) => body_refused(out, panic, t),
    }
}

// After a count 0 libwing reads four units and goes on as if there were no body. The rules' 32-bit count is these; the units
// after them are libwing's own.
fn long_body(out: &mut Vec<u8>, c: &mut WingConsole, t: &mut Tally) -> Result<(), Error> {
    let count = c.long();
    if count == 0 {
        t.met("count 0 and long count 0");
        refused(out, 3);
        return Ok(());
    }
    let body = c.appended(count)?;
    t.met("count 0 and another long count");
    let parsed = catch_unwind(|| WingNodeDef::from_bytes(&body));
    read_body(out, count, &body, parsed, t);
    Ok(())
}

// A definition that libwing has handed to from_bytes.
fn definition_read(out: &mut Vec<u8>, c: &mut WingConsole, body: &[u8], parsed: std::thread::Result<WingNodeDef>, t: &mut Tally) -> Result<(), Error> {
    if c.count() == 0 {
        return long_body(out, c, t);
    }
    read_body(out, c.count(), body, parsed, t);
    Ok(())
}

// Whether the stream goes on after a panic that is none of from_bytes.
fn after_panic(out: &mut Vec<u8>, c: &mut WingConsole, t: &mut Tally) -> Result<bool, Error> {
    match c.token() {
        Some(0xd1) => {
            t.met("d1 ff");
            let units = c.units(256)?;
            match String::from_utf8(units) {
                Ok(s) => value(out, c.node(), &WingNodeData::with_string(s)),
                Err(e) => refused_string(out, 1, e.utf8_error().valid_up_to()),
            }
            Ok(true)
        }
        Some(0xd2) => {
            t.met("d2 ff ff");
            Ok(false)
        }
        _ => {
            out.extend_from_slice(b"!panic");
            Ok(true)
        }
    }
}

// One event or refusal; false for an answer that stands for neither.
fn event(out: &mut Vec<u8>, c: &mut WingConsole, t: &mut Tally) -> Result<bool, Error> {
    match catch_unwind(AssertUnwindSafe(|| c.read())) {
        Ok(Ok(WingResponse::RequestEnd)) => out.push(b'e'),
        Ok(Ok(WingResponse::NodeData(node, d))) => value(out, node, &d),
        Ok(Ok(WingResponse::NodeDef(d))) => {
            let body = c.body().unwrap();
            definition_read(out, c, &body, Ok(d), t)?;
        }
        Ok(Err(Error::InvalidData)) => refused_string(out, 1, c.good()),
        Ok(Err(e)) => return Err(e),
        Err(panic) => {
            c.unpoison();
            match c.body() {
                Some(body) => definition_read(out, c, &body, Err(panic), t)?,
                None => return after_panic(out, c, t),
            }
        }
    }
    Ok(true)
}

pub fn stream(out: &mut Vec<u8>, bytes: &[u8], t: &mut Tally) {
    let mut c = WingConsole::over(bytes);
    loop {
        match event(out, &mut c, t) {
            Ok(true) => {
                t.1 += 1;
                out.push(b'@');
                hex(out, &(c.taken() as u32).to_be_bytes());
            }
            Ok(false) => {}
            Err(Error::ConnectionError) => break,
            Err(_) => return out.extend_from_slice(b"!error"),
        }
        c.token_over();
    }
    if c.token().is_some() {
        t.met("bytes end inside a token");
    }
    if c.pending().is_some() {
        out.extend_from_slice(b"!pending");
    }
    out.push(b'.');
    flag(out, c.escaped());
    hex(out, &(c.channel() as i32).to_be_bytes());
    hex(out, &c.node().to_be_bytes());
    flag(out, c.token().is_some());
}

// Every df followed by de, as the rules want it of what libwing leaves bare.
fn escape(out: &mut Vec<u8>, bytes: &[u8], what: &'static str, t: &mut Tally) {
    for &b in bytes {
        out.push(b);
        if b == 0xdf {
            out.push(0xde);
            t.met(what);
        }
    }
}

// A command's bytes in an output of some room, or 9.
fn written(out: &mut Vec<u8>, room: usize, id: u16, bytes: &[u8]) {
    if bytes.len() > room {
        refused(out, 9);
    } else {
        hex(out, &id.to_be_bytes());
        hex(out, bytes);
    }
    flag(out, true);
}

fn not_written(out: &mut Vec<u8>, why: u8) {
    refused(out, why);
    flag(out, true);
}

fn i32_of(b: &[u8]) -> i32 {
    i32::from_be_bytes([b[0], b[1], b[2], b[3]])
}

// A set order: its token byte stands as it is, all after it is escaped.
fn set(c: &WingConsole, id: i32, t: &mut Tally) -> Vec<u8> {
    let raw = c.written();
    let head = c.id_bytes(id, 0xd7, None).len() + 1;
    let mut bytes = raw[..head].to_vec();
    escape(&mut bytes, &raw[head..], "df in a written value, string or length", t);
    bytes
}

fn set_string(out: &mut Vec<u8>, room: usize, id: i32, s: &[u8], t: &mut Tally) {
    if s.len() > 256 {
        t.met("string over 256");
        return not_written(out, 10);
    }
    match std::str::from_utf8(s) {
        Ok(text) => {
            let mut c = WingConsole::over(&[]);
            c.set_string(id, text).unwrap();
            let bytes = set(&c, id, t);
            written(out, room, 0, &bytes);
        }
        Err(e) => {
            t.met("a string to write that no &str can be");
            refused_string(out, 1, e.valid_up_to());
            flag(out, true)
        }
    }
}

pub fn meter(kind: u8, n: u8) -> Meter {
    match kind {
        0 => Meter::Channel(n),
        1 => Meter::Aux(n),
        2 => Meter::Bus(n),
        3 => Meter::Main(n),
        4 => Meter::Matrix(n),
        5 => Meter::Dca(n),
        6 => Meter::Fx(n),
        7 => Meter::Source(n),
        8 => Meter::Output(n),
        9 => Meter::Monitor,
        11 => Meter::Channel2(n),
        12 => Meter::Aux2(n),
        13 => Meter::Bus2(n),
        14 => Meter::Main2(n),
        15 => Meter::Matrix2(n),
        _ => Meter::Rta,
    }
}

const RTA: (u8, u8) = (10, 0);

// The meters of an order up to its count; those past its items are the filler.
fn meters(items: &[u8], fill: Option<(u8, u8)>, count: usize) -> Vec<Meter> {
    let (kind, index) = fill.unwrap_or(RTA);
    (0..count).map(|i| meter(*items.get(2 * i).unwrap_or(&kind), *items.get(2 * i + 1).unwrap_or(&index))).collect()
}

fn request_meter(out: &mut Vec<u8>, room: usize, port: u16, last: u16, meters: &[Meter], t: &mut Tally) {
    if meters.len() > 64 {
        t.met("more than 64 meters");
        return not_written(out, 11);
    }
    PORT.with(|p| *p.borrow_mut() = port);
    let mut c = WingConsole::over(&[]);
    c.last_meter_id(last);
    let Ok(id) = catch_unwind(AssertUnwindSafe(|| c.request_meter(meters))) else {
        t.met("a spent meter id");
        return not_written(out, 12);
    };
    let bytes = escaped_request(&c.written(), meters.len(), t);
    written(out, room, id.unwrap(), &bytes);
}

// A meter request, with its port, id and indices escaped.
fn escaped_request(raw: &[u8], count: usize, t: &mut Tally) -> Vec<u8> {
    let mut bytes = raw[..3].to_vec();
    let what = "df in a port, meter id or index";
    escape(&mut bytes, &raw[3..5], what, t);
    bytes.push(raw[5]);
    escape(&mut bytes, &raw[6..10], what, t);
    bytes.push(raw[10]);
    let mut at = 11;
    for _ in 0..count {
        bytes.push(raw[at]);
        at += 1;
        if raw[at - 1] != 0xa9 && raw[at - 1] != 0xaa {
            escape(&mut bytes, &raw[at..at + 1], what, t);
            at += 1;
        }
    }
    bytes.extend_from_slice(&raw[at..]);
    bytes
}

fn keep_alive(out: &mut Vec<u8>, room: usize, last: u16, port: u16, t: &mut Tally) {
    let mut c = WingConsole::over(&[]);
    c.last_meter_id(last);
    c.on_port(port, &[]);
    c.keep_alive_meters().unwrap();
    let mut bytes = Vec::new();
    for one in c.written().chunks(9) {
        bytes.extend_from_slice(&one[..3]);
        escape(&mut bytes, &one[3..7], "df in a port, meter id or index", t);
        bytes.extend_from_slice(&one[7..]);
    }
    written(out, room, 0, &bytes);
}

// A command of libwing, its value escaped where it is a set order.
fn command(out: &mut Vec<u8>, room: usize, id: i32, sets: bool, call: impl FnOnce(&mut WingConsole), t: &mut Tally) {
    let mut c = WingConsole::over(&[]);
    call(&mut c);
    let bytes = if sets { set(&c, id, t) } else { c.written() };
    written(out, room, 0, &bytes);
}

fn packet(out: &mut Vec<u8>, room: usize, p: &[u8], t: &mut Tally) {
    if p.len() > 8192 {
        t.met("a packet over 8,192");
        return not_written(out, 13);
    }
    let mut c = WingConsole::over(&[]);
    c.on_port(0, p);
    let Ok(read) = catch_unwind(AssertUnwindSafe(|| c.read_meters())) else {
        t.met("a packet under 4");
        return not_written(out, 13);
    };
    let (id, readings) = read.unwrap();
    if readings.len() > room {
        return not_written(out, 9);
    }
    hex(out, &id.to_be_bytes());
    hex(out, &(readings.len() as u32).to_be_bytes());
    out.push(b':');
    for r in &readings {
        hex(out, &r.to_be_bytes());
    }
    flag(out, true);
}

fn getters(out: &mut Vec<u8>, kind: u8, b: &[u8], t: &mut Tally) {
    let d = match kind {
        0 => WingNodeData::with_i32(i32_of(b)),
        1 => WingNodeData::with_float(f32::from_bits(i32_of(b) as u32)),
        _ => WingNodeData::with_string(String::from_utf8(b.to_vec()).unwrap()),
    };
    hex(out, &d.get_int().to_be_bytes());
    if d.has_float() {
        t.met("the string of a float (left out)");
        out.push(b'-');
    } else {
        string(out, b's', &d.get_string());
    }
}

fn one_more(front: &[u8], mut each: impl FnMut(&[u8])) {
    let mut bytes = front.to_vec();
    bytes.push(0);
    for last in 0..=255 {
        *bytes.last_mut().unwrap() = last;
        each(&bytes);
    }
}

fn good(b: &[u8]) -> usize {
    match std::str::from_utf8(b) {
        Ok(s) => s.len(),
        Err(e) => e.valid_up_to(),
    }
}

fn characters(out: &mut Vec<u8>, b: &[u8]) {
    flag(out, std::str::from_utf8(b).is_ok());
    length(out, good(b));
}

// The bytes at every place of a string of 256 bytes.
fn places(out: &mut Vec<u8>, b: &[u8]) {
    for at in 0..=256 - b.len() {
        let mut s = [b'a'; 256];
        s[at..at + b.len()].copy_from_slice(b);
        length(out, good(&s));
    }
}

/// The sum that stands for an answer: its bytes as digits to the base 257, mod 4294967291.
pub fn sum(s: &[u8]) -> u32 {
    s.iter().fold(0u64, |h, &b| (h * 257 + b as u64) % 4294967291) as u32
}

fn answer_write(out: &mut Vec<u8>, order: &Order, t: &mut Tally) {
    match order {
        Order::SetInt { room, id, value } => command(out, *room, *id, true, |c| c.set_int(*id, *value).unwrap(), t),
        Order::SetFloat { room, id, bits } => command(out, *room, *id, true, |c| c.set_float(*id, f32::from_bits(*bits)).unwrap(), t),
        Order::SetString { room, id, bytes } => set_string(out, *room, *id, bytes, t),
        Order::Format { room, id, prefix, suffix } => written(out, *room, 0, &WingConsole::over(&[]).id_bytes(*id, *prefix, *suffix)),
        Order::AskDefinition { room, id } => command(out, *room, *id, false, |c| c.request_node_definition(*id).unwrap(), t),
        Order::AskData { room, id } => command(out, *room, *id, false, |c| c.request_node_data(*id).unwrap(), t),
        Order::AskMeters { room, port, last, count, fill, items } =>
            request_meter(out, *room, *port, *last, &meters(items, *fill, *count as usize), t),
        Order::KeepAlive { room, last, port } => keep_alive(out, *room, *last, *port, t),
        _ => out.extend_from_slice(b"!order"),
    }
}

/// The answer to an order, without the line end.
pub fn answer(out: &mut Vec<u8>, order: &Order, t: &mut Tally) {
    match order {
        Order::Stream(b) | Order::Pieces(_, b) => stream(out, b, t),
        Order::Streams(b) => one_more(b, |s| stream(out, s, t)),
        Order::Definition(b) => definition(out, b, t),
        Order::Utf8(b) => characters(out, b),
        Order::Utf8s(b) => one_more(b, |s| characters(out, s)),
        Order::Places(b) => places(out, b),
        Order::Getters(kind, b) => getters(out, *kind, b, t),
        Order::Packet { room, bytes } => packet(out, *room, bytes, t),
        _ => answer_write(out, order, t),
    }
}

/// The sum over the answer, as eight digits.
pub fn answer_sum(out: &mut Vec<u8>, order: &Order, t: &mut Tally) {
    answer(out, order, t);
    let s = sum(out);
    out.clear();
    hex(out, &s.to_be_bytes());
}

/// How many bytes a writer's order writes, room enough given; 0 where it is refused.
pub fn size(order: &Order) -> usize {
    let mut out = Vec::new();
    answer_write(&mut out, order, &mut Tally::default());
    if out[0] == b'r' { 0 } else { (out.len() - "0000".len() - "1".len()) / 2 }
}
