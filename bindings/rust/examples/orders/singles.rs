//! Orders that stand alone: streams, definitions, commands, packets.
use crate::definitions::{again, define};
use crate::mirrors;
use crate::words::{bits, count, hex, int32, plain};
use whistleloam::{
    is_utf8, raw, read_meters, request_meter, utf8_good, Decoder, Definition, Details, Event, Item, Meter, Refusal,
    Value, STATE_SIZE, STRING_MAX,
};

const ROOM: u64 = 16384;
const UINT16: u64 = 65535;
const UINT32: u64 = u32::MAX as u64;
const BEFORE: u8 = 0xaa;

pub fn order(name: &str, w: &[&str]) -> Option<String> {
    match (name, w.len()) {
        ("stream", 1) => Some(stream(&[65536], &hex(w[0])?)),
        ("pieces", 2) => pieces(count(w[0], UINT16)?, &hex(w[1])?),
        ("piecelist", 2) => Some(stream(&sizes(w[0])?, &hex(w[1])?)),
        ("earlier", 3) => Some(earlier(&hex(w[0])?, &hex(w[1])?, &hex(w[2])?)),
        ("definition", 1) => Some(definition(&hex(w[0])?)),
        ("item", 2) => Some(numbered(&hex(w[1])?, count(w[0], UINT32)?)),
        ("walk", 1) => Some(walk(&hex(w[0])?)),
        ("step", 4) => step_order(w),
        ("define", 15) => define(w),
        ("again", 1) => Some(again(&hex(w[0])?)),
        ("utf8", 1) => Some(utf8(&hex(w[0])?)),
        ("utf8s", 1) => utf8s(&hex(w[0])?),
        ("places", 1) => places(&hex(w[0])?),
        ("setint", 3) => {
            let (id, value) = (int32(w[1])?, int32(w[2])?);
            command(w[0], |out| raw::order_int(out, id, value))
        }
        ("setfloat", 3) => {
            let (id, value) = (int32(w[1])?, bits(w[2])?);
            command(w[0], |out| raw::order_float(out, id, value))
        }
        ("setstring", 3) => {
            let (id, value) = (int32(w[1])?, hex(w[2])?);
            command(w[0], |out| raw::order_string(out, id, &value))
        }
        ("askdefinition", 2) => int32(w[1]).and_then(|id| command(w[0], |out| raw::request_node_definition(out, id))),
        ("askdata", 2) => int32(w[1]).and_then(|id| command(w[0], |out| raw::request_node_data(out, id))),
        ("askmeters", 5) => ask_meters(w),
        ("keepalive", 3) => keep_alive(w),
        ("packet", 2) => packet(count(w[0], 4200)?, &hex(w[1])?),
        _ => None,
    }
}

fn flag(yes: bool) -> String {
    u8::from(yes).to_string()
}

/// Whether the bytes are UTF-8, and how many leading ones are. By Rust's own test too.
fn utf8(bytes: &[u8]) -> String {
    let good = utf8_good(bytes);
    let fault = if std::str::from_utf8(bytes).map_or_else(|e| e.valid_up_to(), str::len) == good { "" } else { "!" };
    format!("{}{good:04x}{fault}", flag(is_utf8(bytes)))
}

/// With every last byte.
fn utf8s(front: &[u8]) -> Option<String> {
    (front.len() < STRING_MAX).then(|| (0..=255).map(|last| utf8(&[front, &[last]].concat())).collect())
}

/// How many leading bytes are good where these bytes stand at each place of a string of 256, all others a.
fn places(piece: &[u8]) -> Option<String> {
    let last = STRING_MAX.checked_sub(piece.len()).filter(|_| !piece.is_empty())?;
    let good = |at| utf8_good(&[&vec![b'a'; at], piece, &vec![b'a'; last - at]].concat());
    Some((0..=last).map(|at| format!("{:04x}", good(at))).collect())
}

/// With the good beside 1 and 5.
fn refused(why: Refusal) -> String {
    let good = why.good().map_or(String::new(), |good| format!("g{good:04x}"));
    format!("r{:02}{good}", why.number())
}

fn event(event: &Result<Event, Refusal>) -> String {
    match event {
        Ok(Event::Value(node, Value::Int(x))) => format!("i{node:08x}{x:08x}"),
        Ok(Event::Value(node, Value::Float(bits))) => format!("f{node:08x}{bits:08x}"),
        Ok(Event::Value(node, Value::String(s))) => format!("s{node:08x}{}", plain(s.as_bytes())),
        Ok(Event::Definition(d)) => format!("b{}:{}", plain(d.body()), definition(d.body())),
        Ok(Event::End) => "e".to_string(),
        Err(why) => refused(*why),
    }
}

/// An event of the decoder, with the body of one that the parser refuses. The bytes handed out are those of the event.
fn next(decoder: &mut Decoder, bytes: &[u8]) -> (Option<String>, usize) {
    let (answer, taken) = decoder.next(bytes);
    let body = decoder.handed();
    let (text, want) = match answer.transpose() {
        None => return (None, taken),
        Some(Err(why)) if matches!(why.number(), 4 | 5) => {
            let fault = if definition(body) == refused(why) { "" } else { "!" };
            (format!("b{}:{}{fault}", plain(body), refused(why)), body.to_vec())
        }
        Some(said) => (event(&said), own_bytes(&said)),
    };
    (Some(if want == body { text } else { text + "!" }), taken)
}

/// A string's bytes or a body.
fn own_bytes(event: &Result<Event, Refusal>) -> Vec<u8> {
    match event {
        Ok(Event::Value(_, Value::String(s))) => s.as_bytes().to_vec(),
        Ok(Event::Definition(d)) => d.body().to_vec(),
        _ => Vec::new(),
    }
}

/// Escaped, channel, node and whether a token waits. The first two are bytes of the saved state, and so is the token's kind.
fn last(decoder: &Decoder) -> String {
    let state = decoder.save();
    let channel = i32::from(state[2] as i8);
    format!(".{}{channel:08x}{:08x}{}", state[1], decoder.node(), flag(state[9] != 0))
}

/// Each call gets as many bytes as the next of the sizes says.
fn stream(sizes: &[usize], bytes: &[u8]) -> String {
    read(&mut Decoder::new(), sizes, bytes)
}

/// The fields of a state of version 1 and the front of its store, carried over; then a stream from it.
fn earlier(head: &[u8], store: &[u8], bytes: &[u8]) -> String {
    let mut saved = [head, store].concat();
    saved.resize(saved.len().max(STATE_SIZE), 0);
    match Decoder::carry_over(&saved) {
        Ok(mut decoder) => format!("carried {}{}", read(&mut decoder, &[65536], bytes), inside(&decoder.save())),
        Err(why) => refused(why),
    }
}

/// What a state holds besides escaped, channel and node, by its bytes.
fn inside(state: &[u8]) -> String {
    let number = |at: usize| state[at..at + 4].iter().fold(0u32, |n, b| n << 8 | u32::from(*b));
    let classes =
        ["skipped", "integer", "string", "length", "int16", "int32", "float", "node", "end", "count", "longcount"];
    let pending = if state[3] == 1 { format!("{:02x}", state[4]) } else { "none".to_string() };
    let (want, left, stored) = (number(11), number(15), number(19));
    let token = match state[9] {
        0 => "between".to_string(),
        1 => format!("number {} left={left} value={:08x}", classes[usize::from(state[10])], number(23)),
        2 => format!("string left={left} of {want}"),
        _ => format!("body left={left} of {want} stored={stored}"),
    };
    let used = state.len() - state.iter().rev().take_while(|b| **b == 0).count();
    let store = if used > 27 { plain(&state[27..used]) } else { "-".to_string() };
    format!(" pending={pending} token={token} store={store}")
}

fn read(decoder: &mut Decoder, sizes: &[usize], bytes: &[u8]) -> String {
    let (mut text, mut at) = (String::new(), 0);
    for size in sizes.iter().cycle() {
        let piece = &bytes[at..bytes.len().min(at + size)];
        let (event, taken) = next(decoder, piece);
        at += taken;
        match event {
            Some(event) => text += &format!("{event}@{at:08x}"),
            None if taken != piece.len() => text += "!",
            None if at == bytes.len() => break,
            None => {}
        }
    }
    text + &last(decoder)
}

fn pieces(size: usize, bytes: &[u8]) -> Option<String> {
    Some(if size == 0 { stream(&[1], &[]) } else { stream(&[size], bytes) })
}

fn sizes(word: &str) -> Option<Vec<usize>> {
    let sizes: Option<Vec<usize>> = word.split(',').map(|n| count(n, UINT16).filter(|n| *n > 0)).collect();
    sizes.filter(|all| all.len() <= 64)
}

fn item(item: &Item) -> String {
    match item {
        Item::String { item, long_item } => format!(",{}/{}", plain(item.as_bytes()), plain(long_item.as_bytes())),
        Item::Float { item, long_item } => format!(",{item:08x}/{}", plain(long_item.as_bytes())),
    }
}

fn details(d: &Definition) -> String {
    match d.details() {
        Details::None => "-".to_string(),
        Details::Floats { min, max, steps } => format!("f{min:08x}{max:08x}{steps:08x}"),
        Details::Integers { min, max } => format!("i{min:08x}{max:08x}"),
        Details::String(len) => format!("s{len:04x}"),
        Details::Items(count) => {
            let walked: String = d.items().map(|i| item(&i)).collect();
            let by = |n: usize| d.item(n).map_or_else(refused, |i| item(&i));
            let count = usize::from(count);
            format!("c{count:04x}{walked}-#{}{}", by(count.max(1) - 1), by(count))
        }
    }
}

fn definition(body: &[u8]) -> String {
    let d = match Definition::from_bytes(body) {
        Ok(d) => d,
        Err(why) => return refused(why),
    };
    let head = format!("{:08x}{:08x}{:04x}", d.parent_id(), d.id(), d.index());
    let names = format!("n{}l{}", plain(d.name().as_bytes()), plain(d.long_name().as_bytes()));
    let kinds = format!("k{:02x}{:02x}{}", d.node_type() as u8, d.unit() as u8, flag(d.read_only()));
    head + &names + &kinds + &details(&d)
}

fn numbered(body: &[u8], number: usize) -> String {
    match Definition::from_bytes(body).and_then(|d| d.item(number)) {
        Ok(found) => item(&found),
        Err(why) => mirrors::refused(why),
    }
}

fn place(body: &[u8], start: usize, len: u32) -> String {
    plain(&body[start..start + len as usize])
}

fn step(body: &[u8], walk: raw::WingWalk) -> (String, raw::WingWalk) {
    let step = raw::item_step(body, walk.at, walk.left, walk.node_type);
    let i = step.item;
    let text = match (Refusal::check_with(i.status, i.good), i.kind) {
        (Err(why), _) => mirrors::refused(why),
        (Ok(0), _) => "none".to_string(),
        (_, 0) => format!(",{}/{}", place(body, i.start, i.len), place(body, i.long_start, i.long_len)),
        _ => format!(",{:08x}/{}", i.bits, place(body, i.long_start, i.long_len)),
    };
    (format!("{text} at {} left {}", step.walk.at, step.walk.left), step.walk)
}

fn step_order(w: &[&str]) -> Option<String> {
    let (at, left) = (count(w[0], UINT16)?, count(w[1], UINT16)? as u16);
    let node_type = count(w[2], UINT16)?.min(255) as u8;
    Some(step(&hex(w[3])?, raw::WingWalk { status: 0, good: 0, at, left, node_type }).0)
}

fn walk(body: &[u8]) -> String {
    let mut walk = raw::items_begin(body);
    if let Err(why) = Refusal::check_with(walk.status, walk.good) {
        return mirrors::refused(why);
    }
    let mut text = format!("at {} left {}", walk.at, walk.left);
    for _ in 0..=walk.left {
        let (said, after) = step(body, walk);
        text += &format!("; {said}");
        walk = after;
    }
    text
}

/// The meter id, the bytes written, and whether those after them are as they were.
fn written(out: &[u8], answer: Result<i32, Refusal>, id: u16, len: usize) -> String {
    let clean = flag(out[len..].iter().all(|b| *b == BEFORE));
    match answer {
        Ok(_) => format!("{id:04x}{}{clean}", plain(&out[..len])),
        Err(why) => refused(why) + &clean,
    }
}

fn command(room: &str, call: impl FnOnce(&mut [u8]) -> raw::WingWritten) -> Option<String> {
    let mut out = vec![BEFORE; count(room, ROOM)?];
    let w = call(&mut out);
    Some(written(&out, Refusal::check_with(w.status, w.good), 0, w.len))
}

fn keep_alive(w: &[&str]) -> Option<String> {
    let (last_id, port) = (count(w[1], UINT16)? as u16, count(w[2], UINT16)? as u16);
    let mut out = vec![BEFORE; count(w[0], 851_968)?];
    let w = raw::keep_alive_meters(&mut out, port, last_id);
    Some(written(&out, Refusal::check_with(w.status, w.good), 0, w.len))
}

fn meter(kind: u8, n: u8) -> Meter {
    let indexed: [fn(u8) -> Meter; 16] = [
        Meter::Channel,
        Meter::Aux,
        Meter::Bus,
        Meter::Main,
        Meter::Matrix,
        Meter::Dca,
        Meter::Fx,
        Meter::Source,
        Meter::Output,
        |_| Meter::Monitor,
        |_| Meter::Rta,
        Meter::Channel2,
        Meter::Aux2,
        Meter::Bus2,
        Meter::Main2,
        Meter::Matrix2,
    ];
    indexed.get(usize::from(kind)).map_or(Meter::Rta, |m| m(n))
}

/// Through the library's own call for the room, and through the crate's, which has room enough.
fn ask_meters(w: &[&str]) -> Option<String> {
    let (port, last_id) = (count(w[1], UINT16)? as u16, count(w[2], UINT16)? as u16);
    let (number, mut given) = (count(w[3], 255)?, hex(w[4])?);
    given.truncate(128);
    given.resize(given.len() + given.len() % 2, 0);
    let mut pairs: Vec<[u8; 2]> = given.chunks(2).map(|p| [if p[0] < 16 { 0xa0 + p[0] } else { 0 }, p[1]]).collect();
    pairs.resize(number, [0xaa, 0]);
    let mut out = vec![BEFORE; count(w[0], ROOM)?];
    let got = raw::request_meter(&mut out, &pairs.concat(), port, last_id);
    let meters: Vec<Meter> = pairs.iter().map(|p| meter(p[0].wrapping_sub(0xa0), p[1])).collect();
    let agrees = match request_meter(&meters, port, last_id) {
        Ok((id, bytes)) => got.status == -9 || (got.id == id && out[..got.len] == bytes[..]),
        Err(why) => got.status == -i32::from(why.number()),
    };
    Some(written(&out, Refusal::check(got.status), got.id, got.len) + if agrees { "" } else { "!" })
}

fn packet(room: usize, bytes: &[u8]) -> Option<String> {
    let mut out = vec![0x5aa5; room];
    let got = raw::read_meters(bytes, &mut out);
    let clean = flag(out[got.count..].iter().all(|x| *x == 0x5aa5));
    let agrees = match read_meters(bytes) {
        Ok((id, readings)) => got.status == -9 || (id == got.id && readings == out[..got.count]),
        Err(why) => got.status == -i32::from(why.number()),
    };
    let fault = if agrees { "" } else { "!" };
    if let Err(why) = Refusal::check(got.status) {
        return Some(refused(why) + &clean + fault);
    }
    let readings: String = out[..got.count].iter().map(|x| format!("{x:04x}")).collect();
    Some(format!("{:04x}{:08x}:{readings}{clean}{fault}", got.id, got.count))
}
