//! Definitions written, from fields and anew.
use crate::mirrors::{output, refused, BEFORE};
use crate::words::{bits, count, hex, int32, pairs};
use whistleloam::raw::{self, WingFields};
use whistleloam::{Definition, Details, Fields, NodeType, NodeUnit, Refusal, BODY_LIMIT};

const ROOM: u64 = 16384;
const UINT16: u64 = 65535;
const TYPES: [NodeType; 8] = [
    NodeType::Node,
    NodeType::LinearFloat,
    NodeType::LogarithmicFloat,
    NodeType::FaderLevel,
    NodeType::Integer,
    NodeType::StringEnum,
    NodeType::FloatEnum,
    NodeType::String,
];
const UNITS: [NodeUnit; 8] = [
    NodeUnit::None,
    NodeUnit::Db,
    NodeUnit::Percent,
    NodeUnit::Milliseconds,
    NodeUnit::Hertz,
    NodeUnit::Meters,
    NodeUnit::Seconds,
    NodeUnit::Octaves,
];

fn fields(w: &[&str]) -> Option<WingFields> {
    Some(WingFields {
        parent_id: int32(w[0])?,
        id: int32(w[1])?,
        index: count(w[2], UINT16)? as u16,
        node_type: count(w[3], 255)? as u8,
        unit: count(w[4], 255)? as u8,
        read_only: count(w[5], 1)? == 1,
        min: bits(w[6])?,
        max: bits(w[7])?,
        steps: int32(w[8])?,
        count: count(w[9], UINT16)? as u16,
        max_len: count(w[10], UINT16)? as u16,
    })
}

/// The same with the crate's types, where they have it.
fn typed(f: &WingFields) -> Option<Fields> {
    let node_type = *TYPES.get(usize::from(f.node_type))?;
    let details = match node_type {
        NodeType::StringEnum | NodeType::FloatEnum => Details::Items(f.count),
        _ if f.count > 0 => Details::Items(f.count),
        NodeType::Node | NodeType::FaderLevel => Details::None,
        NodeType::LinearFloat | NodeType::LogarithmicFloat => {
            Details::Floats { min: f.min, max: f.max, steps: f.steps }
        }
        NodeType::Integer => Details::Integers { min: f.min as i32, max: f.max as i32 },
        NodeType::String => Details::String(f.max_len),
    };
    Some(Fields {
        parent_id: f.parent_id,
        id: f.id,
        index: f.index,
        node_type,
        unit: *UNITS.get(usize::from(f.unit))?,
        read_only: f.read_only,
        details,
    })
}

/// What the crate's own way gives, which has room enough; none where its types do not have the fields or the names.
fn by_fields(f: &WingFields, name: &[u8], long_name: &[u8], items: &[u8]) -> Option<Result<Vec<u8>, Refusal>> {
    let (name, long_name) = (std::str::from_utf8(name).ok()?, std::str::from_utf8(long_name).ok()?);
    Some(typed(f)?.to_bytes(name, long_name, items))
}

/// Through the library's own call for the room, and through the crate's.
pub fn define(w: &[&str]) -> Option<String> {
    let (f, name, long_name, items) = (fields(w)?, hex(w[11])?, hex(w[12])?, hex(w[13])?);
    let mut out = vec![BEFORE; count(w[14], ROOM)?];
    let got = raw::write_definition(f, &name, &long_name, &items, &mut out);
    let written = Refusal::check_with(got.status, got.good).map(|_| got.len);
    let agrees = match by_fields(&f, &name, &long_name, &items) {
        Some(Ok(body)) => written == Err(Refusal::OUTPUT_SHORT) || (out[..got.len] == body[..] && read_back(&f, &body)),
        Some(Err(why)) => written == Err(why),
        None => true,
    };
    Some(output("wrote", &out, written) + if agrees { "" } else { "!" })
}

/// What was written is read as these fields and is the same anew.
fn read_back(f: &WingFields, body: &[u8]) -> bool {
    Definition::from_bytes(body).is_ok_and(|d| {
        let items = d.fields().to_bytes(d.name(), d.long_name(), d.item_bytes());
        Some(d.fields()) == typed(f) && items.as_deref() == Ok(body) && d.to_bytes().as_deref() == Ok(body)
    })
}

/// Through the library's own call, and through the crate's.
pub fn again(body: &[u8]) -> String {
    let mut out = vec![BEFORE; BODY_LIMIT];
    let got = raw::write_anew(body, &mut out);
    let written = Refusal::check_with(got.status, got.good).map(|_| out[..got.len].to_vec());
    let by_crate = Definition::from_bytes(body).and_then(|d| d.to_bytes());
    let clean = out[got.len..].iter().all(|b| *b == BEFORE);
    let fault = if clean && written == by_crate { "" } else { "!" };
    match written {
        Ok(bytes) if bytes == body => format!("same{fault}"),
        Ok(bytes) => format!("other {}{fault}", pairs(&bytes)),
        Err(why) => refused(why) + fault,
    }
}
