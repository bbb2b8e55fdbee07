// A table of 1,024 records that is listed and loaded, and a plain printer and loader of our own to hold the port's against: libwing has none.
use crate::inputs::Dice;
use std::collections::BTreeMap;
use std::fmt::Write;

pub enum Value {
    Int(i32),
    Float(u32),
    Text(String),
}

pub type Map = BTreeMap<i32, Value>;

fn value(d: &mut Dice, i: i32) -> Value {
    match i % 4 {
        0 => Value::Int(d.below(200) as i32 - 100),
        1 => Value::Int(d.bits() as i32),
        2 => Value::Float((d.below(10000) as f32 / 100.0 - 90.0).to_bits()),
        _ => {
            let n = 6 + d.below(7);
            Value::Text((0..n).map(|_| (b'a' + d.below(26) as u8) as char).collect())
        }
    }
}

/// Half integers, small and large in turn, a quarter floats, a quarter strings of 6 to 12 letters.
pub fn map() -> Map {
    let mut d = Dice(9);
    (0..1024).map(|i| (1000 + 7 * i, value(&mut d, i))).collect()
}

/// Into a String that grows.
pub fn print(map: &Map) -> String {
    let mut out = String::from("id,kind,value\n");
    for (id, value) in map {
        match value {
            Value::Int(x) => writeln!(out, "{id},i,{x}").unwrap(),
            Value::Float(bits) => writeln!(out, "{id},f,{bits:08x}").unwrap(),
            Value::Text(s) => {
                write!(out, "{id},s,").unwrap();
                for b in s.bytes() {
                    write!(out, "{b:02x}").unwrap();
                }
                out.push('\n');
            }
        }
    }
    out
}

/// 17 for what `parse` takes and the rules do not: a plus sign, a leading zero, a minus zero.
fn integer(field: &str) -> Result<i32, u8> {
    let digits = field.strip_prefix('-').unwrap_or(field);
    if digits.starts_with('+') || (digits.starts_with('0') && field.len() > 1) {
        return Err(17);
    }
    field.parse().map_err(|_| 17)
}

fn digit(b: u8) -> Result<u8, u8> {
    match b {
        b'0'..=b'9' => Ok(b - b'0'),
        b'a'..=b'f' => Ok(b - b'a' + 10),
        _ => Err(17),
    }
}

fn bytes(field: &str) -> Result<Vec<u8>, u8> {
    if field.len() % 2 != 0 {
        return Err(17);
    }
    field.as_bytes().chunks_exact(2).map(|pair| Ok(digit(pair[0])? << 4 | digit(pair[1])?)).collect()
}

fn float(field: &str) -> Result<u32, u8> {
    if field.len() != 8 || field.bytes().any(|b| digit(b).is_err()) {
        return Err(17);
    }
    u32::from_str_radix(field, 16).map_err(|_| 17)
}

/// A line after those of the map, with the port's checks in the port's order.
fn line(map: &mut Map, line: &str) -> Result<(), u8> {
    let mut fields = line.split(',');
    let (Some(id), Some(kind), Some(field), None) = (fields.next(), fields.next(), fields.next(), fields.next()) else { return Err(17) };
    let id = integer(id)?;
    let rises = map.last_key_value().map_or(true, |(before, _)| *before < id);
    let above = |value| if rises { Ok(value) } else { Err(18) };
    let value = match kind {
        "i" => above(Value::Int(integer(field)?))?,
        "f" => above(Value::Float(float(field)?))?,
        "s" => {
            let bytes = bytes(field)?;
            if !rises {
                return Err(18);
            }
            if bytes.len() > 256 {
                return Err(10);
            }
            Value::Text(String::from_utf8(bytes).map_err(|_| 1)?)
        }
        _ => return Err(17),
    };
    map.insert(id, value);
    Ok(())
}

/// The map, or a refusal and its line. `lines` also takes a carriage return before a newline, and a last line without one.
pub fn load(text: &str, places: usize) -> Result<Map, (u8, usize)> {
    if text.len() > 65536 {
        return Err((14, 0));
    }
    let mut lines = text.lines();
    if lines.next() != Some("id,kind,value") {
        return Err((17, 1));
    }
    let mut map = Map::new();
    for (number, text) in lines.enumerate() {
        line(&mut map, text).map_err(|why| (why, number + 2))?;
    }
    if map.len() > places {
        return Err((6, 0));
    }
    Ok(map)
}
