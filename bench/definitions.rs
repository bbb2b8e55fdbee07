// The definitions that are written, and a plain writer of our own to hold the port's against: libwing has none.
use crate::inputs::Dice;
use std::str::from_utf8;

/// What a writer gets; a limit is the 32 bits of a float or of an integer.
pub struct Given {
    pub parent_id: i32,
    pub id: i32,
    pub index: u16,
    pub node_type: u8,
    pub unit: u8,
    pub read_only: bool,
    pub min: u32,
    pub max: u32,
    pub steps: i32,
    pub count: u16,
    pub max_len: u16,
    pub name: Vec<u8>,
    pub long_name: Vec<u8>,
    pub items: Vec<u8>,
}

/// One text in ten has letters outside ASCII.
fn text(d: &mut Dice, n: usize) -> Vec<u8> {
    if d.below(10) == 0 { d.mixed(n) } else { d.ascii(n) }
}

fn laid(out: &mut Vec<u8>, s: &[u8]) {
    out.push(s.len() as u8);
    out.extend(s);
}

fn item(d: &mut Dice, out: &mut Vec<u8>, node_type: u8) {
    let (short, long) = (1 + d.below(8), d.below(12));
    if node_type == 5 {
        laid(out, &text(d, short));
    } else {
        out.extend((d.below(10000) as f32 / 100.0).to_be_bytes());
    }
    laid(out, &text(d, long));
}

fn given(d: &mut Dice, i: u16) -> Given {
    let node_type = (i % 8) as u8;
    let count = if node_type == 5 || node_type == 6 { 2 + d.below(11) as u16 } else { 0 };
    let mut items = Vec::new();
    for _ in 0..count {
        item(d, &mut items, node_type);
    }
    let (name, long_name) = (4 + d.below(9), d.below(21));
    Given {
        parent_id: d.bits() as i32,
        id: d.bits() as i32,
        index: i,
        node_type,
        unit: d.below(8) as u8,
        read_only: d.below(4) == 0,
        min: (-90.0f32).to_bits(),
        max: 10.0f32.to_bits(),
        steps: 1024,
        count,
        max_len: 16,
        name: text(d, name),
        long_name: text(d, long_name),
        items,
    }
}

/// A thousand like a console's: all eight types in turn, names of 4 to 12 bytes, long names of up to 20, enums of 2 to 12 items.
pub fn definitions() -> Vec<Given> {
    let mut d = Dice(8);
    (0..1000).map(|i| given(&mut d, i)).collect()
}

/// The string at the front, and what follows it.
fn string(items: &[u8]) -> Option<(&[u8], &[u8])> {
    let (len, rest) = items.split_first()?;
    rest.split_at_checked(*len as usize)
}

/// Whether all strings of the items are UTF-8; none where they are not as many items by their lengths.
fn items_text(node_type: u8, count: u16, mut items: &[u8]) -> Option<bool> {
    let mut good = true;
    for _ in 0..count {
        if node_type == 6 {
            items = items.get(4..)?;
        } else {
            let (short, rest) = string(items)?;
            good &= from_utf8(short).is_ok();
            items = rest;
        }
        let (long, rest) = string(items)?;
        good &= from_utf8(long).is_ok();
        items = rest;
    }
    items.is_empty().then_some(good)
}

/// 15, 16, 5, or how many bytes the type adds before the items.
fn checked(g: &Given) -> Result<usize, u8> {
    if g.name.len() > 255 || g.long_name.len() > 255 {
        return Err(15);
    }
    if g.node_type > 7 || g.unit > 7 {
        return Err(16);
    }
    let has_items = g.node_type == 5 || g.node_type == 6;
    if !has_items && g.count > 0 {
        return Err(16);
    }
    let text = items_text(g.node_type, g.count, &g.items).ok_or(16)?;
    if !(from_utf8(&g.name).is_ok() && from_utf8(&g.long_name).is_ok() && text) {
        return Err(5);
    }
    Ok([0, 12, 12, 0, 8, 2, 2, 2][g.node_type as usize])
}

/// The body in a Vec of its own, with the port's checks in the port's order; `room` says whether it is made as long as the body at once.
pub fn write(g: &Given, room: bool) -> Result<Vec<u8>, u8> {
    let added = checked(g)?;
    let len = 14 + g.name.len() + g.long_name.len() + added + g.items.len();
    if len > 4096 {
        return Err(2);
    }
    let mut out = if room { Vec::with_capacity(len) } else { Vec::new() };
    out.extend_from_slice(&g.parent_id.to_be_bytes());
    out.extend_from_slice(&g.id.to_be_bytes());
    out.extend_from_slice(&g.index.to_be_bytes());
    out.push(g.name.len() as u8);
    out.extend_from_slice(&g.name);
    out.push(g.long_name.len() as u8);
    out.extend_from_slice(&g.long_name);
    let flags = g.node_type as u16 * 16 + g.unit as u16 + if g.read_only { 512 } else { 0 };
    out.extend_from_slice(&flags.to_be_bytes());
    add(&mut out, g);
    out.extend_from_slice(&g.items);
    Ok(out)
}

/// What the type adds before the items.
fn add(out: &mut Vec<u8>, g: &Given) {
    match g.node_type {
        1 | 2 => {
            out.extend_from_slice(&g.min.to_be_bytes());
            out.extend_from_slice(&g.max.to_be_bytes());
            out.extend_from_slice(&g.steps.to_be_bytes());
        }
        4 => {
            out.extend_from_slice(&g.min.to_be_bytes());
            out.extend_from_slice(&g.max.to_be_bytes());
        }
        5 | 6 => out.extend_from_slice(&g.count.to_be_bytes()),
        7 => out.extend_from_slice(&g.max_len.to_be_bytes()),
        _ => {}
    }
}
