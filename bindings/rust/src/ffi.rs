//! The library's calls over buffers of the caller's own: slices and numbers in, the answer's numbers out.
//!
//! [`Mirror`](crate::Mirror), [`Decoder`](crate::Decoder) and the rest of this crate are made of these. They are for a
//! box that keeps its memory itself: whatever the slices hold, a call answers or refuses, and a refused one has changed
//! nothing, but for [`next`]'s 1 to 3. A status is 0 (1 where that is said) or a refusal's number with a minus sign
//! ([`Refusal::check`](crate::Refusal::check) tells them apart). Where a call can answer 1 or 5, a string that is not UTF-8,
//! `good` stands after the status: how many leading bytes of that string form whole characters, and 0 with every other
//! status ([`Refusal::check_with`](crate::Refusal::check_with) takes both). `include/wing.h` says the same for C.
//!
//! This is the crate's only file with `unsafe` in it. Each function hands over slices as a pointer and a length; Rust's
//! borrows say that the memory is there, that it is initialised, and that what is written is borrowed by nobody else.
#![allow(unsafe_code)]

/// A command, or a definition or a listing that was written.
#[repr(C)]
#[derive(Clone, Copy, Debug, PartialEq, Eq)]
pub struct WingWritten {
    /// 0, or a refusal.
    pub status: i32,
    /// With -1 and -5: how many leading bytes of the string form whole characters; else 0.
    pub good: u16,
    /// How many bytes stand at the front of the output; those after them are as they were.
    pub len: usize,
}

/// A set through the mirror.
#[repr(C)]
#[derive(Clone, Copy, Debug, PartialEq, Eq)]
pub struct WingSet {
    /// 0, or a refusal.
    pub status: i32,
    /// With -1: how many leading bytes of the string form whole characters; else 0.
    pub good: u16,
    /// How many bytes of the output to send.
    pub len: usize,
    /// The records there are now; refused: as it was lent.
    pub count: usize,
}

/// A feed. What the console sends is never a reason to refuse it: what cannot be stored is counted.
#[repr(C)]
#[derive(Clone, Copy, Debug, PartialEq, Eq)]
pub struct WingFed {
    /// 0, or a refusal.
    pub status: i32,
    /// Values stored.
    pub stored: u32,
    /// Values of new nodes, with no place left.
    pub unplaced: u32,
    /// Strings that are not UTF-8.
    pub strings_refused: u32,
    /// Definitions that the parser takes.
    pub definitions_read: u32,
    /// Definitions with refusal 2 to 5.
    pub definitions_refused: u32,
    /// Ends of an answer.
    pub ends: u32,
    /// The records there are now; refused: as it was lent.
    pub count: usize,
}

/// A lookup.
#[repr(C)]
#[derive(Clone, Copy, Debug, PartialEq, Eq)]
pub struct WingLookup {
    /// 1 found, 0 none, or a refusal.
    pub status: i32,
    /// The record's number, from 0; 0 if none.
    pub number: usize,
}

/// A record.
#[repr(C)]
#[derive(Clone, Copy, Debug, PartialEq, Eq)]
pub struct WingRecord {
    /// 0, or a refusal.
    pub status: i32,
    /// Its node.
    pub id: i32,
    /// The 32 bits of an integer (two's complement) or a float; 0 for a string.
    pub value: u32,
    /// A string's bytes; 0 for numbers.
    pub len: u16,
    /// 0 an integer, 1 a float, 2 a string.
    pub kind: u8,
    /// Who gave the last value: 0 the console, 1 a set order, as in [`Origin`](crate::Origin).
    pub origin: u8,
    /// The string, then bytes of 0.
    pub string: [u8; 256],
}

/// An event of the decoder.
#[repr(C)]
#[derive(Clone, Copy, Debug, PartialEq, Eq)]
pub struct WingEvent {
    /// 1 an event, 0 more bytes are wanted, or a refusal.
    pub status: i32,
    /// With -1: how many leading bytes of the string form whole characters; else 0.
    pub good: u16,
    /// The current node, to which a value belongs; 0 with refusal 8.
    pub node: i32,
    /// The 32 bits of an integer or a float; else 0.
    pub value: u32,
    /// The bytes of a string or a body, at the front of the output; else 0.
    pub len: u16,
    /// 0 an integer, 1 a float, 2 a string, 3 a definition's body, 4 an end.
    pub kind: u8,
    /// How many of the bytes this call took; go on from there.
    pub taken: usize,
}

/// A load.
#[repr(C)]
#[derive(Clone, Copy, Debug, PartialEq, Eq)]
pub struct WingLoaded {
    /// 0, or a refusal.
    pub status: i32,
    /// With -1: how many leading bytes of the line's string form whole characters; else 0.
    pub good: u16,
    /// The records there are now; refused: 0, and the table's own count stays.
    pub count: usize,
    /// Refused: the number of the line that decided, 1 is the header; 0 with 7, 14 and 6, and where the status is 0.
    pub line: usize,
}

/// A meter request.
#[repr(C)]
#[derive(Clone, Copy, Debug, PartialEq, Eq)]
pub struct WingRequested {
    /// 0, or a refusal.
    pub status: i32,
    /// The new meter id: the last id of the next request.
    pub id: u16,
    /// How many bytes of the output to send.
    pub len: usize,
}

/// A meter packet.
#[repr(C)]
#[derive(Clone, Copy, Debug, PartialEq, Eq)]
pub struct WingMeters {
    /// 0, or a refusal.
    pub status: i32,
    /// The meter id of the request that it answers.
    pub id: u16,
    /// How many readings stand at the front of the output.
    pub count: usize,
}

/// A definition. What its type has not is 0.
#[repr(C)]
#[derive(Clone, Copy, Debug, PartialEq, Eq)]
pub struct WingDefinition {
    /// 0, or a refusal.
    pub status: i32,
    /// With -5: how many leading bytes of the string form whole characters; else 0.
    pub good: u16,
    /// The node above.
    pub parent_id: i32,
    /// The node.
    pub id: i32,
    /// Its number below the parent.
    pub index: u16,
    /// 0 to 7, as in [`NodeType`](crate::NodeType).
    pub node_type: u8,
    /// 0 to 7, as in [`NodeUnit`](crate::NodeUnit).
    pub unit: u8,
    /// Bit 9 of the flags.
    pub read_only: bool,
    /// How many items, of the two enum types.
    pub count: u16,
    /// The longest string, of type string.
    pub max_len: u16,
    /// The least value: 32 bits of a float (types 1, 2) or of an integer (4).
    pub min: u32,
    /// The greatest value, likewise.
    pub max: u32,
    /// The number of steps (types 1, 2).
    pub steps: i32,
    /// The name's bytes.
    pub name_len: u32,
    /// The long name's bytes.
    pub long_name_len: u32,
    /// Where in the body the name stands; it is UTF-8.
    pub name_start: usize,
    /// Where the long name stands.
    pub long_name_start: usize,
    /// Where the first item stands, of the two enum types.
    pub first_item: usize,
}

/// A walk over items.
#[repr(C)]
#[derive(Clone, Copy, Debug, PartialEq, Eq)]
pub struct WingWalk {
    /// 0, or a refusal.
    pub status: i32,
    /// With -5: how many leading bytes of the string form whole characters; else 0.
    pub good: u16,
    /// The items left.
    pub left: u16,
    /// The type.
    pub node_type: u8,
    /// The place in the body reached.
    pub at: usize,
}

/// An item.
#[repr(C)]
#[derive(Clone, Copy, Debug, PartialEq, Eq)]
pub struct WingItem {
    /// 1 an item, 0 none, or a refusal.
    pub status: i32,
    /// With -5: how many leading bytes of the string form whole characters; else 0.
    pub good: u16,
    /// 0 two strings, 1 float bits and a string.
    pub kind: u8,
    /// The float's bits; else 0.
    pub bits: u32,
    /// The short string's bytes; 0 for a float.
    pub len: u32,
    /// The long string's bytes.
    pub long_len: u32,
    /// Where in the body the short string stands; 0 for a float.
    pub start: usize,
    /// Where the long string stands.
    pub long_start: usize,
}

/// A step of a walk.
#[repr(C)]
#[derive(Clone, Copy, Debug, PartialEq, Eq)]
pub struct WingStep {
    /// The item there.
    pub item: WingItem,
    /// The walk after it; where the item is a refusal, the walk as it was. Its status and good are always 0.
    pub walk: WingWalk,
}

/// A window over readings: the caller keeps it, and it crosses by value. A window that no list of readings leaves is
/// refused with 8. Inside it a reading is a level: the reading raised by 32,768.
#[repr(C)]
#[derive(Clone, Copy, Debug, PartialEq, Eq)]
pub struct WingWindow {
    /// The most readings that it holds, 1 to 256.
    pub width: u16,
    /// How many it holds.
    pub held: u16,
    /// The place of the next one.
    pub next: u16,
    /// The largest level.
    pub top: u16,
    /// The sum of the levels.
    pub sum: u32,
    /// A ring of `width` levels; places not used yet, and those after the ring, are 0.
    pub levels: [u16; 256],
}

/// What a window tells of the readings that it holds. Where it tells nothing, the five figures are 0.
#[repr(C)]
#[derive(Clone, Copy, Debug, PartialEq, Eq)]
pub struct WingFigures {
    /// 1 figures, 0 none, or a refusal.
    pub status: i32,
    /// How many readings, 1 to the width.
    pub held: u16,
    /// Their sum.
    pub sum: i32,
    /// The sum divided by their number, rounded down.
    pub mean: i16,
    /// What that leaves of the sum, 0 to `held - 1`.
    pub rest: u16,
    /// The largest.
    pub top: i16,
}

/// A window made.
#[repr(C)]
#[derive(Clone, Copy, Debug, PartialEq, Eq)]
pub struct WingMade {
    /// 0, or a refusal.
    pub status: i32,
    /// It holds none; refused: all 0, which every call refuses.
    pub window: WingWindow,
}

/// A reading taken.
#[repr(C)]
#[derive(Clone, Copy, Debug, PartialEq, Eq)]
pub struct WingTaken {
    /// Its status is the call's.
    pub figures: WingFigures,
    /// The window to go on with; refused: as it was given.
    pub window: WingWindow,
}

/// Readings taken, one after the other.
#[repr(C)]
#[derive(Clone, Copy, Debug, PartialEq, Eq)]
pub struct WingFollowed {
    /// 0, or a refusal.
    pub status: i32,
    /// How many rows stand at the front of the output, one for each reading.
    pub rows: usize,
    /// The window to go on with; refused: as it was given.
    pub window: WingWindow,
}

/// A definition to be written: fields of [`WingDefinition`]. What its type has not is ignored, but for the count and the
/// item bytes (16).
#[repr(C)]
#[derive(Clone, Copy, Debug, PartialEq, Eq)]
pub struct WingFields {
    /// The node above.
    pub parent_id: i32,
    /// The node.
    pub id: i32,
    /// Its number below the parent.
    pub index: u16,
    /// 0 to 7, as in [`NodeType`](crate::NodeType).
    pub node_type: u8,
    /// 0 to 7, as in [`NodeUnit`](crate::NodeUnit).
    pub unit: u8,
    /// Bit 9 of the flags.
    pub read_only: bool,
    /// How many items, of the two enum types; 0 for the others.
    pub count: u16,
    /// The longest string, of type string.
    pub max_len: u16,
    /// The least value: 32 bits of a float (types 1, 2) or of an integer (4).
    pub min: u32,
    /// The greatest value, likewise.
    pub max: u32,
    /// The number of steps (types 1, 2).
    pub steps: i32,
}

/// The declarations as the archive has them; `bindings/check` holds them against its sources.
mod library {
    use super::*;

    extern "C" {
        pub fn wing_state_fresh(state: *mut u8, state_len: usize) -> WingWritten;
        pub fn wing_state_check(state: *const u8, state_len: usize) -> i32;
        pub fn wing_state_carry_over(
            earlier: *const u8,
            earlier_len: usize,
            state: *mut u8,
            state_len: usize,
        ) -> WingWritten;
        pub fn wing_next(
            state: *mut u8,
            state_len: usize,
            bytes: *const u8,
            bytes_len: usize,
            out: *mut u8,
            out_len: usize,
        ) -> WingEvent;
        pub fn wing_table_check(table: *const u8, table_len: usize, count: usize) -> i32;
        pub fn wing_feed(
            state: *mut u8,
            state_len: usize,
            table: *mut u8,
            table_len: usize,
            count: usize,
            bytes: *const u8,
            bytes_len: usize,
        ) -> WingFed;
        pub fn wing_set_int(
            table: *mut u8,
            table_len: usize,
            count: usize,
            out: *mut u8,
            out_len: usize,
            id: i32,
            value: i32,
        ) -> WingSet;
        pub fn wing_set_float(
            table: *mut u8,
            table_len: usize,
            count: usize,
            out: *mut u8,
            out_len: usize,
            id: i32,
            bits: u32,
        ) -> WingSet;
        pub fn wing_set_string(
            table: *mut u8,
            table_len: usize,
            count: usize,
            out: *mut u8,
            out_len: usize,
            id: i32,
            value: *const u8,
            value_len: usize,
        ) -> WingSet;
        pub fn wing_recall(
            table: *const u8,
            table_len: usize,
            count: usize,
            out: *mut u8,
            out_len: usize,
        ) -> WingWritten;
        pub fn wing_lookup(table: *const u8, table_len: usize, count: usize, id: i32) -> WingLookup;
        pub fn wing_record(table: *const u8, table_len: usize, count: usize, number: usize) -> WingRecord;
        pub fn wing_same(a: *const u8, a_len: usize, count_a: usize, b: *const u8, b_len: usize, count_b: usize)
            -> i32;
        pub fn wing_print(
            table: *const u8,
            table_len: usize,
            count: usize,
            out: *mut u8,
            out_len: usize,
        ) -> WingWritten;
        pub fn wing_load(text: *const u8, text_len: usize, table: *mut u8, table_len: usize) -> WingLoaded;
        pub fn wing_definition(body: *const u8, body_len: usize) -> WingDefinition;
        pub fn wing_items_begin(body: *const u8, body_len: usize) -> WingWalk;
        pub fn wing_item_step(body: *const u8, body_len: usize, at: usize, left: u16, node_type: u8) -> WingStep;
        pub fn wing_item(body: *const u8, body_len: usize, number: usize) -> WingItem;
        pub fn wing_write_definition(
            fields: WingFields,
            name: *const u8,
            name_len: usize,
            long_name: *const u8,
            long_name_len: usize,
            items: *const u8,
            items_len: usize,
            out: *mut u8,
            out_len: usize,
        ) -> WingWritten;
        pub fn wing_write_anew(body: *const u8, body_len: usize, out: *mut u8, out_len: usize) -> WingWritten;
        pub fn wing_order_int(out: *mut u8, out_len: usize, id: i32, value: i32) -> WingWritten;
        pub fn wing_order_float(out: *mut u8, out_len: usize, id: i32, bits: u32) -> WingWritten;
        pub fn wing_order_string(
            out: *mut u8,
            out_len: usize,
            id: i32,
            value: *const u8,
            value_len: usize,
        ) -> WingWritten;
        pub fn wing_request_node_definition(out: *mut u8, out_len: usize, id: i32) -> WingWritten;
        pub fn wing_request_node_data(out: *mut u8, out_len: usize, id: i32) -> WingWritten;
        pub fn wing_request_meter(
            out: *mut u8,
            out_len: usize,
            meters: *const u8,
            meters_len: usize,
            port: u16,
            last_id: u16,
        ) -> WingRequested;
        pub fn wing_keep_alive_meters(out: *mut u8, out_len: usize, port: u16, last_id: u16) -> WingWritten;
        pub fn wing_read_meters(packet: *const u8, packet_len: usize, out: *mut i16, out_len: usize) -> WingMeters;
        pub fn wing_is_utf8(s: *const u8, s_len: usize) -> bool;
        pub fn wing_utf8_good(s: *const u8, s_len: usize) -> usize;
        pub fn wing_window_make(width: u32) -> WingMade;
        pub fn wing_window_figures(w: WingWindow) -> WingFigures;
        pub fn wing_window_reading(w: WingWindow, x: i16) -> WingTaken;
        pub fn wing_window_readings(
            w: WingWindow,
            xs: *const i16,
            xs_len: usize,
            out: *mut i32,
            out_len: usize,
        ) -> WingFollowed;
    }
}

/// Lays a fresh decoder state into the output (4,123 bytes). Lent to be written: state.
///
/// Refused: 9.
pub fn state_fresh(state: &mut [u8]) -> WingWritten {
    // SAFETY: `state` is borrowed for this call alone. The call stays within the lengths and keeps
    // no address.
    unsafe { library::wing_state_fresh(state.as_mut_ptr(), state.len()) }
}

/// Whether the bytes are those of a sound state: 0. Every state that a call left is one; others may be. Lent to be
/// read: state.
///
/// Refused: 8 (also for any other length than 4,123, and for version 1).
pub fn state_check(state: &[u8]) -> i32 {
    // SAFETY: `state` is borrowed and only read. The call stays within the lengths and keeps no
    // address.
    unsafe { library::wing_state_check(state.as_ptr(), state.len()) }
}

/// A state that was kept under version 1, before a definition's count could have 32 bits: lays it into the output
/// (4,123 bytes) as today's, with its units left, stored bytes and all else the same. Lent to be read: earlier; to be
/// written: state.
///
/// Refused: 8, if the bytes are no sound state's of version 1 or it has taken any of the four units after a count of 0; 9.
pub fn state_carry_over(earlier: &[u8], state: &mut [u8]) -> WingWritten {
    // SAFETY: `state` is borrowed for this call alone; `earlier` is borrowed and only read. The call
    // stays within the lengths and keeps no address.
    unsafe { library::wing_state_carry_over(earlier.as_ptr(), earlier.len(), state.as_mut_ptr(), state.len()) }
}

/// The next event of a stream that comes in any pieces. Lent to be read: bytes (at most
/// 65,536); to be written: state, and out (at least 4,096 bytes), at whose front a
/// string's or body's bytes stand after an event of that kind, those after them as they were. Call
/// it again with the bytes from `taken` on until the status is 0 (all bytes are taken then); a call
/// with no bytes can give an event too. Status 1 is an event.
///
/// Refused: 8, 14, 9, which leave all as it was. 1 (with the good), 2 and 3 say what the bytes held:
/// the token is taken, the node stays, go on.
pub fn next(state: &mut [u8], bytes: &[u8], out: &mut [u8]) -> WingEvent {
    // SAFETY: `state` and `out` are borrowed for this call alone; `bytes` is borrowed and only
    // read. The call stays within the lengths and keeps no address.
    unsafe {
        library::wing_next(state.as_mut_ptr(), state.len(), bytes.as_ptr(), bytes.len(), out.as_mut_ptr(), out.len())
    }
}

/// Whether a table and its count are such as every call below takes: 0. Lent to be read: table.
///
/// Refused: 7.
pub fn table_check(table: &[u8], count: usize) -> i32 {
    // SAFETY: `table` is borrowed and only read. The call stays within the lengths and keeps no
    // address.
    unsafe { library::wing_table_check(table.as_ptr(), table.len(), count) }
}

/// Takes the console's bytes, at most 65,536 at a time, broken off anywhere, and stores the
/// last value of each node, with origin 0. Lent to be read: bytes; to be written: state, table. Go
/// on with the count that comes back.
///
/// Refused: 8, 7, 14.
pub fn feed(state: &mut [u8], table: &mut [u8], count: usize, bytes: &[u8]) -> WingFed {
    // SAFETY: `state` and `table` are borrowed for this call alone; `bytes` is borrowed and only
    // read. The call stays within the lengths and keeps no address.
    unsafe {
        library::wing_feed(
            state.as_mut_ptr(),
            state.len(),
            table.as_mut_ptr(),
            table.len(),
            count,
            bytes.as_ptr(),
            bytes.len(),
        )
    }
}

/// Sets a node: stores the value, with origin 1, and writes the order to send (at most 18 bytes).
/// Lent to be written: table, out.
///
/// Refused: 7, 6, 9.
pub fn set_int(table: &mut [u8], count: usize, out: &mut [u8], id: i32, value: i32) -> WingSet {
    // SAFETY: `table` and `out` are borrowed for this call alone. The call stays within the
    // lengths and keeps no address.
    unsafe { library::wing_set_int(table.as_mut_ptr(), table.len(), count, out.as_mut_ptr(), out.len(), id, value) }
}

/// The same for a float, by its 32 bits.
///
/// Refused: 7, 6, 9.
pub fn set_float(table: &mut [u8], count: usize, out: &mut [u8], id: i32, bits: u32) -> WingSet {
    // SAFETY: `table` and `out` are borrowed for this call alone. The call stays within the
    // lengths and keeps no address.
    unsafe { library::wing_set_float(table.as_mut_ptr(), table.len(), count, out.as_mut_ptr(), out.len(), id, bits) }
}

/// The same for a string of at most 256 bytes, in UTF-8 (an order of at most
/// 395 bytes). Lent to be read: value; to be written: table, out.
///
/// Refused: 7, 10, 1 (with the good), 6, 9.
pub fn set_string(table: &mut [u8], count: usize, out: &mut [u8], id: i32, value: &[u8]) -> WingSet {
    // SAFETY: `table` and `out` are borrowed for this call alone; `value` is borrowed and only
    // read. The call stays within the lengths and keeps no address.
    unsafe {
        library::wing_set_string(
            table.as_mut_ptr(),
            table.len(),
            count,
            out.as_mut_ptr(),
            out.len(),
            id,
            value.as_ptr(),
            value.len(),
        )
    }
}

/// Writes what sets a console to every record: df d1, then the set order of each in order (at most
/// 2 bytes, and 395 for each record). Origins are not carried: a fresh mirror that is fed these
/// bytes, in places enough, has the same records with origin 0 each. Lent to be read: table; to be
/// written: out.
///
/// Refused: 7, 9.
pub fn recall(table: &[u8], count: usize, out: &mut [u8]) -> WingWritten {
    // SAFETY: `out` is borrowed for this call alone; `table` is borrowed and only read. The call
    // stays within the lengths and keeps no address.
    unsafe { library::wing_recall(table.as_ptr(), table.len(), count, out.as_mut_ptr(), out.len()) }
}

/// The number of a node's record (status 1), or none (0). Lent to be read: table.
///
/// Refused: 7.
pub fn lookup(table: &[u8], count: usize, id: i32) -> WingLookup {
    // SAFETY: `table` is borrowed and only read. The call stays within the lengths and keeps no
    // address.
    unsafe { library::wing_lookup(table.as_ptr(), table.len(), count, id) }
}

/// A record by its number, from 0, with its origin; they stand in rising order of their signed ids.
/// Lent to be read: table.
///
/// Refused: 7, 14.
pub fn record(table: &[u8], count: usize, number: usize) -> WingRecord {
    // SAFETY: `table` is borrowed and only read. The call stays within the lengths and keeps no
    // address.
    unsafe { library::wing_record(table.as_ptr(), table.len(), count, number) }
}

/// 1 if two mirrors are equal, count and records, origins included, else 0; the places and the
/// decoders do not matter. Lent to be read: a, b.
///
/// Refused: 7 (for either).
pub fn same(a: &[u8], count_a: usize, b: &[u8], count_b: usize) -> i32 {
    // SAFETY: `a` and `b` are borrowed and only read. The call stays within the lengths and keeps
    // no address.
    unsafe { library::wing_same(a.as_ptr(), a.len(), count_a, b.as_ptr(), b.len(), count_b) }
}

/// Prints the records: a line `id,kind,value`, then one for each in order, its id in decimal, its kind (i, f or s)
/// and its value in decimal, in eight hex digits or in hex pairs (at most 14 bytes, and 527 for each record, all
/// ASCII). Origins are not listed. Lent to be read: table; to be written: out.
///
/// Refused: 7, 9.
pub fn print(table: &[u8], count: usize, out: &mut [u8]) -> WingWritten {
    // SAFETY: `out` is borrowed for this call alone; `table` is borrowed and only read. The call
    // stays within the lengths and keeps no address.
    unsafe { library::wing_print(table.as_ptr(), table.len(), count, out.as_mut_ptr(), out.len()) }
}

/// Loads such a listing of at most 65,536 bytes into the places of a table, whatever they hold, each record with
/// origin 0; the bytes after its records stay as they were. Go on with the count that comes back and with a fresh
/// decoder state ([`state_fresh`]). Printed, the table gives the text again. Lent to be read: text; to be written:
/// table.
///
/// Refused: 7 (by the places alone), 14; then by the first bad line 17, 18, 10, 1 (with the good); then 6.
pub fn load(text: &[u8], table: &mut [u8]) -> WingLoaded {
    // SAFETY: `table` is borrowed for this call alone; `text` is borrowed and only read. The call
    // stays within the lengths and keeps no address.
    unsafe { library::wing_load(text.as_ptr(), text.len(), table.as_mut_ptr(), table.len()) }
}

/// The fields of a definition's body, and where its names stand in it. Lent to be read: body.
///
/// Refused: 4, 5 (with the good), by the first field that fails.
pub fn definition(body: &[u8]) -> WingDefinition {
    // SAFETY: `body` is borrowed and only read. The call stays within the lengths and keeps no
    // address. `read_only` is a bool of proved code, which sets its byte to 0 or 1.
    unsafe { library::wing_definition(body.as_ptr(), body.len()) }
}

/// A walk over the body's items, at the first one; a type without items has none left. Lent to be
/// read: body.
///
/// Refused: 4, 5 (with the good).
pub fn items_begin(body: &[u8]) -> WingWalk {
    // SAFETY: `body` is borrowed and only read. The call stays within the lengths and keeps no
    // address.
    unsafe { library::wing_items_begin(body.as_ptr(), body.len()) }
}

/// One step of a walk: the item there (its status 1, or 0 for none) and the walk after it. Lent to
/// be read: body; at, left and node_type are those of the walk. Whatever they are, the call stays
/// within the body; a type over 7 counts as type 0.
///
/// Refused (the item's status): 4, 5 (with the item's good).
pub fn item_step(body: &[u8], at: usize, left: u16, node_type: u8) -> WingStep {
    // SAFETY: `body` is borrowed and only read. The call stays within the lengths and keeps no
    // address.
    unsafe { library::wing_item_step(body.as_ptr(), body.len(), at, left, node_type) }
}

/// An item by its number, from 0 (status 1). Lent to be read: body.
///
/// Refused: 4, 5 (with the good), 14.
pub fn item(body: &[u8], number: usize) -> WingItem {
    // SAFETY: `body` is borrowed and only read. The call stays within the lengths and keeps no
    // address.
    unsafe { library::wing_item(body.as_ptr(), body.len(), number) }
}

/// Writes a definition's body (at most 4,096 bytes), the unused bits of its flags 0. Lent to be read: name and
/// long_name (at most 255 bytes each), and items as they stand in a body: each has two strings, the short one and
/// then the long one (type 5), or the four bytes of a float and a string (6), and a string is its length in one byte
/// and its bytes. All strings are in UTF-8. Lent to be written: out.
///
/// Refused: 15, 16, 5 (with the good of the first that is not: name, long name, items in order), 2, 9.
pub fn write_definition(
    fields: WingFields,
    name: &[u8],
    long_name: &[u8],
    items: &[u8],
    out: &mut [u8],
) -> WingWritten {
    // SAFETY: `out` is borrowed for this call alone; `name`, `long_name` and `items` are borrowed and
    // only read. The call stays within the lengths and keeps no address.
    unsafe {
        library::wing_write_definition(
            fields,
            name.as_ptr(),
            name.len(),
            long_name.as_ptr(),
            long_name.len(),
            items.as_ptr(),
            items.len(),
            out.as_mut_ptr(),
            out.len(),
        )
    }
}

/// Reads a body and writes its definition anew (at most 4,096 bytes). The bytes are the same exactly if type and
/// unit in the flags are below 8 each, the flags' unused bits are 0 and nothing follows the last field. Lent to be
/// read: body; to be written: out.
///
/// Refused: 4, 5 (with the good), 2, 9.
pub fn write_anew(body: &[u8], out: &mut [u8]) -> WingWritten {
    // SAFETY: `out` is borrowed for this call alone; `body` is borrowed and only read. The call stays
    // within the lengths and keeps no address.
    unsafe { library::wing_write_anew(body.as_ptr(), body.len(), out.as_mut_ptr(), out.len()) }
}

/// A set order alone (at most 18 bytes). Lent to be written: out.
///
/// Refused: 9.
pub fn order_int(out: &mut [u8], id: i32, value: i32) -> WingWritten {
    // SAFETY: `out` is borrowed for this call alone. The call stays within the lengths and keeps
    // no address.
    unsafe { library::wing_order_int(out.as_mut_ptr(), out.len(), id, value) }
}

/// The same for a float, by its 32 bits.
///
/// Refused: 9.
pub fn order_float(out: &mut [u8], id: i32, bits: u32) -> WingWritten {
    // SAFETY: `out` is borrowed for this call alone. The call stays within the lengths and keeps
    // no address.
    unsafe { library::wing_order_float(out.as_mut_ptr(), out.len(), id, bits) }
}

/// The same for a string (at most 395 bytes). Lent to be read: value; to be written:
/// out.
///
/// Refused: 10, 1 (with the good), 9.
pub fn order_string(out: &mut [u8], id: i32, value: &[u8]) -> WingWritten {
    // SAFETY: `out` is borrowed for this call alone; `value` is borrowed and only read. The call
    // stays within the lengths and keeps no address.
    unsafe { library::wing_order_string(out.as_mut_ptr(), out.len(), id, value.as_ptr(), value.len()) }
}

/// Asks for a node's definition (at most 10 bytes); id 0 is the root. Lent to be
/// written: out.
///
/// Refused: 9.
pub fn request_node_definition(out: &mut [u8], id: i32) -> WingWritten {
    // SAFETY: `out` is borrowed for this call alone. The call stays within the lengths and keeps
    // no address.
    unsafe { library::wing_request_node_definition(out.as_mut_ptr(), out.len(), id) }
}

/// Asks for a node's data, likewise.
///
/// Refused: 9.
pub fn request_node_data(out: &mut [u8], id: i32) -> WingWritten {
    // SAFETY: `out` is borrowed for this call alone. The call stays within the lengths and keeps
    // no address.
    unsafe { library::wing_request_node_data(out.as_mut_ptr(), out.len(), id) }
}

/// Asks for meters, whose packets go to a UDP port (at most 212 bytes). Lent to be
/// read: meters, pairs of bytes, a kind (a0 to af, in the order of [`Meter`](crate::Meter); any other is rta) and
/// an index, which stands with monitor and rta too and is ignored there; an odd last byte is
/// dropped. Lent to be written: out. The new meter id is last_id + 1; last_id is 0 at first.
///
/// Refused: 11, 12, 9.
pub fn request_meter(out: &mut [u8], meters: &[u8], port: u16, last_id: u16) -> WingRequested {
    // SAFETY: `out` is borrowed for this call alone; `meters` is borrowed and only read. The call
    // stays within the lengths and keeps no address.
    unsafe { library::wing_request_meter(out.as_mut_ptr(), out.len(), meters.as_ptr(), meters.len(), port, last_id) }
}

/// Keeps the requests of the ids last_id to 1 alive, whose packets go to a UDP port (at most 13
/// bytes for each). Lent to be written: out.
///
/// Refused: 9.
pub fn keep_alive_meters(out: &mut [u8], port: u16, last_id: u16) -> WingWritten {
    // SAFETY: `out` is borrowed for this call alone. The call stays within the lengths and keeps
    // no address.
    unsafe { library::wing_keep_alive_meters(out.as_mut_ptr(), out.len(), port, last_id) }
}

/// The readings of a meter packet (at most 4,094). Lent to be read: packet; to be written:
/// out, whose length counts readings.
///
/// Refused: 13, 9.
pub fn read_meters(packet: &[u8], out: &mut [i16]) -> WingMeters {
    // SAFETY: `out` is borrowed for this call alone; `packet` is borrowed and only read. The call
    // stays within the lengths and keeps no address.
    unsafe { library::wing_read_meters(packet.as_ptr(), packet.len(), out.as_mut_ptr(), out.len()) }
}

/// Whether the bytes are UTF-8 (RFC 3629). Lent to be read: s. Never refused.
pub fn is_utf8(s: &[u8]) -> bool {
    // SAFETY: `s` is borrowed and only read. The call stays within the lengths and keeps no
    // address. What comes back is a bool of proved code, a byte 0 or 1.
    unsafe { library::wing_is_utf8(s.as_ptr(), s.len()) }
}

/// How many leading bytes form whole characters: the largest such number, and all of them exactly if [`is_utf8`] says
/// so. Lent to be read: s, of any length. Never refused.
pub fn utf8_good(s: &[u8]) -> usize {
    // SAFETY: `s` is borrowed and only read. The call stays within the lengths and keeps no
    // address.
    unsafe { library::wing_utf8_good(s.as_ptr(), s.len()) }
}

/// A window of a width from 1 to 256, which holds none.
///
/// Refused: 19.
pub fn window_make(width: u32) -> WingMade {
    // SAFETY: only numbers cross.
    unsafe { library::wing_window_make(width) }
}

/// What the window tells of the readings that it holds (status 1), or none (0).
///
/// Refused: 8.
pub fn window_figures(w: WingWindow) -> WingFigures {
    // SAFETY: only numbers cross, the window by value.
    unsafe { library::wing_window_figures(w) }
}

/// A reading goes in, and once the window is full the oldest leaves. Beside the window to go on with stands what it
/// tells (status 1).
///
/// Refused (the figures' status): 8.
pub fn window_reading(w: WingWindow, x: i16) -> WingTaken {
    // SAFETY: only numbers cross, the window by value.
    unsafe { library::wing_window_reading(w, x) }
}

/// Readings one after the other, and what the window tells after each: a row of five numbers, held, sum, mean, rest and
/// top. The window is tested once for all of them. Lent to be read: xs; to be written: out, with room for a row for each
/// reading; what stands after the rows is as it was.
///
/// Refused: 8, 9.
pub fn window_readings(w: WingWindow, xs: &[i16], out: &mut [i32]) -> WingFollowed {
    // SAFETY: `out` is borrowed for this call alone; `xs` is borrowed and only read; the window
    // crosses by value. The call stays within the lengths and keeps no address.
    unsafe { library::wing_window_readings(w, xs.as_ptr(), xs.len(), out.as_mut_ptr(), out.len()) }
}
