//! The last value of each node of a WING mixing console, set orders and recall, by a proved library.
//!
//! A console sends node readings down one connection. A [`Mirror`] takes these bytes as they come, broken off
//! anywhere, and keeps the last value of each node; [`Mirror::set`] stores a value and gives the bytes to send;
//! [`Mirror::origin`] tells whether the console or a set order gave a node its value; [`Mirror::recall`] gives the bytes
//! that set a console to everything the mirror holds; [`Mirror::print`] lists it as a text, and [`Mirror::load`] takes
//! such a text. The work is done by calls of a library that is proved against rules a person can read (README.md of the
//! repository says what is proved); this crate hands slices over and turns the answers into Rust's types. Sockets, timers
//! and threads are the box's.
//!
//! ```
//! use whistleloam::{Mirror, Origin, Value};
//!
//! # fn main() -> Result<(), whistleloam::Refusal> {
//! let mut mirror = Mirror::new(128)?;
//! // Whatever the console's connection gave, in whatever pieces: node 1 is 5, and the front of node 2's name.
//! mirror.feed(&[0xdf, 0xd1, 0xd7, 0, 0, 0, 1, 5, 0xd7, 0, 0])?;
//! mirror.feed(&[0, 2, 0x81, 0x41, 0x42])?;
//! assert_eq!(mirror.get(1), Some(Value::Int(5)));
//! assert_eq!(mirror.get(2), Some(Value::from("AB")));
//!
//! // The engineer sets a strip: send these bytes to the console.
//! let order = mirror.set(7, 63)?;
//! assert_eq!(order, [0xd7, 0, 0, 0, 7, 0x3f]);
//!
//! // Who gave a value stands beside it.
//! assert_eq!(mirror.origin(1), Some(Origin::Console));
//! assert_eq!(mirror.origin(7), Some(Origin::SetOrder));
//!
//! // Between two shows everything goes back. Another mirror that is fed it has the same values, all from the console.
//! let mut other = Mirror::new(128)?;
//! other.feed(&mirror.recall()?)?;
//! assert!(other.records().eq(mirror.records()));
//! assert_eq!(other.origin(7), Some(Origin::Console));
//! # Ok(())
//! # }
//! ```
//!
//! To see each event rather than the last values, there is [`Decoder`]; for what a node is, [`Definition`], and
//! [`Fields`] to write one. Requests, set orders without a mirror and meters are functions of this module; [`Window`] tells of a
//! strip's last readings. [`raw`] has the calls over your own buffers.
//!
//! No call panics, whatever the bytes. A call that cannot be done answers a [`Refusal`] and has changed nothing. A
//! [`Decoder`]'s refusals 1 to 5 are of another sort: they say what the console sent, which is taken like an event. Where it is
//! a string that is not UTF-8, the refusal says how many leading bytes can be shown; [`utf8_good`] says it of any bytes.
#![deny(unsafe_code)]
#![deny(missing_docs)]

mod commands;
mod decoder;
mod definition;
mod fields;
mod mirror;
mod origin;
#[path = "ffi.rs"]
pub mod raw;
mod refusal;
mod value;
mod window;

pub use commands::{
    is_utf8, keep_alive_meters, read_meters, request_meter, request_node_data, request_node_definition, set_float,
    set_int, set_string, utf8_good, Meter,
};
pub use decoder::{Decoder, Event, Events};
pub use definition::{Definition, Details, Item, Items, NodeType, NodeUnit};
pub use fields::Fields;
pub use mirror::{Counts, Entries, Mirror, Records};
pub use origin::{Entry, Origin};
pub use refusal::{LoadRefusal, Refusal};
pub use value::Value;
pub use window::{Figures, Window};

/// The bytes of a decoder state.
pub const STATE_SIZE: usize = 4123;
/// The bytes of a record's place in a table.
pub const PLACE_WIDTH: usize = 264;
/// The most places of a table.
pub const PLACES_MAX: usize = 1024;
/// The most bytes of a definition's body.
pub const BODY_LIMIT: usize = 4096;
/// The most bytes of a definition's name, and of its long name.
pub const NAME_MAX: usize = 255;
/// The most bytes of one feed.
pub const FEED_MAX: usize = 65536;
/// The most bytes of a string.
pub const STRING_MAX: usize = 256;
/// The most bytes of a set order: of one for a string of 256 bytes, every second of them df.
pub const SET_MAX: usize = 395;
/// The most bytes of a set order for a number.
pub const SET_NUMBER_MAX: usize = 18;
/// The most bytes of a listing that is loaded.
pub const LISTING_MAX: usize = 65536;
/// The most bytes of a listing's line: of one with an id of 11 characters and a string of 256 bytes.
pub const LINE_MAX: usize = 527;
/// The most bytes of a definition or data request.
pub const REQUEST_MAX: usize = 10;
/// The most meters of one request.
pub const METERS_MAX: usize = 64;
/// The most bytes of a meter request: 20, and three for each of 64 meters.
pub const METER_REQUEST_MAX: usize = 212;
/// The most bytes of a keep-alive for one id.
pub const KEEP_ALIVE_MAX: usize = 13;
/// The least bytes of a meter packet.
pub const PACKET_MIN: usize = 4;
/// The most bytes of a meter packet.
pub const PACKET_MAX: usize = 8192;
/// The most readings of a meter packet.
pub const READINGS_MAX: usize = 4094;
/// The most readings that a window holds.
pub const WINDOW_MAX: usize = 256;
/// How many figures a row of [`Window::readings_into`] has.
pub const ROW_FIGURES: usize = 5;
