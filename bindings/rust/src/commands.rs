use crate::raw;
use crate::raw::WingWritten;
use crate::{Refusal, KEEP_ALIVE_MAX, METER_REQUEST_MAX, READINGS_MAX, REQUEST_MAX, SET_MAX, SET_NUMBER_MAX};

/// What a call wrote into an output of this many bytes.
fn bytes(most: usize, call: impl FnOnce(&mut [u8]) -> WingWritten) -> Result<Vec<u8>, Refusal> {
    let mut out = vec![0; most];
    let written = call(&mut out);
    Refusal::check_with(written.status, written.good)?;
    out.truncate(written.len);
    Ok(out)
}

/// The same of a call that is refused for a short output alone (9), with an output as long as its longest order: it cannot be
/// refused. An archive that does refuse is another library, and empty bytes would hide it.
fn enough(most: usize, call: impl FnOnce(&mut [u8]) -> WingWritten) -> Vec<u8> {
    let written = bytes(most, call);
    written.unwrap_or_else(|why| panic!("libwing_c.a has longer orders than the {most} bytes of this crate: {why}"))
}

/// The bytes that set a node to an integer, without a mirror.
pub fn set_int(id: i32, value: i32) -> Vec<u8> {
    enough(SET_NUMBER_MAX, |out| raw::order_int(out, id, value))
}

/// The bytes that set a node to a float, without a mirror.
pub fn set_float(id: i32, value: f32) -> Vec<u8> {
    enough(SET_NUMBER_MAX, |out| raw::order_float(out, id, value.to_bits()))
}

/// The bytes that set a node to a string, without a mirror. Refused: 10.
pub fn set_string(id: i32, value: &str) -> Result<Vec<u8>, Refusal> {
    bytes(SET_MAX, |out| raw::order_string(out, id, value.as_bytes()))
}

/// The bytes that ask for a node's definition; id 0 is the root.
pub fn request_node_definition(id: i32) -> Vec<u8> {
    enough(REQUEST_MAX, |out| raw::request_node_definition(out, id))
}

/// The bytes that ask for a node's data; id 0 is the root.
pub fn request_node_data(id: i32) -> Vec<u8> {
    enough(REQUEST_MAX, |out| raw::request_node_data(out, id))
}

/// A meter, by its kind and index, with libwing's names.
#[derive(Clone, Copy, Debug, PartialEq, Eq, Hash)]
pub enum Meter {
    /// A channel.
    Channel(u8),
    /// An aux.
    Aux(u8),
    /// A bus.
    Bus(u8),
    /// A main.
    Main(u8),
    /// A matrix.
    Matrix(u8),
    /// A DCA.
    Dca(u8),
    /// An effect.
    Fx(u8),
    /// A source.
    Source(u8),
    /// An output.
    Output(u8),
    /// The monitor.
    Monitor,
    /// The real-time analyser.
    Rta,
    /// A channel, the second kind.
    Channel2(u8),
    /// An aux, the second kind.
    Aux2(u8),
    /// A bus, the second kind.
    Bus2(u8),
    /// A main, the second kind.
    Main2(u8),
    /// A matrix, the second kind.
    Matrix2(u8),
}

impl Meter {
    /// The kind's byte and the index, which the library ignores where there is none.
    fn pair(self) -> [u8; 2] {
        match self {
            Meter::Channel(n) => [0xa0, n],
            Meter::Aux(n) => [0xa1, n],
            Meter::Bus(n) => [0xa2, n],
            Meter::Main(n) => [0xa3, n],
            Meter::Matrix(n) => [0xa4, n],
            Meter::Dca(n) => [0xa5, n],
            Meter::Fx(n) => [0xa6, n],
            Meter::Source(n) => [0xa7, n],
            Meter::Output(n) => [0xa8, n],
            Meter::Monitor => [0xa9, 0],
            Meter::Rta => [0xaa, 0],
            Meter::Channel2(n) => [0xab, n],
            Meter::Aux2(n) => [0xac, n],
            Meter::Bus2(n) => [0xad, n],
            Meter::Main2(n) => [0xae, n],
            Meter::Matrix2(n) => [0xaf, n],
        }
    }
}

/// The bytes that ask for meters, and the meter id that their packets will carry: the last id (0 at first) plus 1. The
/// packets go to a UDP port of the box. Refused: 11, 12.
///
/// ```
/// use whistleloam::{request_meter, Meter};
///
/// let (id, order) = request_meter(&[Meter::Channel(1), Meter::Rta], 0x1234, 0)?;
/// assert_eq!(id, 1);
/// assert_eq!(order[..8], [0xdf, 0xd3, 0xd3, 0x12, 0x34, 0xd4, 0, 1]);
/// assert_eq!(order[8..], [0x12, 0x34, 0xdc, 0xa0, 1, 0xaa, 0xde, 0xdf, 0xd1]);
/// # Ok::<(), whistleloam::Refusal>(())
/// ```
pub fn request_meter(meters: &[Meter], port: u16, last_id: u16) -> Result<(u16, Vec<u8>), Refusal> {
    let pairs: Vec<u8> = meters.iter().flat_map(|m| m.pair()).collect();
    let mut out = vec![0; METER_REQUEST_MAX];
    let requested = raw::request_meter(&mut out, &pairs, port, last_id);
    Refusal::check(requested.status)?;
    out.truncate(requested.len);
    Ok((requested.id, out))
}

/// The bytes that keep the requests of the ids `last_id` to 1 alive, whose packets go to a UDP port of the box; a console
/// wants them every few seconds. The port comes first, as in [`request_meter`].
///
/// ```
/// let order = whistleloam::keep_alive_meters(0x1234, 1);
/// assert_eq!(order, [0xdf, 0xd3, 0xd4, 0, 1, 0x12, 0x34, 0xdf, 0xd1]);
/// ```
pub fn keep_alive_meters(port: u16, last_id: u16) -> Vec<u8> {
    let most = KEEP_ALIVE_MAX * usize::from(last_id);
    enough(most, |out| raw::keep_alive_meters(out, port, last_id))
}

/// The meter id and the readings of a packet. Refused: 13.
pub fn read_meters(packet: &[u8]) -> Result<(u16, Vec<i16>), Refusal> {
    let mut out = vec![0; READINGS_MAX];
    let meters = raw::read_meters(packet, &mut out);
    Refusal::check(meters.status)?;
    out.truncate(meters.count);
    Ok((meters.id, out))
}

/// Whether the bytes are UTF-8 (RFC 3629).
pub fn is_utf8(bytes: &[u8]) -> bool {
    raw::is_utf8(bytes)
}

/// How many leading bytes form whole characters: the largest such number. It is the length exactly if [`is_utf8`] says so.
///
/// ```
/// let name = b"B\xc3\xbchne \xe2\x82";
/// assert_eq!(whistleloam::utf8_good(name), 7);
/// assert_eq!(std::str::from_utf8(&name[..7]), Ok("B\u{fc}hne "));
/// ```
pub fn utf8_good(bytes: &[u8]) -> usize {
    raw::utf8_good(bytes)
}
