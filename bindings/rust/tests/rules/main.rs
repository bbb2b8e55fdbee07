//! The crate against the rules of 01 and 02's requests: byte examples, every refusal, streams cut anywhere, definitions of all types, read and
//! written, listings printed and loaded, how much of a broken string is good, windows over readings, who gave a value.
mod commands;
mod decoder;
mod definition;
mod good;
mod listing;
mod mirror;
mod origin;
mod refused;
mod window;
mod written;

use std::path::Path;
use whistleloam::{
    raw, request_meter, Decoder, Meter, Mirror, NodeType, NodeUnit, Origin, Refusal, BODY_LIMIT, PLACE_WIDTH,
};

/// A file of samples/.
fn sample(name: &str) -> Vec<u8> {
    let path = Path::new(env!("CARGO_MANIFEST_DIR")).join("../../samples").join(name);
    std::fs::read(&path).unwrap_or_else(|e| panic!("{}: {e}", path.display()))
}

/// Bytes of hex pairs with spaces between them.
fn hex(text: &str) -> Vec<u8> {
    text.split_whitespace().map(|pair| u8::from_str_radix(pair, 16).unwrap()).collect()
}

/// The same mirror with every origin 0, byte 5 of a record: what its recall rebuilds and its listing loads.
fn cleared(mirror: &Mirror) -> Mirror {
    let mut table = mirror.table().to_vec();
    table.chunks_mut(PLACE_WIDTH).take(mirror.count()).for_each(|place| place[5] = 0);
    Mirror::from_parts(mirror.state(), table, mirror.count()).unwrap()
}

/// Numbers that look random: xorshift.
struct Dice(u64);

impl Dice {
    fn below(&mut self, n: usize) -> usize {
        self.0 ^= self.0 << 13;
        self.0 ^= self.0 >> 7;
        self.0 ^= self.0 << 17;
        (self.0 >> 16) as usize % n
    }
}

/// The kind's byte of a meter, as its request has it.
fn meter_byte(meter: Meter) -> usize {
    request_meter(&[meter], 1, 0).unwrap().1[11].into()
}

/// The kind of the first event of these bytes.
fn event_kind(bytes: &str) -> usize {
    let got = raw::next(&mut Decoder::new().save(), &hex(bytes), &mut [0; BODY_LIMIT]);
    assert_eq!(got.status, 1, "{bytes}");
    got.kind.into()
}

/// The kind of the first item of a body of this type, whose items begin so.
fn item_kind(node_type: NodeType, first: &str) -> usize {
    let flags = hex(&format!("00 {:02x} 00 01", node_type as u8 * 16));
    let body = [&hex("00 00 00 00 00 00 00 02 00 00 01 61 00")[..], &flags, &hex(first)].concat();
    let item = raw::item(&body, 0);
    assert_eq!(item.status, 1);
    item.kind.into()
}

/// All of them but the macros with an argument: those are tried by the longest orders.
#[test]
fn constants_are_those_of_the_header() {
    let refused = |name, why: Refusal| (name, why.number().into());
    let names = [
        ("STATE_SIZE", whistleloam::STATE_SIZE),
        ("PLACE_WIDTH", PLACE_WIDTH),
        ("PLACES_MAX", whistleloam::PLACES_MAX),
        ("BODY_LIMIT", BODY_LIMIT),
        ("NAME_MAX", whistleloam::NAME_MAX),
        ("FEED_MAX", whistleloam::FEED_MAX),
        ("STRING_MAX", whistleloam::STRING_MAX),
        ("LISTING_MAX", whistleloam::LISTING_MAX),
        ("SET_NUMBER_MAX", whistleloam::SET_NUMBER_MAX),
        ("SET_STRING_MAX", whistleloam::SET_MAX),
        ("REQUEST_MAX", whistleloam::REQUEST_MAX),
        ("METERS_MAX", whistleloam::METERS_MAX),
        ("METER_REQUEST_MAX", whistleloam::METER_REQUEST_MAX),
        ("PACKET_MIN", whistleloam::PACKET_MIN),
        ("PACKET_MAX", whistleloam::PACKET_MAX),
        ("READINGS_MAX", whistleloam::READINGS_MAX),
        ("WINDOW_MAX", whistleloam::WINDOW_MAX),
        ("ROW_FIGURES", whistleloam::ROW_FIGURES),
        ("KIND_INTEGER", event_kind("05")),
        ("KIND_FLOAT", event_kind("d5 00 00 00 00")),
        ("KIND_STRING", event_kind("d0")),
        ("KIND_BODY", event_kind("df de 00 01 00")),
        ("KIND_END", event_kind("de")),
        ("ORIGIN_CONSOLE", Origin::Console as usize),
        ("ORIGIN_SET_ORDER", Origin::SetOrder as usize),
        ("ITEM_STRINGS", item_kind(NodeType::StringEnum, "01 61 01 62")),
        ("ITEM_FLOAT", item_kind(NodeType::FloatEnum, "3f 80 00 00 01 62")),
        ("TYPE_NODE", NodeType::Node as usize),
        ("TYPE_LINEAR_FLOAT", NodeType::LinearFloat as usize),
        ("TYPE_LOGARITHMIC_FLOAT", NodeType::LogarithmicFloat as usize),
        ("TYPE_FADER_LEVEL", NodeType::FaderLevel as usize),
        ("TYPE_INTEGER", NodeType::Integer as usize),
        ("TYPE_STRING_ENUM", NodeType::StringEnum as usize),
        ("TYPE_FLOAT_ENUM", NodeType::FloatEnum as usize),
        ("TYPE_STRING", NodeType::String as usize),
        ("UNIT_NONE", NodeUnit::None as usize),
        ("UNIT_DB", NodeUnit::Db as usize),
        ("UNIT_PERCENT", NodeUnit::Percent as usize),
        ("UNIT_MILLISECONDS", NodeUnit::Milliseconds as usize),
        ("UNIT_HERTZ", NodeUnit::Hertz as usize),
        ("UNIT_METERS", NodeUnit::Meters as usize),
        ("UNIT_SECONDS", NodeUnit::Seconds as usize),
        ("UNIT_OCTAVES", NodeUnit::Octaves as usize),
        ("METER_CHANNEL", meter_byte(Meter::Channel(1))),
        ("METER_AUX", meter_byte(Meter::Aux(1))),
        ("METER_BUS", meter_byte(Meter::Bus(1))),
        ("METER_MAIN", meter_byte(Meter::Main(1))),
        ("METER_MATRIX", meter_byte(Meter::Matrix(1))),
        ("METER_DCA", meter_byte(Meter::Dca(1))),
        ("METER_FX", meter_byte(Meter::Fx(1))),
        ("METER_SOURCE", meter_byte(Meter::Source(1))),
        ("METER_OUTPUT", meter_byte(Meter::Output(1))),
        ("METER_MONITOR", meter_byte(Meter::Monitor)),
        ("METER_RTA", meter_byte(Meter::Rta)),
        ("METER_CHANNEL2", meter_byte(Meter::Channel2(1))),
        ("METER_AUX2", meter_byte(Meter::Aux2(1))),
        ("METER_BUS2", meter_byte(Meter::Bus2(1))),
        ("METER_MAIN2", meter_byte(Meter::Main2(1))),
        ("METER_MATRIX2", meter_byte(Meter::Matrix2(1))),
        refused("REFUSED_STRING", Refusal::StringNotUtf8 { good: 7 }),
        refused("REFUSED_BODY_LONG", Refusal::BODY_LONG),
        refused("REFUSED_BODY_EMPTY", Refusal::BODY_EMPTY),
        refused("REFUSED_DEFINITION_SHORT", Refusal::DEFINITION_SHORT),
        refused("REFUSED_DEFINITION_STRING", Refusal::DefinitionNotUtf8 { good: 7 }),
        refused("REFUSED_NO_PLACE", Refusal::NO_PLACE),
        refused("REFUSED_TABLE", Refusal::TABLE),
        refused("REFUSED_STATE", Refusal::STATE),
        refused("REFUSED_OUTPUT_SHORT", Refusal::OUTPUT_SHORT),
        refused("REFUSED_STRING_LONG", Refusal::STRING_LONG),
        refused("REFUSED_METERS", Refusal::METERS),
        refused("REFUSED_METER_ID", Refusal::METER_ID),
        refused("REFUSED_PACKET", Refusal::PACKET),
        refused("REFUSED_NUMBER", Refusal::NUMBER),
        refused("REFUSED_NAME_LONG", Refusal::NAME_LONG),
        refused("REFUSED_FIELDS", Refusal::FIELDS),
        refused("REFUSED_LINE", Refusal::LINE),
        refused("REFUSED_ID_ORDER", Refusal::ID_ORDER),
        refused("REFUSED_WIDTH", Refusal::WIDTH),
    ];
    let number = |word: &str| match word.strip_prefix("0x") {
        Some(digits) => usize::from_str_radix(digits, 16).ok(),
        None => word.parse().ok(),
    };
    let mut defined: Vec<(&str, usize)> = Vec::new();
    for line in include_str!("../../../../include/wing.h").lines() {
        let words: Vec<&str> = line.split_whitespace().collect();
        if let ["#define", name, value, ..] = words[..] {
            match number(value) {
                Some(value) => defined.push((name.strip_prefix("WING_").unwrap(), value)),
                None => assert!(name.ends_with(')'), "{line}"),
            }
        }
    }
    let mut names = names.to_vec();
    names.sort();
    defined.sort();
    assert_eq!(names, defined);
}

/// The longest orders, lines, requests, keep-alives and packets have as many bytes as the constants say.
#[test]
fn the_longest_have_the_greatest_lengths() {
    use whistleloam::*;
    let df = i32::from_be_bytes([0xdf; 4]);
    assert_eq!(set_int(df, df).len(), SET_NUMBER_MAX);
    assert_eq!(set_float(df, f32::from_bits(df as u32)).len(), SET_NUMBER_MAX);
    // U+07df is df 9f.
    assert_eq!(set_string(df, &"\u{7df}".repeat(STRING_MAX / 2)).unwrap().len(), SET_MAX);
    let mut one = Mirror::new(1).unwrap();
    one.set(i32::MIN, "x".repeat(STRING_MAX)).unwrap();
    assert_eq!(one.print().unwrap().len(), "id,kind,value\n".len() + LINE_MAX);
    assert_eq!((request_node_data(df).len(), request_node_definition(df).len()), (REQUEST_MAX, REQUEST_MAX));
    assert_eq!(request_meter(&[Meter::Fx(0xdf); METERS_MAX], 0xdfdf, 0xdfde).unwrap().1.len(), METER_REQUEST_MAX);
    // The bytes of one id, dfdf: the last of the keep-alives to come first.
    let order = keep_alive_meters(0xdfdf, 0xdfdf);
    assert_eq!(order[..KEEP_ALIVE_MAX], hex("df d3 d4 df de df de df de df de df d1"));
    assert_eq!(read_meters(&[0; PACKET_MAX]).unwrap().1.len(), READINGS_MAX);
    assert!(read_meters(&[0; PACKET_MIN]).is_ok() && read_meters(&[0; PACKET_MIN - 1]).is_err());
}

/// docs/BOX.md shows the function as it stands in the example.
#[test]
fn the_page_shows_the_box_as_it_is() {
    let source = include_str!("../../examples/box.rs");
    let from = &source[source.find("fn show(").unwrap()..];
    let show = &from[..from.find("\n}\n").unwrap() + 3];
    assert!(show.lines().count() > 20);
    assert!(include_str!("../../../../docs/BOX.md").contains(show));
}
