use crate::hex;
use whistleloam::{
    is_utf8, keep_alive_meters, raw, read_meters, request_meter, request_node_data, request_node_definition, set_float,
    set_int, set_string, utf8_good, Meter, Refusal,
};

#[test]
fn orders_without_a_mirror_are_the_same() {
    assert_eq!(set_int(7, 63), hex("d7 00 00 00 07 3f"));
    assert_eq!(set_int(7, 64), hex("d7 00 00 00 07 d3 00 40"));
    assert_eq!(set_int(7, 223), hex("d7 00 00 00 07 d3 00 df de"));
    assert_eq!(set_int(7, -32769), hex("d7 00 00 00 07 d4 ff ff 7f ff"));
    assert_eq!(set_float(-2, 1.0), hex("d7 ff ff ff fe d5 3f 80 00 00"));
    assert_eq!(set_string(7, "AB"), Ok(hex("d7 00 00 00 07 81 41 42")));
    assert_eq!(set_string(7, &"x".repeat(257)), Err(Refusal::STRING_LONG));
    assert_eq!(set_string(7, &"x".repeat(256)).unwrap().len(), 5 + 2 + 256);
}

#[test]
fn requests_are_those_of_the_rules() {
    assert_eq!(request_node_definition(0), hex("da dd"));
    assert_eq!(request_node_definition(7), hex("d7 00 00 00 07 dd"));
    assert_eq!(request_node_data(0), hex("da dc"));
    assert_eq!(request_node_data(-0x20202021), hex("d7 df de df de df de df de dc"));
}

const ALL: [Meter; 16] = [
    Meter::Channel(1),
    Meter::Aux(2),
    Meter::Bus(3),
    Meter::Main(4),
    Meter::Matrix(5),
    Meter::Dca(6),
    Meter::Fx(7),
    Meter::Source(8),
    Meter::Output(9),
    Meter::Monitor,
    Meter::Rta,
    Meter::Channel2(10),
    Meter::Aux2(11),
    Meter::Bus2(12),
    Meter::Main2(13),
    Meter::Matrix2(0xdf),
];

/// 01: "df d3 d3 port d4 id port dc, items, de df d1; id = last id + 1".
#[test]
fn a_meter_request_has_every_kind() {
    let want = "df d3 d3 12 df de d4 00 df de 12 df de dc a0 01 a1 02 a2 03 a3 04 a4 05 a5 06 a6 07 a7 08 a8 09 a9 aa \
                ab 0a ac 0b ad 0c ae 0d af df de de df d1";
    assert_eq!(request_meter(&ALL, 0x12df, 0xde), Ok((0xdf, hex(want))));
    assert_eq!(request_meter(&[], 1, 0), Ok((1, hex("df d3 d3 00 01 d4 00 01 00 01 dc de df d1"))));
    assert_eq!(request_meter(&[Meter::Fx(0xdf); 64], 0xdfdf, 0xdfde).unwrap().1.len(), 212);
    assert_eq!(request_meter(&[Meter::Fx(0); 65], 1, 0), Err(Refusal::METERS));
    assert_eq!(request_meter(&[], 1, 65535), Err(Refusal::METER_ID));
    // A kind that is none is rta, and an odd last byte is dropped.
    let mut out = [0; 64];
    let requested = raw::request_meter(&mut out, &[0x07, 0x01, 0xa0], 1, 0);
    assert_eq!((requested.status, &out[11..requested.len]), (0, &hex("aa de df d1")[..]));
}

/// 01: "for ids from last to 1, df d3 d4 id port df d1".
#[test]
fn keep_alives_go_from_the_last_id_to_1() {
    assert_eq!(keep_alive_meters(0xdf00, 2), hex("df d3 d4 00 02 df de 00 df d1 df d3 d4 00 01 df de 00 df d1"));
    assert_eq!(keep_alive_meters(7, 0), []);
    assert!(keep_alive_meters(0xdfdf, 65535).len() > 65535 * 11);
}

/// 01: "packet 00 01 00 00 ff ff 7f ff 05 → id 1: −1, 32767".
#[test]
fn packets_are_read() {
    assert_eq!(read_meters(&hex("00 01 00 00 ff ff 7f ff 05")), Ok((1, vec![-1, 32767])));
    assert_eq!(read_meters(&hex("ff ff 01 02")), Ok((65535, vec![])));
    assert_eq!(read_meters(&[0x80; 8192]).unwrap().1, [i16::from_be_bytes([0x80; 2]); 4094]);
    for len in [0, 3, 8193] {
        assert_eq!(read_meters(&vec![0; len]), Err(Refusal::PACKET), "{len}");
    }
    // An output too short is left as it was; a longer one past the readings.
    let mut out = [7; 3];
    let packet = hex("00 01 00 00 ff ff 7f ff");
    assert_eq!(raw::read_meters(&packet, &mut out[..1]).status, -9);
    assert_eq!(out, [7; 3]);
    assert_eq!(raw::read_meters(&packet, &mut out).count, 2);
    assert_eq!(out, [-1, 32767, 7]);
}

#[test]
fn utf8_is_rusts() {
    for a in 0..=255 {
        for b in [0, 0x41, 0x7f, 0x80, 0x8f, 0x90, 0x9f, 0xa0, 0xbf, 0xc2, 0xff] {
            for rest in [&[][..], &[0x80], &[0x80, 0x80], &[0xbf, 0x41]] {
                let bytes = [&[a, b], rest].concat();
                let rusts = std::str::from_utf8(&bytes);
                assert_eq!(is_utf8(&bytes), rusts.is_ok(), "{bytes:x?}");
                assert_eq!(utf8_good(&bytes), rusts.map_or_else(|e| e.valid_up_to(), str::len), "{bytes:x?}");
            }
        }
    }
    assert_eq!((is_utf8(&[]), utf8_good(&[])), (true, 0));
}
