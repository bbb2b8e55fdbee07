//! Definitions written (02, its first request): read back, every refusal and their order, and what is lent.
use crate::hex;
use std::mem::discriminant;
use whistleloam::raw::{self, WingFields, WingWritten};
use whistleloam::{Definition, Details, Fields, NodeType, NodeUnit, Refusal, BODY_LIMIT, NAME_MAX};

const OFF_ON: &[u8] = b"\x03off\x03Off\x02on\x00";
const LEVELS: &[u8] = b"\x3f\x80\x00\x00\x011\x7f\xc0\x00\x01\x02\xc3\x9f";

/// Each type with its details, the items, and what stands in the body after the flags.
fn types() -> [(NodeType, Details, &'static [u8], Vec<u8>); 8] {
    let floats = |min, max, steps| Details::Floats { min, max, steps };
    [
        (NodeType::Node, Details::None, &[], vec![]),
        (NodeType::LinearFloat, floats(0xc2b4_0000, 0x4120_0000, -1), &[], hex("c2 b4 00 00 41 20 00 00 ff ff ff ff")),
        (NodeType::LogarithmicFloat, floats(0, 0x3f80_0000, 100), &[], hex("00 00 00 00 3f 80 00 00 00 00 00 64")),
        (NodeType::FaderLevel, Details::None, &[], vec![]),
        (NodeType::Integer, Details::Integers { min: i32::MIN, max: -2 }, &[], hex("80 00 00 00 ff ff ff fe")),
        (NodeType::StringEnum, Details::Items(2), OFF_ON, [&[0, 2], OFF_ON].concat()),
        (NodeType::FloatEnum, Details::Items(2), LEVELS, [&[0, 2], LEVELS].concat()),
        (NodeType::String, Details::String(16), &[], hex("00 10")),
    ]
}

fn fields(node_type: NodeType, details: Details) -> Fields {
    Fields { parent_id: 1, id: -2, index: 3, node_type, unit: NodeUnit::Octaves, read_only: true, details }
}

/// Every number that any type has, as the calls over one's own buffers take it; none is 0.
fn every_number(node_type: u8, count: u16) -> WingFields {
    WingFields {
        parent_id: 1,
        id: -2,
        index: 3,
        node_type,
        unit: 7,
        read_only: true,
        count,
        max_len: 16,
        min: 0x8000_0001,
        max: 0x7f80_0002,
        steps: -3,
    }
}

/// What an output held before a call.
const BEFORE: u8 = 0xaa;

/// The bytes written or the status of a refusal, into an output of so many bytes. Past those written, or all over, it must be as it
/// was.
fn taken(room: usize, call: impl FnOnce(&mut [u8]) -> WingWritten) -> Result<Vec<u8>, i32> {
    let mut out = vec![BEFORE; room];
    let got = call(&mut out);
    assert!(out[got.len..].iter().all(|b| *b == BEFORE) && (got.status == 0 || got.len == 0), "{got:?}");
    out.truncate(got.len);
    Some(out).filter(|_| got.status == 0).ok_or(got.status)
}

fn written(fields: WingFields, name: &[u8], long_name: &[u8], items: &[u8], room: usize) -> Result<Vec<u8>, i32> {
    taken(room, |out| raw::write_definition(fields, name, long_name, items, out))
}

#[test]
fn every_type_is_written_and_read_back() {
    for (number, (node_type, details, items, tail)) in (0u8..).zip(types()) {
        let fields = fields(node_type, details);
        let body = fields.to_bytes("n", "Naße", items).unwrap();
        let head = hex("00 00 00 01 ff ff ff fe 00 03 01 6e 05 4e 61 c3 9f 65 02");
        assert_eq!(body, [&head[..], &[number * 16 + 7], &tail].concat(), "{node_type:?}");
        let read = Definition::from_bytes(&body).unwrap();
        assert_eq!((read.fields(), read.name(), read.long_name()), (fields, "n", "Naße"));
        assert_eq!((read.item_bytes(), read.items().count()), (items, if items.is_empty() { 0 } else { 2 }));
        assert_eq!(read.to_bytes().as_ref(), Ok(&body));
        // Not read-only, and without names.
        let plain = Fields { read_only: false, unit: NodeUnit::None, ..fields };
        let body = plain.to_bytes("", "", items).unwrap();
        assert_eq!(body[10..14], [0, 0, 0, number * 16]);
        assert_eq!(Definition::from_bytes(&body).unwrap().fields(), plain);
    }
}

/// 02: "What it writes reads back as the same fields, those its type lacks left out".
#[test]
fn what_a_type_lacks_is_left_out() {
    for (number, (node_type, _, items, tail)) in (0u8..).zip(types()) {
        let count = if items.is_empty() { 0 } else { 2 };
        let body = written(every_number(number, count), b"n", b"", items, BODY_LIMIT).unwrap();
        assert_eq!(body.len(), 15 + tail.len(), "{node_type:?}");
        let want = match node_type {
            NodeType::Node | NodeType::FaderLevel => Details::None,
            NodeType::LinearFloat | NodeType::LogarithmicFloat => {
                Details::Floats { min: 0x8000_0001, max: 0x7f80_0002, steps: -3 }
            }
            NodeType::Integer => Details::Integers { min: i32::MIN + 1, max: 0x7f80_0002 },
            NodeType::StringEnum | NodeType::FloatEnum => Details::Items(2),
            NodeType::String => Details::String(16),
        };
        assert_eq!(Definition::from_bytes(&body).unwrap().details(), want);
        // The numbers that are read are those that are given: the same body comes of them.
        let r = raw::definition(&body);
        let again = WingFields {
            parent_id: r.parent_id,
            id: r.id,
            index: r.index,
            node_type: r.node_type,
            unit: r.unit,
            read_only: r.read_only,
            count: r.count,
            max_len: r.max_len,
            min: r.min,
            max: r.max,
            steps: r.steps,
        };
        assert_eq!(written(again, b"n", b"", items, body.len()), Ok(body));
    }
}

/// 02: "those its type lacks left out": each type with details of each kind but a count. Of another kind than its own, they
/// are as zeros.
#[test]
fn details_of_another_kind_are_as_zeros() {
    let floats = Details::Floats { min: 0xc2b4_0000, max: 0x4120_0000, steps: 100 };
    for (number, (node_type, own, items, tail)) in (0u8..).zip(types()) {
        let zeros = WingFields { max_len: 0, min: 0, max: 0, steps: 0, ..every_number(number, 0) };
        let zeros = written(zeros, b"n", b"", &[], BODY_LIMIT).unwrap();
        assert_eq!(zeros.len(), 15 + tail.len() - items.len());
        for details in [Details::None, floats, Details::Integers { min: -5, max: 7 }, Details::String(16)] {
            let same = discriminant(&details) == discriminant(&own);
            let body = fields(node_type, details).to_bytes("n", "", &[]).unwrap();
            assert_eq!(body == zeros, !same || details == Details::None, "{node_type:?} {details:?}");
            let read = Definition::from_bytes(&body).unwrap().details();
            assert_eq!(read == details, same, "{node_type:?} {details:?}");
            // Item bytes are not left out: there is no count that they are of.
            let listed = fields(node_type, details).to_bytes("n", "", OFF_ON);
            assert_eq!(listed, Err(Refusal::FIELDS), "{node_type:?} {details:?}");
        }
    }
}

/// 02: "a count above 0 or item bytes with a type that has no items, is 16": each type with a count.
#[test]
fn a_count_is_never_left_out() {
    for (node_type, own, items, _) in types() {
        let of = |count, items: &[u8]| fields(node_type, Details::Items(count)).to_bytes("n", "", items).map(|_| ());
        let want = if own == Details::Items(2) { Ok(()) } else { Err(Refusal::FIELDS) };
        assert_eq!((of(0, &[]), of(2, items)), (Ok(()), want), "{node_type:?}");
        assert_eq!((of(1, &[]), of(65535, &[])), (Err(Refusal::FIELDS), Err(Refusal::FIELDS)), "{node_type:?}");
    }
}

/// The samples of 01 come out of their fields.
#[test]
fn the_samples_are_written() {
    let fader = Fields {
        parent_id: 1,
        id: 2,
        index: 3,
        node_type: NodeType::FaderLevel,
        unit: NodeUnit::Db,
        read_only: false,
        details: Details::None,
    };
    let body = hex("00 00 00 01 00 00 00 02 00 03 03 66 64 72 05 46 61 64 65 72 00 31");
    assert_eq!(fader.to_bytes("fdr", "Fader", &[]), Ok(body));
    let list = Fields {
        id: -2,
        index: 7,
        node_type: NodeType::StringEnum,
        unit: NodeUnit::None,
        read_only: true,
        details: Details::Items(2),
        ..fader
    };
    let body = hex("00 00 00 01 ff ff ff fe 00 07 01 6d 00 02 50 00 02 03 6f 66 66 03 4f 66 66 02 6f 6e 02 4f 6e");
    assert_eq!(list.to_bytes("m", "", b"\x03off\x03Off\x02on\x02On"), Ok(body));
}

#[test]
fn a_name_over_255_bytes_is_15() {
    let of = |a: usize, b: usize| written(every_number(0, 0), &vec![b'a'; a], &vec![b'b'; b], &[], BODY_LIMIT);
    assert_eq!(of(NAME_MAX, NAME_MAX).unwrap().len(), 14 + 510);
    assert_eq!((of(256, 0), of(0, 256), of(4000, 4000)), (Err(-15), Err(-15), Err(-15)));
    let why = fields(NodeType::Node, Details::None).to_bytes(&"x".repeat(256), "", &[]).unwrap_err();
    assert_eq!(why, Refusal::NAME_LONG);
}

/// 02: "a type or unit over 7, item bytes that aren't exactly the given count of the type's items, or a count above 0 or item
/// bytes with a type that has no items, is 16".
#[test]
fn fields_that_do_not_go_together_are_16() {
    for over in [8, 9, 15, 16, 80, 128, 255] {
        assert_eq!(written(every_number(over, 0), b"n", b"", &[], 64), Err(-16));
        assert_eq!(written(WingFields { unit: over, ..every_number(0, 0) }, b"n", b"", &[], 64), Err(-16));
    }
    for (number, (node_type, _, items, _)) in (0u8..).zip(types()) {
        let of = |count, items: &[u8]| written(every_number(number, count), b"n", b"", items, 64).map(|_| ());
        if items.is_empty() {
            assert_eq!((of(1, &[]), of(0, &[0]), of(0, &[])), (Err(-16), Err(-16), Ok(())), "{node_type:?}");
            continue;
        }
        assert_eq!((of(1, items), of(3, items), of(0, items)), (Err(-16), Err(-16), Err(-16)));
        assert_eq!((of(2, items), of(0, &[]), of(65535, items)), (Ok(()), Ok(()), Err(-16)));
        assert_eq!(of(2, &[items, &[0]].concat()), Err(-16));
        for len in 0..items.len() {
            assert_eq!(of(2, &items[..len]), Err(-16), "{node_type:?} {len}");
        }
    }
    let listed = Fields { details: Details::Items(1), ..fields(NodeType::Node, Details::None) };
    assert_eq!(listed.to_bytes("n", "", &[]), Err(Refusal::FIELDS));
}

#[test]
fn a_string_that_is_not_utf8_is_5() {
    assert_eq!(written(every_number(0, 0), b"\xff", b"", &[], 64), Err(-5));
    assert_eq!(written(every_number(0, 0), b"", b"\xed\xa0\x80", &[], 64), Err(-5));
    for items in [&b"\x01\x80\x01b"[..], b"\x01a\x01\x80"] {
        assert_eq!(written(every_number(5, 1), b"n", b"", items, 64), Err(-5));
    }
    // The bytes of a float are no string.
    assert_eq!(written(every_number(6, 1), b"n", b"", b"\xff\xff\xff\xff\x01\x80", 64), Err(-5));
    assert!(written(every_number(6, 1), b"n", b"", b"\xff\xff\xff\xff\x01a", 64).is_ok());
}

/// Items of a string enum whose body has so many bytes, with names of one byte and none; and how many there are.
fn items_of(body: usize) -> (u16, Vec<u8>) {
    let room = body - 17;
    let items = [vec![0; room / 2 * 2 - 2], if room % 2 == 0 { vec![0, 0] } else { vec![1, b'x', 0] }].concat();
    ((room / 2) as u16, items)
}

#[test]
fn a_body_over_4096_bytes_is_2_and_an_output_too_short_9() {
    for (size, want) in [(4095, Ok(4095)), (4096, Ok(4096)), (4097, Err(-2)), (4098, Err(-2)), (9000, Err(-2))] {
        let (count, items) = items_of(size);
        let of = |room| written(every_number(5, count), b"n", b"", &items, room).map(|body| body.len());
        assert_eq!(of(20000), want, "{size}");
        assert_eq!((of(size), of(size - 1)), (want, want.and(Err(-9))), "{size}");
        let got = fields(NodeType::StringEnum, Details::Items(count)).to_bytes("n", "", &items);
        assert_eq!(got.map(|body| body.len()).map_err(|why| -i32::from(why.number())), want);
    }
    let mut out = [BEFORE; 20];
    let node = fields(NodeType::Node, Details::None);
    for room in 0..15 {
        assert_eq!(node.write_into("n", "", &[], &mut out[..room]), Err(Refusal::OUTPUT_SHORT));
        assert_eq!(out, [BEFORE; 20]);
    }
    assert_eq!(node.write_into("n", "", &[], &mut out), Ok(15));
    assert_eq!((&out[..15], &out[15..]), (&node.to_bytes("n", "", &[]).unwrap()[..], &[BEFORE; 5][..]));
}

/// 02: "the writer's order is 15, 16, 5, 2, 9": what has several gets the first of them.
#[test]
fn the_order_is_15_16_5_2_9() {
    let (count, long) = items_of(4097);
    let broken = [&[1, 0x80, 0], &long[2..]].concat();
    let name = [0xff; 256];
    let of = |name: &[u8], unit, count, items: &[u8]| {
        written(WingFields { unit, ..every_number(5, count) }, name, b"", items, 0).unwrap_err()
    };
    assert_eq!(of(&name, 8, 0, &broken), -15);
    assert_eq!(of(&name[..255], 8, count, &broken), -16);
    assert_eq!(of(&name[..255], 7, 0, &broken), -16);
    assert_eq!(of(&name[..255], 7, count, &broken), -5);
    assert_eq!(of(b"n", 7, count, &broken), -5);
    assert_eq!(of(b"n", 7, count, &long), -2);
    assert_eq!(of(b"n", 7, 0, &[]), -9);
}

/// A body of these flags, and what stands after them.
fn body(flags: u16, tail: &[u8]) -> Vec<u8> {
    [&hex("00 00 00 01 ff ff ff fe 00 03 01 6e 04 4e 61 6d 65")[..], &flags.to_be_bytes(), tail].concat()
}

fn anew(body: &[u8], room: usize) -> Result<Vec<u8>, i32> {
    taken(room, |out| raw::write_anew(body, out))
}

/// 02: "has the same bytes exactly when the type and unit bits of its flags are below 8 each, its unused flag bits are 0 and no
/// bytes follow its last field".
#[test]
fn written_anew_the_bytes_are_the_same_or_the_flags_and_the_end_are_cleared() {
    // Every type and unit, with each of the other bits alone, with none and with all of them.
    let others = [0, 0x0100, 0x0200, 0x0400, 0x0800, 0x1000, 0x2000, 0x4000, 0x8000, 0xfd00, 0xff00];
    for flags in others.iter().flat_map(|other| (0..256).map(move |low| other + low)) {
        let (node_type, unit) = (flags / 16 % 16, flags % 16);
        let tail = types().get(usize::from(node_type)).map_or(vec![], |t| t.3.clone());
        let given = body(flags, &tail);
        let cleared = |n: u16| if n > 7 { 0 } else { n };
        let want = body(flags & 0x200 | cleared(node_type) << 4 | cleared(unit), &tail);
        assert_eq!(anew(&given, BODY_LIMIT).as_ref(), Ok(&want), "{flags:04x}");
        let same = node_type < 8 && unit < 8 && flags & 0xfd00 == 0;
        assert_eq!(want == given, same, "{flags:04x}");
        assert_eq!(Definition::from_bytes(&given).unwrap().to_bytes(), Ok(want));
    }
    for (number, (_, _, _, tail)) in (0..).zip(types()) {
        let given = body(number * 16, &tail);
        for later in [&[0][..], &[0xff; 9], &[0; 5000]] {
            assert_eq!(anew(&[&given[..], later].concat(), BODY_LIMIT).as_ref(), Ok(&given));
        }
    }
}

#[test]
fn a_body_that_is_refused_is_not_written_anew() {
    for (number, (_, _, _, tail)) in (0..).zip(types()) {
        let given = body(number * 16, &tail);
        for len in 0..given.len() {
            assert_eq!(anew(&given[..len], BODY_LIMIT), Err(-4), "{len}");
            assert_eq!(anew(&given, len), Err(-9), "{len}");
        }
        assert_eq!(anew(&given, given.len()).as_ref(), Ok(&given));
        let mut broken = given;
        broken[11] = 0xff;
        assert_eq!(anew(&broken, 0), Err(-5));
    }
    // Items alone make a body longer than the most bytes: it is read and not written.
    let (count, items) = items_of(4101);
    let long = body(0x50, &[&count.to_be_bytes()[..], &items].concat());
    assert_eq!((long.len(), anew(&long, 5000)), (4105, Err(-2)));
    assert_eq!(Definition::from_bytes(&long).unwrap().to_bytes(), Err(Refusal::BODY_LONG));
}
