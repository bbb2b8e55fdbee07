use crate::{hex, sample};
use whistleloam::{raw, Definition, Details, Item, NodeType, NodeUnit, Refusal};

/// A body of these flags and details, named "n", long name "Name", parent 1, id -2, index 3.
fn body(flags: u16, details: &str) -> Vec<u8> {
    let head = hex("00 00 00 01 ff ff ff fe 00 03 01 6e 04 4e 61 6d 65");
    [&head[..], &flags.to_be_bytes(), &hex(details)].concat()
}

fn of(flags: u16, details: &str) -> Definition {
    let d = Definition::from_bytes(&body(flags, details)).unwrap();
    assert_eq!((d.parent_id(), d.id(), d.index()), (1, -2, 3));
    assert_eq!((d.name(), d.long_name()), ("n", "Name"));
    d
}

const TYPES: [(NodeType, &str); 8] = [
    (NodeType::Node, ""),
    (NodeType::LinearFloat, "c2 b4 00 00 41 20 00 00 ff ff ff ff"),
    (NodeType::LogarithmicFloat, "00 00 00 00 3f 80 00 00 00 00 00 64"),
    (NodeType::FaderLevel, ""),
    (NodeType::Integer, "80 00 00 00 00 00 00 07"),
    (NodeType::StringEnum, "00 02 03 6f 66 66 03 4f 66 66 02 6f 6e 00"),
    (NodeType::FloatEnum, "00 02 3f 80 00 00 01 31 7f c0 00 01 02 c3 9f"),
    (NodeType::String, "00 10"),
];

#[test]
fn all_eight_types_are_read() {
    for (number, (node_type, details)) in TYPES.iter().enumerate() {
        let d = of(number as u16 * 16, details);
        assert_eq!(d.node_type(), *node_type);
        assert_eq!(d.node_type() as usize, number);
        // Later bytes are ignored; a field that is not whole is 4.
        assert_eq!(of(number as u16 * 16, &format!("{details} ff")).node_type(), *node_type);
        for len in 0..d.body().len() {
            assert_eq!(Definition::from_bytes(&d.body()[..len]).unwrap_err(), Refusal::DEFINITION_SHORT, "{len}");
        }
    }
}

#[test]
fn each_type_adds_its_details() {
    let all: Vec<Definition> = (0u16..).zip(TYPES).map(|(n, (_, details))| of(n * 16, details)).collect();
    assert_eq!(all[0].details(), Details::None);
    assert_eq!(all[1].details(), Details::Floats { min: 0xc2b4_0000, max: 0x4120_0000, steps: -1 });
    assert_eq!((all[1].min_float(), all[1].max_float(), all[1].steps()), (Some(-90.0), Some(10.0), Some(-1)));
    assert_eq!((all[2].max_float(), all[2].steps()), (Some(1.0), Some(100)));
    assert_eq!(all[3].details(), Details::None);
    assert_eq!(all[4].details(), Details::Integers { min: i32::MIN, max: 7 });
    assert_eq!((all[4].min_int(), all[4].max_int(), all[4].min_float()), (Some(i32::MIN), Some(7), None));
    assert_eq!((all[5].details(), all[6].details()), (Details::Items(2), Details::Items(2)));
    assert_eq!((all[7].details(), all[7].max_string_len()), (Details::String(16), Some(16)));
    assert_eq!(all.iter().filter(|d| d.max_int().is_some()).count(), 1);
    assert_eq!(all.iter().filter(|d| d.max_string_len().is_some()).count(), 1);
}

/// Where the items begin is told by the definition and by the walk; 0 for a type that has none.
#[test]
fn the_first_item_stands_where_the_walk_begins() {
    for (number, (node_type, details)) in (0u16..).zip(TYPES) {
        let body = body(number * 16, details);
        let (fields, walk) = (raw::definition(&body), raw::items_begin(&body));
        assert_eq!((fields.status, walk.status, u16::from(walk.node_type)), (0, 0, number));
        if matches!(node_type, NodeType::StringEnum | NodeType::FloatEnum) {
            // 19 bytes before the details, and the count's two.
            assert_eq!((fields.first_item, walk.at), (21, 21), "{node_type:?}");
            assert_eq!((fields.count, walk.left), (2, 2), "{node_type:?}");
        } else {
            assert_eq!((fields.first_item, fields.count, walk.left), (0, 0, 0), "{node_type:?}");
        }
    }
    let refused = raw::definition(&body(80, "00"));
    assert_eq!((refused.status, refused.first_item), (-4, 0));
}

fn strings(item: &str, long_item: &str) -> Item {
    Item::String { item: item.into(), long_item: long_item.into() }
}

#[test]
fn items_come_in_order_and_by_number() {
    let d = of(5 * 16, TYPES[5].1);
    let want = [strings("off", "Off"), strings("on", "")];
    assert_eq!(d.items().collect::<Vec<_>>(), want);
    assert_eq!((d.item(0), d.item(1)), (Ok(want[0].clone()), Ok(want[1].clone())));
    assert_eq!(d.item(2), Err(Refusal::NUMBER));
    let d = of(6 * 16, TYPES[6].1);
    let want = [
        Item::Float { item: 0x3f80_0000, long_item: "1".into() },
        Item::Float { item: 0x7fc0_0001, long_item: "ß".into() },
    ];
    assert_eq!(d.items().collect::<Vec<_>>(), want);
    assert_eq!((d.item(1), d.item(usize::MAX)), (Ok(want[1].clone()), Err(Refusal::NUMBER)));
    for (number, (_, details)) in TYPES.iter().enumerate().filter(|(n, _)| *n != 5 && *n != 6) {
        let d = of(number as u16 * 16, details);
        assert_eq!((d.items().count(), d.item(0)), (0, Err(Refusal::NUMBER)));
    }
}

/// 01: "Type = flags div 16 mod 16, unit = flags mod 16, both 0 if over 7; read-only is bit 9".
#[test]
fn flags_are_taken_apart() {
    let units = [
        NodeUnit::None,
        NodeUnit::Db,
        NodeUnit::Percent,
        NodeUnit::Milliseconds,
        NodeUnit::Hertz,
        NodeUnit::Meters,
        NodeUnit::Seconds,
        NodeUnit::Octaves,
    ];
    for unit in 0..16 {
        let want = units.get(unit as usize).copied().unwrap_or(NodeUnit::None);
        assert_eq!((of(unit, "").unit(), of(0x80 + unit, "").node_type()), (want, NodeType::Node));
    }
    assert!(of(0x200, "").read_only());
    assert!(!of(0xfd00, "").read_only());
}

/// samples/definitions.txt: lines with d are bodies that are read, those with c bodies to cut.
#[test]
fn the_samples_are_read() {
    let text = String::from_utf8(sample("definitions.txt")).unwrap();
    let bodies = |kind| text.lines().filter_map(move |line| line.strip_prefix(kind)).map(hex).collect::<Vec<_>>();
    let read: Vec<_> = bodies("d ").iter().map(|b| Definition::from_bytes(b).unwrap()).collect();
    assert_eq!(read.len(), 2);
    assert_eq!((read[0].name(), read[0].long_name(), read[0].unit()), ("fdr", "Fader", NodeUnit::Db));
    assert_eq!(read[0].node_type(), NodeType::FaderLevel);
    assert_eq!(read[1].items().collect::<Vec<_>>(), [strings("off", "Off"), strings("on", "On")]);
    for body in bodies("c ") {
        for len in 0..body.len() {
            assert_eq!(Definition::from_bytes(&body[..len]).unwrap_err(), Refusal::DEFINITION_SHORT, "{len}");
        }
        assert!(Definition::from_bytes(&body).is_ok());
    }
}

/// 01: "the first failing field counts, length before UTF-8".
#[test]
fn a_string_that_is_not_utf8_is_5() {
    let mut broken = body(0x50, TYPES[5].1);
    let last = broken.len() - 2;
    broken[last] = 0xff;
    assert_eq!(Definition::from_bytes(&broken).unwrap_err(), Refusal::DefinitionNotUtf8 { good: 1 });
    assert_eq!(Definition::from_bytes(&broken[..last]).unwrap_err(), Refusal::DEFINITION_SHORT);
    broken[11] = 0x80;
    assert_eq!(Definition::from_bytes(&broken[..last]).unwrap_err(), Refusal::DefinitionNotUtf8 { good: 0 });
}
