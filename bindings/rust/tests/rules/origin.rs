//! 02, the seventh request: who gave a record its last value.
use crate::{cleared, hex, sample, Dice};
use std::collections::BTreeMap;
use whistleloam::{raw, Decoder, Entry, Mirror, Origin, Refusal, Value, PLACE_WIDTH};

/// The bytes that set node 7 to 5, or to 6.
const FIVE: &str = "d7 00 00 00 07 05";
const SIX: &str = "d7 00 00 00 07 06";

fn fed(bytes: &str) -> Mirror {
    let mut mirror = Mirror::new(4).unwrap();
    mirror.feed(&hex(bytes)).unwrap();
    mirror
}

/// Of each node, in order.
fn origins(mirror: &Mirror) -> Vec<(i32, Origin)> {
    mirror.entries().map(|e| (e.id, e.origin)).collect()
}

/// Three strips from the console, of every kind, of which two are set at the box, and a new one.
fn moved() -> Mirror {
    let mut mirror = fed("df d1 d7 ff ff ff fe d5 3f 80 00 00 d7 00 00 00 01 05 d7 00 00 00 02 81 41 42");
    for (id, value) in [(-2, Value::float(2.5)), (2, Value::from("ABC")), (9, Value::Int(-1))] {
        mirror.set(id, value).unwrap();
    }
    mirror
}

/// 02: "0 when the last value came from the console, 1 when a set order gave it".
#[test]
fn the_last_value_says_who_gave_it() {
    let mut mirror = fed(FIVE);
    assert_eq!((mirror.origin(7), mirror.get(7)), (Some(Origin::Console), Some(Value::Int(5))));
    // Another value, then the same value again, from the other side each time.
    for (value, bytes) in [(6, SIX), (6, SIX), (5, FIVE)] {
        mirror.set(7, value).unwrap();
        assert_eq!((mirror.origin(7), mirror.get(7)), (Some(Origin::SetOrder), Some(Value::Int(value))));
        assert_eq!((mirror.table()[5], raw::record(mirror.table(), 1, 0).origin), (1, 1));
        mirror.feed(&hex(bytes)).unwrap();
        assert_eq!((mirror.origin(7), mirror.get(7)), (Some(Origin::Console), Some(Value::Int(value))));
        assert_eq!((mirror.table()[5], raw::record(mirror.table(), 1, 0).origin), (0, 0));
    }
    // A set order twice over, and one of another kind.
    for value in [Value::Int(5), Value::Int(5), Value::float(0.5), Value::from("x"), Value::from("")] {
        mirror.set(7, &value).unwrap();
        assert_eq!(mirror.entry(0), Ok(Entry { id: 7, value, origin: Origin::SetOrder }));
    }
    assert_eq!((mirror.len(), mirror.origin(8)), (1, None));
}

#[test]
fn entries_are_the_records_with_their_origins() {
    let mirror = moved();
    let (console, set) = (Origin::Console, Origin::SetOrder);
    assert_eq!(origins(&mirror), [(-2, set), (1, console), (2, set), (9, set)]);
    assert_eq!((mirror.entries().len(), mirror.records().len()), (4, 4));
    assert!(mirror.entries().map(|e| (e.id, e.value)).eq(mirror.records()));
    for (number, entry) in mirror.entries().enumerate() {
        assert_eq!(mirror.origin(entry.id), Some(entry.origin));
        assert_eq!(mirror.record(number), Ok((entry.id, entry.value.clone())));
        assert_eq!(mirror.entry(number).as_ref(), Ok(&entry));
        assert_eq!(raw::record(mirror.table(), mirror.count(), number).origin, entry.origin as u8);
    }
    assert_eq!(mirror.entry(4), Err(Refusal::NUMBER));
    let mut left = mirror.entries();
    left.next();
    assert_eq!((left.len(), left.clone().count()), (3, 3));
}

#[test]
fn a_refused_set_leaves_the_origin() {
    let mut mirror = Mirror::new(1).unwrap();
    mirror.feed(&hex(FIVE)).unwrap();
    let before = mirror.clone();
    assert_eq!(mirror.set(8, 5), Err(Refusal::NO_PLACE));
    assert_eq!(mirror.set(7, "x".repeat(257)), Err(Refusal::STRING_LONG));
    assert_eq!(mirror.set_into(7, &Value::Int(5), &mut [0; 5]), Err(Refusal::OUTPUT_SHORT));
    assert_eq!((mirror.table(), mirror.origin(7)), (before.table(), Some(Origin::Console)));
    let mut table = mirror.table().to_vec();
    assert_eq!(raw::set_string(&mut table, 1, &mut [0; 400], 7, &[0xff]).status, -1);
    assert_eq!(table, mirror.table());
    // And a feed that is refused leaves what a set order gave.
    mirror.set(7, 5).unwrap();
    assert_eq!(mirror.feed(&hex("05").repeat(65537)), Err(Refusal::NUMBER));
    assert_eq!(mirror.origin(7), Some(Origin::SetOrder));
    // What is counted and not stored gives no value: a string out of form, a node without a place.
    mirror.feed(&hex("d7 00 00 00 07 80 80 d7 00 00 00 08 05")).unwrap();
    assert_eq!((mirror.len(), mirror.origin(7)), (1, Some(Origin::SetOrder)));
}

/// 02: "Two mirrors compare with origins included".
#[test]
fn equality_has_the_origins_in_it() {
    let (mut set, console) = (Mirror::new(4).unwrap(), fed(FIVE));
    set.set(7, 5).unwrap();
    assert!(set.records().eq(console.records()));
    assert!(set != console && console != set);
    assert_eq!(raw::same(set.table(), 1, console.table(), 1), 0);
    set.feed(&hex(FIVE)).unwrap();
    assert!(set == console);
    // With the origin alone another, in any one of the records.
    let mirror = moved();
    for number in 0..mirror.len() {
        let mut table = mirror.table().to_vec();
        table[number * PLACE_WIDTH + 5] ^= 1;
        let other = Mirror::from_parts(mirror.state(), table, mirror.count()).unwrap();
        assert!(other != mirror && other.records().eq(mirror.records()), "{number}");
        assert_eq!(cleared(&other), cleared(&mirror));
    }
}

/// 02: for a mirror rebuilt from recall bytes "all other bytes agree and its origins are 0".
#[test]
fn a_recall_carries_no_origin() {
    let mirror = moved();
    let mut other = Mirror::new(4).unwrap();
    other.feed(&mirror.recall().unwrap()).unwrap();
    assert!(other.records().eq(mirror.records()));
    assert!(other.entries().all(|e| e.origin == Origin::Console));
    assert!(other != mirror && other == cleared(&mirror));
    assert_eq!(other.table(), cleared(&mirror).table());
    // The bytes are the same, whoever gave the values; without set orders the two are equal.
    assert_eq!(other.recall(), mirror.recall());
    let mut again = Mirror::new(4).unwrap();
    again.feed(&other.recall().unwrap()).unwrap();
    assert!(again == other);
}

/// 02: and for a loaded listing.
#[test]
fn a_listing_carries_no_origin() {
    let mirror = moved();
    let text = mirror.print().unwrap();
    assert_eq!(text, cleared(&mirror).print().unwrap());
    // Over set orders at the same nodes too.
    let mut other = mirror.clone();
    assert_eq!(other.load(&text), Ok(4));
    assert!(other.entries().all(|e| e.origin == Origin::Console));
    assert!(other != mirror && other == cleared(&mirror));
    assert_eq!(other.table(), cleared(&mirror).table());
    // A text that is sent back leaves them.
    let mut kept = mirror.clone();
    assert!(kept.load("id,kind,value\n7,i,05\n").is_err());
    assert_eq!((kept.table(), origins(&kept)), (mirror.table(), origins(&mirror)));
    let mut table = vec![0xff; 4 * PLACE_WIDTH];
    assert_eq!(raw::load(text.as_bytes(), &mut table).count, 4);
    assert_eq!(table, other.table());
}

/// 02: "A table with an origin over 1 gets 7", at every call on it; one of 0 or 1 is taken.
#[test]
fn an_origin_over_1_is_7() {
    let mirror = moved();
    for (number, byte) in (0..4).flat_map(|number| (0..=255).map(move |byte| (number, byte))) {
        let mut table = mirror.table().to_vec();
        table[number * PLACE_WIDTH + 5] = byte;
        let want = if byte <= 1 { 0 } else { -7 };
        assert_eq!(raw::table_check(&table, 4), want, "{number} {byte}");
        let made = Mirror::from_parts(mirror.state(), table.clone(), 4);
        assert_eq!(made.err(), (byte > 1).then_some(Refusal::TABLE), "{number} {byte}");
        // Past the last record it is no part of the table.
        assert_eq!(raw::table_check(&table, number), 0, "{number} {byte}");
        let record = raw::record(&table, 4, number);
        assert_eq!((record.status, record.origin), (want, if byte == 1 { 1 } else { 0 }), "{number} {byte}");
    }
    let (mut table, mut state, mut out) = (mirror.table().to_vec(), Decoder::new().save(), [0xaa; 64]);
    table[5] = 2;
    let before = table.clone();
    assert_eq!(raw::feed(&mut state, &mut table, 4, &hex(FIVE)).status, -7);
    assert_eq!(raw::set_int(&mut table, 4, &mut out, 7, 5).status, -7);
    assert_eq!(raw::recall(&table, 4, &mut out).status, -7);
    assert_eq!(raw::print(&table, 4, &mut out).status, -7);
    assert_eq!(raw::lookup(&table, 4, 7).status, -7);
    assert_eq!((raw::same(&table, 4, mirror.table(), 4), raw::same(mirror.table(), 4, &table, 4)), (-7, -7));
    assert!(table == before && out == [0xaa; 64] && state == Decoder::new().save());
}

/// 02: "Older tables are therefore still sound and read as console values".
#[test]
fn an_older_table_is_the_consoles() {
    // A record as it was kept before there were origins: node 7, an integer, a byte 0, length 4, the value 5.
    let mut table = vec![0; 2 * PLACE_WIDTH];
    table[..12].copy_from_slice(&hex("00 00 00 07 00 00 00 04 00 00 00 05"));
    let mirror = Mirror::from_parts(&Decoder::new().save(), table, 1).unwrap();
    assert_eq!(mirror.entry(0), Ok(Entry { id: 7, value: Value::Int(5), origin: Origin::Console }));
    assert!(mirror == fed(FIVE));
}

#[test]
fn a_saved_mirror_keeps_its_origins() {
    let mirror = moved();
    let back = Mirror::restore(&mirror.save()).unwrap();
    assert_eq!((origins(&back), &back), (origins(&mirror), &mirror));
    assert_eq!(back.table(), mirror.table());
}

/// Feeds and sets in any order against a map of one's own; the console's bytes are cut anywhere.
#[test]
fn a_history_is_a_map_with_origins() {
    let (mut dice, mut refused) = (Dice(11), 0);
    for _ in 0..60 {
        let mut mirror = Mirror::new(6).unwrap();
        let mut map: BTreeMap<i32, (Value, Origin)> = BTreeMap::new();
        for _ in 0..60 {
            let (id, value) = (dice.below(9) as i32 - 4, Value::Int(dice.below(3) as i32));
            let taken = map.len() < 6 || map.contains_key(&id);
            let origin = if dice.below(2) == 0 { Origin::Console } else { Origin::SetOrder };
            if origin == Origin::Console {
                let bytes = [&[0xd7][..], &id.to_be_bytes(), &[value.get_int() as u8]].concat();
                let (front, rest) = bytes.split_at(dice.below(bytes.len() + 1));
                mirror.feed(front).unwrap();
                mirror.feed(rest).unwrap();
            } else {
                let set = mirror.set(id, &value);
                assert_eq!(set.is_ok(), taken);
                refused += u32::from(set.is_err());
            }
            if taken {
                map.insert(id, (value, origin));
            }
            let entries = mirror.entries().map(|e| (e.id, (e.value, e.origin)));
            assert!(entries.eq(map.clone()), "{mirror:?}");
        }
    }
    assert!(refused > 0);
}

#[test]
fn the_capture_is_the_consoles() {
    let mut mirror = Mirror::new(128).unwrap();
    mirror.feed(&sample("capture.bin")).unwrap();
    assert!(mirror.len() > 50 && mirror.entries().all(|e| e.origin == Origin::Console));
    let mut other = Mirror::new(128).unwrap();
    other.feed(&mirror.recall().unwrap()).unwrap();
    assert!(other == mirror);
}
