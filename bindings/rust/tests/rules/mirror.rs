use crate::{cleared, hex, sample, Dice};
use whistleloam::{raw, Counts, Mirror, Origin, Refusal, Value, PLACE_WIDTH, SET_MAX, STATE_SIZE};

/// 01: the input of the program mirror.
const PRINTED: &str = "df d1 d7 00 00 00 01 05 d7 ff ff ff fe d5 3f 80 00 00 d7 00 00 00 02 81 41 42";

fn printed() -> Mirror {
    let mut mirror = Mirror::new(128).unwrap();
    let counts = mirror.feed(&hex(PRINTED)).unwrap();
    assert_eq!(counts, Counts { stored: 3, ..Counts::default() });
    mirror
}

fn captured(places: usize) -> Mirror {
    let mut mirror = Mirror::new(places).unwrap();
    mirror.feed(&sample("capture.bin")).unwrap();
    mirror
}

#[test]
fn records_stand_in_rising_order_of_signed_ids() {
    let want = [(-2, Value::float(1.0)), (1, Value::Int(5)), (2, Value::from("AB"))];
    let mirror = printed();
    assert_eq!(mirror.records().collect::<Vec<_>>(), want);
    assert_eq!(mirror.records().len(), 3);
    let mut seen = 0;
    for (number, record) in (&mirror).into_iter().enumerate() {
        assert_eq!(record, want[number]);
        assert_eq!(mirror.lookup(record.0), Some(number));
        assert_eq!(mirror.get(record.0), Some(record.1));
        seen += 1;
    }
    assert_eq!((seen, mirror.len(), mirror.places()), (3, 3, 128));
    assert_eq!(mirror.lookup(3), None);
    assert_eq!(mirror.get(3), None);
    assert!(!mirror.is_empty() && Mirror::new(1).unwrap().is_empty());
    assert_eq!(mirror.record(3), Err(Refusal::NUMBER));
}

#[test]
fn places_are_1_to_1024() {
    for (places, good) in [(0, false), (1, true), (1024, true), (1025, false), (usize::MAX, false)] {
        assert_eq!(Mirror::new(places).is_ok(), good, "{places}");
    }
    assert_eq!(Mirror::new(0).unwrap_err(), Refusal::TABLE);
}

/// 01: "Bytes that end inside a token leave it waiting".
#[test]
fn a_capture_cut_anywhere_gives_the_same_mirror() {
    let bytes = sample("capture.bin");
    let whole = captured(128);
    assert!(whole.len() > 50, "{}", whole.len());
    for cut in 0..=bytes.len() {
        let mut mirror = Mirror::new(128).unwrap();
        mirror.feed(&bytes[..cut]).unwrap();
        mirror.feed(&bytes[cut..]).unwrap();
        assert!(mirror == whole, "cut at {cut}");
        assert_eq!(mirror.state(), whole.state(), "cut at {cut}");
    }
}

#[test]
fn the_counts_say_what_the_bytes_held() {
    let mut mirror = Mirror::new(1).unwrap();
    // Node 1, then 2 without a place; a string out of form; a definition read, one too short, count 0; an end.
    let bytes = "df d1 d7 00 00 00 01 05 d7 00 00 00 02 05 80 80 \
                 df de 00 0f 00 00 00 00 00 00 00 02 00 00 01 61 00 00 00 df de 00 01 61 df de 00 00 00 00 00 00 de";
    let want =
        Counts { stored: 1, unplaced: 1, strings_refused: 1, definitions_read: 1, definitions_refused: 2, ends: 1 };
    assert_eq!(mirror.feed(&hex(bytes)), Ok(want));
    assert_eq!(mirror.len(), 1);
}

/// 01, 'Bytes and their outcomes'.
#[test]
fn set_orders_are_those_of_the_rules() {
    let cases = [
        (63, "d7 00 00 00 07 3f"),
        (64, "d7 00 00 00 07 d3 00 40"),
        (223, "d7 00 00 00 07 d3 00 df de"),
        (-32769, "d7 00 00 00 07 d4 ff ff 7f ff"),
    ];
    let mut mirror = Mirror::new(1).unwrap();
    for (value, bytes) in cases {
        assert_eq!(mirror.set(7, value), Ok(hex(bytes)));
        assert_eq!(mirror.get(7), Some(Value::Int(value)));
    }
    assert_eq!(mirror.set(7, f32::from_bits(0xdfdf_0001)), Ok(hex("d7 00 00 00 07 d5 df de df de 00 01")));
    assert_eq!(mirror.set(7, ""), Ok(hex("d7 00 00 00 07 d0")));
    // The length byte of a string of 224 is df, and is escaped.
    let order = mirror.set(7, "x".repeat(224)).unwrap();
    assert_eq!(order[..8], hex("d7 00 00 00 07 d1 df de"));
}

#[test]
fn a_refused_set_changes_nothing() {
    let mut mirror = Mirror::new(1).unwrap();
    mirror.set(1, 5).unwrap();
    let before = mirror.clone();
    assert_eq!(mirror.set(2, 5), Err(Refusal::NO_PLACE));
    assert_eq!(mirror.set(1, "x".repeat(257)), Err(Refusal::STRING_LONG));
    let mut out = [0xaa; 5];
    assert_eq!(mirror.set_into(1, &Value::Int(6), &mut out), Err(Refusal::OUTPUT_SHORT));
    assert_eq!(mirror.recall_into(&mut out), Err(Refusal::OUTPUT_SHORT));
    assert_eq!(out, [0xaa; 5]);
    assert_eq!((mirror.table(), mirror.count(), mirror.state()), (before.table(), 1, before.state()));
}

#[test]
fn outputs_are_not_altered_past_what_was_written() {
    let mut mirror = printed();
    let mut out = [0xaa; 40];
    assert_eq!(mirror.set_into(7, &Value::Int(63), &mut out), Ok(6));
    assert_eq!(out[..6], hex("d7 00 00 00 07 3f"));
    assert_eq!(out[6..], [0xaa; 34]);
    let recall = mirror.recall().unwrap();
    let mut out = vec![0xaa; recall.len() + 3];
    assert_eq!(mirror.recall_into(&mut out), Ok(recall.len()));
    assert_eq!((&out[..recall.len()], &out[recall.len()..]), (&recall[..], &[0xaa; 3][..]));
}

#[test]
fn the_longest_order_fits() {
    let mut mirror = Mirror::new(1).unwrap();
    // 256 bytes, of which 128 are df: c3 9f would not do, so a two-byte letter that begins with df.
    let order = mirror.set(-0x20202021, "\u{7c0}".repeat(128)).unwrap();
    assert!(order.len() <= SET_MAX);
    assert_eq!(order.len(), 1 + 8 + 2 + 256 + 128);
}

/// Demand 3: what recall writes, fed in any pieces, makes an equal mirror; 02: but for the origins, which are 0.
#[test]
fn a_recall_in_any_pieces_makes_an_equal_mirror_but_for_the_origins() {
    let mut mirror = captured(128);
    for (id, value) in [(1000, Value::from("Flöte")), (2000, Value::Float(0x7fc0_00df)), (-5, Value::Int(-1))] {
        mirror.set(id, value).unwrap();
    }
    let recall = mirror.recall().unwrap();
    assert_eq!(recall[..2], [0xdf, 0xd1]);
    let mut dice = Dice(7);
    for _ in 0..200 {
        let mut other = Mirror::new(mirror.len()).unwrap();
        let mut rest = &recall[..];
        while !rest.is_empty() {
            let (piece, after) = rest.split_at(1 + dice.below(rest.len().min(40)));
            other.feed(piece).unwrap();
            rest = after;
        }
        assert!(other == cleared(&mirror) && other != mirror);
        assert_eq!(other.table(), &cleared(&mirror).table()[..mirror.len() * PLACE_WIDTH]);
    }
    let mut other = mirror.clone();
    other.set(-5, 0).unwrap();
    assert!(other != mirror);
}

#[test]
fn a_full_mirror_comes_back() {
    let mut mirror = Mirror::new(1024).unwrap();
    for id in 0..1024 {
        mirror.set(id * 7919 - 4_000_000, "ß".repeat(128)).unwrap();
    }
    assert_eq!(mirror.set(-1, 0), Err(Refusal::NO_PLACE));
    let recall = mirror.recall().unwrap();
    let mut other = Mirror::new(1024).unwrap();
    assert_eq!(other.feed(&recall), Err(Refusal::NUMBER));
    assert!(other.is_empty());
    for piece in recall.chunks(65536) {
        other.feed(piece).unwrap();
    }
    assert!(other == cleared(&mirror));
}

#[test]
fn a_saved_mirror_goes_on_where_it_was() {
    let bytes = sample("capture.bin");
    let whole = captured(128);
    for cut in [0, 1, 5, 100, 333, bytes.len()] {
        let mut mirror = Mirror::new(128).unwrap();
        mirror.feed(&bytes[..cut]).unwrap();
        let saved = mirror.save();
        assert_eq!(saved.len(), STATE_SIZE + 8 + mirror.len() * PLACE_WIDTH);
        let mut back = Mirror::restore(&saved).unwrap();
        assert_eq!((back.places(), back.save()), (128, saved.clone()));
        back.feed(&bytes[cut..]).unwrap();
        assert!(back == whole, "cut at {cut}");
        // 02: the same under version 1, whose bytes had the same fields.
        let earlier = [&[1], &saved[1..]].concat();
        assert_eq!(Mirror::restore(&earlier).unwrap_err(), Refusal::STATE);
        assert_eq!(Mirror::carry_over(&saved).unwrap_err(), Refusal::STATE);
        let mut over = Mirror::carry_over(&earlier).unwrap();
        assert_eq!((over.places(), over.save()), (128, saved));
        over.feed(&bytes[cut..]).unwrap();
        assert!(over == whole, "cut at {cut}");
    }
}

#[test]
fn a_damaged_save_is_refused() {
    let saved = printed().save();
    assert_eq!(Mirror::restore(&saved[..STATE_SIZE - 1]).unwrap_err(), Refusal::STATE);
    assert_eq!(Mirror::restore(&[]).unwrap_err(), Refusal::STATE);
    for len in [STATE_SIZE, STATE_SIZE + 7, saved.len() - 1] {
        assert_eq!(Mirror::restore(&saved[..len]).unwrap_err(), Refusal::TABLE, "{len}");
    }
    assert_eq!(Mirror::restore(&[&saved[..], &[0]].concat()).unwrap_err(), Refusal::TABLE);
    let with = |at: usize, byte: u8| {
        let mut other = saved.clone();
        other[at] = byte;
        Mirror::restore(&other)
    };
    assert_eq!(with(0, 1).unwrap_err(), Refusal::STATE);
    assert_eq!(with(0, 3).unwrap_err(), Refusal::STATE);
    let earlier = [&[1], &saved[1..]].concat();
    for len in [0, STATE_SIZE - 1, STATE_SIZE, STATE_SIZE + 7, saved.len() - 1] {
        let want = if len < STATE_SIZE { Refusal::STATE } else { Refusal::TABLE };
        assert_eq!(Mirror::carry_over(&earlier[..len]).unwrap_err(), want, "{len}");
    }
    assert_eq!(with(STATE_SIZE - 1, 1).unwrap_err(), Refusal::STATE);
    // 8 comes before 7.
    assert_eq!(Mirror::restore(&[&[0; 2 * STATE_SIZE][..], &saved].concat()).unwrap_err(), Refusal::STATE);
    // The count, the places, the first record's kind and its origin.
    for (at, byte) in [(3, 2), (3, 4), (0, 255), (7, 2), (6, 255), (12, 3), (13, 2), (13, 255)] {
        assert_eq!(with(STATE_SIZE + at, byte).unwrap_err(), Refusal::TABLE, "{at}");
    }
    assert_eq!(with(STATE_SIZE + 15, 4).unwrap(), printed());
    let moved = with(STATE_SIZE + 13, 1).unwrap();
    assert_eq!((moved.origin(-2), &cleared(&moved)), (Some(Origin::SetOrder), &printed()));
}

#[test]
fn parts_are_checked() {
    let mirror = printed();
    let parts = |state: &[u8], table: &[u8], count| Mirror::from_parts(state, table.to_vec(), count);
    assert_eq!(parts(mirror.state(), mirror.table(), 3).unwrap(), mirror);
    assert_eq!(parts(&mirror.state()[1..], mirror.table(), 3).unwrap_err(), Refusal::STATE);
    assert_eq!(parts(mirror.state(), mirror.table(), 4).unwrap_err(), Refusal::TABLE);
    assert_eq!(parts(mirror.state(), &mirror.table()[..263], 0).unwrap_err(), Refusal::TABLE);
    // 8 comes before 7.
    assert_eq!(parts(&[], &[], 0).unwrap_err(), Refusal::STATE);
    assert_eq!(raw::table_check(&vec![0; 1024 * PLACE_WIDTH + 263], 0), 0);
    assert_eq!(raw::table_check(&vec![0; 1025 * PLACE_WIDTH], 0), -7);
}

#[test]
fn values_have_libwings_getters() {
    let (int, float, text) = (Value::Int(-7), Value::float(0.5), Value::from("7"));
    assert_eq!((int.get_int(), float.get_int(), text.get_int()), (-7, 0, 0));
    assert_eq!((int.get_float(), float.get_float(), text.get_float()), (0.0, 0.5, 0.0));
    assert_eq!(int.get_string().as_deref(), Some("-7"));
    assert_eq!((float.get_string(), text.get_string().as_deref()), (None, Some("7")));
    assert!(int.has_int() && float.has_float() && text.has_string());
    assert!(!int.has_float() && !float.has_string() && !text.has_int());
    // Bits decide: NaN is itself, and 0 is not -0.
    assert_eq!(Value::Float(0x7fc0_0001), Value::Float(0x7fc0_0001));
    assert_ne!(Value::float(0.0), Value::float(-0.0));
}

#[test]
fn what_is_printed_can_be_read() {
    let mirror = printed();
    assert_eq!(format!("{mirror:?}"), "Mirror of 128 places {-2: Float(1.0, 3f800000), 1: Int(5), 2: String(\"AB\")}");
    let mut moved = Mirror::new(2).unwrap();
    moved.set(7, -6.5).unwrap();
    assert_eq!(format!("{moved:?}"), "Mirror of 2 places {7: Float(-6.5, c0d00000) by a set order}");
    assert_eq!(
        format!("{:?}", Refusal::NO_PLACE),
        "refusal 6: a new node, and no place left, or more records than places"
    );
}
