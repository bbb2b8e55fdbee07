use crate::{hex, sample};
use whistleloam::{raw, Decoder, Event, Refusal, Value};

fn events(bytes: &str) -> Vec<Result<Event, Refusal>> {
    Decoder::new().events(&hex(bytes)).collect()
}

fn value(node: i32, value: impl Into<Value>) -> Result<Event, Refusal> {
    Ok(Event::Value(node, value.into()))
}

/// 01, 'Tokens' and 'Bytes and their outcomes'.
#[test]
fn tokens_give_what_the_rules_say() {
    assert_eq!(events("3f"), [value(0, 63)]);
    assert_eq!(events("40"), []);
    assert_eq!(events("d3 ff fe"), [value(0, -2)]);
    assert_eq!(events("d4 80 00 00 00"), [value(0, i32::MIN)]);
    assert_eq!(events("c0 41"), [value(0, "A")]);
    assert_eq!(events("80 80"), [Err(Refusal::StringNotUtf8 { good: 0 })]);
    assert_eq!(events("d0"), [value(0, "")]);
    assert_eq!(events(&("d1 ff".to_string() + &" 41".repeat(256))), [value(0, "A".repeat(256))]);
    assert_eq!(
        events("d5 7f c0 00 01 d6 df de 00 00 00"),
        [value(0, Value::Float(0x7fc0_0001)), value(0, Value::Float(0xdf00_0000)),]
    );
    assert_eq!(events("d7 ff ff ff fe 05 d2 ff ff d9 ff de"), [value(-2, 5), Ok(Event::End)]);
    assert_eq!(events("df de 00 00 00 00 00 00 05"), [Err(Refusal::BODY_EMPTY), value(0, 5)]);
}

/// 01: "forgetting that a next call with no bytes can finish a pending one".
#[test]
fn a_call_without_bytes_can_finish_a_pending_byte() {
    let mut decoder = Decoder::new();
    // In channel 1, df 05 is the unit df, which d9 wants and 80 too, and then 05.
    let (event, taken) = decoder.next(&hex("df d1 d9 df 05"));
    assert_eq!((event, taken), (Ok(Some(Event::Value(0, Value::Int(5)))), 5));
    let (event, taken) = decoder.next(&hex("df d1 80 df 05"));
    assert_eq!((event, taken), (Err(Refusal::StringNotUtf8 { good: 0 }), 5));
    assert_eq!(decoder.next(&[]), (Ok(Some(Event::Value(0, Value::Int(5)))), 0));
    assert_eq!(decoder.next(&[]), (Ok(None), 0));
}

#[test]
fn the_capture_gives_the_same_events_in_all_splits() {
    let bytes = sample("capture.bin");
    let whole: Vec<_> = Decoder::new().events(&bytes).collect();
    let values = whole.iter().filter(|e| matches!(e, Ok(Event::Value(..)))).count();
    let definitions = whole.iter().filter(|e| matches!(e, Ok(Event::Definition(_)))).count();
    let ends = whole.iter().filter(|e| matches!(e, Ok(Event::End))).count();
    assert_eq!((values, definitions, ends, whole.len()), (82, 1, 2, 85));
    for cut in 0..=bytes.len() {
        let mut decoder = Decoder::new();
        let mut seen: Vec<_> = decoder.events(&bytes[..cut]).collect();
        let mut back = Decoder::restore(&decoder.save()).unwrap();
        assert_eq!(back.node(), decoder.node());
        seen.extend(back.events(&bytes[cut..]));
        assert_eq!(seen, whole, "cut at {cut}");
    }
    for size in [1, 2, 3, 7] {
        let mut decoder = Decoder::new();
        let seen: Vec<_> = bytes.chunks(size).flat_map(|p| decoder.events(p).collect::<Vec<_>>()).collect();
        assert_eq!(seen, whole, "pieces of {size}");
    }
}

#[test]
fn a_piece_of_any_length_is_read_whole() {
    let bytes = [hex("d7 00 00 00 09"), [0x3f, 0xde].repeat(50_000)].concat();
    let mut decoder = Decoder::new();
    assert_eq!(decoder.next(&bytes), (Err(Refusal::NUMBER), 0));
    let seen: Vec<_> = decoder.events(&bytes).collect();
    assert_eq!(seen.len(), 100_000);
    assert!(seen.chunks(2).all(|pair| pair == [value(9, 63), Ok(Event::End)]));
    assert_eq!(decoder.node(), 9);
}

#[test]
fn events_not_taken_are_not_read() {
    let bytes = hex("01 02 03");
    let mut decoder = Decoder::new();
    assert_eq!(decoder.events(&bytes).next(), Some(value(0, 1)));
    assert_eq!(decoder.next(&bytes[1..]), (Ok(Some(Event::Value(0, Value::Int(2)))), 1));
}

#[test]
fn a_body_is_parsed_and_its_refusal_told() {
    let good = events("df de 00 0f 00 00 00 00 00 00 00 02 00 00 01 61 00 00 00");
    match &good[..] {
        [Ok(Event::Definition(d))] => assert_eq!((d.id(), d.name(), d.body().len()), (2, "a", 15)),
        other => panic!("{other:?}"),
    }
    assert_eq!(events("df de 00 02 00 00 05"), [Err(Refusal::DEFINITION_SHORT), value(0, 5)]);
    // A body with df in it, escaped: id 0xdf.
    let escaped = events("df de 00 0f 00 00 00 00 00 00 00 df de 00 00 01 61 00 00 00");
    assert!(matches!(&escaped[..], [Ok(Event::Definition(d))] if d.id() == 0xdf), "{escaped:?}");
}

/// What the parser refuses is not lost.
#[test]
fn what_was_handed_out_can_be_read() {
    let mut decoder = Decoder::new();
    assert_eq!(decoder.handed(), []);
    // Bodies that are no definitions: of 2 bytes, one of them an escaped df; of 15, with a name that is not UTF-8.
    assert_eq!(decoder.next(&hex("df de 00 02 df de 07")), (Err(Refusal::DEFINITION_SHORT), 7));
    assert_eq!(decoder.handed(), hex("df 07"));
    assert_eq!(decoder.clone().handed(), hex("df 07"));
    let body = hex("00 00 00 00 00 00 00 02 00 00 01 80 00 00 00");
    let sent = [&hex("df de 00 0f")[..], &body].concat();
    assert_eq!(decoder.next(&sent), (Err(Refusal::DefinitionNotUtf8 { good: 0 }), 19));
    assert_eq!(decoder.handed(), body);
    // In pieces too: nothing while more is wanted.
    assert_eq!(decoder.next(&sent[..9]), (Ok(None), 9));
    assert_eq!(decoder.handed(), []);
    assert_eq!(decoder.next(&sent[9..]), (Err(Refusal::DefinitionNotUtf8 { good: 0 }), 10));
    assert_eq!(decoder.handed(), body);
    // A string, and what has no bytes: an integer, an end, a refused string or count, a refused call.
    assert_eq!(decoder.next(&hex("81 41 42")).0, Ok(Some(Event::Value(0, "AB".into()))));
    assert_eq!(decoder.handed(), b"AB");
    for (bytes, what) in [("05", Ok(5)), ("80 80", Err(1)), ("df de 00 00 00 00 00 00", Err(3)), ("de", Ok(-1))] {
        assert!(decoder.next(&hex("80 41")).0.is_ok());
        assert_eq!(decoder.handed(), b"A");
        let got = decoder.next(&hex(bytes)).0;
        let seen = got.map(|e| matches!(e, Some(Event::Value(..)))).map_err(Refusal::number);
        assert_eq!((seen, decoder.handed()), (what.map(|n| n > 0), &[][..]), "{bytes}");
    }
    assert!(decoder.next(&hex("80 41")).0.is_ok());
    assert_eq!((decoder.next(&[0; 65537]).0, decoder.handed()), (Err(Refusal::NUMBER), &[][..]));
    // The longest body, and through the events of a piece.
    let long = [&hex("df de 10 00")[..], &[0xff; 4096]].concat();
    let mut events = decoder.events(&long);
    assert_eq!(events.next(), Some(Err(Refusal::DefinitionNotUtf8 { good: 0 })));
    assert_eq!(events.handed(), [0xff; 4096]);
    assert_eq!(events.next(), None);
    assert_eq!(events.handed(), []);
}

/// 01: of the output only the bytes handed out are written.
#[test]
fn bytes_after_those_handed_out_are_as_they_were() {
    for (bytes, want) in
        [("82 41 42 43", "41 42 43"), ("df de 00 02 df de 07", "df 07"), ("05", ""), ("82 41 42 80", "")]
    {
        let (mut state, mut out) = (Decoder::new().save(), [0xaa; 5000]);
        let got = raw::next(&mut state, &hex(bytes), &mut out);
        assert_eq!((&out[..got.len.into()], usize::from(got.len)), (&hex(want)[..], hex(want).len()));
        assert!(out[got.len.into()..].iter().all(|b| *b == 0xaa), "{bytes}");
    }
}

/// The fields of a state in their order: version, escaped, channel, whether a byte is pending, that byte, node (4), the kind of the
/// token, its class, want (4), left (4), stored (4), value (4); then the store.
#[test]
fn a_state_has_its_bytes() {
    let fresh = Decoder::new().save();
    assert_eq!(fresh[..27], hex("02 00 ff 00 00 00 00 00 00 00 00 00 00 00 00 00 00 00 00 00 00 00 00 00 00 00 00"));
    assert!(fresh[27..].iter().all(|b| *b == 0));
    assert_eq!(fresh.len(), 27 + 4096);

    // What is fed, the fields after it, and the front of the store.
    let states = [
        // In channel 1, node -2, in the middle of a body: of 16 bytes 1 and 3 have come, of 272 two.
        (
            "df d1 d7 ff ff ff fe df 00 10 41",
            "02 00 01 00 00 ff ff ff fe 03 00 00 00 00 10 00 00 00 0f 00 00 00 01 00 00 00 00",
            "41",
        ),
        (
            "df d1 d7 ff ff ff fe df de 00 10 41 df de 43",
            "02 00 01 00 00 ff ff ff fe 03 00 00 00 00 10 00 00 00 0d 00 00 00 03 00 00 00 00",
            "41 df 43",
        ),
        (
            "d7 00 00 01 02 df de 01 10 41 42",
            "02 00 ff 00 00 00 00 01 02 03 00 00 00 01 10 00 00 01 0e 00 00 00 02 00 00 00 00",
            "41 42",
        ),
        // A string of 3 bytes, of which 2 have come; a number of 4, of which 2; a body's count, of which 1.
        ("82 41 42", "02 00 ff 00 00 00 00 00 00 02 00 00 00 00 03 00 00 00 01 00 00 00 00 00 00 00 00", "41 42"),
        ("d4 12 34", "02 00 ff 00 00 00 00 00 00 01 05 00 00 00 00 00 00 00 02 00 00 00 00 00 00 12 34", ""),
        ("df de 01", "02 00 ff 00 00 00 00 00 00 01 09 00 00 00 00 00 00 00 01 00 00 00 00 00 00 00 01", ""),
        // 02: a count 0, after which four units are wanted; of a body of 70,000 one has come, and nothing is stored.
        ("df de 00 00", "02 00 ff 00 00 00 00 00 00 01 0a 00 00 00 00 00 00 00 04 00 00 00 00 00 00 00 00", ""),
        (
            "df de 00 00 00 01 11 70 41",
            "02 00 ff 00 00 00 00 00 00 03 00 00 01 11 70 00 01 11 6f 00 00 00 00 00 00 00 00",
            "",
        ),
        // A byte df, after which the next one tells.
        ("df d3 df", "02 01 03 00 00 00 00 00 00 00 00 00 00 00 00 00 00 00 00 00 00 00 00 00 00 00 00", ""),
    ];
    for (bytes, fields, store) in states {
        let mut decoder = Decoder::new();
        assert_eq!(decoder.events(&hex(bytes)).count(), 0, "{bytes}");
        let (state, store) = (decoder.save(), hex(store));
        assert_eq!(state[..27], hex(fields), "{bytes}");
        assert_eq!(state[27..27 + store.len()], store, "{bytes}");
        assert!(state[27 + store.len()..].iter().all(|b| *b == 0), "{bytes}");
    }
    // A byte is pending after the call that gave an event before it.
    let mut decoder = Decoder::new();
    assert_eq!(decoder.next(&hex("df d1 80 df 05")), (Err(Refusal::StringNotUtf8 { good: 0 }), 5));
    assert_eq!(decoder.save()[..11], hex("02 00 01 01 05 00 00 00 00 00 00"));
}

#[test]
fn a_state_that_is_none_is_refused() {
    assert_eq!(Decoder::restore(&[]).err(), Some(Refusal::STATE));
    let mut saved = Decoder::default().save();
    assert!(Decoder::restore(&saved).is_ok());
    saved[2] = 14;
    assert_eq!(Decoder::restore(&saved).err(), Some(Refusal::STATE));
}

/// 02, Job 4: "count 0 and then a 32-bit count .. From now on the 32-bit count is the count".
#[test]
fn a_long_count_is_the_count() {
    let body = "00 00 00 00 00 00 00 02 00 00 01 61 00 00 00";
    let long = events(&format!("df de 00 00 00 00 00 0f {body} 05"));
    assert!(matches!(&long[..], [Ok(Event::Definition(d)), Ok(_)] if d.id() == 2 && d.body() == hex(body)), "{long:?}");
    let of =
        |count: u32, units: usize| [&hex("df de 00 00")[..], &count.to_be_bytes(), &vec![0x41; units], &[5]].concat();
    let read = |bytes: &[u8], size: usize| {
        let mut decoder = Decoder::new();
        bytes.chunks(size).flat_map(|p| decoder.events(p).collect::<Vec<_>>()).collect::<Vec<_>>()
    };
    for size in [1, 3, 8, 4096, 65536] {
        assert_eq!(read(&of(0, 0), size), [Err(Refusal::BODY_EMPTY), value(0, 5)]);
        assert_eq!(read(&of(1, 1), size), [Err(Refusal::DEFINITION_SHORT), value(0, 5)]);
        for count in [4097, 65535, 65536, 70000] {
            assert_eq!(read(&of(count, count as usize), size), [Err(Refusal::BODY_LONG), value(0, 5)], "{count}");
        }
    }
    let most = read(&of(4096, 4096), 1000);
    assert!(matches!(&most[..], [Ok(Event::Definition(d)), Ok(_)] if d.body() == [0x41; 4096]), "{most:?}");
    assert_eq!(read(&of(u32::MAX, 70000), 65536), []);
}

/// The end of a body of 2^32 - 1 units, from a state that has skipped all but two.
#[test]
fn the_longest_body_ends() {
    let mut saved = Decoder::new().save();
    saved[9] = 3;
    saved[11..15].copy_from_slice(&[0xff; 4]);
    saved[18] = 2;
    let mut decoder = Decoder::restore(&saved).unwrap();
    assert_eq!(decoder.events(&hex("41")).count(), 0);
    assert_eq!(decoder.events(&hex("41 05")).collect::<Vec<_>>(), [Err(Refusal::BODY_LONG), value(0, 5)]);
    // One byte stored, or more left than wanted.
    saved[22] = 1;
    assert_eq!(Decoder::restore(&saved).err(), Some(Refusal::STATE));
    saved[22] = 0;
    saved[14] = 0xfe;
    saved[15..19].copy_from_slice(&[0xff; 4]);
    assert_eq!(Decoder::restore(&saved).err(), Some(Refusal::STATE));
}

/// States that the release before wrote, after these bytes: their fields and the front of their store.
const EARLIER: [(&str, &str, &str); 10] = [
    ("", "01 00 ff 00 00 00 00 00 00 00 00 00 00 00 00 00 00 00 00 00 00 00 00 00 00 00 00", ""),
    ("df d1 d7 00 00 00 07", "01 00 01 00 00 00 00 00 07 00 00 00 00 00 00 00 00 00 00 00 00 00 00 00 00 00 00", ""),
    ("d7 ff", "01 00 ff 00 00 00 00 00 00 01 07 00 00 00 00 00 00 00 03 00 00 00 00 00 00 00 ff", ""),
    ("d5 3f 80", "01 00 ff 00 00 00 00 00 00 01 06 00 00 00 00 00 00 00 02 00 00 00 00 00 00 3f 80", ""),
    ("83 df df", "01 01 ff 00 00 00 00 00 00 02 00 00 00 00 04 00 00 00 03 00 00 00 00 00 00 00 00", "df"),
    ("df de 00", "01 00 ff 00 00 00 00 00 00 01 09 00 00 00 00 00 00 00 01 00 00 00 00 00 00 00 00", ""),
    ("df de 00 03 41 df", "01 01 ff 00 00 00 00 00 00 03 00 00 00 00 03 00 00 00 02 00 00 00 01 00 00 00 00", "41"),
    ("df de 10 00 41 42", "01 00 ff 00 00 00 00 00 00 03 00 00 00 10 00 00 00 0f fe 00 00 00 02 00 00 00 00", "41 42"),
    ("df de ff ff 41 42", "01 00 ff 00 00 00 00 00 00 03 00 00 00 ff ff 00 00 ff fd 00 00 00 00 00 00 00 00", ""),
    ("df de 00 00", "01 00 ff 00 00 00 00 00 00 01 0a 00 00 00 00 00 00 00 04 00 00 00 00 00 00 00 00", ""),
];

/// The bytes of such a state.
fn earlier(fields: &str, store: &str) -> Vec<u8> {
    let mut saved = [hex(fields), hex(store)].concat();
    saved.resize(4123, 0);
    saved
}

/// 02: "An old sound state is carried over with its units left, stored bytes and all else the same".
#[test]
fn a_state_of_version_1_is_carried_over() {
    for (bytes, fields, store) in EARLIER {
        let saved = earlier(fields, store);
        let mut now = Decoder::new();
        assert_eq!(now.events(&hex(bytes)).count(), 0, "{bytes}");
        let over = Decoder::carry_over(&saved).unwrap();
        assert!(over.save() == now.save() && over.node() == now.node(), "{bytes}");
        // But for the version it is byte for byte the same; as it is, it is no state of today's, and today's is none of version 1.
        assert_eq!(over.save()[1..], saved[1..], "{bytes}");
        assert_eq!(Decoder::restore(&saved).err(), Some(Refusal::STATE), "{bytes}");
        assert_eq!(Decoder::carry_over(&now.save()).err(), Some(Refusal::STATE), "{bytes}");
    }
}

/// 02: "one that has taken any of the four units after count 0, or isn't sound, gets 8".
#[test]
fn a_state_of_version_1_is_refused() {
    let taken = [
        "01 00 ff 00 00 00 00 00 00 01 0a 00 00 00 00 00 00 00 03 00 00 00 00 00 00 00 00",
        "01 00 ff 00 00 00 00 00 00 01 0a 00 00 00 00 00 00 00 01 00 00 00 00 00 00 00 00",
    ];
    let unsound = [
        "01 00 0e 00 00 00 00 00 00 00 00 00 00 00 00 00 00 00 00 00 00 00 00 00 00 00 00",
        "01 00 ff 00 00 00 00 00 00 03 00 00 01 00 00 00 01 00 00 00 00 00 00 00 00 00 00",
    ];
    for fields in taken.into_iter().chain(unsound) {
        let (saved, mut state) = (earlier(fields, ""), vec![0xaa; 4123]);
        assert_eq!(Decoder::carry_over(&saved).err(), Some(Refusal::STATE), "{fields}");
        let written = raw::state_carry_over(&saved, &mut state);
        assert_eq!((written.status, written.len, state), (-8, 0, vec![0xaa; 4123]), "{fields}");
    }
    let fresh = earlier(EARLIER[0].1, "");
    assert_eq!(Decoder::carry_over(&fresh[..4122]).err(), Some(Refusal::STATE));
    // 8 before 9, and what is longer than a state stays as it was after it.
    for (len, want) in [(0, (-9, 0)), (4122, (-9, 0)), (4123, (0, 4123)), (4200, (0, 4123))] {
        let mut state = vec![0xaa; len];
        let written = raw::state_carry_over(&fresh, &mut state);
        assert_eq!((written.status, written.len), want);
        assert!(state[written.len..].iter().all(|b| *b == 0xaa));
        assert_eq!(raw::state_carry_over(&[], &mut state).status, -8);
    }
}
