//! 02, the fifth request: beside 1 and 5 stands how many leading bytes of the string form whole characters. Rust's own test says how many.
use crate::Dice;
use whistleloam::raw::{self, WingFields};
use whistleloam::{
    is_utf8, utf8_good, Decoder, Definition, Details, Mirror, Refusal, BODY_LIMIT, NAME_MAX, STRING_MAX,
};

/// Bytes that no characters have: cut ones, overlong forms, surrogates, tails that no character wants, what is past U+10FFFF.
const PIECES: [&[u8]; 17] = [
    b"\xc3",
    b"\xe2",
    b"\xe2\x82",
    b"\xf0\x9f",
    b"\xf0\x9f\x98",
    b"\xc0\x80",
    b"\xc1\xbf",
    b"\xe0\x80\x80",
    b"\xe0\x9f\xbf",
    b"\xf0\x8f\xbf\xbf",
    b"\xed\xa0\x80",
    b"\xed\xbf\xbf",
    b"\x80",
    b"\xbf\xbf",
    b"\xf4\x90\x80\x80",
    b"\xf5\x80\x80\x80",
    b"\xff",
];

/// How many leading bytes of a string that is not UTF-8 form whole characters.
fn good_of(s: &[u8]) -> usize {
    std::str::from_utf8(s).unwrap_err().valid_up_to()
}

/// Each of the pieces after whole characters of every length, at the end of the string or before another one, and as the last of so many
/// bytes.
fn broken(most: usize) -> Vec<Vec<u8>> {
    let mut strings = Vec::new();
    for piece in PIECES {
        for front in ["", "a", "é", "€", "😀", "aé€😀", "wxyz€"] {
            for end in ["", "z", "é"] {
                strings.push([front.as_bytes(), piece, end.as_bytes()].concat());
            }
        }
        strings.push([&vec![b'a'; most - piece.len()], piece].concat());
    }
    strings
}

fn string(s: &[u8]) -> Refusal {
    Refusal::StringNotUtf8 { good: good_of(s) }
}

fn of_definition(s: &[u8]) -> Refusal {
    Refusal::DefinitionNotUtf8 { good: good_of(s) }
}

#[test]
fn the_check_says_how_much_is_good() {
    let mut dice = Dice(5);
    let near = [0, 0x41, 0x7f, 0x80, 0x8f, 0x90, 0x9f, 0xa0, 0xbf, 0xc2, 0xdf, 0xe0, 0xed, 0xef, 0xf0, 0xf4, 0xf5];
    let random = (0..20_000).map(|_| (0..dice.below(9)).map(|_| near[dice.below(near.len())]).collect::<Vec<u8>>());
    let random: Vec<Vec<u8>> = random.collect();
    for s in broken(1000).iter().chain(&random) {
        let good = utf8_good(s);
        assert_eq!(good, std::str::from_utf8(s).map_or_else(|e| e.valid_up_to(), str::len), "{s:x?}");
        // The largest such number: what is good is UTF-8, and nothing longer is.
        assert!(is_utf8(&s[..good]) && (good + 1..=s.len()).all(|n| !is_utf8(&s[..n])), "{s:x?}");
    }
}

#[test]
fn the_goods_reach_to_255_and_254() {
    let goods = |most| broken(most).iter().map(|s| good_of(s)).max();
    assert_eq!((goods(STRING_MAX), goods(NAME_MAX)), (Some(255), Some(254)));
    assert_eq!(string(b"ab\xc3").to_string(), "refusal 1: a string is not UTF-8 (good bytes: 2)");
    assert_eq!(of_definition(b"\xff").to_string(), "refusal 5: a definition's string is not UTF-8 (good bytes: 0)");
    assert_eq!(Refusal::check_with(-9, 0), Err(Refusal::OUTPUT_SHORT));
    assert_eq!((Refusal::check_with(0, 0), Refusal::check_with(1, 0)), (Ok(0), Ok(1)));
}

#[test]
fn set_orders_pass_it_on() {
    let mut mirror = Mirror::new(2).unwrap();
    mirror.set(1, "before").unwrap();
    let mut table = mirror.table().to_vec();
    for s in broken(STRING_MAX) {
        let mut out = [0xaa; 400];
        let order = raw::order_string(&mut out, 1, &s);
        assert_eq!(Refusal::check_with(order.status, order.good), Err(string(&s)), "{s:x?}");
        let set = raw::set_string(&mut table, 1, &mut out, 1, &s);
        assert_eq!(Refusal::check_with(set.status, set.good), Err(string(&s)), "{s:x?}");
        assert_eq!((order.len, set.len, set.count), (0, 0, 1));
        // The string is not stored, and nothing of it is sent.
        assert!(table == mirror.table() && out == [0xaa; 400], "{s:x?}");
    }
}

/// A string's token. None of the strings here has a df in it, which would be escaped.
fn token(s: &[u8]) -> Vec<u8> {
    [&[0xd1, (s.len() - 1) as u8], s].concat()
}

#[test]
fn strings_of_the_wire_pass_it_on() {
    for s in broken(STRING_MAX) {
        let sent = token(&s);
        let mut out = vec![0xaa; BODY_LIMIT];
        let got = raw::next(&mut Decoder::new().save(), &sent, &mut out);
        assert_eq!(Refusal::check_with(got.status, got.good), Err(string(&s)), "{s:x?}");
        assert_eq!((got.taken, got.len, got.kind), (sent.len(), 0, 0));
        assert_eq!(out, vec![0xaa; BODY_LIMIT]);
        for cut in 0..sent.len() {
            let mut decoder = Decoder::new();
            assert_eq!(decoder.next(&sent[..cut]), (Ok(None), cut));
            assert_eq!(decoder.next(&sent[cut..]), (Err(string(&s)), sent.len() - cut), "{s:x?}");
            assert_eq!(decoder.save(), Decoder::new().save());
        }
        let mut mirror = Mirror::new(1).unwrap();
        let counts = mirror.feed(&sent).unwrap();
        assert_eq!((counts.strings_refused, counts.stored, mirror.len()), (1, 0, 0));
    }
}

#[test]
fn listings_pass_it_on_beside_the_line() {
    for s in broken(STRING_MAX) {
        let hex: String = s.iter().map(|b| format!("{b:02x}")).collect();
        let text = format!("id,kind,value\n1,i,5\n2,s,{hex}\n3,s,ff\n");
        let mut mirror = Mirror::new(3).unwrap();
        let why = mirror.load(&text).unwrap_err();
        assert_eq!((why.refusal(), why.line()), (string(&s), Some(3)), "{s:x?}");
        assert_eq!(why.to_string(), format!("line 3: {}", string(&s)));
        let loaded = raw::load(text.as_bytes(), &mut mirror.table().to_vec());
        assert_eq!(Refusal::check_with(loaded.status, loaded.good), Err(string(&s)));
        assert_eq!((loaded.count, loaded.line, mirror.len()), (0, 3, 0));
    }
}

/// A string as a definition has it.
fn named(s: &[u8]) -> Vec<u8> {
    [&[s.len() as u8], s].concat()
}

/// Two names, and the bytes of an item with its type.
type Parts = (Vec<u8>, Vec<u8>, u8, Vec<u8>);

/// The string at each place that a definition has for one: its names, the two of a string's item, that of a float's. Those after it are broken too, with
/// another good: the first counts.
fn places(s: &[u8]) -> [Parts; 5] {
    let (fine, later) = (b"n".to_vec(), b"later\xff".to_vec());
    let strings = |first: &[u8], second: &[u8]| [named(first), named(second)].concat();
    [
        (s.to_vec(), later.clone(), 0, vec![]),
        (fine.clone(), s.to_vec(), 5, strings(&later, &later)),
        (fine.clone(), fine.clone(), 5, strings(s, &later)),
        (fine.clone(), fine.clone(), 5, strings(b"", s)),
        (fine.clone(), fine, 6, [&b"\xff\xff\xff\xff"[..], &named(s)].concat()),
    ]
}

fn body_of((name, long_name, node_type, items): &Parts) -> Vec<u8> {
    let count: &[u8] = if *node_type == 0 { &[] } else { &[0, 1] };
    [&[0; 10][..], &named(name), &named(long_name), &[0, node_type * 16], count, items].concat()
}

#[test]
fn definitions_that_are_read_pass_it_on() {
    for s in broken(NAME_MAX) {
        let want = of_definition(&s);
        for parts in places(&s) {
            let body = body_of(&parts);
            assert_eq!(Definition::from_bytes(&body), Err(want), "{s:x?}");
            let (read, begun, item) = (raw::definition(&body), raw::items_begin(&body), raw::item(&body, 0));
            assert_eq!(Refusal::check_with(read.status, read.good), Err(want));
            assert_eq!(Refusal::check_with(begun.status, begun.good), Err(want));
            assert_eq!(Refusal::check_with(item.status, item.good), Err(want));
            let mut out = vec![0xaa; BODY_LIMIT];
            let anew = raw::write_anew(&body, &mut out);
            assert_eq!(Refusal::check_with(anew.status, anew.good), Err(want));
            assert_eq!(out, vec![0xaa; BODY_LIMIT]);
            let mut decoder = Decoder::new();
            let sent = [&[0xdf, 0xde, (body.len() >> 8) as u8, body.len() as u8][..], &body].concat();
            assert_eq!(decoder.next(&sent), (Err(want), sent.len()));
            assert_eq!(decoder.handed(), body);
        }
    }
}

/// A step from the place of an item: the walk is as it was.
#[test]
fn steps_pass_it_on() {
    for s in broken(NAME_MAX) {
        for (_, _, node_type, items) in &places(&s)[2..] {
            let step = raw::item_step(&[&b"..."[..], items].concat(), 3, 2, *node_type);
            assert_eq!(Refusal::check_with(step.item.status, step.item.good), Err(of_definition(&s)), "{s:x?}");
            let walk = raw::WingWalk { status: 0, good: 0, at: 3, left: 2, node_type: *node_type };
            assert_eq!(step.walk, walk);
        }
    }
}

fn fields(node_type: u8) -> WingFields {
    let count = u16::from(node_type > 0);
    WingFields {
        parent_id: 0,
        id: 0,
        index: 0,
        node_type,
        unit: 0,
        read_only: false,
        count,
        max_len: 0,
        min: 0,
        max: 0,
        steps: 0,
    }
}

#[test]
fn definitions_that_are_written_pass_it_on() {
    let listed = body_of(&(b"n".to_vec(), b"n".to_vec(), 5, b"\x00\x00".to_vec()));
    let listed = Definition::from_bytes(&listed).unwrap().fields();
    assert_eq!(listed.details, Details::Items(1));
    for s in broken(NAME_MAX) {
        for (name, long_name, node_type, items) in places(&s) {
            let mut out = [0xaa; 600];
            let got = raw::write_definition(fields(node_type), &name, &long_name, &items, &mut out);
            assert_eq!(Refusal::check_with(got.status, got.good), Err(of_definition(&s)), "{s:x?}");
            assert!(got.len == 0 && out == [0xaa; 600]);
        }
        // The crate's own way takes names that are UTF-8; an item's string may be any bytes.
        let items = [&b"\x00"[..], &named(&s)].concat();
        assert_eq!(listed.to_bytes("n", "n", &items), Err(of_definition(&s)));
    }
}

/// Beside every status but -1 and -5 the good is 0.
#[test]
fn other_orders_have_no_good() {
    let (mut out, mut t) = ([0; 64], Mirror::new(1).unwrap().table().to_vec());
    let not_utf8 = [0xff; 257];
    let written = [
        (raw::order_string(&mut out, 1, &not_utf8), -10),
        (raw::order_string(&mut [], 1, b"a"), -9),
        (raw::order_string(&mut out, 1, b"a"), 0),
        (raw::write_definition(fields(8), &not_utf8[..9], b"", b"", &mut out), -16),
        (raw::write_definition(fields(0), b"n", b"", b"", &mut out), 0),
        (raw::write_anew(&not_utf8[..9], &mut out), -4),
        (raw::recall(&t, 0, &mut out), 0),
    ];
    for (got, status) in written {
        assert_eq!((got.status, got.good), (status, 0));
    }
    for (value, count, status) in [(&not_utf8[..], 2, -7), (&not_utf8, 0, -10), (b"a", 0, 0), (b"b", 1, -6)] {
        let set = raw::set_string(&mut t, count, &mut out, count as i32, value);
        assert_eq!((set.status, set.good), (status, 0));
    }
    let texts = [("id,kind,value\n", 0), ("id,kind,value\n1,s,fff\n", -17), ("id,kind,value\n1,i,1\n2,i,1\n", -6)];
    for (text, status) in texts {
        let loaded = raw::load(text.as_bytes(), &mut t);
        assert_eq!((loaded.status, loaded.good), (status, 0), "{text}");
    }
}

#[test]
fn other_events_have_no_good() {
    let (mut state, mut out) = (Decoder::new().save(), vec![0; BODY_LIMIT]);
    let long = [&[0xdf, 0xde, 0x10, 0x01][..], &[0; 4097]].concat();
    // More, an event, 2 and 3; then 14, 9 and 8 of the call itself.
    for (bytes, status) in
        [(&[][..], 0), (b"\x05", 1), (&long, -2), (b"\xdf\xde\0\0\0\0\0\0", -3), (&[0x80; 65537], -14)]
    {
        let got = raw::next(&mut state, bytes, &mut out);
        assert_eq!((got.status, got.good), (status, 0));
    }
    let got = raw::next(&mut state, b"\x80\xff", &mut out[..9]);
    assert_eq!((got.status, got.good), (-9, 0));
    state[0] = 0;
    let got = raw::next(&mut state, b"\x80\xff", &mut out);
    assert_eq!((got.status, got.good), (-8, 0));
}

#[test]
fn other_definitions_have_no_good() {
    let body = body_of(&(b"n".to_vec(), b"n".to_vec(), 5, b"\x01a\x01b".to_vec()));
    for (len, status) in [(body.len(), 0), (9, -4)] {
        let (read, begun) = (raw::definition(&body[..len]), raw::items_begin(&body[..len]));
        assert_eq!((read.status, read.good, begun.status, begun.good), (status, 0, status, 0));
    }
    for (number, status) in [(0, 1), (1, -14)] {
        let item = raw::item(&body, number);
        assert_eq!((item.status, item.good), (status, 0));
    }
    let at = raw::items_begin(&body).at;
    for (left, body, status) in [(1, &body[..], 1), (0, &body, 0), (1, &body[..at + 1], -4)] {
        let step = raw::item_step(body, at, left, 5);
        assert_eq!((step.item.status, step.item.good, step.walk.good), (status, 0, 0));
    }
}
