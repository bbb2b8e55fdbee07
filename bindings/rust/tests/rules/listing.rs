//! 02, the second request: listings printed and loaded.
use crate::{cleared, hex, sample};
use whistleloam::{raw, Decoder, LoadRefusal, Mirror, Refusal, Value, LISTING_MAX, PLACE_WIDTH};

const HEADER: &str = "id,kind,value\n";

/// A listing of these lines.
fn listing(lines: &[&str]) -> String {
    let lines: String = lines.iter().map(|line| format!("{line}\n")).collect();
    HEADER.to_string() + &lines
}

fn mirror_of(records: &[(i32, Value)]) -> Mirror {
    let mut mirror = Mirror::new(records.len().max(1)).unwrap();
    for (id, value) in records {
        mirror.set(*id, value.clone()).unwrap();
    }
    mirror
}

/// Records of every kind at the ends of what they can hold.
fn ends() -> Mirror {
    mirror_of(&[
        (i32::MIN, Value::Int(i32::MAX)),
        (-10, Value::Int(i32::MIN)),
        (-1, Value::Int(-1)),
        (0, Value::Int(0)),
        (9, Value::Float(0xffff_ffff)),
        (10, Value::Float(0)),
        (99, Value::from("")),
        (100, Value::from("ß".repeat(128))),
        (i32::MAX, Value::from("\0\n,\u{10ffff}")),
    ])
}

fn refused(mirror: &mut Mirror, text: &[u8]) -> (u8, Option<usize>) {
    let why: LoadRefusal = mirror.load(text).unwrap_err();
    (why.refusal().number(), why.line())
}

/// 01: the program `mirror` on its example.
#[test]
fn records_are_listed_as_the_program_lists_them() {
    let mut mirror = Mirror::new(128).unwrap();
    assert_eq!(mirror.print().unwrap(), HEADER);
    mirror.feed(&hex("df d1 d7 00 00 00 01 05 d7 ff ff ff fe d5 3f 80 00 00 d7 00 00 00 02 81 41 42")).unwrap();
    assert_eq!(mirror.print().unwrap(), listing(&["-2,f,3f800000", "1,i,5", "2,s,4142"]));
}

#[test]
fn the_ends_are_listed() {
    let long = format!("100,s,{}", "c39f".repeat(128));
    let want = listing(&[
        "-2147483648,i,2147483647",
        "-10,i,-2147483648",
        "-1,i,-1",
        "0,i,0",
        "9,f,ffffffff",
        "10,f,00000000",
        "99,s,",
        &long,
        "2147483647,s,000a2cf48fbfbf",
    ]);
    assert_eq!(ends().print().unwrap(), want);
}

/// 02: "gives an equal mirror with a fresh decoder", but for the origins, which are 0; "Printing a loaded text gives its bytes again".
#[test]
fn a_listing_makes_an_equal_mirror_but_for_the_origins_and_is_printed_again() {
    let mut captured = Mirror::new(128).unwrap();
    captured.feed(&sample("capture.bin")).unwrap();
    for mirror in [captured, ends(), Mirror::new(7).unwrap()] {
        let text = mirror.print().unwrap();
        for places in [mirror.len().max(1), 1024] {
            let mut other = Mirror::new(places).unwrap();
            // The front of a string: the decoder is not fresh.
            other.feed(&hex("df d1 d7 00 00 00 05 83 41 42")).unwrap();
            assert_ne!(other.state(), Decoder::new().save());
            assert_eq!(other.load(&text), Ok(mirror.len()));
            assert!(other == cleared(&mirror));
            assert_eq!((other.len(), other.state()), (mirror.len(), &Decoder::new().save()[..]));
            assert_eq!(other.print().unwrap(), text);
            assert_eq!(other.recall(), mirror.recall());
        }
    }
}

/// 02: "Old records are replaced and don't count for 7", nor for 6. The bytes past the last record stay.
#[test]
fn old_records_are_replaced() {
    let mut mirror = ends();
    let before = mirror.table().to_vec();
    assert_eq!(mirror.load(listing(&["5,i,5", "6,s,"])), Ok(2));
    assert_eq!(mirror.records().collect::<Vec<_>>(), [(5, Value::Int(5)), (6, Value::from(""))]);
    assert_eq!(mirror.table()[2 * PLACE_WIDTH..], before[2 * PLACE_WIDTH..]);
    assert_eq!(mirror.load(HEADER), Ok(0));
    assert!(mirror.is_empty());
    // A table that is out of form, and a length that is no multiple of a place's.
    let mut table = vec![0xaa; 2 * PLACE_WIDTH + 5];
    assert_eq!(raw::table_check(&table, 2), -7);
    let loaded = raw::load(listing(&["-7,i,8", "7,f,000000ff"]).as_bytes(), &mut table);
    assert_eq!((loaded.status, loaded.count, loaded.line), (0, 2, 0));
    assert_eq!((raw::table_check(&table, 2), &table[2 * PLACE_WIDTH..]), (0, &[0xaa; 5][..]));
}

/// A text, its refusal and the line that decides; and that nothing was changed.
#[test]
fn the_first_bad_line_decides_and_nothing_is_changed() {
    let digits = |n: usize, pair: &str| format!("7,s,{}", pair.repeat(n));
    let (long, broken, both) = (digits(257, "61"), digits(256, "c3"), digits(257, "c3"));
    let low = format!("5,s,{}", "c3".repeat(300));
    let mut cases: Vec<(String, u8, usize)> = vec![
        ("".into(), 17, 1),
        ("id,kind,value".into(), 17, 1),
        ("id,kind,value\r\n".into(), 17, 1),
        ("ID,kind,value\n5,i,5\n".into(), 17, 1),
        ("5,i,5\n".into(), 17, 1),
        (listing(&[""]), 17, 2),
        (listing(&["5,i,5"]) + "6,i,6", 17, 3),
        (listing(&["5,i,5", "6,i,6"]) + "\n", 17, 4),
        (listing(&["5,i,5", "5,i,6"]), 18, 3),
        (listing(&["5,i,5", "-6,i,6"]), 18, 3),
        (listing(&["5,i,5", &long]), 10, 3),
        (listing(&["5,i,5", &broken]), 1, 3),
        // Within a line 17, 18, 10, 1.
        (listing(&["5,i,5", &both]), 10, 3),
        (listing(&["5,i,5", &low]), 18, 3),
        (listing(&["5,i,5", &(low.clone() + "C3")]), 17, 3),
        (listing(&["5,i,5", &low, "6,x,", &both]), 18, 3),
        (listing(&["5,i,5", &broken, &low, "x"]), 1, 3),
        // 6 comes only when no line is bad.
        (listing(&["5,i,5", "6,i,6", "7,i,7", "8,i,8"]), 6, 0),
        (listing(&["5,i,5", "6,i,6", "7,i,7", "8,i,8", "8,i,8"]), 18, 6),
        (listing(&["5,i,5", "6,i,6", "7,i,7", "8,i,8"]) + "9", 17, 6),
    ];
    for line in [
        "5",
        "5,i",
        "5,i,",
        "5,i,5,",
        "5,i,5,5",
        ",i,5",
        "i,5,5",
        " 5,i,5",
        "5 ,i,5",
        "5,i,5 ",
        "5,i, 5",
        "\"5\",i,5",
        "+5,i,5",
        "05,i,5",
        "-0,i,5",
        "-,i,5",
        "--5,i,5",
        "2147483648,i,5",
        "-2147483649,i,5",
        "5,i,+5",
        "5,i,05",
        "5,i,-0",
        "5,i,2147483648",
        "5,i,-2147483649",
        "5,i,99999999999999999999",
        "5,i,0x5",
        "5,i,5.0",
        "5,I,5",
        "5,,5",
        "5,ii,5",
        "5,b,5",
        "5,f,3f80000",
        "5,f,3f8000000",
        "5,f,3F800000",
        "5,f,3f80000g",
        "5,f,",
        "5,s,4",
        "5,s,4G",
        "5,s,4A",
        "5,s,4142 ",
        "5,i,5\r",
    ] {
        cases.push((listing(&[line]), 17, 2));
        cases.push((listing(&["4,i,4", line]), 17, 3));
    }
    let mut mirror = Mirror::new(3).unwrap();
    mirror.feed(&hex("df d1 d7 00 00 00 01 05 d7 00 00")).unwrap();
    let before = mirror.clone();
    for (text, number, line) in cases {
        let want = (number, (line > 0).then_some(line));
        assert_eq!(refused(&mut mirror, text.as_bytes()), want, "{text:?}");
        assert_eq!((mirror.table(), mirror.count(), mirror.state()), (before.table(), 1, before.state()), "{text:?}");
    }
    // Bytes that are no text.
    assert_eq!(refused(&mut mirror, b"id,kind,value\n5,i,\xff\n"), (17, Some(2)));
}

/// 7 and 14 come before any line; a listing of 65,536 bytes is taken.
#[test]
fn places_and_length_come_first() {
    // 411 bytes in each line but the last, which has the 173 that are left.
    let lines = (0..160).map(|n| format!("{},s,{}\n", 1_000_000 + n, "61".repeat(if n < 159 { 200 } else { 81 })));
    let text = lines.fold(HEADER.to_string(), |text, line| text + &line);
    assert_eq!(text.len(), LISTING_MAX);
    let mut mirror = Mirror::new(1024).unwrap();
    assert_eq!(mirror.load(&text), Ok(160));
    assert_eq!(mirror.print().unwrap(), text);
    let before = mirror.clone();
    assert_eq!(refused(&mut mirror, (text.clone() + "\n").as_bytes()), (14, None));
    assert_eq!(refused(&mut mirror, &vec![b'?'; LISTING_MAX + 1]), (14, None));
    assert_eq!(refused(&mut mirror, &vec![b'?'; LISTING_MAX]), (17, Some(1)));
    assert_eq!((mirror.table(), mirror.count()), (before.table(), before.count()));
    for size in [0, PLACE_WIDTH - 1, 1025 * PLACE_WIDTH] {
        let mut table = vec![0xaa; size];
        let loaded = raw::load(&vec![b'?'; LISTING_MAX + 1], &mut table);
        assert_eq!((loaded.status, loaded.count, loaded.line), (-7, 0, 0), "{size}");
        assert_eq!(table, vec![0xaa; size]);
    }
    let mut table = vec![0; 1024 * PLACE_WIDTH + 263];
    assert_eq!(raw::load(HEADER.as_bytes(), &mut table).status, 0);
}

#[test]
fn a_listing_is_written_whole_or_not_at_all() {
    let mirror = ends();
    let text = mirror.print().unwrap();
    for room in [0, 13, 14, text.len() - 1] {
        let mut out = vec![0xaa; room];
        assert_eq!(mirror.print_into(&mut out), Err(Refusal::OUTPUT_SHORT));
        assert_eq!(out, vec![0xaa; room]);
    }
    for more in [0, 1, 9000] {
        let mut out = vec![0xaa; text.len() + more];
        assert_eq!(mirror.print_into(&mut out), Ok(text.len()));
        assert_eq!((&out[..text.len()], &out[text.len()..]), (text.as_bytes(), &vec![0xaa; more][..]));
    }
    // Over 65,536 bytes it is printed, and no load takes it.
    let mut large = Mirror::new(1024).unwrap();
    for id in 0..1024 {
        large.set(id, "x".repeat(256)).unwrap();
    }
    let text = large.print().unwrap();
    assert_eq!(text.lines().count(), 1025);
    assert_eq!(refused(&mut large, text.as_bytes()), (14, None));
}

#[test]
fn a_refusal_says_its_line() {
    let mut mirror = Mirror::new(1).unwrap();
    let said = |why: LoadRefusal| (why.to_string(), format!("{why:?}"));
    let line = "line 2: refusal 17: a listing's header or line is out of form";
    assert_eq!(said(mirror.load(listing(&["x"])).unwrap_err()), (line.into(), line.into()));
    let none = "refusal 6: a new node, and no place left, or more records than places";
    let why = mirror.load(listing(&["1,i,1", "2,i,2"])).unwrap_err();
    assert_eq!((said(why), Refusal::from(why)), ((none.into(), none.into()), Refusal::NO_PLACE));
}
