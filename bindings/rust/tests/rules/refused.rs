//! Every number of 01's table 'What is sent back' and of 02's requests, and that what was lent is as it was.
use crate::hex;
use whistleloam::raw;
use whistleloam::{
    keep_alive_meters, read_meters, request_meter, Decoder, Definition, Details, Fields, Meter, Mirror, Refusal,
    Window, PLACE_WIDTH, STATE_SIZE,
};

fn first(bytes: &str) -> Result<(), Refusal> {
    Decoder::new().events(&hex(bytes)).next().unwrap().map(|_| ())
}

#[test]
fn each_number_has_its_cause() {
    let mut one = Mirror::new(1).unwrap();
    one.set(1, 1).unwrap();
    let meters = [Meter::Monitor; 65];
    let node = Definition::from_bytes(&hex("00 00 00 00 00 00 00 02 00 00 01 61 00 00 00")).unwrap().fields();
    let listed = Fields { details: Details::Items(1), ..node };
    let load = |text: &str| Mirror::new(2).unwrap().load(text).map(|_| ()).map_err(Refusal::from);
    let causes: [Result<(), Refusal>; 19] = [
        first("80 80"),
        first(&("df de 10 01 ".to_string() + &"00 ".repeat(4097))),
        first("df de 00 00 00 00 00 00"),
        first("df de 00 01 00"),
        first("df de 00 0f 00 00 00 00 00 00 00 02 00 00 01 80 00 00 00"),
        one.set(2, 1).map(|_| ()),
        Mirror::new(1025).map(|_| ()),
        Decoder::restore(&[0; STATE_SIZE]).map(|_| ()),
        one.recall_into(&mut [0; 1]).map(|_| ()),
        one.set(1, "x".repeat(257)).map(|_| ()),
        request_meter(&meters, 1, 1).map(|_| ()),
        request_meter(&meters[..64], 1, 65535).map(|_| ()),
        read_meters(&[0; 3]).map(|_| ()),
        one.feed(&[0; 65537]).map(|_| ()),
        node.to_bytes(&"x".repeat(256), "", &[]).map(|_| ()),
        listed.to_bytes("x", "", &[]).map(|_| ()),
        load("id,kind,value\n1,i,05\n"),
        load("id,kind,value\n1,i,5\n1,i,5\n"),
        Window::new(257).map(|_| ()),
    ];
    for (number, cause) in (1..).zip(causes) {
        let why = cause.expect_err("taken");
        assert_eq!(why.number(), number, "{why}");
        assert!(why.to_string().starts_with(&format!("refusal {number}: ")), "{why}");
        assert!(!why.words().contains("do not have"), "{why}");
        // 1 and 5 have a good, all others are a number alone.
        assert_eq!(why.good().is_some(), number == 1 || number == 5, "{why}");
        assert_eq!(why == Refusal::Other(number), why.good().is_none(), "{why}");
    }
}

/// A table with a record of node 1 whose byte at a place is another.
fn table(at: usize, byte: u8) -> Vec<u8> {
    let mut mirror = Mirror::new(2).unwrap();
    mirror.set(1, 1).unwrap();
    let mut table = mirror.table().to_vec();
    table[at] = byte;
    table
}

#[test]
fn a_damaged_table_is_7_at_every_call_and_nothing_is_written() {
    let state = Decoder::new().save();
    for (at, byte) in [(4, 3), (5, 2), (5, 255), (6, 1), (7, 5), (12, 1), (263, 1)] {
        let before = table(at, byte);
        let (mut t, mut s, mut out) = (before.clone(), state.clone(), [0xaa; 64]);
        assert_eq!(raw::table_check(&t, 1), -7, "{at}");
        assert_eq!(raw::feed(&mut s, &mut t, 1, &[5]).status, -7);
        assert_eq!(raw::set_int(&mut t, 1, &mut out, 1, 5).status, -7);
        assert_eq!(raw::set_float(&mut t, 1, &mut out, 1, 5).status, -7);
        assert_eq!(raw::set_string(&mut t, 1, &mut out, 1, &[0x80; 300]).status, -7);
        assert_eq!(raw::recall(&t, 1, &mut out).status, -7);
        assert_eq!(raw::print(&t, 1, &mut out).status, -7);
        assert_eq!(raw::lookup(&t, 1, 1).status, -7);
        assert_eq!(raw::record(&t, 1, 9).status, -7);
        assert_eq!(raw::same(&t, 1, &table(8, 0), 1), -7);
        assert_eq!(raw::same(&table(8, 0), 1, &t, 1), -7);
        assert!(t == before && s == state && out == [0xaa; 64], "{at}");
        // Without the record the same bytes are no part of the table.
        assert_eq!(raw::table_check(&t, 0), 0);
    }
}

#[test]
fn beside_a_refusal_all_fields_are_0() {
    let record = raw::record(&table(8, 0), 1, 1);
    assert_eq!((record.status, record.id, record.value, record.len, record.kind), (-14, 0, 0, 0, 0));
    assert_eq!((record.origin, record.string), (0, [0; 256]));
    let (mut t, mut s) = (table(8, 0), Decoder::new().save());
    let fed = raw::feed(&mut s, &mut t, 1, &[5; 65537]);
    let zero = raw::WingFed { status: -14, count: 1, ..raw::feed(&mut s, &mut t, 1, &[]) };
    assert_eq!((fed, fed.stored), (zero, 0));
    let definition = raw::definition(&[0xff; 20]);
    assert_eq!((definition.status, definition.id, definition.index, definition.read_only), (-4, 0, 0, false));
    let step = raw::item_step(&[1], 0, 3, 5);
    assert_eq!((step.item.status, step.item.len, step.walk.at, step.walk.left, step.walk.node_type), (-4, 0, 0, 3, 5));
    let loaded = raw::load(b"id,kind,value\n?", &mut t);
    assert_eq!((loaded.status, loaded.count, loaded.line), (-17, 0, 2));
    let requested = raw::request_meter(&mut [], &[], 9, 9);
    assert_eq!((requested.status, requested.id, requested.len), (-9, 0, 0));
}

#[test]
fn a_refused_call_gives_the_count_back() {
    let (mut t, mut s, mut out) = (table(4, 3), Decoder::new().save(), [0; 64]);
    assert_eq!(raw::feed(&mut s, &mut t, 77, &[]).count, 77);
    assert_eq!(raw::set_int(&mut t, 77, &mut out, 1, 5).count, 77);
    s[0] = 0;
    assert_eq!(raw::feed(&mut s, &mut t, 78, &[]).count, 78);
}

#[test]
fn a_damaged_state_is_8_and_nothing_is_written() {
    let fresh = Decoder::new().save();
    let mut refused = 0;
    // The version, a flag of 2, channel 14, a byte pending without a channel, a token that is none, the store.
    for (at, byte) in [(0, 0), (1, 2), (2, 14), (3, 1), (4, 5), (9, 4), (10, 1), (14, 1), (26, 1), (27, 1), (4122, 1)] {
        let mut state = fresh.clone();
        state[at] = byte;
        let before = state.clone();
        let (mut t, mut out) = (vec![0xaa; PLACE_WIDTH], [0xaa; 4096]);
        assert_eq!(raw::state_check(&state), -8, "{at}");
        assert_eq!(raw::feed(&mut state, &mut t, 0, &[5]).status, -8);
        // 8 comes before 7 and 14.
        assert_eq!(raw::feed(&mut state, &mut [], 1, &[5; 65537]).status, -8);
        assert_eq!(raw::next(&mut state, &[5; 65537], &mut out).status, -8);
        assert!(state == before && t == [0xaa; PLACE_WIDTH] && out == [0xaa; 4096], "{at}");
        refused += 1;
    }
    assert_eq!(refused, 11);
    assert_eq!(raw::state_check(&fresh), 0);
    assert_eq!(raw::state_check(&[&fresh[..], &[0]].concat()), -8);
}

#[test]
fn a_fresh_state_has_its_size() {
    let mut out = vec![0xaa; STATE_SIZE + 9];
    assert_eq!(raw::state_fresh(&mut out[..STATE_SIZE - 1]).status, -9);
    assert_eq!(out, vec![0xaa; STATE_SIZE + 9]);
    let written = raw::state_fresh(&mut out);
    assert_eq!((written.status, written.len), (0, STATE_SIZE));
    assert_eq!((&out[..STATE_SIZE], &out[STATE_SIZE..]), (&Decoder::new().save()[..], &[0xaa; 9][..]));
}

#[test]
fn the_orders_of_the_numbers_hold() {
    let (mut s, mut out) = (Decoder::new().save(), [0; 4096]);
    // 14 before 9; 10 before 1 before 9; 7 before 10.
    assert_eq!(raw::next(&mut s, &[0; 65537], &mut out[..1]).status, -14);
    assert_eq!(raw::next(&mut s, &[0; 65536], &mut out[..4095]).status, -9);
    assert_eq!(raw::order_string(&mut [], 1, &[0x80; 257]).status, -10);
    assert_eq!(raw::order_string(&mut [], 1, &[0x80; 256]).status, -1);
    assert_eq!(raw::order_string(&mut [], 1, &[0x41; 256]).status, -9);
    let mut t = vec![0; PLACE_WIDTH];
    assert_eq!(raw::set_string(&mut t, 2, &mut [], 1, &[0x80; 257]).status, -7);
    assert_eq!(raw::set_string(&mut t, 0, &mut [], 1, &[0x80; 257]).status, -10);
    // 11 before 12 before 9; 13 before 9.
    assert_eq!(raw::request_meter(&mut [], &[0xa0; 130], 1, 65535).status, -11);
    assert_eq!(raw::request_meter(&mut [], &[0xa0; 129], 1, 65535).status, -12);
    assert_eq!(raw::request_meter(&mut [], &[0xa0; 129], 1, 65534).status, -9);
    assert_eq!(raw::read_meters(&[0; 8193], &mut []).status, -13);
    assert_eq!(raw::read_meters(&[0; 8192], &mut []).status, -9);
    assert!(keep_alive_meters(1, 0).is_empty());
}

/// 01: "A 15-byte node definition with a one-letter name passes; 14 bytes gives 4".
#[test]
fn a_definition_of_14_bytes_is_4() {
    let body = hex("00 00 00 00 00 00 00 02 00 00 01 61 00 00 00");
    assert_eq!(Definition::from_bytes(&body).unwrap().name(), "a");
    for len in 0..15 {
        assert_eq!(Definition::from_bytes(&body[..len]).unwrap_err(), Refusal::DEFINITION_SHORT, "{len}");
    }
}
