// Orders that are longer than the random ones: long streams and the cuts of them, many items, large packets, outputs
// around the lengths at which the port's writers change their way, and the benchmark's inputs.
use crate::inputs;
use crate::oracle;
use crate::orders::{Order, HELD};
use crate::queries::{damaged, escaped, meter_items, token, tokens, Dice};

type Each<'a> = &'a mut dyn FnMut(&'static str, Order);

fn tokens_up_to(d: &mut Dice, len: usize) -> Vec<u8> {
    let mut s = tokens(d, 1);
    while s.len() < len {
        token(d, &mut s);
    }
    s
}

// Tokens of 10 to 60 kB, with up to a dozen bytes altered, left out or put in.
fn long_stream(d: &mut Dice) -> Vec<u8> {
    let len = 10_000 + d.below(50_001);
    let mut s = tokens_up_to(d, len);
    s.truncate(60_000);
    for _ in 0..d.below(13) {
        let at = d.below(s.len() as u64);
        match d.below(3) {
            0 => s[at] = d.telling(),
            1 => {
                s.remove(at);
            }
            _ => s.insert(at, d.telling()),
        }
    }
    s
}

/// Sizes of pieces, from 1 byte to 4 kB side by side.
fn sizes(d: &mut Dice) -> Vec<u16> {
    let n = 4 + d.below(40);
    (0..n).map(|_| match d.below(6) {
        0 | 1 => 1,
        2 => 2 + d.below(8),
        3 => 10 + d.below(90),
        4 => 100 + d.below(900),
        _ => 1000 + d.below(3097),
    } as u16).collect()
}

fn long_streams(d: &mut Dice, n: usize, each: Each) {
    for _ in 0..n {
        let s = long_stream(d);
        each("streams of 10 to 60 kB, whole", Order::Stream(s.clone()));
        let sizes = sizes(d);
        each("streams of 10 to 60 kB, in pieces of 1 to 4,096 bytes", Order::Pieces(sizes, s));
    }
}

// Tokens and escapes of every kind, to be laid across the end of libwing's buffer.
fn samples(d: &mut Dice) -> Vec<Vec<u8>> {
    let mut all: Vec<Vec<u8>> = [
        &[0xdf, 0xd3, 0x05][..], &[0xdf, 0x41], &[0xdf, 0xdf, 0xde, 0x05], &[0xdf, 0xde, 0x00, 0x01, 0x41], &[0xd2, 0xdf, 0xde, 0xff],
        &[0xd3, 0xdf, 0xde, 0xfe], &[0xd4, 0xdf, 0xde, 0xdf, 0xde, 0, 1], &[0xd5, 0x3f, 0xdf, 0xde, 0, 0], &[0xd7, 0xdf, 0xde, 0, 0, 7, 5],
        &[0x83, 0x41, 0xdf, 0xde, 0x80, 0x42], &[0xd1, 0xdf, 0xde], &[0xd9, 0xdf, 0xde, 0x3f],
        &[0xdf, 0xd1, 0xdf, 0, 15, 0, 0, 0, 1, 0, 0, 0, 2, 0, 3, 1, 0x61, 0, 0, 0], &[0xdf, 0xd1, 0xdf, 0, 4, 0xdf, 0xdf, 0xdf, 0x41, 0xdf],
    ].iter().map(|s| s.to_vec()).collect();
    for _ in 0..10 {
        let mut s = tokens_up_to(d, 8);
        s.truncate(60);
        all.push(s);
    }
    all
}

/// libwing reads 2,048 bytes at a time.
const BUFFER: usize = 2048;

// A sample after a front and bytes that have no event, so that the end of a buffer falls after some of its bytes.
fn across_at(d: &mut Dice, front: &[u8], sample: &[u8], before: usize, each: Each) {
    let name = "tokens across the 2,048-byte buffer";
    let start = (1 + d.below(3)) * BUFFER - before;
    let mut s = front.to_vec();
    s.resize(start, 0x40);
    s.extend_from_slice(sample);
    s.extend([0x05, 0xde]);
    each(name, Order::Stream(s.clone()));
    let size = if d.one_in(2) { BUFFER } else { start };
    each(name, Order::Pieces(vec![size as u16], s));
}

// Each sample with the end of a buffer before it, after each of its bytes and behind it, without a channel and with one.
fn across(d: &mut Dice, each: Each) {
    for sample in samples(d) {
        for before in 0..=sample.len() {
            across_at(d, &[], &sample, before, each);
            across_at(d, &[0xdf, 0xd1], &sample, before, each);
        }
    }
}

// A body with n items whose strings are mostly short.
fn items_body(d: &mut Dice, n: usize) -> Vec<u8> {
    let kind = 5 + d.below(2);
    let mut b = d.word(10);
    b.extend([1, b'n', 0, 0, 16 * kind as u8]);
    b.extend((n as u16).to_be_bytes());
    for _ in 0..n {
        if kind == 6 {
            b.extend(d.word(4));
        }
        for _ in 0..(7 - kind) {
            let m = if d.one_in(200) { d.below(256) } else { d.below(3) };
            b.push(m as u8);
            let s = if d.one_in(30) { d.string(m) } else { vec![b'a' + (m % 26) as u8; m] };
            b.extend(s);
        }
    }
    b
}

fn many_items(d: &mut Dice, n: usize, each: Each) {
    for _ in 0..n {
        let items = 60 + d.below(941);
        let b = items_body(d, items);
        let b = if d.one_in(2) { damaged(d, b) } else { b };
        let mut s = vec![0xdf, 0xd1, 0xdf];
        s.extend(escaped(&(b.len() as u16).to_be_bytes()));
        s.extend(escaped(&b));
        s.extend([0x05, 0xde]);
        each("definitions of 60 to 1,000 items", Order::Definition(b));
        each("definitions of 60 to 1,000 items, in a stream", Order::Stream(s));
    }
}

fn packets(d: &mut Dice, n: usize, each: Each) {
    for _ in 0..n {
        let len = 80 + d.below(8110);
        let readings = (len - 4) / 2;
        let room = [readings, readings - 1, readings + 1, 4100][d.below(4)];
        each("packets of 80 to 8,189 bytes", Order::Packet { room, bytes: d.word(len) });
    }
}

// A string of n bytes, d8 to df in front of every other one as often as wanted.
fn string_of(d: &mut Dice, n: usize, one_in: u64) -> Vec<u8> {
    let mut b = Vec::new();
    while b.len() + 1 < n {
        let lead = if d.one_in(one_in) { 0xdf } else { 0xd8 };
        b.extend([lead, 0x80 + d.below(64) as u8]);
    }
    b.resize(n, b'x');
    b
}

// The longest commands that there are (395 bytes, 212 bytes), and ones a little shorter.
fn longest(d: &mut Dice) -> Vec<Order> {
    let id = 0xdfdfdfdfu32 as i32;
    let string = |bytes| Order::SetString { room: 0, id, bytes };
    let request = |count: u8, items: Vec<u8>| Order::AskMeters { room: 0, port: 0xdfdf, last: 0xdfde, count, fill: None, items };
    let alive = |last| Order::KeepAlive { room: 0, last, port: 0xdfdf };
    vec![
        string([0xdf, 0x80].repeat(128)), string([0xdf, 0x80].repeat(127)), string([&[0xd8, 0x80], &[0xdf, 0x80].repeat(127)[..]].concat()),
        string(string_of(d, 224, 2)), string(string_of(d, 140, 2)), string(string_of(d, 64, 1)),
        request(64, [0x00, 0xdf].repeat(64)), request(64, [&[0x09, 0xdf], &[0x0f, 0xdf].repeat(63)[..]].concat()), request(63, [0x08, 0xdf].repeat(63)),
        request(40, meter_items(d, 64)), alive(19), alive(36), alive(46),
        Order::SetInt { room: 0, id, value: id }, Order::SetFloat { room: 0, id, bits: id as u32 }, Order::AskDefinition { room: 0, id },
        Order::AskData { room: 0, id: 0 }, Order::Format { room: 0, id, prefix: 0xdf, suffix: Some(0xdf) },
    ]
}

fn random_command(d: &mut Dice) -> Order {
    let w = d.word(4);
    let id = i32::from_be_bytes([w[0], w[1], w[2], w[3]]);
    match d.below(3) {
        0 => {
            let n = 40 + d.below(217);
            let one_in = 1 + d.below(6) as u64;
            Order::SetString { room: 0, id, bytes: string_of(d, n, one_in) }
        }
        1 => {
            let count = 20 + d.below(45);
            Order::AskMeters { room: 0, port: id as u16, last: (id >> 16) as u16, count: count as u8, fill: None, items: meter_items(d, count) }
        }
        _ => Order::KeepAlive { room: 0, last: 5 + d.below(40) as u16, port: id as u16 },
    }
}

/// The lengths of output from which on the port's writers need no test at each byte.
const SWITCHES: [usize; 2] = [212, 395];

fn outputs(d: &mut Dice, n: usize, each: Each) {
    let name = "outputs of 65 to 511 bytes";
    for order in longest(d) {
        (65..=511).for_each(|room| each(name, order.in_room(room)));
    }
    for _ in 0..n {
        let order = random_command(d);
        let size = oracle::size(&order.in_room(800_000));
        let rooms = [size, size.max(1) - 1, size + 1, SWITCHES[d.below(2)] - 1 + d.below(3), 65 + d.below(447)];
        rooms.iter().for_each(|room| each(name, order.in_room(*room)));
    }
}

// Counts that are completed far over 4,096, 65,535 and more among them, with tokens after the body.
fn large_counts(d: &mut Dice, n: usize, each: Each) {
    for i in 0..n {
        let count = match i % 4 {
            0 => 65535,
            1 => 4097 + d.below(61_000),
            2 => 65536 + d.below(2),
            _ => 65536 + d.below(4465),
        };
        let mut s = if d.one_in(2) { vec![0xdf, 0xd1, 0xdf] } else { vec![0xdf, 0xdf] };
        if count > 65535 || d.one_in(2) {
            s.extend([0, 0]);
            s.extend(escaped(&(count as u32).to_be_bytes()));
        } else {
            s.extend(escaped(&(count as u16).to_be_bytes()));
        }
        let body: Vec<u8> = (0..count).map(|_| if d.one_in(40) { d.telling() } else { d.below(0xdf) as u8 }).collect();
        s.extend(escaped(&body));
        let after = tokens(d, 3);
        s.extend(after);
        s.truncate(HELD);
        let sizes = if d.one_in(4) { vec![65535] } else { sizes(d) };
        each("completed counts up to 70,000", Order::Pieces(sizes, s));
    }
}

// Meters past the count: in the request, and as the filler of the array.
fn past_count(d: &mut Dice, n: usize, each: Each) {
    for _ in 0..n {
        let given = d.below(65);
        let items = meter_items(d, given);
        let count = d.below(65) as u8;
        let fill = [None, Some((d.below(16) as u8, d.word(1)[0]))][d.below(2)];
        let w = d.word(4);
        let (port, last) = (u16::from_be_bytes([w[0], w[1]]), u16::from_be_bytes([w[2], w[3]]));
        each("meters past the count", Order::AskMeters { room: 512 - d.below(300), port, last, count, fill, items });
    }
}

// A stream of the benchmark, cut between its values to what one order holds.
fn benchmark_stream((len, seed, strings): (usize, u64, bool), each: Each) {
    let name = "the benchmark's streams";
    let mut s = inputs::START.to_vec();
    for pair in inputs::values(len, seed, strings) {
        if s.len() + pair.len() > 65_000 {
            each(name, Order::Stream(std::mem::replace(&mut s, inputs::START.to_vec())));
        }
        s.extend(pair);
    }
    each(name, Order::Stream(s));
}

fn set_order(o: inputs::Order) -> Order {
    let room = 400;
    match o {
        inputs::Order::Int(id, value) => Order::SetInt { room, id, value },
        inputs::Order::Float(id, x) => Order::SetFloat { room, id, bits: x.to_bits() },
        inputs::Order::Text(id, s) => Order::SetString { room, id, bytes: s.into_bytes() },
    }
}

// The benchmark's streams, and its definitions, set orders, packets and strings.
fn benchmark(each: Each) {
    inputs::STREAMS.into_iter().for_each(|s| benchmark_stream(s, each));
    each("the benchmark's streams", Order::Stream(inputs::capture()));
    let name = "the benchmark's other inputs";
    inputs::bodies().into_iter().for_each(|b| each(name, Order::Definition(b)));
    inputs::orders().into_iter().for_each(|o| each(name, set_order(o)));
    [40, 4094].iter().for_each(|n| each(name, Order::Packet { room: 4100, bytes: inputs::packet(*n) }));
    let strings = inputs::strings(false).into_iter().chain(inputs::strings(true)).chain(inputs::broken_strings());
    strings.for_each(|s| each(name, Order::Utf8(s)));
}

fn broken_piece(d: &mut Dice) -> &'static [u8] {
    inputs::BROKEN[d.below(inputs::BROKEN.len() as u64)]
}

// A string of 1 to about 256 bytes that is not UTF-8, mostly; now and then a piece ends it.
fn broken_string(d: &mut Dice) -> Vec<u8> {
    let n = d.length().max(1);
    let s = d.string(n);
    let mut s = inputs::with(&s, d.below(n as u64 + 1), broken_piece(d));
    s.truncate(n.max(4));
    s.truncate(256);
    s
}

fn string_token(d: &mut Dice, s: &[u8]) -> Vec<u8> {
    let n = s.len() - 1;
    let mut out = match d.below(3) {
        0 if n < 16 => vec![0xc0 + n as u8],
        1 if n < 64 => vec![0x80 + n as u8],
        _ => [&[0xd1], &escaped(&[n as u8])[..]].concat(),
    };
    out.extend(escaped(s));
    out
}

// A body with two names and a string enum's item or two, or a float enum's; some of the strings are broken.
fn broken_body(d: &mut Dice) -> Vec<u8> {
    let kind = 5 + d.below(2);
    let mut text = |b: &mut Vec<u8>| {
        let mut s = if d.one_in(4) { broken_string(d) } else { d.string(5) };
        s.truncate(255);
        b.push(s.len() as u8);
        b.extend(s);
    };
    let mut b = vec![0; 10];
    text(&mut b);
    text(&mut b);
    b.extend([0, 16 * kind as u8, 0, 2]);
    for _ in 0..2 {
        if kind == 6 {
            b.extend([0x3f, 0x80, 0, 0]);
        }
        (0..7 - kind).for_each(|_| text(&mut b));
    }
    b
}

// Strings that are not UTF-8, through every call that says how much of them was good.
fn broken(d: &mut Dice, n: usize, each: Each) {
    let name = "strings broken in every way";
    for _ in 0..n {
        let s = broken_string(d);
        let token = string_token(d, &s);
        let size = 1 + d.below(9) as u16;
        each(name, Order::Utf8(s.clone()));
        each(name, Order::SetString { room: 512 - d.below(300), id: 1, bytes: s });
        each(name, Order::Stream(token.clone()));
        each(name, Order::Pieces(vec![size], token));
        each(name, Order::Definition(broken_body(d)));
    }
}

// Pieces at every place of a string of 256 bytes: the broken ones, those after a character and before one, and random ones.
fn places(d: &mut Dice, n: usize, each: Each) {
    let name = "pieces at every place of a string";
    for piece in inputs::BROKEN {
        each(name, Order::Places(piece.to_vec()));
    }
    for _ in 0..n {
        let at = d.below(5);
        let piece = match d.below(3) {
            0 => inputs::with("aé€\u{1f600}".as_bytes(), 2 * at, broken_piece(d)),
            1 => d.telling_bytes(1 + at),
            _ => broken_string(d),
        };
        each(name, Order::Places(piece));
    }
}

/// All of them, the random ones as many times over as the scale says.
pub fn all(d: &mut Dice, scale: usize, each: Each) {
    benchmark(each);
    across(d, each);
    long_streams(d, 60 * scale, each);
    many_items(d, 100 * scale, each);
    packets(d, 200 * scale, each);
    outputs(d, 400 * scale, each);
    large_counts(d, 4 * scale, each);
    past_count(d, 1000 * scale, each);
    broken(d, 400 * scale, each);
    places(d, 40 * scale, each);
}
