// Times the port and libwing side by side, on the same inputs in one run (std or our own Rust where libwing has no such call), and calls
// through the Rust crate beside direct ones.
//   bench            all parts: the median of each side's runs, and their ratio with its spread
//   bench once PART port|libwing|none    one round of one part, for an instruction count
//   bench crate PART crate|direct|none   the same of a call through the crate
mod definitions;
mod inputs;
mod listing;
mod windows;

use definitions::{definitions, write, Given};
use inputs::{bodies, broken_strings, capture, orders, strings, values, Order, START, STREAMS};
use std::collections::HashMap;
use std::hint::black_box;
use std::time::Instant;
use whistleloam::{raw, Mirror};
use windows::{following, one_by_one};
use wing::{WingConsole, WingNodeData, WingNodeDef, WingResponse};

// A slice goes over the border as its start and its length.
extern "C" {
    fn port_decode(bytes: *const u8, n: usize, store: *mut u8, m: usize) -> u64;
    fn port_next(bytes: *const u8, n: usize) -> u64;
    fn port_from_bytes(body: *const u8, n: usize) -> u32;
    fn port_to_bytes(
        parent_id: i32, id: i32, index: u16, node_type: u8, unit: u8, read_only: bool, min: u32, max: u32, steps: i32, count: u16, max_len: u16,
        name: *const u8, a: usize, long_name: *const u8, b: usize, items: *const u8, c: usize, out: *mut u8, m: usize,
    ) -> usize;
    fn port_set_int(out: *mut u8, m: usize, id: i32, x: i32) -> usize;
    fn port_set_float(out: *mut u8, m: usize, id: i32, bits: u32) -> usize;
    fn port_set_string(out: *mut u8, m: usize, id: i32, s: *const u8, n: usize) -> usize;
    fn port_read_meters(packet: *const u8, n: usize, out: *mut i16, m: usize) -> usize;
    fn port_feed(table: *mut u8, m: usize, count: usize, bytes: *const u8, n: usize) -> usize;
    fn port_mirror_set(table: *mut u8, m: usize, count: usize, out: *mut u8, n: usize, id: i32, x: i32) -> usize;
    fn port_recall(table: *const u8, m: usize, count: usize, out: *mut u8, n: usize) -> usize;
    fn port_is_utf8(s: *const u8, n: usize) -> u32;
    fn port_good(s: *const u8, n: usize) -> usize;
}

fn stream((len, seed, strings): (usize, u64, bool)) -> Vec<u8> {
    [START.to_vec(), values(len, seed, strings).concat()].concat()
}

fn read_all(bytes: &[u8], mut each: impl FnMut(i32, WingNodeData)) {
    let mut c = WingConsole::over(bytes);
    loop {
        match c.read() {
            Ok(WingResponse::NodeData(id, d)) => each(id, d),
            Ok(_) => {}
            Err(_) => return,
        }
    }
}

fn read_sum(bytes: &[u8]) -> u64 {
    let mut total = 0u64;
    read_all(bytes, |_, d| {
        total += if d.has_int() { d.get_int() as u32 as u64 } else if d.has_float() { d.get_float().to_bits() as u64 } else { 1 };
        black_box(&d);
    });
    total
}

// The sum that the port gives of a stream's values: a string counts as its length. Not timed, since it copies the strings.
fn port_sum(bytes: &[u8]) -> u64 {
    let mut total = 0u64;
    read_all(bytes, |_, d| {
        total += if d.has_int() { d.get_int() as u32 as u64 } else if d.has_float() { d.get_float().to_bits() as u64 } else { d.get_string().len() as u64 };
    });
    total
}

type Work = Box<dyn FnMut() -> u64>;

struct Part {
    name: &'static str,
    /// At least how many times as fast as libwing, by the budget; 0 where there is none.
    budget: f64,
    libwing: Work,
    port: Work,
    /// What the port must answer: what libwing does, unless it is given here.
    wanted: Option<u64>,
}

fn decoding(name: &'static str, budget: f64, bytes: Vec<u8>) -> Part {
    let same = bytes.clone();
    let wanted = Some(port_sum(&bytes));
    Part {
        wanted,
        name,
        budget,
        libwing: Box::new(move || read_sum(black_box(&bytes))),
        port: Box::new(move || {
            let mut store = [0u8; 4096];
            unsafe { port_decode(black_box(&same).as_ptr(), same.len(), store.as_mut_ptr(), 4096) }
        }),
    }
}

fn by_next() -> Part {
    let bytes = stream(STREAMS[2]);
    let same = bytes.clone();
    let wanted = Some(port_sum(&bytes));
    Part {
        wanted,
        name: "decode a value stream, by next",
        budget: 0.0,
        libwing: Box::new(move || read_sum(black_box(&bytes))),
        port: Box::new(move || unsafe { port_next(black_box(&same).as_ptr(), same.len()) }),
    }
}

fn parsing() -> Part {
    let all = bodies();
    let same = all.clone();
    Part {
        wanted: None,
        name: "parse definitions",
        budget: 1.0,
        libwing: Box::new(move || all.iter().map(|b| black_box(WingNodeDef::from_bytes(black_box(b))).id as u32 as u64).sum()),
        port: Box::new(move || same.iter().map(|b| unsafe { port_from_bytes(black_box(b).as_ptr(), b.len()) as u64 }).sum()),
    }
}

fn writing() -> Part {
    let all = orders();
    let same = orders();
    let mut c = WingConsole::over(&[]);
    let mut out = vec![0u8; 400 * 1000];
    Part {
        wanted: None,
        name: "write set orders",
        budget: 1.0,
        libwing: Box::new(move || {
            for o in &all {
                match black_box(o) {
                    Order::Int(id, x) => c.set_int(*id, *x).unwrap(),
                    Order::Float(id, x) => c.set_float(*id, *x).unwrap(),
                    Order::Text(id, s) => c.set_string(*id, s).unwrap(),
                }
            }
            c.forget_written() as u64
        }),
        port: Box::new(move || {
            let mut at = 0;
            for o in &same {
                let (p, n) = (out[at..].as_mut_ptr(), out.len() - at);
                at += unsafe {
                    match black_box(o) {
                        Order::Int(id, x) => port_set_int(p, n, *id, *x),
                        Order::Float(id, x) => port_set_float(p, n, *id, x.to_bits()),
                        Order::Text(id, s) => port_set_string(p, n, *id, s.as_ptr(), s.len()),
                    }
                };
            }
            black_box(&out);
            at as u64
        }),
    }
}

fn port_write(g: &Given, out: &mut [u8]) -> usize {
    unsafe {
        port_to_bytes(
            g.parent_id, g.id, g.index, g.node_type, g.unit, g.read_only, g.min, g.max, g.steps, g.count, g.max_len,
            g.name.as_ptr(), g.name.len(), g.long_name.as_ptr(), g.long_name.len(), g.items.as_ptr(), g.items.len(), out.as_mut_ptr(), out.len(),
        )
    }
}

// Our own writer stands in libwing's place: each body in a Vec of its own, made as long as the body at once or grown. The port's goes
// into one lent output.
fn defining(name: &'static str, budget: f64, room: bool) -> Part {
    let all = definitions();
    let same = definitions();
    let mut out = vec![0u8; 4096];
    for g in &all {
        let n = port_write(g, &mut out);
        assert_eq!(write(g, room).as_deref(), Ok(&out[..n]), "{name}: the two sides write differently");
    }
    Part {
        wanted: None,
        name,
        budget,
        libwing: Box::new(move || all.iter().map(|g| black_box(write(black_box(g), room)).map_or(0, |body| body.len() as u64)).sum()),
        port: Box::new(move || same.iter().map(|g| port_write(black_box(g), black_box(&mut out)) as u64).sum()),
    }
}

// The records of the map, in a mirror.
fn listed() -> Mirror {
    let mut mirror = Mirror::new(1024).unwrap();
    for (id, value) in listing::map() {
        match value {
            listing::Value::Int(x) => mirror.set(id, x),
            listing::Value::Float(bits) => mirror.set(id, whistleloam::Value::Float(bits)),
            listing::Value::Text(s) => mirror.set(id, s),
        }
        .unwrap();
    }
    mirror
}

// Our own printer stands in libwing's place, over a BTreeMap into a String. The archive's prints a table into one lent output.
fn printing() -> Part {
    let (map, table) = (listing::map(), listed().table().to_vec());
    let mut out = vec![0u8; 65536];
    let n = raw::print(&table, 1024, &mut out).len;
    assert_eq!(listing::print(&map).as_bytes(), &out[..n], "print: the two sides print differently");
    Part {
        wanted: None,
        name: "print 1,024 records",
        budget: 1.0,
        libwing: Box::new(move || black_box(listing::print(black_box(&map))).len() as u64),
        port: Box::new(move || raw::print(black_box(&table), 1024, black_box(&mut out)).len as u64),
    }
}

// A table's bytes with the origin of each record 0, as a loaded listing has them.
fn origins_cleared(table: &[u8]) -> Vec<u8> {
    let mut cleared = table.to_vec();
    cleared.chunks_mut(264).for_each(|record| record[5] = 0);
    cleared
}

// Our own loader makes a BTreeMap anew, the archive's fills one table.
fn loading_listing() -> Part {
    let text = listed().print().unwrap();
    let same = text.clone();
    let mut table = vec![0u8; 1024 * 264];
    raw::load(text.as_bytes(), &mut table);
    let map = listing::load(&text, 1024).unwrap();
    assert!(table == origins_cleared(listed().table()) && listing::print(&map) == text, "load: the two sides load differently");
    Part {
        wanted: None,
        name: "load a listing of 1,024 records",
        budget: 1.0,
        libwing: Box::new(move || black_box(listing::load(black_box(&text), 1024)).map_or(0, |map| map.len() as u64)),
        port: Box::new(move || raw::load(black_box(same.as_bytes()), black_box(&mut table)).count as u64),
    }
}

fn packets(name: &'static str, readings: usize) -> Part {
    let packet = inputs::packet(readings);
    let mut c = WingConsole::over(&[]);
    c.on_port(0, &packet);
    let mut out = vec![0i16; 4100];
    Part {
        wanted: None,
        name,
        budget: 1.0,
        libwing: Box::new(move || (0..100).map(|_| black_box(c.read_meters().unwrap()).1.len() as u64).sum()),
        port: Box::new(move || {
            (0..100).map(|_| unsafe { port_read_meters(black_box(&packet).as_ptr(), packet.len(), black_box(&mut out).as_mut_ptr(), 4100) } as u64).sum()
        }),
    }
}

fn loading() -> Part {
    let bytes = capture();
    let same = bytes.clone();
    let mut table = vec![0u8; 1024 * 264];
    Part {
        wanted: None,
        name: "load 1,024 rising ids",
        budget: 1.0,
        libwing: Box::new(move || {
            let mut map = HashMap::new();
            read_all(black_box(&bytes), |id, d| {
                map.insert(id, d);
            });
            black_box(&map).len() as u64
        }),
        port: Box::new(move || unsafe { port_feed(black_box(&mut table).as_mut_ptr(), 1024 * 264, 0, black_box(&same).as_ptr(), same.len()) as u64 }),
    }
}

fn characters(name: &'static str, mixed: bool) -> Part {
    let all = strings(mixed);
    let same = all.clone();
    Part {
        wanted: None,
        name,
        budget: 0.5,
        libwing: Box::new(move || all.iter().map(|s| std::str::from_utf8(black_box(s)).is_ok() as u64).sum()),
        port: Box::new(move || same.iter().map(|s| unsafe { port_is_utf8(black_box(s).as_ptr(), s.len()) as u64 }).sum()),
    }
}

fn good(s: &[u8]) -> usize {
    match std::str::from_utf8(black_box(s)) {
        Ok(t) => t.len(),
        Err(e) => e.valid_up_to(),
    }
}

fn broken_characters() -> Part {
    let all = broken_strings();
    let same = all.clone();
    Part {
        wanted: None,
        name: "UTF-8 of broken strings (std)",
        budget: 0.8,
        libwing: Box::new(move || all.iter().map(|s| good(s) as u64).sum()),
        port: Box::new(move || same.iter().map(|s| unsafe { port_good(black_box(s).as_ptr(), s.len()) as u64 }).sum()),
    }
}

fn parts() -> Vec<Part> {
    vec![
        decoding("decode a value stream", 2.0, stream(STREAMS[0])),
        decoding("decode strings", 2.0, stream(STREAMS[1])),
        by_next(),
        parsing(),
        writing(),
        packets("read packets of 40 readings", 40),
        packets("read packets of 4,094 readings", 4094),
        loading(),
        characters("UTF-8, short ASCII (std)", false),
        characters("UTF-8, short mixed (std)", true),
        defining("write definitions (Vec::new)", 1.0, false),
        defining("write definitions (capacity)", 0.0, true),
        printing(),
        loading_listing(),
        broken_characters(),
        following("a million readings, window 256", windows::random(1_000_000)),
        following("a million falling, window 256", windows::falling(1_000_000)),
        one_by_one("100,000 readings one by one", windows::random(100_000)),
    ]
}

// Seconds of one call, over as many calls as take two hundredths of a second.
fn seconds(work: &mut Work, calls: u32) -> f64 {
    let t = Instant::now();
    for _ in 0..calls {
        black_box(work());
    }
    t.elapsed().as_secs_f64() / calls as f64
}

fn calls_for(work: &mut Work) -> u32 {
    let one = seconds(work, 1).max(1e-7);
    ((0.02 / one) as u32).clamp(1, 100_000)
}

fn measure(p: &mut Part) {
    let (a, b) = (calls_for(&mut p.libwing), calls_for(&mut p.port));
    let mut each: Vec<(f64, f64)> = (0..21).map(|_| (seconds(&mut p.libwing, a), seconds(&mut p.port, b))).collect();
    let rust = median(each.iter().map(|e| e.0).collect()).1;
    let port = median(each.iter().map(|e| e.1).collect()).1;
    let (low, middle, high) = median(each.drain(..).map(|e| e.0 / e.1).collect());
    let budget = if p.budget == 0.0 { String::from("  -") } else { format!("{:.1}", p.budget) };
    let said = if middle < p.budget { "  MISSED" } else { "" };
    println!("{:<32} {:>10.1} {:>10.1} {:>7.2} {:>6.2}-{:<6.2} {:>5}{said}", p.name, rust * 1e6, port * 1e6, middle, low, high, budget);
}

fn print_alone(name: &str, wanted: impl Fn(u64) -> bool, mut work: Work) {
    assert!(wanted(work()), "{name}: refused");
    let calls = calls_for(&mut work);
    let mut each: Vec<f64> = (0..21).map(|_| seconds(&mut work, calls)).collect();
    each.sort_by(f64::total_cmp);
    println!("{:<32} {:>10} {:>10.1}", name, "", each[10] * 1e6);
}

// What a call on a mirror of 1,024 records costs: libwing has no such calls.
fn alone() {
    let bytes = capture();
    let mut table = vec![0u8; 1024 * 264];
    let m = table.len();
    let count = unsafe { port_feed(table.as_mut_ptr(), m, 0, bytes.as_ptr(), bytes.len()) };
    let (mut fed, mut set, recalled) = (table.clone(), table.clone(), table);
    let mut order = [0u8; 18];
    let mut out = vec![0u8; 2 + 395 * 1024];
    let short = [0xd7, 0, 0, 3, 0xe8, 5];
    print_alone("feed 6 bytes", |n| n == 1024, Box::new(move || unsafe { port_feed(black_box(&mut fed).as_mut_ptr(), m, count, black_box(&short).as_ptr(), 6) as u64 }));
    print_alone("set an integer", |n| n == 6, Box::new(move || unsafe { port_mirror_set(black_box(&mut set).as_mut_ptr(), m, count, order.as_mut_ptr(), 18, 1000, 5) as u64 }));
    print_alone("recall", |n| n > 6 * 1024, Box::new(move || unsafe { port_recall(black_box(&recalled).as_ptr(), m, count, out.as_mut_ptr(), out.len()) as u64 }));
}

// A call on a mirror of 1,024 records, made directly and through the crate; both leave the mirror as it was. Both sides are
// calls into one archive, so that they run the same code but for the border.
struct Pair {
    direct: Work,
    by_crate: Work,
}

// Makes both sides anew, each with memory of its own.
struct Pairing {
    name: &'static str,
    make: Box<dyn Fn() -> Pair>,
}

// The mirror of the capture, and its table.
fn loaded() -> (Mirror, Vec<u8>) {
    let mut mirror = Mirror::new(1024).unwrap();
    mirror.feed(&capture()).unwrap();
    let table = mirror.table().to_vec();
    (mirror, table)
}

fn feeding(bytes: Vec<u8>) -> Pair {
    let (mut mirror, mut table) = loaded();
    let (same, m) = (bytes.clone(), table.len());
    Pair {
        direct: Box::new(move || unsafe { port_feed(black_box(&mut table).as_mut_ptr(), m, 1024, black_box(&same).as_ptr(), same.len()) as u64 }),
        by_crate: Box::new(move || {
            black_box(mirror.feed(black_box(&bytes)).unwrap());
            mirror.count() as u64
        }),
    }
}

fn recalling() -> Pair {
    let (mirror, table) = loaded();
    let mut out = vec![0u8; 2 + 395 * 1024];
    let mut same = out.clone();
    Pair {
        direct: Box::new(move || unsafe { port_recall(black_box(&table).as_ptr(), table.len(), 1024, same.as_mut_ptr(), same.len()) as u64 }),
        by_crate: Box::new(move || mirror.recall_into(black_box(&mut out)).unwrap() as u64),
    }
}

fn pairings() -> Vec<Pairing> {
    let most = capture().repeat(65536 / capture().len());
    let fed = |name, bytes: Vec<u8>| Pairing { name, make: Box::new(move || feeding(bytes.clone())) };
    vec![
        fed("feed up to 65,536 bytes", most),
        fed("feed 1,024 values", capture()),
        fed("feed 6 bytes", vec![0xd7, 0, 0, 3, 0xe8, 5]),
        Pairing { name: "recall", make: Box::new(recalling) },
    ]
}

fn median(mut v: Vec<f64>) -> (f64, f64, f64) {
    v.sort_by(f64::total_cmp);
    (v[v.len() / 10], v[v.len() / 2], v[v.len() - 1 - v.len() / 10])
}

// Seconds of a direct call and of one through the crate: the medians of nine turns each, side by side.
fn round(p: &mut Pair) -> (f64, f64) {
    let calls = calls_for(&mut p.direct) / 4 + 1;
    let each: Vec<(f64, f64)> = (0..9).map(|_| (seconds(&mut p.direct, calls), seconds(&mut p.by_crate, calls))).collect();
    (median(each.iter().map(|e| e.0).collect()).1, median(each.iter().map(|e| e.1).collect()).1)
}

// Where the memory of a side happens to lie can make a tenth of a call's time, so 21 rounds have memory of their own each, at
// other places: the blocks before it differ in length.
fn measure_pairing(p: &Pairing) {
    let mut each = Vec::new();
    for turn in 0..21 {
        let between = vec![1u8; 4096 * turn + 192 * turn];
        let mut pair = (p.make)();
        assert_eq!((pair.direct)(), (pair.by_crate)(), "{}: the two sides answer differently", p.name);
        each.push(round(&mut pair));
        black_box(&between);
    }
    let (direct, by_crate) = (median(each.iter().map(|e| e.0).collect()).1, median(each.iter().map(|e| e.1).collect()).1);
    let (low, middle, high) = median(each.iter().map(|e| e.1 / e.0).collect());
    println!("{:<32} {:>10.1} {:>10.1} {:>7.3} {:>6.3}-{:<6.3}", p.name, direct * 1e6, by_crate * 1e6, middle, low, high);
}

fn through_the_crate() {
    println!("{:<32} {:>10} {:>10} {:>7} {:>13}", "through the crate", "direct us", "crate us", "ratio", "10%-90%");
    for p in &pairings() {
        measure_pairing(p);
    }
}

// One round of one call, and its name.
fn crate_once(part: &str, side: &str) {
    let p = &pairings()[part.parse::<usize>().unwrap()];
    let mut pair = (p.make)();
    let done = match side {
        "crate" => (pair.by_crate)(),
        "direct" => (pair.direct)(),
        _ => 0,
    };
    println!("{} {done}", p.name);
}

fn main() {
    let words: Vec<String> = std::env::args().skip(1).collect();
    if words.len() == 3 && words[0] == "crate" {
        return crate_once(&words[1], &words[2]);
    }
    let mut parts = parts();
    if words.len() == 3 && words[0] == "once" {
        let p = &mut parts[words[1].parse::<usize>().unwrap()];
        let done = match words[2].as_str() {
            "port" => (p.port)(),
            "libwing" => (p.libwing)(),
            _ => 0,
        };
        println!("{} {done}", p.name);
        return;
    }
    println!("{:<32} {:>10} {:>10} {:>7} {:>13} {:>5}", "", "libwing us", "port us", "times", "10%-90%", "want");
    for p in &mut parts {
        let wanted = p.wanted.unwrap_or_else(|| (p.libwing)());
        if wanted != (p.port)() {
            println!("{}: the two sides answer differently", p.name);
            std::process::exit(1);
        }
        measure(p);
    }
    println!("with 1,024 records:");
    alone();
    through_the_crate();
}
