// Holds the port's answers against libwing's.
//   compare run SHELL short|long [SEED]   both answer the same orders; exit 1 if any answer differs
//   compare answer                        libwing's answers to the orders on standard input
//   compare list COUNT [SEED]             orders for a fixed list
//   compare noise COUNT [SEED]            lines of noise, most of them orders in form or nearly so: for damage alone
mod cases;
#[path = "../../bench/inputs.rs"]
mod inputs;
mod longer;
mod noise;
mod oracle;
mod orders;
mod queries;

use oracle::Tally;
use orders::Order;
use queries::Dice;
use std::collections::BTreeMap;
use std::io::{BufRead, BufReader, BufWriter, Write};
use std::process::{Child, Command, Stdio};
use std::sync::mpsc::{sync_channel, Receiver, SyncSender};
use std::time::{Duration, Instant};

type Query = (&'static str, Order);

fn start(program: &str) -> Child {
    Command::new(program).stdin(Stdio::piped()).stdout(Stdio::piped()).spawn().unwrap_or_else(|e| {
        eprintln!("compare: {program}: {e}");
        std::process::exit(2)
    })
}

// Orders one after the other: everything small, the longer ones, then random ones.
fn generate(long: bool, seed: u64, each: &mut dyn FnMut(&'static str, Order)) {
    let every = if long { 1 } else { 16 };
    let kept = |b: &[u8]| b.len() < 2 || b[1] as usize % every == b[0] as usize % every || (long || b[0] == 0xdf);
    queries::fronts(2, |b| {
        if kept(&b) {
            each("streams of up to 3 bytes", Order::Streams(b));
        }
    });
    queries::fronts(2, |b| each("UTF-8", Order::Utf8s(b)));
    queries::flags(&mut *each);
    queries::large(&mut *each);
    longer::all(&mut Dice::new(seed), if long { 50 } else { 10 }, each);
    let mut d = Dice::new(seed);
    for _ in 0..if long { 6_000_000 } else { 700_000 } {
        let (name, order) = queries::random(&mut d);
        each(name, order);
    }
}

// The checker has a batch before its lines are written, so that it reads the answers while they come.
fn send(to: &mut impl Write, batches: &SyncSender<Vec<Query>>, batch: Vec<Query>) {
    let lines: String = batch.iter().map(|q| q.1.lines(true)).collect();
    batches.send(batch).unwrap();
    to.write_all(lines.as_bytes()).unwrap();
    to.flush().unwrap();
}

fn feed(mut to: impl Write, batches: SyncSender<Vec<Query>>, long: bool, seed: u64) {
    let mut batch = Vec::new();
    let mut bytes = 0;
    generate(long, seed, &mut |name, order| {
        bytes += order.len();
        batch.push((name, order));
        if batch.len() == 256 || bytes > 1 << 20 {
            bytes = 0;
            send(&mut to, &batches, std::mem::take(&mut batch));
        }
    });
    send(&mut to, &batches, batch);
}

struct Totals {
    /// Of each kind the cases, and the events and refusals in their streams.
    kinds: BTreeMap<&'static str, (u64, u64)>,
    tally: Tally,
    /// The first two of each kind.
    differ: Vec<Query>,
    differing: u64,
}

// Whether each line that goes ahead is answered as it must be.
fn held_as_wanted(answers: &mut impl BufRead, order: &Order) -> bool {
    let mut good = true;
    for want in order.held() {
        let mut got = Vec::new();
        answers.read_until(b'\n', &mut got).unwrap();
        good &= got == want.as_bytes();
    }
    good
}

fn check(answers: &mut impl BufRead, batches: Receiver<Vec<Query>>, totals: &mut Totals) {
    let mut got = Vec::new();
    let mut want = Vec::new();
    for (name, order) in batches.into_iter().flatten() {
        got.clear();
        want.clear();
        let held = held_as_wanted(answers, &order);
        answers.read_until(b'\n', &mut got).unwrap();
        oracle::answer_sum(&mut want, &order, &mut totals.tally);
        want.push(b'\n');
        let kind = totals.kinds.entry(name).or_default();
        *kind = (kind.0 + order.cases(), kind.1 + std::mem::take(&mut totals.tally.1));
        if got != want || !held {
            totals.differing += 1;
            if totals.differ.iter().filter(|q| q.0 == name).count() < 2 {
                totals.differ.push((name, order));
            }
        }
        if got.is_empty() {
            println!("the port's program ended early");
            return;
        }
    }
}

// One order after the other, each answered at once.
struct Asker {
    to: std::process::ChildStdin,
    from: BufReader<std::process::ChildStdout>,
    _child: Child,
}

impl Asker {
    fn new(program: &str) -> Self {
        let mut child = start(program);
        let (to, from) = (child.stdin.take().unwrap(), child.stdout.take().unwrap());
        Asker { to, from: BufReader::new(from), _child: child }
    }

    /// The answer, after those to the lines that go ahead.
    fn ask(&mut self, order: &Order) -> Vec<u8> {
        if self.to.write_all(order.lines(false).as_bytes()).is_err() {
            return b"none: the program has ended".to_vec();
        }
        let held = held_as_wanted(&mut self.from, order);
        let mut got = Vec::new();
        self.from.read_until(b'\n', &mut got).unwrap();
        got.pop();
        if held { got } else { [b"not held as sent; ", &got[..]].concat() }
    }

    fn differs(&mut self, order: &Order) -> bool {
        self.ask(order) != answered(order)
    }
}

fn answered(order: &Order) -> Vec<u8> {
    let mut want = Vec::new();
    oracle::answer(&mut want, order, &mut Tally::default());
    want
}

fn summed(order: &Order) -> Vec<u8> {
    let mut want = Vec::new();
    oracle::answer_sum(&mut want, order, &mut Tally::default());
    want
}

// Of an order that stands for 256, the one that differs.
fn single(asker: &mut Asker, order: Order) -> Order {
    let (front, one): (&[u8], fn(Vec<u8>) -> Order) = match &order {
        Order::Streams(b) => (b, Order::Stream),
        Order::Utf8s(b) => (b, Order::Utf8),
        _ => return order,
    };
    let found = (0..=255).map(|last| one([front, &[last]].concat())).find(|o| asker.differs(o));
    found.unwrap_or(order)
}

// The bytes without those parts of one size that are not needed for the answers to differ.
fn without_parts(asker: &mut Asker, order: &Order, mut bytes: Vec<u8>, size: usize, until: Instant) -> Vec<u8> {
    let mut at = 0;
    while at + size <= bytes.len() && Instant::now() < until {
        let less = [&bytes[..at], &bytes[at + size..]].concat();
        match order.on(less.clone()) {
            Some(o) if asker.differs(&o) => bytes = less,
            _ => at += size,
        }
    }
    bytes
}

// The order with its bytes left out, large parts first, as long as the answers still differ and a second has not passed.
fn smallest(asker: &mut Asker, order: Order) -> Order {
    let order = single(asker, order);
    if order.on(Vec::new()).is_none() || !asker.differs(&order) {
        return order;
    }
    let mut bytes = order.bytes().unwrap().to_vec();
    let mut size = bytes.len().div_ceil(2);
    let until = Instant::now() + Duration::from_secs(1);
    while size > 0 {
        bytes = without_parts(asker, &order, bytes, size, until);
        size /= 2;
    }
    order.on(bytes).unwrap()
}

fn text(bytes: &[u8]) -> String {
    String::from_utf8_lossy(&bytes[..bytes.len().min(2000)]).trim_end().to_string()
}

fn show_differing(asker: &mut Asker, order: Order) {
    let order = smallest(asker, order);
    println!("differs: {}\n  libwing, by the rules: {}\n  the port:              {}", text(order.text().as_bytes()), text(&answered(&order)), text(&asker.ask(&order)));
}

// Each listed difference: libwing does what the list says, the port what the rules want.
fn listed(asker: &mut Asker) -> u64 {
    let mut wrong = 0;
    for c in cases::all() {
        let rust = (c.rust)();
        let order = orders::read(&c.order).expect("a listed difference's order");
        let port = text(&asker.ask(&order));
        let made = text(&answered(&order));
        if rust != c.rust_does || port != text(c.rules.as_bytes()) || made != text(c.rules.as_bytes()) {
            wrong += 1;
            println!("listed difference: {}\n  libwing: {rust}\n  listed:  {}\n  rules:   {}\n  port:    {port}\n  driver:  {made}", c.name, c.rust_does, c.rules);
        }
    }
    println!("listed differences: {} cases, {wrong} not as listed", cases::all().len());
    wrong
}

fn run(program: &str, long: bool, seed: u64) -> bool {
    let begun = Instant::now();
    let mut asker = Asker::new(program);
    let wrong = listed(&mut asker);
    let mut child = start(program);
    let to = child.stdin.take().unwrap();
    let mut from = BufReader::with_capacity(1 << 16, child.stdout.take().unwrap());
    let mut totals = Totals { kinds: BTreeMap::new(), tally: Tally::default(), differ: Vec::new(), differing: 0 };
    let (sender, receiver) = sync_channel(64);
    let feeder = std::thread::spawn(move || feed(to, sender, long, seed));
    check(&mut from, receiver, &mut totals);
    let fed = feeder.join().is_ok();
    let status = child.wait().unwrap();
    show_totals(&totals);
    for (_, order) in std::mem::take(&mut totals.differ) {
        show_differing(&mut asker, order);
    }
    let cases: u64 = totals.kinds.values().map(|k| k.0).sum();
    println!("compared {cases} cases with seed {seed} in {:.0} s: {} orders differ", begun.elapsed().as_secs_f64(), totals.differing);
    wrong == 0 && totals.differing == 0 && fed && status.success()
}

fn show_totals(totals: &Totals) {
    println!("     cases     events");
    for (name, (cases, events)) in &totals.kinds {
        println!("{cases:>10} {events:>10}  {name}");
    }
    println!("where the list has the rules' answer:");
    for (name, n) in &totals.tally.0 {
        println!("{n:>10}  {name}");
    }
}

// An answer as shell gives it: bytes that go ahead are held until an order asks for them by `+`.
fn answer_line(line: &str, held: &mut Vec<u8>) -> Vec<u8> {
    if let Some(part) = line.strip_prefix("more ") {
        held.extend(orders::unpaired(part).unwrap_or_default());
        return format!("held {}", held.len()).into_bytes();
    }
    let (sums, line) = line.strip_prefix("sum ").map_or((false, line), |l| (true, l));
    let order = match line.strip_suffix(" +") {
        Some(front) => orders::read(&format!("{front} {}", orders::hex(&std::mem::take(held)))),
        None => orders::read(line),
    };
    match order {
        Some(o) if sums => summed(&o),
        Some(o) => answered(&o),
        None => b"?".to_vec(),
    }
}

fn answer() {
    let mut out = BufWriter::new(std::io::stdout().lock());
    let mut held = Vec::new();
    for l in std::io::stdin().lock().lines() {
        let want = answer_line(&l.unwrap(), &mut held);
        out.write_all(&want).unwrap();
        out.write_all(b"\n").unwrap();
    }
}

// Every listed difference, then random orders of every kind, asked for their answers and not for their sums.
fn list(count: u64, seed: u64) {
    let mut out = BufWriter::new(std::io::stdout().lock());
    for c in cases::all() {
        out.write_all(orders::read(&c.order).unwrap().lines(false).as_bytes()).unwrap();
    }
    let mut d = Dice::new(seed);
    let mut n = 0;
    while n < count {
        let (_, order) = queries::random(&mut d);
        if order.len() <= 300 {
            out.write_all(order.lines(false).as_bytes()).unwrap();
            n += 1;
        }
    }
}

fn main() {
    std::panic::set_hook(Box::new(|_| {}));
    let words: Vec<String> = std::env::args().skip(1).collect();
    let words: Vec<&str> = words.iter().map(|s| s.as_str()).collect();
    let number = |s: Option<&&str>, other: u64| s.map_or(other, |s| s.parse().unwrap_or(other));
    match words.as_slice() {
        ["run", program, mode @ ("short" | "long"), rest @ ..] => {
            if !run(program, *mode == "long", number(rest.first(), 1)) {
                std::process::exit(1);
            }
        }
        ["answer"] => answer(),
        ["list", count, rest @ ..] => list(number(Some(count), 0), number(rest.first(), 1)),
        ["noise", count, rest @ ..] => noise::lines(number(Some(count), 0), number(rest.first(), 1)),
        _ => {
            eprintln!("compare: run SHELL short|long [SEED], answer, list COUNT [SEED], noise COUNT [SEED]");
            std::process::exit(2);
        }
    }
}
