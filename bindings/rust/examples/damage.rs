//! Damaged buffers through the crate and through its raw parts: `damage N SEED`.
//!
//! States, tables, streams, definitions to be read and written, listings, packets, windows, saved mirrors and orders, with bytes changed, left out or
//! put in, each in a heap allocation of exactly its size, so that valgrind sees an access past the end. Every answer must be a value or a refusal that its
//! call may give, with the good of a string where Rust's own test has it, and a refused call must have changed nothing. Ends with the totals; status 1
//! at the first fault.
use std::process::exit;
use whistleloam::raw;
use whistleloam::{
    Decoder, Definition, Details, Mirror, Refusal, Value, BODY_LIMIT, PLACE_WIDTH, ROW_FIGURES, STATE_SIZE,
};

struct Dice(u64);

impl Dice {
    fn below(&mut self, n: usize) -> usize {
        self.0 ^= self.0 << 13;
        self.0 ^= self.0 >> 7;
        self.0 ^= self.0 << 17;
        (self.0.wrapping_mul(0x2545_f491_4f6c_dd1d) >> 33) as usize % n
    }

    fn one_in(&mut self, n: usize) -> bool {
        self.below(n) == 0
    }

    /// Bytes that the decoder tells apart come more often than chance has it.
    fn byte(&mut self) -> u8 {
        match self.below(3) {
            0 => [0xdf, 0xde, 0xd7, 0xd1, 0x00, 0xff, 0x80, 0x01][self.below(8)],
            _ => self.below(256) as u8,
        }
    }

    fn bytes(&mut self, most: usize) -> Vec<u8> {
        (0..self.below(most + 1)).map(|_| self.byte()).collect()
    }

    /// Some bytes changed, left out or put in; half of them near the front, where the fields are. Exactly as much memory as bytes.
    fn damage(&mut self, good: &[u8], resize: bool) -> Box<[u8]> {
        let mut bytes = good.to_vec();
        for _ in 0..self.below(4) {
            let near = if self.one_in(2) { 32 } else { usize::MAX };
            let at = self.below(bytes.len().min(near) + 1);
            match self.below(if resize { 8 } else { 6 }) {
                6 => bytes.truncate(at),
                7 => bytes.insert(at, self.byte()),
                _ if at < bytes.len() => bytes[at] = self.byte(),
                _ => {}
            }
        }
        bytes.into_boxed_slice()
    }
}

/// How many answers were values, and how many each refusal.
#[derive(Default)]
struct Totals {
    values: u64,
    refused: [u64; 20],
}

impl Totals {
    /// A status, and the refusals that its call may give. Whether it was refused.
    fn note(&mut self, call: &str, status: i32, may: &[u8]) -> bool {
        if (0..=1).contains(&status) {
            self.values += 1;
            return false;
        }
        match may.iter().find(|n| i32::from(**n) == -status) {
            Some(n) => self.refused[usize::from(*n)] += 1,
            None => fault(call, &format!("status {status}")),
        }
        true
    }

    /// The same of a status with a good beside it: 0, but with 1 and 5 less than the bytes of the longest string.
    fn with_good(&mut self, call: &str, (status, good): (i32, u16), may: &[u8]) -> bool {
        must(call, good <= if matches!(status, -1 | -5) { 255 } else { 0 });
        self.note(call, status, may)
    }

    fn of<T>(&mut self, call: &str, answer: Result<T, Refusal>, may: &[u8]) -> Option<T> {
        let status = answer.as_ref().map_or_else(|why| -i32::from(why.number()), |_| 0);
        self.note(call, status, may);
        answer.ok()
    }
}

fn fault(call: &str, what: &str) -> ! {
    eprintln!("{call}: {what}");
    exit(1);
}

fn must(call: &str, good: bool) {
    if !good {
        fault(call, "a refused call changed what was lent, or an answer is out of bounds");
    }
}

/// How many leading bytes form whole characters, by Rust's own test.
fn good_of(bytes: &[u8]) -> usize {
    std::str::from_utf8(bytes).map_or_else(|e| e.valid_up_to(), str::len)
}

struct Pool {
    dice: Dice,
    totals: Totals,
    capture: Vec<u8>,
    states: Vec<Vec<u8>>,
    mirrors: Vec<Mirror>,
    bodies: Vec<Vec<u8>>,
}

/// Bodies of all eight types.
fn bodies() -> Vec<Vec<u8>> {
    let head = [0, 0, 0, 1, 0xff, 0xff, 0xff, 0xfe, 0, 3, 1, b'n', 2, 0xc3, 0x9f];
    let details: [&[u8]; 8] = [
        &[],
        &[0; 12],
        &[0xdf; 12],
        &[],
        &[0x80; 8],
        &[0, 3, 1, b'a', 0, 2, b'b', b'c', 1, b'd', 0, 0],
        &[0, 2, 0x3f, 0x80, 0, 0, 1, b'1', 0x7f, 0xc0, 0, 1, 0],
        &[1, 0],
    ];
    (0..8).map(|t| [&head[..], &[0, t * 16 + t], details[usize::from(t)]].concat()).collect()
}

impl Pool {
    fn new(seed: u64) -> Pool {
        let path = concat!(env!("CARGO_MANIFEST_DIR"), "/../../samples/capture.bin");
        let capture = std::fs::read(path).unwrap_or_else(|e| fault(path, &e.to_string()));
        let mut pool = Pool {
            dice: Dice(seed.wrapping_mul(0x9e37_79b9_7f4a_7c15) | 1),
            totals: Totals::default(),
            capture,
            states: Vec::new(),
            mirrors: Vec::new(),
            bodies: bodies(),
        };
        pool.fill();
        pool
    }

    /// States broken off anywhere in a stream, and mirrors of 1 to 70 places.
    fn fill(&mut self) {
        for _ in 0..200 {
            let body = [&[0xdf, 0xde, 0, 31][..], &self.bodies[5]].concat();
            // The last body is not whole: of a short count or of a long one.
            let long = [&[0xdf, 0xde, 0x10, 0x01][..], &[0; 4096]].concat();
            let longer = [&[0xdf, 0xde, 0, 0, 0, 1, 0x11, 0x70][..], &[0; 200]].concat();
            let empty = [0xdf, 0xde, 0, 0, 0, 0, 0, 0];
            let last = if self.dice.one_in(2) { &long } else { &longer };
            let stream = [&self.capture[..], &body, &[0xd1, 0xff], &[b'x'; 256], &empty, last].concat();
            let cut = stream.len() - if self.dice.one_in(8) { 0 } else { self.dice.below(stream.len() + 1) };
            let mut decoder = Decoder::new();
            decoder.events(&stream[..cut]).for_each(drop);
            self.states.push(decoder.save());
        }
        for places in [1, 2, 3, 5, 70] {
            let mut mirror = Mirror::new(places).unwrap_or_else(|e| fault("new", &e.to_string()));
            self.totals.of("feed", mirror.feed(&self.capture), &[]);
            // Every second value was set at the box.
            let values: Vec<(i32, Value)> = mirror.records().step_by(2).collect();
            for (id, value) in values {
                self.totals.of("set", mirror.set(id, value), &[]);
            }
            self.mirrors.push(mirror);
        }
    }

    fn piece(&mut self) -> Box<[u8]> {
        let from = self.dice.below(self.capture.len());
        let to = from + self.dice.below(80).min(self.capture.len() - from);
        let piece = self.capture[from..to].to_vec();
        self.dice.damage(&piece, true)
    }

    fn state(&mut self) {
        let good = self.states[self.dice.below(self.states.len())].clone();
        let resize = self.dice.one_in(8);
        let (mut state, bytes) = (self.dice.damage(&good, resize), self.piece());
        let (before, mut table) = (state.clone(), vec![0xaa; PLACE_WIDTH].into_boxed_slice());
        let mut out = vec![0xaa; BODY_LIMIT - usize::from(self.dice.one_in(4))].into_boxed_slice();
        let unsound = self.totals.note("state_check", raw::state_check(&state), &[8]);
        let got = raw::next(&mut state, &bytes, &mut out);
        if self.totals.with_good("next", (got.status, got.good), &[8, 9, 1, 2, 3]) && got.status < -3 {
            must("next", state == before && out.iter().all(|b| *b == 0xaa) && got.taken == 0);
        }
        must("next", got.taken <= bytes.len() && usize::from(got.len) <= out.len());
        let (mut state, again) = (before.clone(), before);
        let fed = raw::feed(&mut state, &mut table, 0, &bytes);
        if self.totals.note("feed", fed.status, &[8]) {
            must("feed", state == again && table.iter().all(|b| *b == 0xaa) && fed.count == 0);
        } else {
            self.totals.note("state_check after a feed", raw::state_check(&state), &[]);
        }
        must("feed", unsound == (fed.status == -8) && unsound == (got.status == -8));
        if let Some(mut decoder) = self.totals.of("restore", Decoder::restore(&again), &[8]) {
            self.events(&mut decoder, &bytes);
        }
        self.earlier(again, &bytes);
    }

    /// The same bytes under version 1: what is carried over is, but for the version, what it was.
    fn earlier(&mut self, mut state: Box<[u8]>, bytes: &[u8]) {
        if let Some(version) = state.first_mut() {
            *version -= u8::from(*version == 2);
        }
        let mut out = vec![0xaa; STATE_SIZE - usize::from(self.dice.one_in(8))].into_boxed_slice();
        let over = raw::state_carry_over(&state, &mut out);
        if self.totals.with_good("state_carry_over", (over.status, over.good), &[8, 9]) {
            must("state_carry_over", out.iter().all(|b| *b == 0xaa) && over.len == 0);
        } else {
            must("state_carry_over", over.len == STATE_SIZE && out[1..] == state[1..] && raw::state_check(&out) == 0);
        }
        if let Some(mut decoder) = self.totals.of("carry_over", Decoder::carry_over(&state), &[8]) {
            self.events(&mut decoder, bytes);
        }
    }

    fn events(&mut self, decoder: &mut Decoder, bytes: &[u8]) {
        for event in decoder.events(bytes) {
            self.totals.of("events", event, &[1, 2, 3, 4, 5]);
        }
    }

    fn table(&mut self) {
        let mirror = self.mirrors[self.dice.below(self.mirrors.len())].clone();
        let resize = self.dice.one_in(8);
        let mut table = self.dice.damage(mirror.table(), resize);
        let count = match self.dice.below(8) {
            0 => self.dice.below(1030),
            1 => usize::MAX - self.dice.below(3),
            _ => mirror.count(),
        };
        let (before, id) = (table.clone(), self.dice.below(4000) as i32 - 1000);
        let unsound = self.totals.note("table_check", raw::table_check(&table, count), &[7]);
        let looked = raw::lookup(&table, count, id);
        self.totals.note("lookup", looked.status, &[7]);
        let number = self.dice.below(80);
        let read = raw::record(&table, count, number);
        let origin =
            if self.totals.note("record", read.status, &[7, 14]) { 0 } else { table[number * PLACE_WIDTH + 5] };
        must("record", read.origin == origin && origin <= 1);
        let same = raw::same(&table, count, mirror.table(), mirror.count());
        if !self.totals.note("same", same, &[7]) {
            // Every byte of the records counts, the origins too.
            let equal = count == mirror.count()
                && table[..count * PLACE_WIDTH] == mirror.table()[..mirror.count() * PLACE_WIDTH];
            must("same", (same == 1) == equal);
        }
        let mut out = vec![0xaa; self.dice.below(1500)].into_boxed_slice();
        let sent = raw::recall(&table, count, &mut out);
        if self.totals.with_good("recall", (sent.status, sent.good), &[7, 9]) {
            must("recall", out.iter().all(|b| *b == 0xaa));
        }
        let printed = raw::print(&table, count, &mut out[sent.len..]);
        if self.totals.with_good("print", (printed.status, printed.good), &[7, 9]) {
            must("print", out[sent.len..].iter().all(|b| *b == 0xaa));
        }
        for status in [looked.status, read.status, same, sent.status, printed.status] {
            must("table", unsound == (status == -7));
        }
        self.set(&mut table, count, id);
        let parts = Mirror::from_parts(mirror.state(), before.into_vec(), count);
        if let Some(mirror) = self.totals.of("from_parts", parts, &[7]) {
            must("records", mirror.entries().count() == count && mirror == mirror.clone());
        }
    }

    fn set(&mut self, table: &mut [u8], count: usize, id: i32) {
        let before = table.to_vec();
        let value = self.dice.bytes(300).into_boxed_slice();
        let mut out = vec![0xaa; self.dice.below(400)].into_boxed_slice();
        let bits = self.dice.below(1 << 31) as u32;
        let set = match self.dice.below(3) {
            0 => raw::set_int(table, count, &mut out, id, bits as i32),
            1 => raw::set_float(table, count, &mut out, id, bits),
            _ => raw::set_string(table, count, &mut out, id, &value),
        };
        must("set", set.status != -1 || usize::from(set.good) == good_of(&value));
        if self.totals.with_good("set", (set.status, set.good), &[7, 10, 1, 6, 9]) {
            must("set", *table == before[..] && out.iter().all(|b| *b == 0xaa) && set.count == count);
        } else {
            self.totals.note("table_check after a set", raw::table_check(table, set.count), &[]);
            must("set", set.len <= out.len());
        }
    }

    fn stream(&mut self) {
        let mut mirror = self.mirrors[self.dice.below(4)].clone();
        let mut decoder = Decoder::new();
        for _ in 0..3 {
            let piece = self.piece();
            self.totals.of("feed", mirror.feed(&piece), &[]);
            self.events(&mut decoder, &piece);
        }
        // A body of both counts 0 (3), which damage seldom makes.
        if self.dice.one_in(50) {
            self.events(&mut decoder, &[0xdf, 0xde, 0, 0, 0, 0, 0, 0]);
        }
        if self.dice.one_in(500) {
            let long = vec![self.dice.byte(); 65535 + self.dice.below(3)].into_boxed_slice();
            self.totals.of("feed", mirror.feed(&long), &[14]);
        }
        self.totals.note("state_check", raw::state_check(mirror.state()), &[]);
        self.totals.note("table_check", raw::table_check(mirror.table(), mirror.count()), &[]);
    }

    fn definition(&mut self) {
        let good = self.bodies[self.dice.below(8)].clone();
        let body = self.dice.damage(&good, true);
        let number = self.dice.below(6);
        if let Some(d) = self.totals.of("definition", Definition::from_bytes(&body), &[4, 5]) {
            let items = d.items().count();
            let item = self.totals.of("item", d.item(number), &[14]);
            must("item", item.is_some() == (number < items));
        }
        let at = if self.dice.one_in(4) { usize::MAX - self.dice.below(9) } else { self.dice.below(60) };
        let step = raw::item_step(&body, at, self.dice.below(4) as u16, self.dice.below(9) as u8);
        let (item, len) = (step.item, body.len());
        self.totals.with_good("item_step", (item.status, item.good), &[4, 5]);
        must("item_step", item.start + item.len as usize <= len && item.long_start + item.long_len as usize <= len);
        let (read, begun, item) = (raw::definition(&body), raw::items_begin(&body), raw::item(&body, number));
        self.totals.with_good("items_begin", (begun.status, begun.good), &[4, 5]);
        self.totals.with_good("item", (item.status, item.good), &[4, 5, 14]);
        // Every call over a refused body answers what the parser does.
        must("items_begin", (begun.status, begun.good) == (read.status, read.good));
        must("item", read.status == 0 || (item.status, item.good) == (read.status, read.good));
    }

    /// Numbers that go together, or one of them changed.
    fn fields(&mut self, good: &Definition) -> raw::WingFields {
        let bits = self.dice.below(1 << 31) as u32;
        let count = match good.details() {
            Details::Items(count) => count,
            _ => 0,
        };
        let mut fields = raw::WingFields {
            parent_id: bits as i32,
            id: -(bits as i32),
            index: bits as u16,
            node_type: good.node_type() as u8,
            unit: good.unit() as u8,
            read_only: self.dice.one_in(2),
            count,
            max_len: bits as u16,
            min: bits,
            max: !bits,
            steps: bits as i32,
        };
        match self.dice.below(12) {
            0 => fields.node_type = self.dice.below(12) as u8,
            1 => fields.unit = self.dice.below(256) as u8,
            2 => fields.count = self.dice.below(65536) as u16,
            _ => {}
        }
        fields
    }

    /// Written of damaged names and items; what is written is read back, and is the same anew.
    fn written(&mut self) {
        let Ok(good) = Definition::from_bytes(&self.bodies[self.dice.below(8)]) else { fault("bodies", "refused") };
        let fields = self.fields(&good);
        let longer = if self.dice.one_in(8) { 250 } else { 0 };
        let name = vec![b'n'; longer + self.dice.below(8)].into_boxed_slice();
        let (long_name, items) = (self.dice.bytes(8).into_boxed_slice(), self.dice.damage(good.item_bytes(), true));
        let mut out = vec![0xaa; self.dice.below(400)].into_boxed_slice();
        let got = raw::write_definition(fields, &name, &long_name, &items, &mut out);
        let refused = self.totals.with_good("write_definition", (got.status, got.good), &[15, 16, 5, 2, 9]);
        // The name is good: where the long name is not, it comes before the items.
        let broken = got.status == -5 && good_of(&long_name) < long_name.len();
        must("write_definition", !broken || usize::from(got.good) == good_of(&long_name));
        must("write_definition", out[got.len..].iter().all(|b| *b == 0xaa) && (got.len == 0) == refused);
        let mut again = vec![0xaa; out.len()].into_boxed_slice();
        let anew = raw::write_anew(&out[..got.len], &mut again);
        if !self.totals.with_good("write_anew", (anew.status, anew.good), if refused { &[4] } else { &[] }) {
            must("write_anew", again == out && anew.len == got.len);
        }
        let body = self.dice.damage(good.body(), true);
        let (anew, read) = (raw::write_anew(&body, &mut again), raw::definition(&body));
        self.totals.with_good("write_anew", (anew.status, anew.good), &[4, 5, 9]);
        must("write_anew", read.status == 0 || (anew.status, anew.good) == (read.status, read.good));
    }

    /// Lines doubled, left out or put elsewhere, and bytes changed; into a table that may hold anything. What is loaded is printed again.
    fn listing(&mut self) {
        let mirror = &self.mirrors[self.dice.below(self.mirrors.len())];
        let Ok(text) = mirror.print() else { fault("print", "refused") };
        let mut lines: Vec<&[u8]> = text.as_bytes().split_inclusive(|b| *b == b'\n').collect();
        let (from, to) = (self.dice.below(lines.len()), self.dice.below(lines.len()));
        match self.dice.below(8) {
            0 => lines.insert(to, lines[from]),
            1 => lines.swap(from, to),
            2 => drop(lines.remove(from)),
            _ => {}
        }
        let last = match self.dice.below(16) {
            0 => format!("2147483647,s,{}\n", "c3".repeat(250 + self.dice.below(9))),
            1 => format!("2147483647,s,{}\n", "41".repeat(250 + self.dice.below(9))),
            2 if self.dice.one_in(100) => "\n".repeat(65536),
            _ => String::new(),
        };
        lines.push(last.as_bytes());
        let text = lines.concat();
        let text = if self.dice.one_in(2) { text.into_boxed_slice() } else { self.dice.damage(&text, true) };
        let places = self.mirrors[self.dice.below(self.mirrors.len())].places();
        let size = if self.dice.one_in(20) { PLACE_WIDTH - 1 } else { places * PLACE_WIDTH + self.dice.below(3) };
        let before = vec![self.dice.byte(); size].into_boxed_slice();
        let mut table = before.clone();
        let loaded = raw::load(&text, &mut table);
        if self.totals.with_good("load", (loaded.status, loaded.good), &[7, 14, 17, 18, 10, 1, 6]) {
            must("load", table == before && loaded.count == 0 && loaded.line <= lines.len() + 3);
            return;
        }
        let records = loaded.count * PLACE_WIDTH;
        must("load", loaded.line == 0 && table[records..] == before[records..]);
        must("load", table[..records].chunks(PLACE_WIDTH).all(|place| place[5] == 0));
        let mut out = vec![0xaa; text.len()].into_boxed_slice();
        let printed = raw::print(&table, loaded.count, &mut out);
        self.totals.note("print after a load", printed.status, &[]);
        must("print", printed.len == text.len() && out == text);
    }

    fn packet(&mut self) {
        let len = if self.dice.one_in(50) { 8185 + self.dice.below(12) } else { self.dice.below(70) };
        let packet = vec![self.dice.byte(); len].into_boxed_slice();
        let mut out = vec![0x5aa5; self.dice.below(45)].into_boxed_slice();
        let got = raw::read_meters(&packet, &mut out);
        if self.totals.note("read_meters", got.status, &[13, 9]) {
            must("read_meters", out.iter().all(|x| *x == 0x5aa5));
        }
        must("read_meters", got.count <= out.len());
    }

    fn reading(&mut self) -> i16 {
        self.dice.below(65536) as u16 as i16
    }

    /// A window of any width after some readings.
    fn window(&mut self) {
        let width = if self.dice.one_in(8) { self.dice.below(1 << 20) } else { self.dice.below(258) };
        let made = raw::window_make(width as u32);
        if self.totals.note("window_make", made.status, &[19]) {
            must("window_make", made.window.width == 0 && made.window.levels == [0; 256]);
        }
        let readings: Box<[i16]> = (0..self.dice.below(300)).map(|_| self.reading()).collect();
        let room = ROW_FIGURES * readings.len() + 2 - self.dice.below(4).min(2 + readings.len());
        let mut rows = vec![77; room].into_boxed_slice();
        let followed = raw::window_readings(made.window, &readings, &mut rows);
        if self.totals.note("window_readings", followed.status, &[8, 9]) {
            must(
                "window_readings",
                rows.iter().all(|n| *n == 77) && followed.rows == 0 && followed.window == made.window,
            );
        } else {
            let laid = ROW_FIGURES * readings.len();
            must("window_readings", followed.rows == readings.len() && rows[laid..].iter().all(|n| *n == 77));
        }
        self.made_up(followed.window);
    }

    /// Some of its numbers changed, a level also with the sum kept up. Every call takes it or refuses it alike.
    fn made_up(&mut self, mut w: raw::WingWindow) {
        for _ in 0..self.dice.below(3) {
            let number = self.dice.below(260) as u16;
            match self.dice.below(6) {
                0 => w.width = number,
                1 => w.held = number,
                2 => w.next = number,
                3 => w.top = w.top.wrapping_add(number),
                4 => w.sum = w.sum.wrapping_add(number.into()),
                _ => {
                    let level = &mut w.levels[usize::from(number % 256)];
                    w.sum = w.sum.wrapping_sub((*level).into()).wrapping_add(number.into());
                    *level = number;
                }
            }
        }
        let (x, mut row) = (self.reading(), vec![77; ROW_FIGURES].into_boxed_slice());
        let (told, taken) = (raw::window_figures(w), raw::window_reading(w, x));
        let followed = raw::window_readings(w, &[x], &mut row);
        let unsound = self.totals.note("window_figures", told.status, &[8]);
        for status in [taken.figures.status, followed.status] {
            must("window", unsound == self.totals.note("window_reading", status, &[8]));
        }
        let f = taken.figures;
        let figures = [f.held.into(), f.sum, f.mean.into(), f.rest.into(), f.top.into()];
        if unsound {
            must("window", taken.window == w && followed.window == w && row.iter().all(|n| *n == 77));
        } else {
            must("window", taken.window == followed.window && figures[..] == *row && f.rest < f.held && x <= f.top);
        }
    }

    fn saved(&mut self) {
        let good = self.mirrors[self.dice.below(self.mirrors.len())].save();
        let resize = self.dice.one_in(4);
        let bytes = self.dice.damage(&good, resize);
        if let Some(mirror) = self.totals.of("restore", Mirror::restore(&bytes), &[8, 7]) {
            must("restore", mirror.save() == *bytes);
        }
    }

    fn orders(&mut self) {
        let text = self.dice.bytes(300).into_boxed_slice();
        let pairs = self.dice.bytes(140).into_boxed_slice();
        let mut out = vec![0xaa; self.dice.below(420)].into_boxed_slice();
        let id = self.dice.below(1 << 31) as i32;
        let last = if self.dice.one_in(8) { 65535 } else { self.dice.below(65536) as u16 };
        let order = raw::order_string(&mut out, id, &text);
        must("order_string", order.status != -1 || usize::from(order.good) == good_of(&text));
        let written = [
            (order, &[10, 1, 9][..]),
            (raw::order_int(&mut out, -id, id), &[9]),
            (raw::order_float(&mut out, id, id as u32), &[9]),
            (raw::request_node_definition(&mut out, id), &[9]),
            (raw::request_node_data(&mut out, -id), &[9]),
            (raw::keep_alive_meters(&mut out, last, last % 40), &[9]),
        ];
        for (got, may) in written {
            self.totals.with_good("orders", (got.status, got.good), may);
        }
        self.totals.note("request_meter", raw::request_meter(&mut out, &pairs, last, last).status, &[11, 12, 9]);
        must("is_utf8", raw::is_utf8(&text) == std::str::from_utf8(&text).is_ok());
        must("utf8_good", raw::utf8_good(&text) == good_of(&text));
        if let Ok(text) = std::str::from_utf8(&text) {
            let mut mirror = self.mirrors[0].clone();
            self.totals.of("set", mirror.set(id, Value::from(text)), &[10, 6]);
        }
    }

    fn one(&mut self) {
        match self.dice.below(10) {
            0 => self.state(),
            1 => self.table(),
            2 => self.stream(),
            3 => self.definition(),
            4 => self.written(),
            5 => self.listing(),
            6 => self.packet(),
            7 => self.saved(),
            8 => self.window(),
            _ => self.orders(),
        }
    }
}

fn main() {
    let words: Vec<u64> = std::env::args().skip(1).filter_map(|word| word.parse().ok()).collect();
    let [number, seed] = words[..] else { fault("damage", "N SEED") };
    let mut pool = Pool::new(seed);
    for _ in 0..number {
        pool.one();
    }
    let totals = pool.totals;
    let each: String = (1..20).map(|n| format!(", {} refused with {n}", totals.refused[n])).collect();
    println!("{number} damaged buffers: {} answers{each}", totals.values);
    if number >= 20_000 && totals.refused[1..].contains(&0) {
        fault("damage", "a refusal that never came: the buffers are not damaged enough");
    }
}
