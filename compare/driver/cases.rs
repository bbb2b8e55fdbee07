// Every listed difference at its smallest input: what libwing does there, and what the rules want of the port.
use std::panic::{catch_unwind, AssertUnwindSafe};
use wing::memory::PORT;
use wing::{Error, WingConsole, WingNodeData, WingNodeDef, WingResponse};

use crate::oracle;
use crate::orders::pairs;

pub struct Case {
    pub name: &'static str,
    pub order: String,
    /// What libwing does, in words.
    pub rust: fn() -> String,
    pub rust_does: &'static str,
    /// The rules' answer, as shell gives it.
    pub rules: String,
}

fn words(r: std::thread::Result<String>) -> String {
    match r {
        Ok(s) => s,
        Err(p) => {
            let w = p.downcast_ref::<String>().cloned().or_else(|| p.downcast_ref::<&str>().map(|s| s.to_string())).unwrap_or_default();
            let cause = ["attempt to add with overflow", "out of bounds", "out of range", "slice index starts at 4 but ends at 3", "Utf8Error"];
            format!("panics: {}", cause.iter().find(|c| w.contains(**c)).unwrap_or(&w.as_str()))
        }
    }
}

fn read(bytes: &[u8]) -> String {
    words(catch_unwind(AssertUnwindSafe(|| match WingConsole::over(bytes).read() {
        Ok(WingResponse::RequestEnd) => "end".into(),
        Ok(WingResponse::NodeData(_, d)) => format!("value {}", d.get_string()),
        Ok(WingResponse::NodeDef(d)) => format!("definition of {} bytes", d.raw.len()),
        Err(Error::ConnectionError) => "ConnectionError".into(),
        Err(e) => format!("{e:?}"),
    })))
}

fn parse(bytes: &[u8]) -> String {
    words(catch_unwind(|| format!("definition {}", WingNodeDef::from_bytes(bytes).id)))
}

fn write(f: impl FnOnce(&mut WingConsole)) -> String {
    words(catch_unwind(AssertUnwindSafe(|| {
        let mut c = WingConsole::over(&[]);
        f(&mut c);
        pairs(&c.written())
    })))
}

fn request(port: u16, last: u16, kind: u8, index: u8, count: usize) -> String {
    PORT.with(|p| *p.borrow_mut() = port);
    write(|c| {
        c.last_meter_id(last);
        let meters: Vec<_> = (0..count).map(|_| oracle::meter(kind, index)).collect();
        c.request_meter(&meters).unwrap();
    })
}

fn heard(bytes: &[u8]) -> String {
    words(catch_unwind(AssertUnwindSafe(|| {
        let mut c = WingConsole::over(&[]);
        c.on_port(0, bytes);
        let (id, r) = c.read_meters().unwrap();
        format!("id {id}, {} readings", r.len())
    })))
}

fn count_4097() -> Vec<u8> {
    let mut b = vec![0xdf, 0xd1, 0xdf, 0x10, 0x01];
    b.extend([0; 4097]);
    b
}

fn length_ff() -> Vec<u8> {
    let mut b = vec![0xd1, 0xff];
    b.extend([0x41; 256]);
    b
}

const NAME_80: [u8; 12] = [0, 0, 0, 0, 0, 0, 0, 0, 0, 0, 1, 0x80];

fn s(text: &str) -> String {
    text.to_string()
}

pub fn all() -> Vec<Case> {
    let case = |name, order: String, rust, rust_does, rules: String| Case { name, order, rust, rust_does, rules };
    let end = |pos: &str, rest: &str| format!("@{pos}.0{rest}");
    vec![
        case("d1 ff", format!("stream {}", pairs(&length_ff())), || read(&length_ff()), "panics: attempt to add with overflow",
            format!("s00000000{}{}", pairs(&[0x41; 256]), end("00000102", "ffffffff000000000"))),
        case("d2 ff ff", s("stream d2ffff05"), || read(&[0xd2, 0xff, 0xff, 5]), "panics: attempt to add with overflow",
            s("i0000000000000005@00000004.0ffffffff000000000")),
        case("count 0", s("stream dfd1df000000000000"), || read(&[0xdf, 0xd1, 0xdf, 0, 0, 0, 0, 0, 0]), "panics: out of bounds",
            s("r03@00000009.000000001000000000")),
        case("count 0, then a long count", s("stream dfd1df00000000000141"), || read(&[0xdf, 0xd1, 0xdf, 0, 0, 0, 0, 0, 1, 0x41]), "panics: out of bounds",
            s("b41:r04@0000000a.000000001000000000")),
        case("count over 4,096", format!("stream {}", pairs(&count_4097())), || read(&count_4097()), "definition of 4097 bytes",
            s("r02@00001006.000000001000000000")),
        case("a field past the end of a body", s("definition -"), || parse(&[]), "panics: out of bounds", s("r04")),
        case("a string of a body not UTF-8", format!("definition {}", pairs(&NAME_80)), || parse(&NAME_80), "panics: Utf8Error", s("r05g0000")),
        case("bytes that end inside a token", s("stream 80"), || read(&[0x80]), "ConnectionError", s(".0ffffffff000000001")),
        case("df in a written integer", s("setint 256 1 223"), || write(|c| c.set_int(1, 223).unwrap()), "d700000001d300df",
            s("0000d700000001d300dfde1")),
        case("df in written float bits", s("setfloat 256 1 df000000"), || write(|c| c.set_float(1, f32::from_bits(0xdf000000)).unwrap()),
            "d700000001d5df000000", s("0000d700000001d5dfde0000001")),
        case("df in a written string", s("setstring 256 1 df9f"), || write(|c| c.set_string(1, "\u{7df}").unwrap()), "d70000000181df9f",
            s("0000d70000000181dfde9f1")),
        case("df as a written length", format!("setstring 256 1 {}", pairs(&[b'a'; 224])), || write(|c| c.set_string(1, &"a".repeat(224)).unwrap())[..14].to_string(),
            "d700000001d1df", format!("0000d700000001d1dfde{}1", pairs(&[b'a'; 224]))),
        case("df in a port", s("askmeters 256 223 0 0 -"), || request(223, 0, 0, 0, 0), "dfd3d300dfd4000100dfdcdedfd1", s("0001dfd3d300dfded4000100dfdedcdedfd11")),
        case("df in a meter id", s("askmeters 256 0 222 0 -"), || request(0, 222, 0, 0, 0), "dfd3d30000d400df0000dcdedfd1", s("00dfdfd3d30000d400dfde0000dcdedfd11")),
        case("df as a meter index", s("askmeters 256 0 0 1 00df"), || request(0, 0, 0, 0xdf, 1), "dfd3d30000d400010000dca0dfdedfd1",
            s("0001dfd3d30000d400010000dca0dfdededfd11")),
        case("df in a keep-alive", s("keepalive 256 1 223"), || write(|c| { c.last_meter_id(1); c.on_port(223, &[]); c.keep_alive_meters().unwrap(); }),
            "dfd3d4000100dfdfd1", s("0000dfd3d4000100dfdedfd11")),
        case("a string over 256 bytes", format!("setstring 512 1 {}", pairs(&[b'a'; 257])), || format!("{} bytes", write(|c| c.set_string(1, &"a".repeat(257)).unwrap()).len() / 2),
            "262 bytes", s("r101")),
        case("more than 64 meters", format!("askmeters 512 0 0 65 {}", "0a00".repeat(64)), || format!("{} bytes", request(0, 0, 10, 0, 65).len() / 2), "79 bytes", s("r111")),
        case("a spent meter id", s("askmeters 512 0 65535 0 -"), || request(0, 65535, 0, 0, 0), "panics: attempt to add with overflow", s("r121")),
        case("a packet under 4 bytes", s("packet 16 000000"), || heard(&[0; 3]), "panics: slice index starts at 4 but ends at 3", s("r131")),
        case("a packet over 8,192 bytes", format!("packet 4100 {}", "00".repeat(8193)), || heard(&[0; 8193]), "id 0, 4094 readings", s("r131")),
        case("the string of a float", s("getters 1 00000000"), || WingNodeData::with_float(0.0).get_string(), "0", s("00000000-")),
    ]
}
