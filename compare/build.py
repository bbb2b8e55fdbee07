#!/usr/bin/env python3
"""Builds the reference from libwing's sources, and the comparer over it.

    build.py SOURCES OUT
    build.py SOURCES OUT release

SOURCES is a folder with libwing's console.rs, node.rs and lib.rs (or a checkout of it, with these in src/). Nothing of
them is kept in this repository: each edit below names the text that it replaces, which must stand in the file exactly
once, else the build stops. OUT gets the edited sources and the program `compare`; with the word `release` the library
alone, without overflow checks, for bench/.

What the edits do: the sockets become bytes in memory (driver/memory.rs), timers, keep-alive while reading, discovery,
the name map and JSON go, and the reader notes which token it is in, which body it hands to from_bytes and how much of a
string was good, so that the driver can go on after a panic and say what the error said. Everything that decodes, parses and writes stays as it is.
"""
import os
import subprocess
import sys

HERE = os.path.dirname(os.path.abspath(__file__))

# As cargo's release profile.
PROFILE = ["-C", "opt-level=3", "-C", "panic=unwind", "--edition", "2021", "--cap-lints", "allow"]

# The list of differences presumes them.
CHECKS = ["-C", "overflow-checks=on"]


class Text:
    def __init__(self, path):
        self.path = path
        with open(path, encoding="utf-8") as f:
            self.text = f.read()

    def only(self, old):
        n = self.text.count(old)
        if n != 1:
            sys.exit(f"build.py: {self.path}: {n} times instead of once: {old!r}")
        return self.text.index(old)

    def swap(self, old, new):
        self.only(old)
        self.text = self.text.replace(old, new)

    def drop_line(self, part):
        """The one line that contains a text."""
        at = self.only(part)
        start = self.text.rfind("\n", 0, at) + 1
        self.text = self.text[:start] + self.text[self.text.index("\n", at) + 1:]

    def drop_from(self, first, before, instead=""):
        """All from a text up to another, or to the end."""
        a = self.only(first)
        b = len(self.text) if before is None else self.only(before)
        if b <= a:
            sys.exit(f"build.py: {self.path}: {before!r} stands before {first!r}")
        self.text = self.text[:a] + instead + self.text[b:]


def source(folder, name):
    for path in (name, f"src/{name}", f"src--src--{name}.txt"):
        if os.path.isfile(os.path.join(folder, path)):
            return Text(os.path.join(folder, path))
    sys.exit(f"build.py: no {name} in {folder}")


def console(folder):
    t = source(folder, "console.rs")
    t.swap("use std::net::{TcpStream, UdpSocket};", "use crate::memory::{TcpStream, UdpSocket};")
    t.drop_line("use crate::propmap::NAME_TO_DEF;")
    t.drop_from("lazy_static::lazy_static! {", "const RX_BUFFER_SIZE")
    t.drop_line("const DATA_KEEP_ALIVE_SECONDS")
    t.drop_line("const METERS_KEEP_ALIVE_SECONDS")
    t.drop_line("    keep_alive_timer:        std::time::Instant,")
    t.drop_line("    keep_alive_meters_timer: std::time::Instant,")
    t.drop_from("    /// Discover mixers on", "    pub fn read(&mut self)")
    t.drop_from("    /// read() will call this", "    /// read_meters() will call this")
    t.drop_line("self._keep_alive(r)?;")
    t.drop_line("set_read_timeout(Some(r.keep_alive_timer")
    t.swap("if m.keep_alive_meters_timer <= std::time::Instant::now() {", "{")
    t.drop_line("m.keep_alive_meters_timer = std::time::Instant::now()")
    t.drop_line("self._keep_alive_meters(&mut mtrs)?;")
    t.drop_line("self._keep_alive_meters(&mut m)?;")
    t.drop_line("set_read_timeout(Some(m.keep_alive_meters_timer")
    t.drop_from("    pub fn name_to_id", "impl Drop for WingConsole", "}\n\n")
    # What the driver is told: the token that is read, the count and body of a definition, the 32 bits after a count 0, and of a string
    # that is not UTF-8 what its error says beside InvalidData.
    t.swap("    current_node_id:         i32,\n", "    current_node_id:         i32,\n    token: Option<u8>,\n    good: usize,\n    count: u32,\n    long: u32,\n    body: Option<Vec<u8>>,\n")
    t.swap("let (ch, cmd) = self.decode_next(&mut main, &mut raw)?;",
           "main.token = None; let (ch, cmd) = self.decode_next(&mut main, &mut raw)?; main.token = Some(cmd);")
    t.swap("let _ = self.read_u32(&mut main, ch, &mut raw)?;", "let long = self.read_u32(&mut main, ch, &mut raw)?; main.long = long;")
    t.swap("String::from_utf8(buf).map_err(|_| Error::InvalidData)",
           "String::from_utf8(buf).map_err(|e| { r.good = e.utf8_error().valid_up_to(); Error::InvalidData })")
    t.swap("                raw.clear();\n", "                raw.clear(); main.count = def_len;\n")
    t.swap("return Ok(WingResponse::NodeDef(", "main.body = Some(raw.clone()); return Ok(WingResponse::NodeDef(")
    with open(os.path.join(HERE, "driver", "inside.rs"), encoding="utf-8") as f:
        t.text += "\n" + f.read()
    return t.text


def node(folder):
    t = source(folder, "node.rs")
    t.drop_from("    pub fn to_json(&self)", None, "}\n")
    return t.text


def lib(folder):
    t = source(folder, "lib.rs")
    for name in ("mod discovery;", "mod ffi;", "mod propmap;", "pub use ffi::"):
        t.drop_line(name)
    t.swap("mod console;", "pub mod memory;\nmod console;")
    t.swap("#[derive(Debug, thiserror::Error)]", "#[derive(Debug)]")
    for words in ("IO error", "Invalid data", "Connection error", "Failed to discover"):
        t.drop_line(f'#[error("{words}')
    t.swap("Io(#[from] std::io::Error)", "Io(std::io::Error)")
    t.text += "\nimpl From<std::io::Error> for Error {\n    fn from(e: std::io::Error) -> Self {\n        Error::Io(e)\n    }\n}\n"
    return t.text


def write(path, text):
    with open(path, "w", encoding="utf-8") as f:
        f.write(text)


def rustc(words):
    if subprocess.run(["rustc", *PROFILE, *words]).returncode != 0:
        sys.exit("build.py: rustc failed")


def main():
    release = sys.argv[3:] == ["release"]
    if len(sys.argv) != 3 and not release:
        sys.exit(__doc__)
    folder, out = sys.argv[1:3]
    checks = [] if release else CHECKS
    os.makedirs(out, exist_ok=True)
    write(os.path.join(out, "console.rs"), console(folder))
    write(os.path.join(out, "node.rs"), node(folder))
    write(os.path.join(out, "lib.rs"), lib(folder))
    with open(os.path.join(HERE, "driver", "memory.rs"), encoding="utf-8") as f:
        write(os.path.join(out, "memory.rs"), f.read())
    rustc([*checks, "--crate-type", "rlib", "--crate-name", "wing", "-o", os.path.join(out, "libwing.rlib"), os.path.join(out, "lib.rs")])
    if release:
        return
    rustc([*checks, "--crate-name", "compare", "--extern", f"wing={out}/libwing.rlib", "-o", os.path.join(out, "compare"),
           os.path.join(HERE, "driver", "main.rs")])
    print(f"built {out}/compare")


main()
