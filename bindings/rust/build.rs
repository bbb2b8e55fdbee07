//! Finds or makes the archive of the proved library, libwing_c.a, and links it.
use std::env;
use std::fs;
use std::path::{Path, PathBuf};
use std::process::Command;
use std::time::SystemTime;

/// The crates whose sources the archive is made of.
const CRATES: [&str; 7] =
    ["wing_c", "wing_listing", "wing_meters", "wing_saved", "wing_mirror", "wing_wire", "wing_node"];

fn main() {
    println!("cargo:rerun-if-env-changed=WING_C_ARCHIVE");
    demand("CARGO_CFG_TARGET_ARCH", "x86_64");
    demand("CARGO_CFG_TARGET_OS", "linux");
    demand("CARGO_CFG_TARGET_POINTER_WIDTH", "64");
    let archive = match env::var_os("WING_C_ARCHIVE") {
        Some(path) => given(PathBuf::from(path)),
        None => from_repository(),
    };
    println!("cargo:rerun-if-changed={}", archive.display());
    let folder = archive.parent().unwrap_or(Path::new("."));
    println!("cargo:rustc-link-search=native={}", folder.display());
    println!("cargo:rustc-link-lib=static=wing_c");
}

fn fail(what: &str) -> ! {
    eprintln!("whistleloam: {what}");
    std::process::exit(1);
}

/// What libwing_c.a is made for; cargo says what this build is for.
fn demand(name: &str, want: &str) {
    let got = env::var(name).unwrap_or_default();
    if got != want {
        fail(&format!(
            "libwing_c.a is made for Linux on x86-64 with 64-bit pointers only; {name} is '{got}', not '{want}'"
        ));
    }
}

fn given(path: PathBuf) -> PathBuf {
    if path.file_name().map_or(true, |name| name != "libwing_c.a") || !path.is_file() {
        fail(&format!("WING_C_ARCHIVE is {}: no file libwing_c.a there", path.display()));
    }
    path.canonicalize().unwrap_or(path)
}

/// The repository's own archive, made anew where a source is newer.
fn from_repository() -> PathBuf {
    let top = Path::new(env!("CARGO_MANIFEST_DIR")).join("../..");
    let top = top.canonicalize().unwrap_or(top);
    let archive = top.join("target/staticlib/libwing_c.a");
    let sources = newest_source(&top);
    match (changed(&archive), sources) {
        (Some(made), Some(source)) if made >= source => {}
        (Some(_), None) => {}
        (None, None) => fail(&format!(
            "no archive: WING_C_ARCHIVE is not set, {} is not there, nor are the sources of wing_c to make it of",
            archive.display()
        )),
        _ => make(&top, &archive),
    }
    archive
}

fn changed(path: &Path) -> Option<SystemTime> {
    fs::metadata(path).and_then(|m| m.modified()).ok()
}

/// When a source was last changed; none if the sources are not all there.
fn newest_source(top: &Path) -> Option<SystemTime> {
    let mut newest = None;
    for name in CRATES {
        let folder = top.join("crates").join(name).join("src");
        println!("cargo:rerun-if-changed={}", folder.display());
        newest = newest.max(Some(newest_below(&folder)?));
    }
    newest
}

/// When a file of a folder or of one below it was last changed; none if something there cannot be read.
fn newest_below(folder: &Path) -> Option<SystemTime> {
    let mut newest = None;
    for entry in fs::read_dir(folder).ok()? {
        let path = entry.ok()?.path();
        newest = newest.max(if path.is_dir() { newest_below(&path) } else { Some(changed(&path)?) });
    }
    newest
}

fn make(top: &Path, archive: &Path) {
    let done = Command::new(top.join("tools/build")).arg("wing_c").current_dir(top).output();
    match done {
        Err(e) => fail(&format!(
            "{} is missing or older than its sources, and 'tools/build wing_c' cannot be run ({e}): put the kit's rt on the path, or set WING_C_ARCHIVE",
            archive.display()
        )),
        Ok(out) if !out.status.success() || !archive.is_file() => fail(&format!(
            "'tools/build wing_c' in {} failed:\n{}{}",
            top.display(),
            String::from_utf8_lossy(&out.stdout),
            String::from_utf8_lossy(&out.stderr)
        )),
        Ok(_) => {}
    }
}
