//! `feeds N`: a mirror is fed samples/capture.bin N times, and as often set, recalled, printed into buffers made before and loaded of what
//! was printed, a definition is written, and a window takes readings.
//!
//! These calls allocate nothing, so that under valgrind the number of allocations is the same for every N: `bindings/test`
//! compares two.
use std::error::Error;
use std::path::Path;
use whistleloam::{Details, Fields, Mirror, NodeType, NodeUnit, Value, Window, LINE_MAX, ROW_FIGURES, SET_MAX};

const PLACES: usize = 128;

fn fields() -> Fields {
    Fields {
        parent_id: 1000,
        id: 3000,
        index: 1,
        node_type: NodeType::StringEnum,
        unit: NodeUnit::None,
        read_only: false,
        details: Details::Items(2),
    }
}

fn main() -> Result<(), Box<dyn Error>> {
    let rounds: u32 = std::env::args().nth(1).ok_or("feeds N")?.parse()?;
    let capture = std::fs::read(Path::new(env!("CARGO_MANIFEST_DIR")).join("../../samples/capture.bin"))?;
    let values = [(1000, Value::from("Sprecherin")), (2000, Value::float(-6.5)), (3000, Value::Int(1))];
    let (mut order, mut recall) = ([0; SET_MAX], vec![0; 2 + SET_MAX * PLACES]);
    let mut listing = vec![0; 14 + LINE_MAX * PLACES];
    let (readings, mut rows) = ([-90, 0, 7], [0; 3 * ROW_FIGURES]);
    let (mut mirror, mut window) = (Mirror::new(PLACES)?, Window::new(256)?);
    let (mut stored, mut sent) = (0, 0);
    for _ in 0..rounds {
        // In pieces too: what is not whole is kept in the state.
        for piece in capture.chunks(100) {
            stored += mirror.feed(piece)?.stored;
        }
        for (id, value) in &values {
            sent += mirror.set_into(*id, value, &mut order)?;
        }
        sent += mirror.recall_into(&mut recall)?;
        let len = mirror.print_into(&mut listing)?;
        mirror.load(&listing[..len])?;
        sent += fields().write_into("mute", "Mute", b"\x03off\x00\x02on\x00", &mut order)?;
        window.readings_into(&readings, &mut rows)?;
        window.reading(window.figures().map_or(0, |told| told.mean));
    }
    let (records, held) = (mirror.len(), window.held());
    println!("{rounds} rounds: {stored} values stored, {sent} bytes to send, {records} records, {held} readings");
    if stored == 0 || sent == 0 {
        return Err("nothing was fed or sent".into());
    }
    Ok(())
}
