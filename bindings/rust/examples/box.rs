//! A recall box in small: `cargo run --example box [SEED]`.
//!
//! A thread on 127.0.0.1 plays the console and sends samples/capture.bin in pieces of random length. The box (`show`) keeps
//! what it reads, sets some strips and recalls everything into a second box, over TCP too. Status 1 if the second box has not the
//! first one's values, all as the console's, if the first does not know the strips that were set there, or if the console did not get
//! them.
use std::error::Error;
use std::io::{Read, Write};
use std::net::{SocketAddr, TcpListener, TcpStream};
use std::path::Path;
use std::thread;
use std::time::Duration;
use whistleloam::{request_node_data, Mirror, Origin, Value};

type Fault = Box<dyn Error + Send + Sync>;

const PLACES: usize = 1024;
/// A console that says nothing for so long is not there.
const PATIENCE: Option<Duration> = Some(Duration::from_secs(5));

/// The box: from connect to recall.
fn show(console: SocketAddr, second_box: SocketAddr) -> Result<Mirror, Fault> {
    let mut console = TcpStream::connect(console)?;
    console.set_nodelay(true)?;
    console.set_read_timeout(PATIENCE)?;
    console.write_all(&[0xdf, 0xd1])?; // what a console wants to hear first, and every few seconds
    console.write_all(&request_node_data(0))?; // everything, from the root down

    let mut mirror = Mirror::new(PLACES)?;
    let mut bytes = [0; 2048];
    loop {
        let n = console.read(&mut bytes)?;
        if n == 0 {
            break; // the console has hung up; a real one goes on, and so does the box
        }
        let counts = mirror.feed(&bytes[..n])?;
        if counts.unplaced > 0 {
            eprintln!("{} values have no place", counts.unplaced);
        }
    }

    // The engineer sets some strips: each is stored here and sent to the console.
    console.write_all(&mirror.set(1000, "Sprecherin")?)?;
    console.write_all(&mirror.set(2000, -6.5)?)?;
    console.write_all(&mirror.set(3000, 1)?)?;

    // Between two shows: everything goes to another console, or as here to a second box.
    let mut second = TcpStream::connect(second_box)?;
    second.write_all(&mirror.recall()?)?;
    Ok(mirror)
}

/// What is read until the other side hangs up, in a mirror.
fn listen(mut stream: TcpStream) -> Result<Mirror, Fault> {
    stream.set_read_timeout(PATIENCE)?;
    let mut mirror = Mirror::new(PLACES)?;
    let mut bytes = [0; 700];
    loop {
        match stream.read(&mut bytes)? {
            0 => return Ok(mirror),
            n => mirror.feed(&bytes[..n])?,
        };
    }
}

/// The console: it waits for the request, sends the capture in pieces, and then hears what is set.
fn play(mut stream: TcpStream, capture: &[u8], seed: u64) -> Result<Mirror, Fault> {
    stream.set_nodelay(true)?;
    stream.set_read_timeout(PATIENCE)?;
    stream.read_exact(&mut [0; 4])?;
    let (mut rest, mut dice) = (capture, seed | 1);
    while !rest.is_empty() {
        dice ^= dice << 13;
        dice ^= dice >> 7;
        dice ^= dice << 17;
        let (piece, after) = rest.split_at(rest.len().min(1 + (dice >> 20) as usize % 40));
        stream.write_all(piece)?;
        thread::sleep(Duration::from_micros(dice % 500));
        rest = after;
    }
    stream.shutdown(std::net::Shutdown::Write)?;
    listen(stream)
}

/// Any free port of this machine, and what answers there.
fn serve<T: Send + 'static>(
    answer: impl FnOnce(TcpStream) -> Result<T, Fault> + Send + 'static,
) -> Result<(SocketAddr, thread::JoinHandle<Result<T, Fault>>), Fault> {
    let listener = TcpListener::bind("127.0.0.1:0")?;
    let address = listener.local_addr()?;
    Ok((address, thread::spawn(move || answer(listener.accept()?.0))))
}

/// The nodes whose value was set at this box.
fn moved(mirror: &Mirror) -> Vec<i32> {
    mirror.entries().filter(|e| e.origin == Origin::SetOrder).map(|e| e.id).collect()
}

fn main() -> Result<(), Fault> {
    let seed = std::env::args().nth(1).map_or(Ok(1), |word| word.parse())?;
    let capture = std::fs::read(Path::new(env!("CARGO_MANIFEST_DIR")).join("../../samples/capture.bin"))?;
    let (console, playing) = serve(move |stream| play(stream, &capture, seed))?;
    let (second, listening) = serve(listen)?;

    let mirror = show(console, second)?;
    let console = playing.join().map_err(|_| "the console's thread failed")??;
    let second = listening.join().map_err(|_| "the second box's thread failed")??;

    let heard: Vec<(i32, Value)> = console.records().collect();
    if heard != [(1000, "Sprecherin".into()), (2000, Value::float(-6.5)), (3000, 1.into())] {
        return Err(format!("the console heard {heard:?}").into());
    }
    if moved(&mirror) != [1000, 2000, 3000] {
        return Err(format!("set at the box were {:?}", moved(&mirror)).into());
    }
    // A recall does not say who gave a value: it comes to the second box as a console's.
    if !second.records().eq(mirror.records()) || !moved(&second).is_empty() {
        return Err(format!("the second box has not the first one's values: {mirror:?}, {second:?}").into());
    }
    let (records, moved) = (mirror.len(), moved(&mirror).len());
    println!("{records} records, {moved} of them set at the box, and the second box has the same values (seed {seed})");
    Ok(())
}
