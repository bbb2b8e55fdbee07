// Bytes in memory in place of sockets: what a reader reads, what a writer wrote, and one packet.
use std::cell::RefCell;
use std::io::{Read, Result, Write};
use std::net::Shutdown;
use std::sync::{Arc, Mutex};
use std::time::Duration;

#[derive(Clone, Default)]
pub struct TcpStream {
    pub input: Arc<Mutex<(Vec<u8>, usize)>>,
    pub output: Arc<Mutex<Vec<u8>>>,
}

impl TcpStream {
    pub fn shutdown(&self, _: Shutdown) -> Result<()> {
        Ok(())
    }
}

impl Read for TcpStream {
    // As much as fits; nothing at the end, which the reader answers by ConnectionError.
    fn read(&mut self, buf: &mut [u8]) -> Result<usize> {
        let mut input = self.input.lock().unwrap();
        let at = input.1;
        let n = buf.len().min(input.0.len() - at);
        buf[..n].copy_from_slice(&input.0[at..at + n]);
        input.1 += n;
        Ok(n)
    }
}

impl Write for TcpStream {
    fn write(&mut self, buf: &[u8]) -> Result<usize> {
        self.output.lock().unwrap().extend_from_slice(buf);
        Ok(buf.len())
    }

    fn flush(&mut self) -> Result<()> {
        Ok(())
    }
}

thread_local! {
    pub static PORT: RefCell<u16> = const { RefCell::new(0) };
}

pub struct Address(u16);

impl Address {
    pub fn port(&self) -> u16 {
        self.0
    }
}

pub struct UdpSocket {
    pub packet: Mutex<Vec<u8>>,
}

impl UdpSocket {
    pub fn bind(_: &str) -> Result<UdpSocket> {
        Ok(UdpSocket { packet: Mutex::new(Vec::new()) })
    }

    pub fn local_addr(&self) -> Result<Address> {
        Ok(Address(PORT.with(|p| *p.borrow())))
    }

    pub fn set_read_timeout(&self, _: Option<Duration>) -> Result<()> {
        Ok(())
    }

    // As a datagram socket: what does not fit is lost. The one packet comes again and again.
    pub fn recv_from(&self, buf: &mut [u8]) -> Result<(usize, ())> {
        let p = self.packet.lock().unwrap();
        let n = buf.len().min(p.len());
        buf[..n].copy_from_slice(&p[..n]);
        Ok((n, ()))
    }
}
