// Our own: a console over bytes in memory, and what the driver asks of it. build.py puts it at the end of the
// console's module, whose private fields it needs.
impl WingConsole {
    pub fn over(bytes: &[u8]) -> Self {
        let s = TcpStream::default();
        *s.input.lock().unwrap() = (bytes.to_vec(), 0);
        Self {
            wsock: Arc::new(Mutex::new(s.clone())),
            rsock: Arc::new(Mutex::new(s)),
            main: Arc::new(Mutex::new(_WingConsoleMain {
                rx_buf: [0; RX_BUFFER_SIZE],
                rx_buf_tail: 0,
                rx_buf_size: 0,
                rx_esc: false,
                rx_current_channel: -1,
                rx_has_in_pipe: None,
                current_node_id: 0,
                token: None,
                good: 0,
                count: 0,
                long: 0,
                body: None,
            })),
            mtrs: Arc::new(Mutex::new(_WingConsoleMeters { meters: None, next_meter_id: 0 })),
        }
    }

    /// A panic while a lock was held leaves it poisoned; the state behind it is whole.
    pub fn unpoison(&mut self) {
        self.main.clear_poison();
        self.mtrs.clear_poison();
    }

    /// The bytes that decode_next has taken.
    pub fn taken(&self) -> usize {
        let read = self.rsock.lock().unwrap().input.lock().unwrap().1;
        read - self.main.lock().unwrap().rx_buf_size
    }

    pub fn token(&self) -> Option<u8> {
        self.main.lock().unwrap().token
    }

    pub fn token_over(&self) {
        self.main.lock().unwrap().token = None;
    }

    /// How many leading bytes of the last string that was not UTF-8 were good, by the error's valid_up_to.
    pub fn good(&self) -> usize {
        self.main.lock().unwrap().good
    }

    pub fn count(&self) -> u32 {
        self.main.lock().unwrap().count
    }

    /// The 32 bits that were read after a count 0.
    pub fn long(&self) -> u32 {
        self.main.lock().unwrap().long
    }

    /// What the next n units append, by decode_next.
    pub fn appended(&mut self, n: u32) -> Result<Vec<u8>> {
        let main = self.main.clone();
        let mut main = main.lock().unwrap();
        let mut raw = Vec::new();
        for _ in 0..n {
            self.decode_next(&mut main, &mut raw)?;
        }
        Ok(raw)
    }

    /// The body that went to from_bytes since the last call.
    pub fn body(&self) -> Option<Vec<u8>> {
        self.main.lock().unwrap().body.take()
    }

    pub fn escaped(&self) -> bool {
        self.main.lock().unwrap().rx_esc
    }

    pub fn channel(&self) -> i8 {
        self.main.lock().unwrap().rx_current_channel
    }

    pub fn pending(&self) -> Option<u8> {
        self.main.lock().unwrap().rx_has_in_pipe
    }

    pub fn node(&self) -> i32 {
        self.main.lock().unwrap().current_node_id
    }

    /// The next n units by decode_next.
    pub fn units(&mut self, n: usize) -> Result<Vec<u8>> {
        let main = self.main.clone();
        let mut main = main.lock().unwrap();
        let mut raw = Vec::new();
        (0..n).map(|_| self.decode_next(&mut main, &mut raw).map(|u| u.1)).collect()
    }

    pub fn written(&self) -> Vec<u8> {
        std::mem::take(&mut *self.wsock.lock().unwrap().output.lock().unwrap())
    }

    /// Leaves the room of what was written to be written in again.
    pub fn forget_written(&self) -> usize {
        let s = self.wsock.lock().unwrap();
        let mut out = s.output.lock().unwrap();
        let n = out.len();
        out.clear();
        n
    }

    pub fn id_bytes(&self, id: i32, prefix: u8, suffix: Option<u8>) -> Vec<u8> {
        let mut buf = Vec::new();
        self.format_id(id, &mut buf, prefix, suffix);
        buf
    }

    pub fn last_meter_id(&mut self, id: u16) {
        self.mtrs.lock().unwrap().next_meter_id = id;
    }

    pub fn on_port(&mut self, port: u16, packet: &[u8]) {
        let socket = UdpSocket::bind("").unwrap();
        *socket.packet.lock().unwrap() = packet.to_vec();
        self.mtrs.lock().unwrap().meters = Some(Meters { socket, port });
    }
}
