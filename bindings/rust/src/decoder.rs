use crate::mirror::{carried_state, fresh_state, value_of};
use crate::raw;
use crate::{Definition, Refusal, Value, BODY_LIMIT, FEED_MAX};

/// What a console says: libwing's `WingResponse`.
#[doc(alias = "WingResponse")]
#[derive(Clone, Debug, PartialEq, Eq)]
pub enum Event {
    /// A node and its value: libwing's `NodeData`.
    #[doc(alias = "NodeData")]
    Value(i32, Value),
    /// What a node is: libwing's `NodeDef`.
    #[doc(alias = "NodeDef")]
    Definition(Definition),
    /// The end of an answer: libwing's `RequestEnd`.
    #[doc(alias = "RequestEnd")]
    End,
}

/// Events one by one, over bytes that come in any pieces.
///
/// Each event costs some 2 µs, since the state crosses to the library as bytes and is tested there. Where only the last values
/// are wanted, [`Mirror::feed`](crate::Mirror::feed) takes all events of a piece in one call.
///
/// ```
/// use whistleloam::{Decoder, Event, Value};
///
/// let mut decoder = Decoder::new();
/// // The integer is not whole yet.
/// assert_eq!(decoder.events(&[0xd7, 0, 0, 0, 7, 0xd3, 0xff]).count(), 0);
/// let events: Vec<_> = decoder.events(&[0xfe, 0xde]).collect();
/// assert_eq!(events, [Ok(Event::Value(7, Value::Int(-2))), Ok(Event::End)]);
/// ```
#[derive(Clone)]
pub struct Decoder {
    state: Box<[u8]>,
    out: Box<[u8]>,
    /// How many bytes of `out` the last call handed out.
    handed: usize,
    node: i32,
}

impl Decoder {
    /// A decoder at the start of a connection.
    pub fn new() -> Decoder {
        Decoder { state: fresh_state(), out: store(), handed: 0, node: 0 }
    }

    /// The next event of these bytes, and how many of them it took; none when more bytes are wanted, and then all are
    /// taken. Go on with the bytes that were not taken.
    ///
    /// Refusals 1 to 5 say what the bytes held: a string or definition that cannot be read. It is taken like an event,
    /// and the reading goes on after it; 1 and 5 say how much of the string is good; with 4 and 5, which say that a body is no
    /// definition, [`handed`](Decoder::handed) has the body. Refused: 14, over 65,536 bytes, which takes nothing.
    pub fn next(&mut self, bytes: &[u8]) -> (Result<Option<Event>, Refusal>, usize) {
        let got = raw::next(&mut self.state, bytes, &mut self.out);
        self.handed = BODY_LIMIT.min(got.len.into());
        self.node = got.node;
        (self.event(got), got.taken)
    }

    /// The bytes that the last call of [`next`](Decoder::next) handed out: a string's, or a body's, also of one that is no
    /// definition (refusals 4 and 5). None after any other answer: a string that is not UTF-8 or a body of a count that is
    /// refused (1 to 3) is not kept.
    ///
    /// ```
    /// use whistleloam::{Decoder, Refusal};
    ///
    /// let mut decoder = Decoder::new();
    /// let (event, _) = decoder.next(&[0xdf, 0xde, 0, 2, 7, 8]);
    /// assert_eq!(event, Err(Refusal::DEFINITION_SHORT));
    /// assert_eq!(decoder.handed(), [7, 8]);
    /// ```
    pub fn handed(&self) -> &[u8] {
        &self.out[..self.handed]
    }

    fn event(&self, got: raw::WingEvent) -> Result<Option<Event>, Refusal> {
        if Refusal::check_with(got.status, got.good)? == 0 {
            return Ok(None);
        }
        Ok(Some(match got.kind {
            0..=2 => Event::Value(got.node, value_of(got.kind, got.value, got.len, &self.out)?),
            3 => Event::Definition(Definition::from_bytes(self.handed())?),
            _ => Event::End,
        }))
    }

    /// The events of a piece of any length, in order. What is not whole at its end waits for the next piece. Where it
    /// is dropped before its end, the rest of the piece is not read.
    pub fn events<'a>(&'a mut self, bytes: &'a [u8]) -> Events<'a> {
        Events { decoder: self, bytes, ended: false }
    }

    /// The current node: the one that the next value belongs to.
    pub fn node(&self) -> i32 {
        self.node
    }

    /// The state's bytes (4,123), to be kept: a half-read token is in them.
    pub fn save(&self) -> Vec<u8> {
        self.state.to_vec()
    }

    /// The decoder whose state was saved. Refused: 8.
    pub fn restore(saved: &[u8]) -> Result<Decoder, Refusal> {
        Refusal::check(raw::state_check(saved))?;
        Ok(Decoder::of(saved.into()))
    }

    /// The decoder whose state was saved under version 1, by a release before a definition's count could have 32 bits. It reads on
    /// where that one stood. Refused: 8, also if it has taken any of the four units after a count of 0.
    ///
    /// ```
    /// use whistleloam::{Decoder, Event, Refusal, Value};
    ///
    /// // A string of three bytes, of which two had come.
    /// let mut saved = vec![0; 4123];
    /// saved[..20].copy_from_slice(&[1, 0, 0xff, 0, 0, 0, 0, 0, 7, 2, 0, 0, 0, 0, 3, 0, 0, 0, 1, 0]);
    /// saved[27..29].copy_from_slice(b"AB");
    /// let mut decoder = Decoder::carry_over(&saved)?;
    /// assert_eq!(decoder.events(b"C").next(), Some(Ok(Event::Value(7, Value::from("ABC")))));
    /// assert_eq!(Decoder::restore(&saved).err(), Some(Refusal::STATE));
    /// # Ok::<(), Refusal>(())
    /// ```
    pub fn carry_over(saved: &[u8]) -> Result<Decoder, Refusal> {
        Ok(Decoder::of(carried_state(saved)?))
    }

    /// Of a sound state.
    fn of(state: Box<[u8]>) -> Decoder {
        let mut decoder = Decoder { state, out: store(), handed: 0, node: 0 };
        // A call without an output is refused (9), so that it alters nothing; it tells the node nevertheless.
        decoder.node = raw::next(&mut decoder.state, &[], &mut []).node;
        decoder
    }
}

fn store() -> Box<[u8]> {
    vec![0; BODY_LIMIT].into_boxed_slice()
}

impl Default for Decoder {
    fn default() -> Decoder {
        Decoder::new()
    }
}

/// The events of a piece.
pub struct Events<'a> {
    decoder: &'a mut Decoder,
    bytes: &'a [u8],
    ended: bool,
}

impl Events<'_> {
    /// The bytes of the last of these events, as [`Decoder::handed`] gives them.
    pub fn handed(&self) -> &[u8] {
        self.decoder.handed()
    }
}

impl Iterator for Events<'_> {
    type Item = Result<Event, Refusal>;

    fn next(&mut self) -> Option<Result<Event, Refusal>> {
        while !self.ended {
            let most = self.bytes.len().min(FEED_MAX);
            let (event, taken) = self.decoder.next(&self.bytes[..most]);
            self.bytes = &self.bytes[taken..];
            match event {
                Ok(Some(event)) => return Some(Ok(event)),
                Err(why) => {
                    // Another than 1 to 5 takes nothing and would come for ever. None does: the state is the decoder's own.
                    self.ended = why.number() > 5;
                    return Some(Err(why));
                }
                Ok(None) => self.ended = self.bytes.is_empty(),
            }
        }
        None
    }
}
