use crate::raw;
use std::fmt;

/// Why a call was refused: a number of the rules' table 'What is sent back'. 1 and 5 are about a string that is not UTF-8 and say how
/// much of it can be shown.
///
/// A refused call has changed nothing. The exception are 1 to 5 where a [`Decoder`](crate::Decoder) gives them (1 to 3 of
/// [`raw::next`](crate::raw::next)): they say what the bytes held, which is taken, and the reading goes on after it.
///
/// ```
/// use whistleloam::{Decoder, Refusal};
///
/// // A strip's name of three bytes, cut inside its second character.
/// let (event, _) = Decoder::new().next(&[0x82, b'B', 0xe2, 0x82]);
/// assert_eq!(event, Err(Refusal::StringNotUtf8 { good: 1 }));
/// assert_eq!(event.unwrap_err().to_string(), "refusal 1: a string is not UTF-8 (good bytes: 1)");
/// ```
#[derive(Clone, Copy, PartialEq, Eq, Hash)]
pub enum Refusal {
    /// 1: a string that is not UTF-8.
    StringNotUtf8 {
        /// How many of its leading bytes form whole characters, at most 255.
        good: usize,
    },
    /// 5: a definition's string that is not UTF-8.
    DefinitionNotUtf8 {
        /// How many of its leading bytes form whole characters, at most 254.
        good: usize,
    },
    /// Any other, by its number alone.
    Other(u8),
}

impl Refusal {
    /// 2: a definition's count in force over 4,096, or a body to be written that is longer.
    pub const BODY_LONG: Refusal = Refusal::Other(2);
    /// 3: both counts of a definition 0: its 16-bit count, and the 32-bit one after it.
    pub const BODY_EMPTY: Refusal = Refusal::Other(3);
    /// 4: a definition's field past the end.
    pub const DEFINITION_SHORT: Refusal = Refusal::Other(4);
    /// 6: a new node, and no place left, or a listing of more records than places.
    pub const NO_PLACE: Refusal = Refusal::Other(6);
    /// 7: a table that is not sound, or whose places are not 1 to 1,024.
    pub const TABLE: Refusal = Refusal::Other(7);
    /// 8: bytes that are no sound decoder state's, an old state that cannot be carried over, or a window that no list of readings leaves.
    pub const STATE: Refusal = Refusal::Other(8);
    /// 9: an output too short for the whole.
    pub const OUTPUT_SHORT: Refusal = Refusal::Other(9);
    /// 10: a string over 256 bytes.
    pub const STRING_LONG: Refusal = Refusal::Other(10);
    /// 11: more than 64 meters.
    pub const METERS: Refusal = Refusal::Other(11);
    /// 12: the last meter id is 65,535.
    pub const METER_ID: Refusal = Refusal::Other(12);
    /// 13: a packet of fewer than 4 or more than 8,192 bytes.
    pub const PACKET: Refusal = Refusal::Other(13);
    /// 14: more than 65,536 bytes, or an item or record number that is not below its count.
    pub const NUMBER: Refusal = Refusal::Other(14);
    /// 15: a definition's name over 255 bytes.
    pub const NAME_LONG: Refusal = Refusal::Other(15);
    /// 16: a type or unit over 7, or item bytes that are not the type's items, as many as the count.
    pub const FIELDS: Refusal = Refusal::Other(16);
    /// 17: a listing's header or line out of form.
    pub const LINE: Refusal = Refusal::Other(17);
    /// 18: a line's id that is not above the one before.
    pub const ID_ORDER: Refusal = Refusal::Other(18);
    /// 19: a window's width outside 1 to 256.
    pub const WIDTH: Refusal = Refusal::Other(19);

    /// The number in the rules' table.
    pub fn number(self) -> u8 {
        match self {
            Refusal::StringNotUtf8 { .. } => 1,
            Refusal::DefinitionNotUtf8 { .. } => 5,
            Refusal::Other(number) => number,
        }
    }

    /// How many leading bytes of the string form whole characters, of 1 and 5.
    pub fn good(self) -> Option<usize> {
        match self {
            Refusal::StringNotUtf8 { good } | Refusal::DefinitionNotUtf8 { good } => Some(good),
            Refusal::Other(_) => None,
        }
    }

    /// The cause in words.
    pub fn words(self) -> &'static str {
        match self.number() {
            1 => "a string is not UTF-8",
            2 => "a definition's count or body is over 4,096",
            3 => "both counts of a definition are 0",
            4 => "a definition's field goes past the end",
            5 => "a definition's string is not UTF-8",
            6 => "a new node, and no place left, or more records than places",
            7 => "the table is not sound or its places are not 1 to 1,024",
            8 => "the state is not sound",
            9 => "the output is too short for the whole",
            10 => "a string is over 256 bytes",
            11 => "more than 64 meters",
            12 => "the last meter id is 65,535",
            13 => "the packet does not have 4 to 8,192 bytes",
            14 => "over 65,536 bytes, or an item or record number not below its count",
            15 => "a definition's name is over 255 bytes",
            16 => "a type or unit over 7, or item bytes that are not the type's items, as many as the count",
            17 => "a listing's header or line is out of form",
            18 => "a line's id is not above the one before",
            19 => "a window's width is not 1 to 256",
            _ => "a number that the rules do not have",
        }
    }

    /// A status of [`raw`](crate::raw) that has no good beside it: the refusal of one below 0, else the status.
    pub fn check(status: i32) -> Result<i32, Refusal> {
        if status < 0 {
            return Err(Refusal::Other(u8::try_from(status.unsigned_abs()).unwrap_or(u8::MAX)));
        }
        Ok(status)
    }

    /// The same of a status and the good beside it.
    pub fn check_with(status: i32, good: u16) -> Result<i32, Refusal> {
        let good = good.into();
        Refusal::check(status).map_err(|why| match why {
            Refusal::Other(1) => Refusal::StringNotUtf8 { good },
            Refusal::Other(5) => Refusal::DefinitionNotUtf8 { good },
            other => other,
        })
    }
}

impl fmt::Display for Refusal {
    fn fmt(&self, f: &mut fmt::Formatter) -> fmt::Result {
        write!(f, "refusal {}: {}", self.number(), self.words())?;
        match self.good() {
            Some(good) => write!(f, " (good bytes: {good})"),
            None => Ok(()),
        }
    }
}

/// The same words: a `main` that ends with an error shows it so.
impl fmt::Debug for Refusal {
    fn fmt(&self, f: &mut fmt::Formatter) -> fmt::Result {
        fmt::Display::fmt(self, f)
    }
}

impl std::error::Error for Refusal {}

/// Why a listing was not loaded, and which of its lines decided.
#[derive(Clone, Copy, PartialEq, Eq, Hash)]
pub struct LoadRefusal {
    why: Refusal,
    line: usize,
}

impl LoadRefusal {
    /// The refusal: 7, 14, 17, 18, 10, 1 or 6.
    pub fn refusal(self) -> Refusal {
        self.why
    }

    /// The number of the line that decided; the header is line 1. None with 7, 14 and 6, which are about no line.
    pub fn line(self) -> Option<usize> {
        (self.line > 0).then_some(self.line)
    }

    /// An answer of [`raw::load`](crate::raw::load): the refusal of one with a status below 0.
    pub fn check(loaded: &raw::WingLoaded) -> Result<(), LoadRefusal> {
        let line = loaded.line;
        Refusal::check_with(loaded.status, loaded.good).map(|_| ()).map_err(|why| LoadRefusal { why, line })
    }
}

/// Where the line does not matter.
impl From<LoadRefusal> for Refusal {
    fn from(refused: LoadRefusal) -> Refusal {
        refused.why
    }
}

impl fmt::Display for LoadRefusal {
    fn fmt(&self, f: &mut fmt::Formatter) -> fmt::Result {
        if let Some(line) = self.line() {
            write!(f, "line {line}: ")?;
        }
        fmt::Display::fmt(&self.why, f)
    }
}

/// The same words.
impl fmt::Debug for LoadRefusal {
    fn fmt(&self, f: &mut fmt::Formatter) -> fmt::Result {
        fmt::Display::fmt(self, f)
    }
}

impl std::error::Error for LoadRefusal {}
