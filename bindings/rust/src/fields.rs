use crate::raw;
use crate::{Definition, Details, NodeType, NodeUnit, Refusal, BODY_LIMIT};

/// A definition to be written, as a simulated console sends it, but for its names and items.
///
/// ```
/// use whistleloam::{Definition, Details, Fields, NodeType, NodeUnit};
///
/// let fields = Fields {
///     parent_id: 1,
///     id: 2,
///     index: 3,
///     node_type: NodeType::StringEnum,
///     unit: NodeUnit::None,
///     read_only: false,
///     details: Details::Items(2),
/// };
/// let body = fields.to_bytes("mute", "Mute", b"\x03off\x03Off\x02on\x02On")?;
/// let definition = Definition::from_bytes(&body)?;
/// assert_eq!((definition.name(), definition.fields()), ("mute", fields));
/// assert_eq!(definition.items().count(), 2);
/// assert_eq!(definition.to_bytes()?, body);
/// # Ok::<(), whistleloam::Refusal>(())
/// ```
#[derive(Clone, Copy, Debug, PartialEq, Eq, Hash)]
pub struct Fields {
    /// The node above.
    pub parent_id: i32,
    /// The node.
    pub id: i32,
    /// Its number below the parent.
    pub index: u16,
    /// The type.
    pub node_type: NodeType,
    /// The unit.
    pub unit: NodeUnit,
    /// Bit 9 of the flags, which libwing calls read-only.
    pub read_only: bool,
    /// What the type adds. What it lacks is ignored, but for the number of items and the item bytes (16); what details of
    /// another kind lack is 0.
    pub details: Details,
}

impl Fields {
    /// As numbers. Limits, steps and length are taken of details of the type's own kind only, the number of items of any
    /// type; all else is 0.
    fn numbers(&self) -> raw::WingFields {
        let (mut min, mut max, mut steps, mut count, mut max_len) = (0, 0, 0, 0, 0);
        match (self.node_type, self.details) {
            (
                NodeType::LinearFloat | NodeType::LogarithmicFloat,
                Details::Floats { min: low, max: high, steps: number },
            ) => (min, max, steps) = (low, high, number),
            (NodeType::Integer, Details::Integers { min: low, max: high }) => (min, max) = (low as u32, high as u32),
            (NodeType::String, Details::String(len)) => max_len = len,
            (_, Details::Items(number)) => count = number,
            _ => {}
        }
        raw::WingFields {
            parent_id: self.parent_id,
            id: self.id,
            index: self.index,
            node_type: self.node_type as u8,
            unit: self.unit as u8,
            read_only: self.read_only,
            count,
            max_len,
            min,
            max,
            steps,
        }
    }

    /// The body. The items are given as they stand in one, in the number of the details: each has two strings, the short
    /// one and then the long one ([`NodeType::StringEnum`]), or the four bytes of a float and a string
    /// ([`NodeType::FloatEnum`]), and a string is its length in one byte and its bytes. `docs/BOX.md` of the repository says
    /// how a body is sent. Refused: 15, 16, 5 (an item's string, with what is good of it), 2.
    pub fn to_bytes(&self, name: &str, long_name: &str, items: &[u8]) -> Result<Vec<u8>, Refusal> {
        let mut out = vec![0; BODY_LIMIT];
        let len = self.write_into(name, long_name, items, &mut out)?;
        out.truncate(len);
        Ok(out)
    }

    /// The same to the front of an output of one's own, without allocating; gives the number of bytes. Refused: 15,
    /// 16, 5, 2, 9; the output is as it was then.
    pub fn write_into(&self, name: &str, long_name: &str, items: &[u8], out: &mut [u8]) -> Result<usize, Refusal> {
        let written = raw::write_definition(self.numbers(), name.as_bytes(), long_name.as_bytes(), items, out);
        Refusal::check_with(written.status, written.good)?;
        Ok(written.len)
    }
}

impl Definition {
    /// The fields, to be written.
    pub fn fields(&self) -> Fields {
        Fields {
            parent_id: self.parent_id(),
            id: self.id(),
            index: self.index(),
            node_type: self.node_type(),
            unit: self.unit(),
            read_only: self.read_only(),
            details: self.details(),
        }
    }

    /// The body written anew. It is [`body`](Definition::body) exactly if type and unit in the flags are below 8 each,
    /// the flags' unused bits are 0 and nothing follows the last field. Refused: 2.
    pub fn to_bytes(&self) -> Result<Vec<u8>, Refusal> {
        let mut out = vec![0; BODY_LIMIT];
        let written = raw::write_anew(self.body(), &mut out);
        Refusal::check_with(written.status, written.good)?;
        out.truncate(written.len);
        Ok(out)
    }
}
