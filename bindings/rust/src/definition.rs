use crate::raw;
use crate::Refusal;

/// The type of a node, with libwing's names and numbers.
#[derive(Clone, Copy, Debug, PartialEq, Eq, Hash)]
pub enum NodeType {
    /// A node with others below it.
    Node = 0,
    /// A float on a linear scale.
    LinearFloat = 1,
    /// A float on a logarithmic scale.
    LogarithmicFloat = 2,
    /// A fader's level, a float.
    FaderLevel = 3,
    /// An integer.
    Integer = 4,
    /// One of a list of strings.
    StringEnum = 5,
    /// One of a list of floats.
    FloatEnum = 6,
    /// A string.
    String = 7,
}

/// The unit of a node, with libwing's names and numbers.
#[derive(Clone, Copy, Debug, PartialEq, Eq, Hash)]
pub enum NodeUnit {
    /// None.
    None = 0,
    /// Decibels.
    Db = 1,
    /// Per cent.
    Percent = 2,
    /// Milliseconds.
    Milliseconds = 3,
    /// Hertz.
    Hertz = 4,
    /// Metres.
    Meters = 5,
    /// Seconds.
    Seconds = 6,
    /// Octaves.
    Octaves = 7,
}

fn type_of(number: u8) -> NodeType {
    match number {
        1 => NodeType::LinearFloat,
        2 => NodeType::LogarithmicFloat,
        3 => NodeType::FaderLevel,
        4 => NodeType::Integer,
        5 => NodeType::StringEnum,
        6 => NodeType::FloatEnum,
        7 => NodeType::String,
        _ => NodeType::Node,
    }
}

fn unit_of(number: u8) -> NodeUnit {
    match number {
        1 => NodeUnit::Db,
        2 => NodeUnit::Percent,
        3 => NodeUnit::Milliseconds,
        4 => NodeUnit::Hertz,
        5 => NodeUnit::Meters,
        6 => NodeUnit::Seconds,
        7 => NodeUnit::Octaves,
        _ => NodeUnit::None,
    }
}

/// What a type adds to a definition. Floats are kept by their 32 bits.
#[derive(Clone, Copy, Debug, PartialEq, Eq, Hash)]
pub enum Details {
    /// Nothing: a node, a fader.
    None,
    /// The limits and steps of the two float types.
    Floats {
        /// The least value's bits.
        min: u32,
        /// The greatest value's bits.
        max: u32,
        /// The number of steps.
        steps: i32,
    },
    /// The limits of an integer.
    Integers {
        /// The least value.
        min: i32,
        /// The greatest value.
        max: i32,
    },
    /// The two enum types: how many items there are.
    Items(u16),
    /// A string: its greatest length.
    String(u16),
}

/// An item of an enum type.
#[derive(Clone, Debug, PartialEq, Eq, Hash)]
pub enum Item {
    /// libwing's `StringEnumItem`.
    #[doc(alias = "StringEnumItem")]
    String {
        /// The short string.
        item: String,
        /// The long string.
        long_item: String,
    },
    /// libwing's `FloatEnumItem`.
    #[doc(alias = "FloatEnumItem")]
    Float {
        /// The float's bits.
        item: u32,
        /// The string.
        long_item: String,
    },
}

/// What a node is: libwing's `WingNodeDef`, with its body.
///
/// ```
/// use whistleloam::{Definition, Details, NodeType};
///
/// let body = [0, 0, 0, 1, 0, 0, 0, 2, 0, 3, 3, b'f', b'd', b'r', 0, 0, 0x31];
/// let definition = Definition::from_bytes(&body)?;
/// assert_eq!((definition.id(), definition.name()), (2, "fdr"));
/// assert_eq!(definition.node_type(), NodeType::FaderLevel);
/// assert_eq!(definition.details(), Details::None);
/// # Ok::<(), whistleloam::Refusal>(())
/// ```
#[doc(alias = "WingNodeDef")]
#[derive(Clone, Debug, PartialEq, Eq)]
pub struct Definition {
    body: Vec<u8>,
    name: String,
    long_name: String,
    fields: raw::WingDefinition,
}

/// The string of a place in a body. The library has tested it; Rust's own test stands in for `unsafe`.
fn text(body: &[u8], start: usize, len: u32) -> Result<String, Refusal> {
    let bytes = body.get(start..).and_then(|rest| rest.get(..len as usize));
    let bytes = bytes.ok_or(Refusal::DEFINITION_SHORT)?;
    let text = std::str::from_utf8(bytes).map_err(|e| Refusal::DefinitionNotUtf8 { good: e.valid_up_to() })?;
    Ok(text.to_string())
}

fn item_of(body: &[u8], item: raw::WingItem) -> Result<Option<Item>, Refusal> {
    if Refusal::check_with(item.status, item.good)? == 0 {
        return Ok(None);
    }
    let long_item = text(body, item.long_start, item.long_len)?;
    Ok(Some(match item.kind {
        0 => Item::String { item: text(body, item.start, item.len)?, long_item },
        _ => Item::Float { item: item.bits, long_item },
    }))
}

impl Definition {
    /// The definition of a body. Refused: 4, or 5 with what is good of the string, by the first field that fails.
    pub fn from_bytes(body: &[u8]) -> Result<Definition, Refusal> {
        let fields = raw::definition(body);
        Refusal::check_with(fields.status, fields.good)?;
        Ok(Definition {
            name: text(body, fields.name_start, fields.name_len)?,
            long_name: text(body, fields.long_name_start, fields.long_name_len)?,
            body: body.to_vec(),
            fields,
        })
    }

    /// The node above.
    pub fn parent_id(&self) -> i32 {
        self.fields.parent_id
    }

    /// The node.
    pub fn id(&self) -> i32 {
        self.fields.id
    }

    /// Its number below the parent.
    pub fn index(&self) -> u16 {
        self.fields.index
    }

    /// The name.
    pub fn name(&self) -> &str {
        &self.name
    }

    /// The long name.
    pub fn long_name(&self) -> &str {
        &self.long_name
    }

    /// The type.
    #[doc(alias = "get_type")]
    pub fn node_type(&self) -> NodeType {
        type_of(self.fields.node_type)
    }

    /// The unit.
    #[doc(alias = "get_unit")]
    pub fn unit(&self) -> NodeUnit {
        unit_of(self.fields.unit)
    }

    /// Bit 9 of the flags, which libwing calls read-only.
    #[doc(alias = "is_read_only")]
    pub fn read_only(&self) -> bool {
        self.fields.read_only
    }

    /// What the type adds.
    pub fn details(&self) -> Details {
        let f = &self.fields;
        match self.node_type() {
            NodeType::Node | NodeType::FaderLevel => Details::None,
            NodeType::LinearFloat | NodeType::LogarithmicFloat => {
                Details::Floats { min: f.min, max: f.max, steps: f.steps }
            }
            NodeType::Integer => Details::Integers { min: f.min as i32, max: f.max as i32 },
            NodeType::StringEnum | NodeType::FloatEnum => Details::Items(f.count),
            NodeType::String => Details::String(f.max_len),
        }
    }

    /// The least value of a float type.
    pub fn min_float(&self) -> Option<f32> {
        match self.details() {
            Details::Floats { min, .. } => Some(f32::from_bits(min)),
            _ => None,
        }
    }

    /// The greatest value of a float type.
    pub fn max_float(&self) -> Option<f32> {
        match self.details() {
            Details::Floats { max, .. } => Some(f32::from_bits(max)),
            _ => None,
        }
    }

    /// The number of steps of a float type.
    pub fn steps(&self) -> Option<i32> {
        match self.details() {
            Details::Floats { steps, .. } => Some(steps),
            _ => None,
        }
    }

    /// The least value of an integer.
    pub fn min_int(&self) -> Option<i32> {
        match self.details() {
            Details::Integers { min, .. } => Some(min),
            _ => None,
        }
    }

    /// The greatest value of an integer.
    pub fn max_int(&self) -> Option<i32> {
        match self.details() {
            Details::Integers { max, .. } => Some(max),
            _ => None,
        }
    }

    /// The greatest length of a string.
    pub fn max_string_len(&self) -> Option<u16> {
        match self.details() {
            Details::String(len) => Some(len),
            _ => None,
        }
    }

    /// The items in order; none for a type that has none.
    #[doc(alias = "string_enum")]
    #[doc(alias = "float_enum")]
    pub fn items(&self) -> Items<'_> {
        Items { body: &self.body, walk: raw::items_begin(&self.body) }
    }

    /// The item of a number, from 0. Refused: 14.
    pub fn item(&self, number: usize) -> Result<Item, Refusal> {
        item_of(&self.body, raw::item(&self.body, number))?.ok_or(Refusal::NUMBER)
    }

    /// The items as they stand in the body, from the first to the end of the last; none for a type that has none.
    pub fn item_bytes(&self) -> &[u8] {
        let mut walk = raw::items_begin(&self.body);
        let first = walk.at;
        for _ in 0..walk.left {
            walk = raw::item_step(&self.body, walk.at, walk.left, walk.node_type).walk;
        }
        self.body.get(first..walk.at).unwrap_or_default()
    }

    /// The body as the console sent it: libwing's `raw`.
    pub fn body(&self) -> &[u8] {
        &self.body
    }
}

/// The items of a definition, one by one.
#[derive(Clone)]
pub struct Items<'a> {
    body: &'a [u8],
    walk: raw::WingWalk,
}

impl Iterator for Items<'_> {
    type Item = Item;

    fn next(&mut self) -> Option<Item> {
        let walk = self.walk;
        let step = raw::item_step(self.body, walk.at, walk.left, walk.node_type);
        self.walk = step.walk;
        item_of(self.body, step.item).ok()?
    }
}
