use std::fmt;

/// A node's value: what libwing calls `WingNodeData`.
///
/// A float is kept by its 32 bits, so that none of the 2^32 patterns is lost; two floats are equal if their bits are.
#[doc(alias = "WingNodeData")]
#[derive(Clone, PartialEq, Eq, Hash)]
pub enum Value {
    /// An integer.
    Int(i32),
    /// A float's bits; [`Value::float`] makes one of an `f32`.
    Float(u32),
    /// A string. One over 256 bytes is refused with 10 where it is set.
    String(String),
}

impl Value {
    /// The value of a float.
    pub fn float(x: f32) -> Value {
        Value::Float(x.to_bits())
    }

    /// Whether it is an integer.
    pub fn has_int(&self) -> bool {
        matches!(self, Value::Int(_))
    }

    /// Whether it is a float.
    pub fn has_float(&self) -> bool {
        matches!(self, Value::Float(_))
    }

    /// Whether it is a string.
    pub fn has_string(&self) -> bool {
        matches!(self, Value::String(_))
    }

    /// The integer; 0 for other kinds.
    pub fn get_int(&self) -> i32 {
        match self {
            Value::Int(x) => *x,
            _ => 0,
        }
    }

    /// The float; 0 for other kinds.
    pub fn get_float(&self) -> f32 {
        self.as_f32().unwrap_or(0.0)
    }

    /// The string, or an integer's decimal; none for a float, which the rules give no text.
    pub fn get_string(&self) -> Option<String> {
        match self {
            Value::Int(x) => Some(x.to_string()),
            Value::Float(_) => None,
            Value::String(s) => Some(s.clone()),
        }
    }

    /// The float, if it is one.
    pub fn as_f32(&self) -> Option<f32> {
        match self {
            Value::Float(bits) => Some(f32::from_bits(*bits)),
            _ => None,
        }
    }

    /// The string, if it is one.
    pub fn as_str(&self) -> Option<&str> {
        match self {
            Value::String(s) => Some(s),
            _ => None,
        }
    }
}

impl From<i32> for Value {
    fn from(x: i32) -> Value {
        Value::Int(x)
    }
}

impl From<f32> for Value {
    fn from(x: f32) -> Value {
        Value::float(x)
    }
}

impl From<&str> for Value {
    fn from(s: &str) -> Value {
        Value::String(s.to_string())
    }
}

impl From<String> for Value {
    fn from(s: String) -> Value {
        Value::String(s)
    }
}

impl From<&Value> for Value {
    fn from(v: &Value) -> Value {
        v.clone()
    }
}

/// A float by its value and its bits.
impl fmt::Debug for Value {
    fn fmt(&self, f: &mut fmt::Formatter) -> fmt::Result {
        match self {
            Value::Int(x) => write!(f, "Int({x})"),
            Value::Float(bits) => write!(f, "Float({:?}, {bits:08x})", f32::from_bits(*bits)),
            Value::String(s) => write!(f, "String({s:?})"),
        }
    }
}
