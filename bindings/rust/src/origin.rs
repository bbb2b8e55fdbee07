use crate::Value;

/// Who gave a node its last value.
///
/// Recalls and listings do not carry it: what a mirror is fed or loads is the console's, whoever set it before.
#[derive(Clone, Copy, Debug, PartialEq, Eq, Hash)]
pub enum Origin {
    /// The console: the value was fed or loaded.
    Console = 0,
    /// A set order: the value was set at the box.
    SetOrder = 1,
}

/// The library answers 0 or 1.
pub(crate) fn origin_of(number: u8) -> Origin {
    match number {
        0 => Origin::Console,
        _ => Origin::SetOrder,
    }
}

/// A record of a mirror with its origin, as [`Mirror::entries`](crate::Mirror::entries) gives it.
#[derive(Clone, Debug, PartialEq, Eq, Hash)]
pub struct Entry {
    /// The node.
    pub id: i32,
    /// Its last value.
    pub value: Value,
    /// Who gave it.
    pub origin: Origin,
}
