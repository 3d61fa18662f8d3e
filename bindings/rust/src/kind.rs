//! The kinds of columns.

use crate::error::Error;
use std::fmt;

/// A kind of column, in the order of `enum sel_type_id` in `include/sel.h`. A later version may have more kinds: a `match` needs an
/// arm for others.
///
/// It prints as the types of the kind begin in the notation of [`Column::parse`](crate::Column::parse).
///
/// ```
/// # use sel::Kind;
/// let kinds = [Kind::Int64, Kind::StringView, Kind::List, Kind::FixedSizeList].map(|kind| kind.to_string());
/// assert_eq!(kinds, ["i64", "utf8", "list", "fixed"]);
/// ```
#[derive(Clone, Copy, Debug, PartialEq, Eq, Hash)]
#[non_exhaustive]
pub enum Kind {
    /// Nulls only.
    Null,
    /// Booleans.
    Boolean,
    /// Signed 8-bit integers.
    Int8,
    /// Signed 16-bit integers.
    Int16,
    /// Signed 32-bit integers.
    Int32,
    /// Signed 64-bit integers.
    Int64,
    /// Signed 128-bit integers.
    Int128,
    /// Unsigned 8-bit integers.
    UInt8,
    /// Unsigned 16-bit integers.
    UInt16,
    /// Unsigned 32-bit integers.
    UInt32,
    /// Unsigned 64-bit integers.
    UInt64,
    /// Unsigned 128-bit integers.
    UInt128,
    /// Binary values with 64-bit offsets.
    Binary,
    /// Binary views.
    BinaryView,
    /// String views (UTF-8).
    StringView,
    /// Lists with 64-bit offsets.
    List,
    /// Fixed-size lists.
    FixedSizeList,
    /// Struct values.
    Struct,
}

const KINDS: [Kind; 18] = [
    Kind::Null,
    Kind::Boolean,
    Kind::Int8,
    Kind::Int16,
    Kind::Int32,
    Kind::Int64,
    Kind::Int128,
    Kind::UInt8,
    Kind::UInt16,
    Kind::UInt32,
    Kind::UInt64,
    Kind::UInt128,
    Kind::Binary,
    Kind::BinaryView,
    Kind::StringView,
    Kind::List,
    Kind::FixedSizeList,
    Kind::Struct,
];

impl Kind {
    /// Returns the name with which the types of the kind begin.
    pub(crate) fn name(self) -> &'static str {
        match self {
            Kind::Null => "null",
            Kind::Boolean => "bool",
            Kind::Int8 => "i8",
            Kind::Int16 => "i16",
            Kind::Int32 => "i32",
            Kind::Int64 => "i64",
            Kind::Int128 => "i128",
            Kind::UInt8 => "u8",
            Kind::UInt16 => "u16",
            Kind::UInt32 => "u32",
            Kind::UInt64 => "u64",
            Kind::UInt128 => "u128",
            Kind::Binary => "binary",
            Kind::BinaryView => "binview",
            Kind::StringView => "utf8",
            Kind::List => "list",
            Kind::FixedSizeList => "fixed",
            Kind::Struct => "struct",
        }
    }
}

impl fmt::Display for Kind {
    fn fmt(&self, f: &mut fmt::Formatter<'_>) -> fmt::Result {
        f.pad(self.name())
    }
}

impl TryFrom<u32> for Kind {
    type Error = Error;

    /// Returns the kind with this number in `include/sel.h`, or [`Error::UnknownKind`].
    ///
    /// ```
    /// # use sel::{Error, Kind};
    /// assert_eq!(Kind::try_from(1), Ok(Kind::Boolean));
    /// assert_eq!(Kind::try_from(1000), Err(Error::UnknownKind(1000)));
    /// ```
    fn try_from(number: u32) -> Result<Kind, Error> {
        let place = usize::try_from(number).map_err(|_| Error::UnknownKind(number))?;
        KINDS.get(place).copied().ok_or(Error::UnknownKind(number))
    }
}

#[cfg(test)]
mod tests {
    use super::*;

    #[test]
    fn each_kind_has_its_number_and_others_are_errors() {
        assert_eq!(Kind::try_from(0), Ok(Kind::Null));
        assert_eq!(Kind::try_from(5), Ok(Kind::Int64));
        assert_eq!(Kind::try_from(11), Ok(Kind::UInt128));
        assert_eq!(Kind::try_from(17), Ok(Kind::Struct));
        for unknown in [18, 19, u32::MAX] {
            assert_eq!(Kind::try_from(unknown), Err(Error::UnknownKind(unknown)));
        }
    }
}
