//! The types of columns.

use crate::column::Column;
use crate::error::Error;
use crate::kind::Kind;
use crate::memory::{boxed, try_collect};
use std::fmt;
use std::str::FromStr;

/// The type of a column: its kind, with the types of its children. A later version may have more types: a `match` needs an arm for
/// others.
///
/// A type is printed and parsed in the notation of [`Column::parse`], which reads types of at most 64 levels.
///
/// ```
/// use sel::DataType;
/// # fn main() -> Result<(), sel::Error> {
/// let lists: DataType = "list<struct<i64, fixed<2, utf8>>>".parse()?;
/// let pair = DataType::FixedSizeList(Box::new(DataType::StringView), 2);
/// assert_eq!(lists, DataType::List(Box::new(DataType::Struct(vec![DataType::Int64, pair]))));
/// assert_eq!(lists.to_string(), "list<struct<i64,fixed<2,utf8>>>");
/// # Ok(())
/// # }
/// ```
#[derive(Clone, Debug, PartialEq, Eq, Hash)]
#[non_exhaustive]
pub enum DataType {
    /// Nulls only: `null`.
    Null,
    /// Booleans: `bool`.
    Boolean,
    /// Signed 8-bit integers: `i8`.
    Int8,
    /// Signed 16-bit integers: `i16`.
    Int16,
    /// Signed 32-bit integers: `i32`.
    Int32,
    /// Signed 64-bit integers: `i64`.
    Int64,
    /// Signed 128-bit integers: `i128`.
    Int128,
    /// Unsigned 8-bit integers: `u8`.
    UInt8,
    /// Unsigned 16-bit integers: `u16`.
    UInt16,
    /// Unsigned 32-bit integers: `u32`.
    UInt32,
    /// Unsigned 64-bit integers: `u64`.
    UInt64,
    /// Unsigned 128-bit integers: `u128`.
    UInt128,
    /// Binary values with 64-bit offsets: `binary`.
    Binary,
    /// Binary views: `binview`.
    BinaryView,
    /// String views (UTF-8): `utf8`.
    StringView,
    /// Lists with 64-bit offsets: `list<TYPE>`.
    List(Box<DataType>),
    /// Fixed-size lists, with their list size: `fixed<SIZE,TYPE>`.
    FixedSizeList(Box<DataType>, usize),
    /// Struct values: `struct<TYPE,..>`.
    Struct(Vec<DataType>),
}

impl DataType {
    /// Returns the kind of the type's columns.
    pub fn kind(&self) -> Kind {
        match self {
            DataType::Null => Kind::Null,
            DataType::Boolean => Kind::Boolean,
            DataType::Int8 => Kind::Int8,
            DataType::Int16 => Kind::Int16,
            DataType::Int32 => Kind::Int32,
            DataType::Int64 => Kind::Int64,
            DataType::Int128 => Kind::Int128,
            DataType::UInt8 => Kind::UInt8,
            DataType::UInt16 => Kind::UInt16,
            DataType::UInt32 => Kind::UInt32,
            DataType::UInt64 => Kind::UInt64,
            DataType::UInt128 => Kind::UInt128,
            DataType::Binary => Kind::Binary,
            DataType::BinaryView => Kind::BinaryView,
            DataType::StringView => Kind::StringView,
            DataType::List(_) => Kind::List,
            DataType::FixedSizeList(..) => Kind::FixedSizeList,
            DataType::Struct(_) => Kind::Struct,
        }
    }
}

impl DataType {
    fn write_to(&self, out: &mut dyn fmt::Write) -> fmt::Result {
        out.write_str(self.kind().name())?;
        match self {
            DataType::List(child) => {
                out.write_str("<")?;
                child.write_to(out)?;
                out.write_str(">")
            }
            DataType::FixedSizeList(child, list_size) => {
                write!(out, "<{list_size},")?;
                child.write_to(out)?;
                out.write_str(">")
            }
            DataType::Struct(fields) => {
                out.write_str("<")?;
                for (i, field) in fields.iter().enumerate() {
                    out.write_str(if i == 0 { "" } else { "," })?;
                    field.write_to(out)?;
                }
                out.write_str(">")
            }
            _ => Ok(()),
        }
    }
}

impl fmt::Display for DataType {
    /// Prints the type, padded to the width or cut off at the precision of the format.
    fn fmt(&self, f: &mut fmt::Formatter<'_>) -> fmt::Result {
        if f.width().is_none() && f.precision().is_none() {
            return self.write_to(f);
        }
        let mut text = String::new();
        self.write_to(&mut text)?;
        f.pad(&text)
    }
}

impl FromStr for DataType {
    type Err = Error;

    /// Parses a type.
    ///
    /// # Errors
    /// [`Error::Text`] with the offset of the first byte with which no type goes on; [`Error::Limit`] for more than 64 levels
    /// or a list size of more than 4,294,967,295; [`Error::OutOfMemory`].
    fn from_str(text: &str) -> Result<DataType, Error> {
        Column::parse(text, "[]")?.data_type()
    }
}

impl Column {
    /// Returns the type of the column.
    ///
    /// # Errors
    /// [`Error::OutOfMemory`].
    ///
    /// ```
    /// # use sel::{Column, DataType, Error};
    /// # fn main() -> Result<(), Error> {
    /// let lists = Column::from_values(&[1i64, 2])?.unit_list()?;
    /// assert_eq!(lists.data_type()?, DataType::List(Box::new(DataType::Int64)));
    /// # Ok(())
    /// # }
    /// ```
    pub fn data_type(&self) -> Result<DataType, Error> {
        Ok(match self.kind() {
            Kind::Null => DataType::Null,
            Kind::Boolean => DataType::Boolean,
            Kind::Int8 => DataType::Int8,
            Kind::Int16 => DataType::Int16,
            Kind::Int32 => DataType::Int32,
            Kind::Int64 => DataType::Int64,
            Kind::Int128 => DataType::Int128,
            Kind::UInt8 => DataType::UInt8,
            Kind::UInt16 => DataType::UInt16,
            Kind::UInt32 => DataType::UInt32,
            Kind::UInt64 => DataType::UInt64,
            Kind::UInt128 => DataType::UInt128,
            Kind::Binary => DataType::Binary,
            Kind::BinaryView => DataType::BinaryView,
            Kind::StringView => DataType::StringView,
            Kind::List => DataType::List(boxed(self.child()?.data_type()?)?),
            Kind::FixedSizeList => DataType::FixedSizeList(boxed(self.child()?.data_type()?)?, self.list_size()?),
            Kind::Struct => {
                DataType::Struct(try_collect((0..self.field_count()?).map(|i| self.field(i)?.data_type()))?)
            }
        })
    }
}
