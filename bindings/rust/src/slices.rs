//! The values of columns as slices of the memory that the columns read.

use crate::column::Column;
use crate::error::{checked, status, Error};
use crate::kind::Kind;
use crate::number::Number;
use crate::raw;
use crate::typed::TypedColumn;
use std::{ptr, slice};

mod sealed {
    use super::Kind;

    /// A type of which any bits are a value, in the size and alignment of the storage.
    pub trait Stored: Copy {
        /// The kind of the storage.
        const STORAGE: Kind;
        /// The Arrow format of the columns; none for the integers, which are the storage of several formats.
        const FORMAT: Option<&'static str>;
    }
}

/// A type of the values that [`TypedColumn::as_slice`] returns: the integers of [`Native`], `f32` and `f64`. The trait is sealed.
pub trait Element: sealed::Stored {}

/// An integer type whose values lie next to each other in a column's memory as in a slice: `i8` to `i64` and `u8` to `u64`. The
/// trait is sealed.
///
/// 128-bit integers are not among them, which the library passes as two words each: [`values`](Column::values) copies them.
///
/// ```compile_fail,E0277
/// # use sel::Column;
/// let column = Column::from_values(&[1i128]).expect("a column");
/// let values = column.as_slice::<i128>();
/// ```
pub trait Native: Element + Number {}

macro_rules! elements {
    ($($type:ty, $storage:ident, $format:expr;)*) => {$(
        impl Element for $type {}

        impl sealed::Stored for $type {
            const STORAGE: Kind = Kind::$storage;
            const FORMAT: Option<&'static str> = $format;
        }
    )*};
}

elements! {
    i8, Int8, None;
    i16, Int16, None;
    i32, Int32, None;
    i64, Int64, None;
    u8, UInt8, None;
    u16, UInt16, None;
    u32, UInt32, None;
    u64, UInt64, None;
    f32, UInt32, Some("f");
    f64, UInt64, Some("g");
}

macro_rules! natives {
    ($($type:ty)*) => {$(impl Native for $type {})*};
}

natives! { i8 i16 i32 i64 u8 u16 u32 u64 }

/// Returns the values of a column of the storage of this type, which live as long as the column is borrowed.
fn borrowed<T: Element>(column: &Column) -> Result<&[T], Error> {
    column.expect_kind(T::STORAGE)?;
    let (mut values, mut len) = (ptr::null(), 0);
    // SAFETY: the handle is owned by the column, and both results are valid.
    checked(unsafe { raw::sel_borrow_values(column.at(), &mut values, &mut len) })?;
    // SAFETY: a column of this kind has `len` values of the size and alignment of `T` at the address, which is not null, and
    // any bits are a value of `T`. They are never written, and stay there as long as the handle has the column: the
    // slice borrows the column, so that it is neither changed nor dropped before the slice is.
    Ok(unsafe { slice::from_raw_parts(values.cast::<T>(), len) })
}

impl Column {
    /// Returns the integers of a column without a copy, those in null slots too: [`validity`](Column::validity) says which rows
    /// are null.
    ///
    /// The slice is the memory that the column reads, that of the producer if the column was imported. It lives as
    /// long as the column is borrowed, whatever other columns share the memory.
    ///
    /// # Errors
    /// [`Error::WrongArgument`] if the column has another kind than the type; [`Error::OutOfMemory`].
    ///
    /// ```
    /// # use sel::{Column, Error};
    /// # fn main() -> Result<(), Error> {
    /// let ages = Column::from_values(&[31i64, 27, 45])?;
    /// assert_eq!(ages.as_slice::<i64>()?, [31, 27, 45]);
    /// assert_eq!(ages.slice(1, 2)?.as_slice::<i64>()?.iter().sum::<i64>(), 72);
    /// assert_eq!(ages.as_slice::<i32>(), Err(Error::WrongArgument(3)));
    /// # Ok(())
    /// # }
    /// ```
    ///
    /// The column cannot be dropped while its values are in use:
    ///
    /// ```compile_fail,E0505
    /// # use sel::Column;
    /// let column = Column::from_values(&[1i64]).expect("a column");
    /// let values = column.as_slice::<i64>().expect("integers");
    /// drop(column);
    /// assert_eq!(values, [1]);
    /// ```
    pub fn as_slice<T: Native>(&self) -> Result<&[T], Error> {
        borrowed(self)
    }
}

impl TypedColumn {
    /// Returns the values of a column without a copy, those in null slots too, as [`Column::as_slice`] does: integers of the
    /// storage, such as the days of dates, whatever the logical type is, or the floats of a column of this type.
    ///
    /// # Errors
    /// [`Error::WrongArgument`] if the column has another storage, or for floats another logical type; [`Error::OutOfMemory`].
    ///
    /// ```
    /// # use sel::{ArrowType, Column, Error, TypedColumn};
    /// # fn main() -> Result<(), Error> {
    /// let bits = Column::from_values(&[1.5f64.to_bits(), (-2.0f64).to_bits()])?;
    /// let prices = TypedColumn::new(bits, ArrowType::new("g", &[])?)?;
    /// assert_eq!(prices.as_slice::<f64>()?, [1.5, -2.0]);
    /// assert_eq!(prices.as_slice::<u64>()?[0], 1.5f64.to_bits());
    /// assert_eq!(prices.as_slice::<f32>(), Err(Error::WrongArgument(3)));
    /// # Ok(())
    /// # }
    /// ```
    pub fn as_slice<T: Element>(&self) -> Result<&[T], Error> {
        match T::FORMAT {
            Some(format) if format != self.arrow_type().format() => Err(Error::of(status::UNSUPPORTED_TYPE)),
            _ => borrowed(self.column()),
        }
    }
}
