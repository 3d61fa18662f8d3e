//! Rust types of rows: columns made of slices, vectors and iterators of them, and read into vectors and iterators.

use crate::bits::Validity;
use crate::column::Column;
use crate::error::Error;
use crate::memory::collect;
use crate::number::{sealed::Integer, Number};
use std::iter::FusedIterator;
use std::vec;

mod sealed {
    use super::*;

    pub trait Make: Sized {
        #[doc(hidden)]
        fn make(values: &[Self], validity: &Validity) -> Result<Column, Error>;
        #[doc(hidden)]
        fn make_options(rows: &[Option<Self>]) -> Result<Column, Error>;
    }

    pub trait Read: Sized {
        #[doc(hidden)]
        fn read(column: &Column) -> Result<Vec<Option<Self>>, Error>;
    }
}

/// A type of the values that a column can be made of.
///
/// Integers ([`Number`]) make columns of their kind, `bool` boolean columns, `&str` and `String` string columns
/// ([`Kind::StringView`](crate::Kind::StringView)), `&[u8]` and `Vec<u8>` binary columns
/// ([`Kind::Binary`](crate::Kind::Binary)). The trait is sealed.
pub trait Value: sealed::Make {}

/// A type of the values that a column can be read as: an integer, `bool`, `String` or `Vec<u8>`. The trait is sealed.
///
/// `Vec<u8>` reads binary columns, binary views and string columns; any other type reads columns of its own kind.
pub trait OwnedValue: Value + sealed::Read {}

macro_rules! integers {
    ($($type:ty)*) => {$(
        impl Value for $type {}
        impl OwnedValue for $type {}

        impl sealed::Make for $type {
            fn make(values: &[$type], validity: &Validity) -> Result<Column, Error> {
                <$type>::make_integers(values, validity)
            }

            fn make_options(rows: &[Option<$type>]) -> Result<Column, Error> {
                let values = collect(rows.iter().map(|row| row.unwrap_or_default()))?;
                <$type>::make_integers(&values, &Validity::of_options(rows)?)
            }
        }

        impl sealed::Read for $type {
            fn read(column: &Column) -> Result<Vec<Option<$type>>, Error> {
                let rows = <$type>::read_integers(column)?.into_iter().zip(column.valid()?);
                collect(rows.map(|(value, valid)| valid.then_some(value)))
            }
        }
    )*};
}

integers! { i8 i16 i32 i64 i128 u8 u16 u32 u64 u128 }

impl Value for bool {}
impl OwnedValue for bool {}

impl sealed::Make for bool {
    fn make(values: &[bool], validity: &Validity) -> Result<Column, Error> {
        Column::made_of_bools(values.iter().copied(), validity)
    }

    fn make_options(rows: &[Option<bool>]) -> Result<Column, Error> {
        Column::made_of_bools(rows.iter().map(|row| row.unwrap_or_default()), &Validity::of_options(rows)?)
    }
}

impl sealed::Read for bool {
    fn read(column: &Column) -> Result<Vec<Option<bool>>, Error> {
        column.to_bools()
    }
}

macro_rules! bytes {
    ($($type:ty, $make:ident, $bytes:expr;)*) => {$(
        impl Value for $type {}

        impl sealed::Make for $type {
            fn make(values: &[$type], validity: &Validity) -> Result<Column, Error> {
                Column::$make(values.iter().map($bytes), validity)
            }

            fn make_options(rows: &[Option<$type>]) -> Result<Column, Error> {
                Column::$make(rows.iter().map(|row| row.as_ref().map_or(&[][..], $bytes)), &Validity::of_options(rows)?)
            }
        }
    )*};
}

bytes! {
    &str, made_of_strings, |text| text.as_bytes();
    String, made_of_strings, |text| text.as_bytes();
    &[u8], made_of_bytes, |bytes| *bytes;
    Vec<u8>, made_of_bytes, |bytes| bytes.as_slice();
}

impl OwnedValue for String {}

impl sealed::Read for String {
    fn read(column: &Column) -> Result<Vec<Option<String>>, Error> {
        column.to_texts()
    }
}

impl OwnedValue for Vec<u8> {}

impl sealed::Read for Vec<u8> {
    fn read(column: &Column) -> Result<Vec<Option<Vec<u8>>>, Error> {
        column.to_bytes()
    }
}

impl Column {
    /// Makes a column of values without nulls, which are copied.
    ///
    /// # Errors
    /// [`Error::Malformed`] for more than 4,294,967,295 rows; [`Error::Limit`] for a string of more bytes than that;
    /// [`Error::OutOfMemory`].
    ///
    /// ```
    /// # use sel::{Column, Error};
    /// # fn main() -> Result<(), Error> {
    /// assert_eq!(Column::from_values(&[1i64, -2])?.to_text()?, "[1,-2]");
    /// assert_eq!(Column::from_values(&["Ada", "Grace"])?.to_text()?, r#"["Ada","Grace"]"#);
    /// # Ok(())
    /// # }
    /// ```
    pub fn from_values<T: Value>(values: &[T]) -> Result<Column, Error> {
        T::make(values, &Validity::ALL)
    }

    /// Makes a column of values, where row `i` is null if `validity[i]` is false; the value is in the null slot.
    ///
    /// # Errors
    /// [`Error::Malformed`] if the lengths differ or for more than 4,294,967,295 rows; [`Error::Limit`] for a string of more
    /// bytes than that; [`Error::OutOfMemory`].
    ///
    /// ```
    /// # use sel::{Column, Error};
    /// # fn main() -> Result<(), Error> {
    /// let column = Column::from_values_with_validity(&[1i64, 2, 3], &[true, false, true])?;
    /// assert_eq!(column.to_text()?, "[1,null,3]");
    /// assert_eq!(column.values::<i64>()?, [1, 2, 3]);
    /// assert_eq!(Column::from_values_with_validity(&[1i64], &[]).err(), Some(Error::Malformed(25)));
    /// # Ok(())
    /// # }
    /// ```
    pub fn from_values_with_validity<T: Value>(values: &[T], validity: &[bool]) -> Result<Column, Error> {
        T::make(values, &Validity::new(Some(validity), values.len())?)
    }

    /// Makes a column of rows that are null where they are `None`. It has a validity, also if no row is `None`.
    ///
    /// # Errors
    /// As [`from_values`](Column::from_values).
    ///
    /// ```
    /// # use sel::{Column, Error};
    /// # fn main() -> Result<(), Error> {
    /// assert_eq!(Column::from_options(&[Some(u128::MAX), None])?.null_count(), 1);
    /// assert_eq!(Column::from_options(&[Some(true), None])?.to_text()?, "[true,null]");
    /// # Ok(())
    /// # }
    /// ```
    pub fn from_options<T: Value>(rows: &[Option<T>]) -> Result<Column, Error> {
        T::make_options(rows)
    }

    /// Makes a column of the rows of an iterator, null where they are `None`.
    ///
    /// # Errors
    /// As [`from_options`](Column::from_options).
    ///
    /// ```
    /// # use sel::{Column, Error};
    /// # fn main() -> Result<(), Error> {
    /// let halves = (0..5u8).map(|number| (number % 2 == 0).then_some(number / 2));
    /// assert_eq!(Column::try_from_iter(halves)?.to_text()?, "[0,null,1,null,2]");
    /// # Ok(())
    /// # }
    /// ```
    pub fn try_from_iter<T: Value>(rows: impl IntoIterator<Item = Option<T>>) -> Result<Column, Error> {
        Column::from_options(&collect(rows)?)
    }

    /// Makes a column of the values of an iterator, without nulls.
    ///
    /// # Errors
    /// As [`from_values`](Column::from_values).
    ///
    /// ```
    /// # use sel::{Column, Error};
    /// # fn main() -> Result<(), Error> {
    /// assert_eq!(Column::try_from_iter_values("a b c".split(' '))?.to_text()?, r#"["a","b","c"]"#);
    /// # Ok(())
    /// # }
    /// ```
    pub fn try_from_iter_values<T: Value>(values: impl IntoIterator<Item = T>) -> Result<Column, Error> {
        Column::from_values(&collect(values)?)
    }

    /// Returns the rows as values of this type, `None` where they are null.
    ///
    /// # Errors
    /// [`Error::WrongArgument`] if the column has another kind; [`Error::OutOfMemory`].
    ///
    /// ```
    /// # use sel::{Column, Error};
    /// # fn main() -> Result<(), Error> {
    /// let column = Column::parse("i64", "[1,null]")?;
    /// assert_eq!(column.to_options::<i64>()?, [Some(1), None]);
    /// assert_eq!(column.to_options::<u8>().err(), Some(Error::WrongArgument(3)));
    /// # Ok(())
    /// # }
    /// ```
    pub fn to_options<T: OwnedValue>(&self) -> Result<Vec<Option<T>>, Error> {
        T::read(self)
    }

    /// Returns an iterator over the rows as values of this type, `None` where they are null. It owns copies of all rows, which
    /// this call reads, as [`to_options`](Column::to_options) does.
    ///
    /// # Errors
    /// As [`to_options`](Column::to_options).
    ///
    /// ```
    /// # use sel::{Column, Error};
    /// # fn main() -> Result<(), Error> {
    /// let ages = Column::from_options(&[Some(31i64), None, Some(27)])?;
    /// assert_eq!(ages.iter::<i64>()?.flatten().sum::<i64>(), 58);
    /// # Ok(())
    /// # }
    /// ```
    pub fn iter<T: OwnedValue>(&self) -> Result<Iter<T>, Error> {
        Ok(Iter { rows: T::read(self)?.into_iter() })
    }

    /// Returns a copy of the integers of a column; those in null slots are whatever the column holds there.
    /// [`as_slice`](Column::as_slice) returns them without a copy.
    ///
    /// # Errors
    /// As [`to_options`](Column::to_options).
    ///
    /// ```
    /// # use sel::{Column, Error};
    /// # fn main() -> Result<(), Error> {
    /// assert_eq!(Column::parse("u8", "[7,255]")?.values::<u8>()?, [7, 255]);
    /// # Ok(())
    /// # }
    /// ```
    pub fn values<T: Number>(&self) -> Result<Vec<T>, Error> {
        T::read_integers(self)
    }
}

/// An iterator over the rows of a column, `None` where they are null: see [`Column::iter`].
#[derive(Clone, Debug)]
pub struct Iter<T> {
    rows: vec::IntoIter<Option<T>>,
}

impl<T> Iterator for Iter<T> {
    type Item = Option<T>;

    fn next(&mut self) -> Option<Option<T>> {
        self.rows.next()
    }

    fn size_hint(&self) -> (usize, Option<usize>) {
        self.rows.size_hint()
    }

    fn nth(&mut self, n: usize) -> Option<Option<T>> {
        self.rows.nth(n)
    }
}

impl<T> DoubleEndedIterator for Iter<T> {
    fn next_back(&mut self) -> Option<Option<T>> {
        self.rows.next_back()
    }
}

impl<T> ExactSizeIterator for Iter<T> {}

impl<T> FusedIterator for Iter<T> {}

macro_rules! conversions {
    ($([$($parameters:tt)*] $source:ty, $make:ident;)*) => {$(
        impl<$($parameters)*> TryFrom<$source> for Column {
            type Error = Error;

            #[doc = concat!("Makes the column that [`", stringify!($make), "`](Column::", stringify!($make), ") makes.")]
            fn try_from(rows: $source) -> Result<Column, Error> {
                Column::$make(rows.as_ref())
            }
        }
    )*};
}

conversions! {
    [T: Value] &[T], from_values;
    [T: Value] &[Option<T>], from_options;
    [T: Value] Vec<T>, from_values;
    [T: Value] Vec<Option<T>>, from_options;
    [T: Value, const N: usize] [T; N], from_values;
    [T: Value, const N: usize] [Option<T>; N], from_options;
    [T: Value, const N: usize] &[T; N], from_values;
    [T: Value, const N: usize] &[Option<T>; N], from_options;
}
