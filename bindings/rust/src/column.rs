//! Columns as a whole: their length, kind and validity, slices, clones, comparison, and rows as text.

use crate::bits::{bit_at, Validity};
use crate::error::{checked, status, Error};
use crate::handle::OwnedHandle;
use crate::kind::Kind;
use crate::memory::{collect, zeroed};
use crate::raw::{self, Handle};
use std::alloc::{handle_alloc_error, Layout};
use std::{fmt, ptr};

/// A column of rows, each of which is a value or null. It is immutable.
///
/// Slices, clones and children share the memory of their column.
///
/// # Threads
/// A column is [`Send`] and [`Sync`]: several threads may read one column at the same time, and columns that share
/// memory may be moved to, and dropped on, different threads. Nothing is locked; the reference counts of shared memory
/// are atomic.
///
/// ```
/// # use sel::{Column, Error};
/// # fn main() -> Result<(), Error> {
/// let (ages, mask) = (Column::from_values(&[31i64, 27, 45])?, Column::from_bools(&[true, false, true])?);
/// let kept: Vec<Result<Column, Error>> = std::thread::scope(|scope| {
///     let threads: Vec<_> = (0..4).map(|_| scope.spawn(|| ages.filter(&mask))).collect();
///     threads.into_iter().flat_map(|thread| thread.join()).collect()
/// });
/// assert_eq!(kept.len(), 4);
/// assert!(kept.into_iter().all(|column| column == Column::from_values(&[31i64, 45])));
/// # Ok(())
/// # }
/// ```
///
/// # Equality
/// Two columns are equal by `==` if they have the same type and the same rows; values in null slots are ignored.
/// [`equals`](Column::equals) ignores the types. Comparison, [`Clone`], [`fmt::Display`] and [`fmt::Debug`] cannot return an
/// error: if an allocation fails, they call [`handle_alloc_error`], which aborts, as collections of the standard library
/// do. [`try_eq`](Column::try_eq), [`equals`](Column::equals), [`try_clone`](Column::try_clone) and
/// [`to_text`](Column::to_text) return the error.
///
/// ```
/// # use sel::{Column, Error};
/// # fn main() -> Result<(), Error> {
/// let (small, large) = (Column::from_values(&[1i8, 2])?, Column::from_values(&[1i64, 2])?);
/// assert!(small.equals(&large)? && small != large);
/// assert_eq!(small.clone(), small);
/// assert_eq!(format!("{small} {small:?}"), "[1,2] i8 [1,2]");
/// # Ok(())
/// # }
/// ```
pub struct Column {
    handle: OwnedHandle,
    kind: Kind,
}

impl Column {
    /// Returns the column that a function writes into an empty handle.
    pub(crate) fn made(call: impl FnOnce(*mut Handle) -> u32) -> Result<Column, Error> {
        let mut handle = OwnedHandle::empty();
        checked(call(handle.at_mut()))?;
        Column::of(handle)
    }

    /// Returns the column that a maker writes, which takes the validity's bits, their length and whether there are any.
    pub(crate) fn made_with(
        validity: &Validity,
        call: impl FnOnce(*const u8, usize, bool, *mut Handle) -> u32,
    ) -> Result<Column, Error> {
        let bits = &validity.bits;
        let column = Column::made(|out| call(bits.as_ptr(), bits.len(), validity.is_present, out))?;
        if validity.has_wrong_length {
            return Err(Error::of(status::VALIDITY_LENGTH));
        }
        Ok(column)
    }

    /// Returns the column of a handle; a kind that the crate does not know is an error.
    pub(crate) fn of(handle: OwnedHandle) -> Result<Column, Error> {
        // SAFETY: the handle is valid, and the function only reads it.
        let kind = Kind::try_from(unsafe { raw::sel_type_of(handle.at()) })?;
        Ok(Column { handle, kind })
    }

    /// Returns the pointer for functions that read the column.
    pub(crate) fn at(&self) -> *const Handle {
        self.handle.at()
    }

    /// Returns the pointer for functions that take the column if they succeed; it is only used to drop the column afterwards.
    pub(crate) fn at_mut(&mut self) -> *mut Handle {
        self.handle.at_mut()
    }

    pub(crate) fn into_handle(self) -> OwnedHandle {
        self.handle
    }

    /// Returns the error for a column of the wrong kind, unless this one is of the kind.
    pub(crate) fn expect_kind(&self, kind: Kind) -> Result<(), Error> {
        if self.kind == kind {
            Ok(())
        } else {
            Err(Error::of(status::UNSUPPORTED_TYPE))
        }
    }

    /// Parses rows of a type, both in the notation that [`to_text`](Column::to_text) prints.
    ///
    /// Between tokens there may be white space as in JSON, and strings may have all of JSON's escapes. Types are `null`,
    /// `bool`, `i8` to `i128`, `u8` to `u128`, `binary` (with 64-bit offsets), `binview`, `utf8` (string views),
    /// `list<TYPE>`, `fixed<SIZE,TYPE>` and `struct<TYPE,..>`.
    ///
    /// # Errors
    /// [`Error::Text`] with the offset of the first byte with which no type or no rows go on, or of the first value that
    /// does not fit the type; [`Error::Limit`] if a size limit would be exceeded or the type has more than 64 levels;
    /// [`Error::OutOfMemory`].
    ///
    /// ```
    /// use sel::{Column, Error, Kind};
    /// # fn main() -> Result<(), Error> {
    /// let names = Column::parse("list<utf8>", r#"[["Ada", "Grace"], null, []]"#)?;
    /// assert_eq!((names.kind(), names.len(), names.null_count()), (Kind::List, 3, 1));
    /// assert_eq!(names.to_text()?, r#"[["Ada","Grace"],null,[]]"#);
    /// assert_eq!(Column::parse("i64", "[1, null, -3]")?.to_options::<i64>()?, [Some(1), None, Some(-3)]);
    ///
    /// let error = Column::parse("i8", "[1, 300]").unwrap_err();
    /// assert_eq!(error, Error::Text { status: 34, at: 4 });
    /// assert!(error.to_string().ends_with(" at byte 4"));
    /// assert_eq!(Column::parse("list<i7>", "[]").unwrap_err(), Error::Text { status: 32, at: 6 });
    /// assert_eq!(Column::parse("i8", "[1").unwrap_err(), Error::Text { status: 33, at: 2 });
    /// assert_eq!(Column::parse("fixed<4294967296,i8>", "[]").unwrap_err(), Error::Limit(35));
    /// # Ok(())
    /// # }
    /// ```
    pub fn parse(dtype: &str, rows: &str) -> Result<Column, Error> {
        let (mut handle, mut at) = (OwnedHandle::empty(), 0);
        // SAFETY: both texts are valid for their lengths, and the handle is empty.
        let status =
            unsafe { raw::sel_parse(dtype.as_ptr(), dtype.len(), rows.as_ptr(), rows.len(), &mut at, handle.at_mut()) };
        match status {
            status::OK => Column::of(handle),
            _ => Err(Error::of_text(status, at)),
        }
    }

    /// Returns the number of rows.
    pub fn len(&self) -> usize {
        // SAFETY: the handle is valid, and the function only reads it.
        unsafe { raw::sel_len(self.at()) }
    }

    /// Returns whether the column has no rows.
    pub fn is_empty(&self) -> bool {
        self.len() == 0
    }

    /// Returns the kind of the column.
    pub fn kind(&self) -> Kind {
        self.kind
    }

    /// Returns the number of null rows.
    pub fn null_count(&self) -> usize {
        // SAFETY: as in `len`.
        unsafe { raw::sel_null_count(self.at()) }
    }

    /// Returns for each row whether it is valid.
    ///
    /// # Errors
    /// [`Error::OutOfMemory`].
    ///
    /// ```
    /// # fn main() -> Result<(), sel::Error> {
    /// assert_eq!(sel::Column::from_options(&[Some(7i64), None])?.valid()?, [true, false]);
    /// assert_eq!(sel::Column::new_null(2)?.valid()?, [false, false]);
    /// # Ok(())
    /// # }
    /// ```
    pub fn valid(&self) -> Result<Vec<bool>, Error> {
        let all = self.kind != Kind::Null;
        self.validity()?.map_or_else(|| collect((0..self.len()).map(|_| all)), Ok)
    }

    /// Returns the validity: for each row whether it is valid, or `None` if the column has no validity.
    ///
    /// Without a validity all rows are valid, except that those of the type `null` are null. A column with a validity may
    /// have no null row.
    ///
    /// # Errors
    /// [`Error::OutOfMemory`].
    ///
    /// ```
    /// # fn main() -> Result<(), sel::Error> {
    /// assert_eq!(sel::Column::from_options(&[Some(7i64), None])?.validity()?, Some(vec![true, false]));
    /// assert_eq!(sel::Column::from_values(&[7i64])?.validity()?, None);
    /// # Ok(())
    /// # }
    /// ```
    pub fn validity(&self) -> Result<Option<Vec<bool>>, Error> {
        let (mut bits, mut is_present) = (zeroed(self.len().div_ceil(8))?, false);
        // SAFETY: as in `len`; the bits are valid for their length.
        checked(unsafe { raw::sel_validity(self.at(), bits.as_mut_ptr(), bits.len(), &mut is_present) })?;
        is_present.then(|| collect((0..self.len()).map(|row| bit_at(&bits, row)))).transpose()
    }

    /// Returns the `len` rows from `offset` on, which share the memory of the column.
    ///
    /// # Errors
    /// [`Error::OutOfBounds`] if there are fewer rows; [`Error::OutOfMemory`].
    ///
    /// ```
    /// # fn main() -> Result<(), sel::Error> {
    /// let numbers = sel::Column::from_values(&[1i64, 2, 3, 4])?;
    /// assert_eq!(numbers.slice(1, 2)?.to_text()?, "[2,3]");
    /// assert_eq!(numbers.slice(1, usize::MAX).unwrap_err(), sel::Error::OutOfBounds(6));
    /// # Ok(())
    /// # }
    /// ```
    pub fn slice(&self, offset: usize, len: usize) -> Result<Column, Error> {
        // SAFETY: two distinct handles.
        Column::made(|out| unsafe { raw::sel_slice(self.at(), offset, len, out) })
    }

    /// Returns the same as [`slice`](Column::slice).
    ///
    /// ```
    /// # fn main() -> Result<(), sel::Error> {
    /// assert_eq!(sel::Column::from_values(&[1i64, 2, 3])?.sliced(2, 1)?.to_text()?, "[3]");
    /// # Ok(())
    /// # }
    /// ```
    pub fn sliced(&self, offset: usize, len: usize) -> Result<Column, Error> {
        self.slice(offset, len)
    }

    /// Returns a second column of the same rows, which shares the memory of the column.
    ///
    /// # Errors
    /// [`Error::OutOfMemory`].
    ///
    /// ```
    /// # fn main() -> Result<(), sel::Error> {
    /// let numbers = sel::Column::from_values(&[1i64, 2])?;
    /// assert_eq!(numbers.try_clone()?, numbers);
    /// # Ok(())
    /// # }
    /// ```
    pub fn try_clone(&self) -> Result<Column, Error> {
        // SAFETY: two distinct handles.
        Column::made(|out| unsafe { raw::sel_share(self.at(), out) })
    }

    /// Returns the same as [`try_clone`](Column::try_clone).
    ///
    /// ```
    /// # fn main() -> Result<(), sel::Error> {
    /// assert_eq!(sel::Column::from_values(&[1i64, 2])?.share()?.to_text()?, "[1,2]");
    /// # Ok(())
    /// # }
    /// ```
    pub fn share(&self) -> Result<Column, Error> {
        self.try_clone()
    }

    /// Returns whether both columns have the same rows; their types may differ.
    ///
    /// Integers are compared by their values, whatever their width; values in null slots are ignored.
    ///
    /// # Errors
    /// None at present: the comparison does not allocate.
    ///
    /// ```
    /// # use sel::{Column, Error};
    /// # fn main() -> Result<(), Error> {
    /// assert!(Column::from_values(&[1i8])?.equals(&Column::from_values(&[1u64])?)?);
    /// assert!(!Column::from_values(&[1i8])?.equals(&Column::new_null(1)?)?);
    /// # Ok(())
    /// # }
    /// ```
    pub fn equals(&self, other: &Column) -> Result<bool, Error> {
        let mut is_equal = false;
        // SAFETY: as in `len`; both handles may be the same.
        checked(unsafe { raw::sel_equal_rows(self.at(), other.at(), &mut is_equal) })?;
        Ok(is_equal)
    }

    /// Returns whether both columns have the same type and the same rows, as `==` does; values in null slots are ignored.
    ///
    /// # Errors
    /// [`Error::OutOfMemory`].
    ///
    /// ```
    /// # use sel::{Column, Error};
    /// # fn main() -> Result<(), Error> {
    /// let small = Column::from_values(&[1i8])?;
    /// assert!(small.try_eq(&small.slice(0, 1)?)? && !small.try_eq(&Column::from_values(&[1i64])?)?);
    /// # Ok(())
    /// # }
    /// ```
    pub fn try_eq(&self, other: &Column) -> Result<bool, Error> {
        let may_be_equal = self.kind == other.kind && self.len() == other.len();
        Ok(may_be_equal && self.data_type()? == other.data_type()? && self.equals(other)?)
    }

    /// Prints the rows, as in `[1,null,-3]`.
    ///
    /// Strings are quoted as in JSON, binary values are written as `h"00ff"`, lists in brackets and struct values in
    /// parentheses.
    ///
    /// # Errors
    /// [`Error::OutOfMemory`].
    ///
    /// ```
    /// # use sel::{Column, Error};
    /// # fn main() -> Result<(), Error> {
    /// let rows = Column::new_struct(1, vec![Column::from_values(&["Ada"])?, Column::from_bytes(&[None])?], None)?;
    /// assert_eq!(rows.to_text()?, r#"[("Ada",null)]"#);
    /// # Ok(())
    /// # }
    /// ```
    pub fn to_text(&self) -> Result<String, Error> {
        let (mut bytes, mut len) = (Vec::new(), 0);
        // SAFETY: as in `len`; nothing is written to a length of 0.
        checked(unsafe { raw::sel_print(self.at(), bytes.as_mut_ptr(), 0, &mut len) })?;
        bytes = zeroed(len)?;
        // SAFETY: as in `len`; the bytes are valid for their length.
        checked(unsafe { raw::sel_print(self.at(), bytes.as_mut_ptr(), bytes.len(), &mut len) })?;
        String::from_utf8(bytes).map_err(|_| Error::of(status::INVALID_UTF8))
    }

    /// Returns the type as text, as [`Column::parse`] reads it if it has at most 64 levels.
    ///
    /// # Errors
    /// [`Error::OutOfMemory`].
    ///
    /// ```
    /// # use sel::{Column, Error};
    /// # fn main() -> Result<(), Error> {
    /// assert_eq!(Column::parse("list< i8 >", "[]")?.type_to_text()?, "list<i8>");
    /// # Ok(())
    /// # }
    /// ```
    pub fn type_to_text(&self) -> Result<String, Error> {
        let (mut bytes, mut len) = (Vec::new(), 0);
        // SAFETY: as in `len`; nothing is written to a length of 0.
        checked(unsafe { raw::sel_print_type(self.at(), bytes.as_mut_ptr(), 0, &mut len) })?;
        bytes = zeroed(len)?;
        // SAFETY: as in `len`; the bytes are valid for their length.
        checked(unsafe { raw::sel_print_type(self.at(), bytes.as_mut_ptr(), bytes.len(), &mut len) })?;
        String::from_utf8(bytes).map_err(|_| Error::of(status::INVALID_UTF8))
    }
}

/// Returns the value, or ends as the standard library does after a failed allocation.
pub(crate) fn infallible<T>(result: Result<T, Error>) -> T {
    match result {
        Ok(value) => value,
        Err(Error::OutOfMemory) => handle_alloc_error(Layout::new::<Column>()),
        Err(error) => panic!("{error}"),
    }
}

impl Clone for Column {
    /// Returns a second column of the same rows, which shares the memory of the column.
    ///
    /// If an allocation fails, this calls [`handle_alloc_error`]; [`try_clone`](Column::try_clone) returns an error.
    fn clone(&self) -> Column {
        infallible(self.try_clone())
    }
}

impl PartialEq for Column {
    /// Returns whether both columns have the same type and the same rows.
    fn eq(&self, other: &Column) -> bool {
        ptr::eq(self, other) || infallible(self.try_eq(other))
    }
}

impl Eq for Column {}

impl fmt::Display for Column {
    /// Prints the rows as [`to_text`](Column::to_text) does, padded to the width or cut off at the precision of the format.
    fn fmt(&self, f: &mut fmt::Formatter<'_>) -> fmt::Result {
        f.pad(&infallible(self.to_text()))
    }
}

impl fmt::Debug for Column {
    /// Prints the type and the rows.
    fn fmt(&self, f: &mut fmt::Formatter<'_>) -> fmt::Result {
        write!(f, "{} {}", infallible(self.data_type()), infallible(self.to_text()))
    }
}
