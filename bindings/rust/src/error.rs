//! Errors of the library's functions.

use crate::raw;
use std::ffi::CStr;
use std::fmt;

/// The statuses of `include/sel.h` and `include/sel_arrow.h`: the numbers of [`Error`], by their names in C without `SEL_ERROR_`.
///
/// ```
/// use sel::{status, Column, Error};
/// # fn main() -> Result<(), Error> {
/// let (numbers, mask) = (Column::from_values(&[1i64, 2])?, Column::from_bools(&[true])?);
/// match numbers.filter(&mask) {
///     Err(Error::WrongArgument(status::LENGTH_MISMATCH)) => {}
///     other => panic!("a mask of another length gives {other:?}"),
/// }
/// # Ok(())
/// # }
/// ```
pub mod status {
    // begin: written by tools/statuses.py
    /// Success.
    pub const OK: u32 = 0;
    /// Out of memory: an allocation failed.
    pub const OUT_OF_MEMORY: u32 = 1;
    /// A handle that has to have a column is empty.
    pub const NO_COLUMN: u32 = 2;
    /// The column has a type that the call does not support.
    pub const UNSUPPORTED_TYPE: u32 = 3;
    /// The columns do not have the same type.
    pub const TYPE_MISMATCH: u32 = 4;
    /// Lengths do not match.
    pub const LENGTH_MISMATCH: u32 = 5;
    /// An index, a key or a row reference is out of bounds.
    pub const INDEX_OUT_OF_BOUNDS: u32 = 6;
    /// A list that is not null has no element at the index.
    pub const LIST_INDEX_OUT_OF_BOUNDS: u32 = 7;
    /// The result would have more than 4,294,967,295 rows at some depth.
    pub const ROW_LIMIT: u32 = 8;
    /// A binary column of the result would exceed the range of its 64-bit offsets.
    pub const OFFSET_LIMIT: u32 = 9;
    /// A view column of the result would have more than 4,294,967,295 data buffers.
    pub const BUFFER_LIMIT: u32 = 10;
    /// A view or a broadcast scalar would have more than 4,294,967,295 bytes.
    pub const VIEW_LIMIT: u32 = 11;
    /// The column would have more than 128 levels.
    pub const TOO_DEEP: u32 = 12;
    /// There are no offsets.
    pub const NO_OFFSETS: u32 = 16;
    /// An offset is negative.
    pub const NEGATIVE_OFFSET: u32 = 17;
    /// An offset is less than the previous one.
    pub const DECREASING_OFFSET: u32 = 18;
    /// There are more than 4,294,967,295 rows.
    pub const TOO_MANY_ROWS: u32 = 19;
    /// There are more than 4,294,967,295 data buffers.
    pub const TOO_MANY_BUFFERS: u32 = 20;
    /// The list size of a fixed-size list exceeds 4,294,967,295.
    pub const LIST_SIZE: u32 = 21;
    /// The last offset exceeds the length of the values or the child.
    pub const OFFSET_RANGE: u32 = 22;
    /// The child of fixed-size lists does not have length times list size rows.
    pub const CHILD_LENGTH: u32 = 23;
    /// A field does not have as many rows as its struct.
    pub const FIELD_LENGTH: u32 = 24;
    /// The validity has fewer bits than there are rows.
    pub const VALIDITY_LENGTH: u32 = 25;
    /// A view points outside of its data buffer, or to a data buffer that does not exist.
    pub const VIEW_RANGE: u32 = 26;
    /// The prefix of a view differs from the first four bytes that the view points to.
    pub const VIEW_PREFIX: u32 = 27;
    /// A valid row of a string column is not UTF-8.
    pub const INVALID_UTF8: u32 = 28;
    /// Syntax error in the type.
    pub const TYPE_SYNTAX: u32 = 32;
    /// Syntax error in the row text.
    pub const ROW_SYNTAX: u32 = 33;
    /// A value in the row text does not fit the type.
    pub const ROW_TYPE_MISMATCH: u32 = 34;
    /// The type or the rows exceed a size limit, or the type is nested more than 64 levels deep.
    pub const TEXT_LIMIT: u32 = 35;
    /// The Arrow array or the schema, or one below it, was released.
    pub const ARROW_RELEASED: u32 = 64;
    /// An unsupported Arrow format.
    pub const ARROW_FORMAT: u32 = 65;
    /// Another number of buffers than the format has, or a missing one.
    pub const ARROW_BUFFERS: u32 = 66;
    /// Another number of children than the format has, or a missing one.
    pub const ARROW_CHILDREN: u32 = 67;
    /// A length, an offset or a null count is out of range, or a child is too short.
    pub const ARROW_LENGTH: u32 = 68;
    /// A dictionary in only one of the array and the schema, keys that are not integers, or no type to keep a
    /// dictionary in.
    pub const ARROW_DICTIONARY: u32 = 69;
    /// A value or an offset that the format cannot represent.
    pub const ARROW_RANGE: u32 = 71;
    /// A null in a field that is not nullable, or in run ends.
    pub const ARROW_NULL: u32 = 72;
    /// The producer of a stream reports an error.
    pub const ARROW_STREAM: u32 = 73;
    // end: written by tools/statuses.py
}

/// An error of a function, with its status in `include/sel.h` or `include/sel_arrow.h`: one of [`status`](mod@status).
///
/// The texts that [`Display`](fmt::Display) writes come from the library.
///
/// ```
/// use sel::{status, Column, Error};
/// # fn main() -> Result<(), Error> {
/// let error = Column::from_values(&[1i64, 2])?.slice(1, 2).unwrap_err();
/// assert_eq!(error, Error::OutOfBounds(status::INDEX_OUT_OF_BOUNDS));
/// assert_eq!((error.status(), error.to_string()), (6, "index out of bounds".to_string()));
/// # Ok(())
/// # }
/// ```
#[derive(Clone, Copy, Debug, PartialEq, Eq, Hash)]
#[non_exhaustive]
pub enum Error {
    /// An allocation failed.
    OutOfMemory,
    /// A column has the wrong kind, type or length for the function (status 2 to 5).
    WrongArgument(u32),
    /// An index, a key or a row reference is out of bounds (status 6 or 7).
    OutOfBounds(u32),
    /// The result would exceed a size limit (status 8 to 12, or 35 for a text).
    Limit(u32),
    /// The parts of a new column break a rule (status 16 to 28).
    Malformed(u32),
    /// A text does not parse: the type (status 32), the rows (33), or a row that does not fit the type (34).
    Text {
        /// The status of the library.
        status: u32,
        /// The offset of the first wrong byte, or the length of the text if it ends too early.
        at: usize,
    },
    /// An Arrow array cannot be imported, or a column cannot be exported (status 64 to 73).
    Arrow(u32),
    /// The library returned a status that this crate does not know.
    UnknownStatus(u32),
    /// The library made a column of a kind that this crate does not know.
    UnknownKind(u32),
}

/// Returns the error of a status, if it is one.
pub(crate) fn checked(status: u32) -> Result<(), Error> {
    if status == status::OK {
        Ok(())
    } else {
        Err(Error::of(status))
    }
}

impl Error {
    /// Returns the error with this status.
    pub(crate) fn of(status: u32) -> Error {
        match status {
            // errors, begin: written by tools/statuses.py
            status::OUT_OF_MEMORY => Error::OutOfMemory,
            status::NO_COLUMN | status::UNSUPPORTED_TYPE | status::TYPE_MISMATCH | status::LENGTH_MISMATCH => {
                Error::WrongArgument(status)
            }
            status::INDEX_OUT_OF_BOUNDS | status::LIST_INDEX_OUT_OF_BOUNDS => Error::OutOfBounds(status),
            status::ROW_LIMIT
            | status::OFFSET_LIMIT
            | status::BUFFER_LIMIT
            | status::VIEW_LIMIT
            | status::TOO_DEEP
            | status::TEXT_LIMIT => Error::Limit(status),
            status::NO_OFFSETS
            | status::NEGATIVE_OFFSET
            | status::DECREASING_OFFSET
            | status::TOO_MANY_ROWS
            | status::TOO_MANY_BUFFERS
            | status::LIST_SIZE
            | status::OFFSET_RANGE
            | status::CHILD_LENGTH
            | status::FIELD_LENGTH
            | status::VALIDITY_LENGTH
            | status::VIEW_RANGE
            | status::VIEW_PREFIX
            | status::INVALID_UTF8 => Error::Malformed(status),
            status::ARROW_RELEASED
            | status::ARROW_FORMAT
            | status::ARROW_BUFFERS
            | status::ARROW_CHILDREN
            | status::ARROW_LENGTH
            | status::ARROW_DICTIONARY
            | status::ARROW_RANGE
            | status::ARROW_NULL
            | status::ARROW_STREAM => Error::Arrow(status),
            // errors, end: written by tools/statuses.py
            _ => Error::UnknownStatus(status),
        }
    }

    /// Returns the error with this status of the parser, which reports an offset with some statuses.
    pub(crate) fn of_text(status: u32, at: usize) -> Error {
        match status {
            // text errors, begin: written by tools/statuses.py
            status::TYPE_SYNTAX | status::ROW_SYNTAX | status::ROW_TYPE_MISMATCH => Error::Text { status, at },
            // text errors, end: written by tools/statuses.py
            _ => Error::of(status),
        }
    }

    /// Returns the status of the library; for [`Error::UnknownKind`] the status for a column of the wrong kind.
    pub fn status(self) -> u32 {
        match self {
            Error::OutOfMemory => status::OUT_OF_MEMORY,
            Error::UnknownKind(_) => status::UNSUPPORTED_TYPE,
            Error::WrongArgument(status)
            | Error::OutOfBounds(status)
            | Error::Limit(status)
            | Error::Malformed(status)
            | Error::Text { status, .. }
            | Error::Arrow(status)
            | Error::UnknownStatus(status) => status,
        }
    }
}

impl fmt::Display for Error {
    fn fmt(&self, f: &mut fmt::Formatter<'_>) -> fmt::Result {
        // SAFETY: the function returns a string that ends with a zero and is never freed.
        let text = unsafe { CStr::from_ptr(raw::sel_status_string(self.status())) };
        // All of the strings are ASCII.
        f.write_str(text.to_str().unwrap_or_default())?;
        match self {
            Error::Text { at, .. } => write!(f, " at byte {at}"),
            Error::UnknownStatus(status) => write!(f, " (status {status})"),
            Error::UnknownKind(kind) => write!(f, " (kind {kind})"),
            _ => Ok(()),
        }
    }
}

impl std::error::Error for Error {}

#[cfg(test)]
mod tests {
    use super::*;

    /// Returns the numbers of the header's statuses `SEL_.. = NUMBER`, by their names.
    fn statuses() -> Vec<(String, u32)> {
        let header = include_str!("../../../include/sel.h");
        let begin = header.find("enum sel_status {").expect("the header has the enumeration");
        let body = header[begin..].split('}').next().expect("the text before a brace");
        let lines = body.lines().filter_map(|line| line.trim().trim_end_matches(',').split_once(" = "));
        let statuses = lines.filter(|(name, _)| *name != "SEL_STATUS_FORCE_32_BITS");
        statuses.map(|(name, number)| (name.to_string(), number.parse().expect("a number"))).collect()
    }

    #[test]
    fn each_status_of_the_headers_is_known() {
        let statuses = statuses();
        assert!(statuses.len() > 30, "{statuses:?}");
        for (name, status) in statuses.iter().filter(|(_, status)| *status != status::OK) {
            let error = Error::of_text(*status, 5);
            assert!(!matches!(error, Error::UnknownStatus(_)), "{name} = {status}");
            assert_eq!(error.status(), *status, "{name}");
        }
    }

    #[test]
    fn the_statuses_that_the_crate_returns_are_those_of_the_header() {
        let of = |name: &str| statuses().into_iter().find(|(other, _)| other == name).map(|(_, status)| status);
        assert_eq!(of("SEL_OK"), Some(status::OK));
        assert_eq!(of("SEL_ERROR_OUT_OF_MEMORY"), Some(status::OUT_OF_MEMORY));
        assert_eq!(of("SEL_ERROR_UNSUPPORTED_TYPE"), Some(status::UNSUPPORTED_TYPE));
        assert_eq!(of("SEL_ERROR_OFFSET_LIMIT"), Some(status::OFFSET_LIMIT));
        assert_eq!(of("SEL_ERROR_VIEW_LIMIT"), Some(status::VIEW_LIMIT));
        assert_eq!(of("SEL_ERROR_OFFSET_RANGE"), Some(status::OFFSET_RANGE));
        assert_eq!(of("SEL_ERROR_VALIDITY_LENGTH"), Some(status::VALIDITY_LENGTH));
        assert_eq!(of("SEL_ERROR_VIEW_RANGE"), Some(status::VIEW_RANGE));
        assert_eq!(of("SEL_ERROR_INVALID_UTF8"), Some(status::INVALID_UTF8));
    }

    #[test]
    fn a_status_of_no_header_is_unknown() {
        for unknown in [13, 29, 36, 63, 70, 1000, u32::MAX] {
            assert_eq!(Error::of(unknown), Error::UnknownStatus(unknown));
            assert_eq!(checked(unknown), Err(Error::UnknownStatus(unknown)));
            assert!(Error::of(unknown).to_string().ends_with(&format!(" (status {unknown})")));
        }
    }

    #[test]
    fn texts_are_those_of_the_library() {
        for status in statuses().iter().map(|(_, status)| *status).filter(|status| *status != status::OK) {
            // SAFETY: the function returns a text that is never freed.
            let text = unsafe { CStr::from_ptr(raw::sel_status_string(status)) };
            assert!(!text.to_bytes().is_empty());
            assert_eq!(Error::of(status).to_string().split(" (status ").next(), text.to_str().ok(), "{status}");
        }
    }

    #[test]
    fn an_unknown_kind_has_the_text_of_a_wrong_kind() {
        let text = Error::WrongArgument(status::UNSUPPORTED_TYPE).to_string();
        assert_eq!(Error::UnknownKind(99).to_string(), format!("{text} (kind 99)"));
        assert_eq!(Error::UnknownKind(99).status(), 3);
    }
}
