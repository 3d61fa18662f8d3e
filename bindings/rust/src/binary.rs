//! Columns of bytes: binary values with 64-bit offsets, and any column whose rows are bytes read into vectors.

use crate::bits::Validity;
use crate::column::Column;
use crate::error::{checked, status, Error};
use crate::kind::Kind;
use crate::memory::{append, copy, try_collect, zeroed};
use crate::raw;

/// Returns the bytes between two offsets.
fn between(bytes: &[u8], begin: i64, end: i64) -> Result<&[u8], Error> {
    let (begin, end) = (usize::try_from(begin).ok(), usize::try_from(end).ok());
    let range = begin.zip(end).and_then(|(begin, end)| bytes.get(begin..end));
    range.ok_or(Error::of(status::OFFSET_RANGE))
}

impl Column {
    /// Makes a binary column (64-bit offsets), null where a row is `None`.
    ///
    /// # Errors
    /// [`Error::Malformed`] for more than 4,294,967,295 rows; [`Error::OutOfMemory`].
    ///
    /// ```
    /// # use sel::{Column, Error, Kind};
    /// # fn main() -> Result<(), Error> {
    /// let column = Column::from_bytes(&[Some(&[0u8, 255]), None, Some(b"")])?;
    /// assert_eq!((column.kind(), column.to_text()?), (Kind::Binary, r#"[h"00ff",null,h""]"#.to_string()));
    /// assert_eq!(column.to_bytes()?, [Some(vec![0, 255]), None, Some(vec![])]);
    /// # Ok(())
    /// # }
    /// ```
    pub fn from_bytes(rows: &[Option<&[u8]>]) -> Result<Column, Error> {
        Column::from_options(rows)
    }

    /// Makes a binary column: row `i` is the bytes from `offsets[i]` up to `offsets[i + 1]`, or null where `validity[i]` is
    /// false.
    ///
    /// # Errors
    /// [`Error::Malformed`] if there is no offset, one is negative, decreases or exceeds the length of the bytes, or the
    /// validity has not one item for each row; [`Error::OutOfMemory`].
    ///
    /// ```
    /// # use sel::{Column, Error};
    /// # fn main() -> Result<(), Error> {
    /// let column = Column::new_binary(&[0, 1, 3], b"abc", Some(&[true, false]))?;
    /// assert_eq!(column.to_text()?, r#"[h"61",null]"#);
    /// assert_eq!(Column::new_binary(&[0, 4], b"abc", None).err(), Some(Error::Malformed(22)));
    /// # Ok(())
    /// # }
    /// ```
    pub fn new_binary(offsets: &[i64], bytes: &[u8], validity: Option<&[bool]>) -> Result<Column, Error> {
        Column::made_of_offsets(offsets, bytes, &Validity::new(validity, offsets.len().saturating_sub(1))?)
    }

    fn made_of_offsets(offsets: &[i64], bytes: &[u8], validity: &Validity) -> Result<Column, Error> {
        Column::made_with(validity, |bits, bits_len, has_bits, out| {
            let (offsets, count) = (offsets.as_ptr(), offsets.len());
            // SAFETY: all slices are valid for their lengths, and the handle is empty.
            unsafe { raw::sel_binary_new(offsets, count, bytes.as_ptr(), bytes.len(), bits, bits_len, has_bits, out) }
        })
    }

    pub(crate) fn made_of_bytes<'a>(
        values: impl ExactSizeIterator<Item = &'a [u8]>,
        validity: &Validity,
    ) -> Result<Column, Error> {
        let (mut offsets, mut bytes) = (Vec::new(), Vec::new());
        offsets.try_reserve_exact(values.len().saturating_add(1)).map_err(|_| Error::OutOfMemory)?;
        offsets.push(0);
        for value in values {
            append(&mut bytes, value)?;
            offsets.push(i64::try_from(bytes.len()).map_err(|_| Error::of(status::OFFSET_LIMIT))?);
        }
        Column::made_of_offsets(&offsets, &bytes, validity)
    }

    /// Returns the rows of a binary column, of binary views or of a string column, `None` where they are null.
    ///
    /// The bytes are copied once as a whole, for a slice of a binary column also those outside of its rows.
    ///
    /// # Errors
    /// [`Error::WrongArgument`] if the column has another kind; [`Error::OutOfMemory`].
    ///
    /// ```
    /// # use sel::{Column, Error};
    /// # fn main() -> Result<(), Error> {
    /// assert_eq!(Column::parse("binview", r#"[h"00",null]"#)?.to_bytes()?, [Some(vec![0]), None]);
    /// assert_eq!(Column::parse("utf8", r#"["a"]"#)?.to_bytes()?, [Some(b"a".to_vec())]);
    /// # Ok(())
    /// # }
    /// ```
    pub fn to_bytes(&self) -> Result<Vec<Option<Vec<u8>>>, Error> {
        if self.kind() != Kind::Binary {
            return self.view_bytes();
        }
        let (bytes, offsets) = (self.bytes()?, self.offsets()?);
        let rows = offsets.iter().zip(offsets.iter().skip(1)).zip(self.valid()?);
        let row = |((begin, end), valid): ((&i64, &i64), bool)| match valid {
            true => between(&bytes, *begin, *end).and_then(copy).map(Some),
            false => Ok(None),
        };
        try_collect(rows.map(row))
    }

    /// Returns a copy of the bytes of a binary column that its [`offsets`](Column::offsets) refer to, including those outside of
    /// the rows.
    ///
    /// # Errors
    /// [`Error::WrongArgument`] if the column has another kind; [`Error::OutOfMemory`].
    ///
    /// ```
    /// # use sel::{Column, Error};
    /// # fn main() -> Result<(), Error> {
    /// let column = Column::new_binary(&[0, 1, 3], b"abc", None)?;
    /// assert_eq!((column.offsets()?, column.bytes()?), (vec![0, 1, 3], b"abc".to_vec()));
    /// # Ok(())
    /// # }
    /// ```
    pub fn bytes(&self) -> Result<Vec<u8>, Error> {
        let mut len = 0;
        // SAFETY: the handle is owned by the column.
        checked(unsafe { raw::sel_bytes_len(self.at(), &mut len) })?;
        let mut bytes = zeroed::<u8>(len)?;
        // SAFETY: the bytes are valid for their length, and the handle is owned by the column.
        checked(unsafe { raw::sel_bytes(self.at(), bytes.as_mut_ptr(), bytes.len()) })?;
        Ok(bytes)
    }
}

#[cfg(test)]
mod tests {
    use super::*;

    #[test]
    fn offsets_outside_of_the_bytes_are_errors() {
        let out_of_range = Err(Error::of(status::OFFSET_RANGE));
        for (begin, end) in [(0, 4), (-1, 2), (2, 1), (i64::MIN, i64::MAX), (i64::MAX, i64::MAX), (0, i64::MIN)] {
            assert_eq!(between(b"abc", begin, end), out_of_range, "{begin} {end}");
        }
        assert_eq!(between(b"abc", 1, 3), Ok(&b"bc"[..]));
    }
}
