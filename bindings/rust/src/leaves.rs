//! Columns of nulls and of booleans.

use crate::bits::{bit_at, pack, Validity};
use crate::column::Column;
use crate::error::{checked, Error};
use crate::kind::Kind;
use crate::memory::{collect, zeroed};
use crate::raw;

impl Column {
    /// Makes a column of `len` nulls, of the type `null`.
    ///
    /// # Errors
    /// [`Error::Malformed`] for more than 4,294,967,295 rows; [`Error::OutOfMemory`].
    ///
    /// ```
    /// # use sel::{Column, Error};
    /// # fn main() -> Result<(), Error> {
    /// assert_eq!(Column::new_null(2)?.to_text()?, "[null,null]");
    /// assert_eq!(Column::new_null(usize::MAX).err(), Some(Error::Malformed(19)));
    /// # Ok(())
    /// # }
    /// ```
    pub fn new_null(len: usize) -> Result<Column, Error> {
        // SAFETY: the handle is empty.
        Column::made(|out| unsafe { raw::sel_null_new(len, out) })
    }

    pub(crate) fn made_of_bools(
        values: impl ExactSizeIterator<Item = bool>,
        validity: &Validity,
    ) -> Result<Column, Error> {
        let (len, packed) = (values.len(), pack(values)?);
        Column::made_with(validity, |bits, bits_len, has_bits, out| {
            // SAFETY: both slices are valid for their lengths, and the handle is empty.
            unsafe { raw::sel_boolean_new(packed.as_ptr(), packed.len(), len, bits, bits_len, has_bits, out) }
        })
    }

    /// Makes a boolean column without nulls; [`from_options`](Column::from_options) makes one with nulls.
    ///
    /// # Errors
    /// [`Error::Malformed`] for more than 4,294,967,295 rows; [`Error::OutOfMemory`].
    ///
    /// ```
    /// # use sel::{Column, Error};
    /// # fn main() -> Result<(), Error> {
    /// assert_eq!(Column::from_bools(&[true, false])?.to_text()?, "[true,false]");
    /// assert_eq!(Column::from_options(&[Some(true), None])?.to_bools()?, [Some(true), None]);
    /// # Ok(())
    /// # }
    /// ```
    pub fn from_bools(values: &[bool]) -> Result<Column, Error> {
        Column::from_values(values)
    }

    /// Returns the rows of a boolean column, `None` where they are null.
    ///
    /// # Errors
    /// [`Error::WrongArgument`] if the column has another kind; [`Error::OutOfMemory`].
    ///
    /// ```
    /// # use sel::{Column, Error};
    /// # fn main() -> Result<(), Error> {
    /// assert_eq!(Column::parse("bool", "[true,null]")?.to_bools()?, [Some(true), None]);
    /// # Ok(())
    /// # }
    /// ```
    pub fn to_bools(&self) -> Result<Vec<Option<bool>>, Error> {
        self.expect_kind(Kind::Boolean)?;
        let mut bits = zeroed(self.len().div_ceil(8))?;
        // SAFETY: the bits are valid for their length, and the handle is owned by the column.
        checked(unsafe { raw::sel_boolean_values(self.at(), bits.as_mut_ptr(), bits.len()) })?;
        collect(self.valid()?.into_iter().enumerate().map(|(row, valid)| valid.then(|| bit_at(&bits, row))))
    }
}
