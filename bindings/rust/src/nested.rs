//! Columns of lists, fixed-size lists and struct values: made of their children and taken apart.

use crate::bits::Validity;
use crate::column::Column;
use crate::error::{checked, Error};
use crate::handle::HandleArray;
use crate::kind::Kind;
use crate::memory::zeroed;
use crate::raw;

impl Column {
    /// Makes a column of lists: row `i` has the rows of `child` from `offsets[i]` up to `offsets[i + 1]`, or is null where
    /// `validity[i]` is false.
    ///
    /// # Errors
    /// [`Error::Limit`] if the child has 128 levels of lists and structs; [`Error::Malformed`] if there is no offset, one is
    /// negative, decreases or exceeds the length of the child, or the validity has not one item for each list;
    /// [`Error::OutOfMemory`]. The child is dropped.
    ///
    /// ```
    /// # use sel::{Column, Error};
    /// # fn main() -> Result<(), Error> {
    /// let child = Column::from_values(&[1i64, 2, 3])?;
    /// let lists = Column::new_list(&[0, 2, 3], child, Some(&[true, false]))?;
    /// assert_eq!(lists.to_text()?, "[[1,2],null]");
    /// # Ok(())
    /// # }
    /// ```
    pub fn new_list(offsets: &[i64], mut child: Column, validity: Option<&[bool]>) -> Result<Column, Error> {
        let validity = Validity::new(validity, offsets.len().saturating_sub(1))?;
        Column::made_with(&validity, |bits, bits_len, has_bits, out| {
            // SAFETY: both slices are valid for their lengths, and the handles are distinct. The child is empty
            // afterwards, or unchanged on an error; dropping it is right for both.
            unsafe { raw::sel_list_new(offsets.as_ptr(), offsets.len(), bits, bits_len, has_bits, child.at_mut(), out) }
        })
    }

    /// Makes a column of lists without nulls; the errors are those of [`new_list`](Column::new_list).
    ///
    /// ```
    /// # use sel::{Column, Error};
    /// # fn main() -> Result<(), Error> {
    /// assert_eq!(Column::lists(&[0, 2, 2], Column::from_values(&[1i64, 2])?)?.to_text()?, "[[1,2],[]]");
    /// # Ok(())
    /// # }
    /// ```
    pub fn lists(offsets: &[i64], child: Column) -> Result<Column, Error> {
        Column::new_list(offsets, child, None)
    }

    /// Makes a column of `len` fixed-size lists: row `i` has the `list_size` rows of `child` from `i * list_size` on, or is
    /// null where `validity[i]` is false.
    ///
    /// # Errors
    /// [`Error::Limit`] if the child has 128 levels of lists and structs; [`Error::Malformed`] if the child has not
    /// `len * list_size` rows, one of both numbers exceeds 4,294,967,295, or the validity has not one item for each list;
    /// [`Error::OutOfMemory`]. The child is dropped.
    ///
    /// ```
    /// # use sel::{Column, Error};
    /// # fn main() -> Result<(), Error> {
    /// let child = Column::from_values(&[1i64, 2, 3, 4])?;
    /// let pairs = Column::new_fixed_size_list(2, 2, child, Some(&[true, false]))?;
    /// assert_eq!(pairs.to_text()?, "[[1,2],null]");
    /// # Ok(())
    /// # }
    /// ```
    pub fn new_fixed_size_list(
        list_size: usize,
        len: usize,
        mut child: Column,
        validity: Option<&[bool]>,
    ) -> Result<Column, Error> {
        Column::made_with(&Validity::new(validity, len)?, |bits, bits_len, has_bits, out| {
            // SAFETY: the bits are valid for their length, and the handles are distinct; the child is dropped as in
            // `new_list`.
            unsafe { raw::sel_fixed_size_list_new(list_size, len, bits, bits_len, has_bits, child.at_mut(), out) }
        })
    }

    /// Makes a column of fixed-size lists without nulls; the errors are those of
    /// [`new_fixed_size_list`](Column::new_fixed_size_list).
    ///
    /// ```
    /// # use sel::{Column, Error};
    /// # fn main() -> Result<(), Error> {
    /// assert_eq!(Column::fixed_lists(2, 1, Column::from_values(&[1i64, 2])?)?.to_text()?, "[[1,2]]");
    /// # Ok(())
    /// # }
    /// ```
    pub fn fixed_lists(list_size: usize, len: usize, child: Column) -> Result<Column, Error> {
        Column::new_fixed_size_list(list_size, len, child, None)
    }

    /// Makes a column of `len` struct values with these fields; row `i` is null where `validity[i]` is false.
    ///
    /// # Errors
    /// [`Error::Limit`] if a field has 128 levels of lists and structs; [`Error::Malformed`] if a field has not `len` rows,
    /// `len` exceeds 4,294,967,295, or the validity has not one item for each row; [`Error::OutOfMemory`]. The fields are
    /// dropped.
    ///
    /// ```
    /// # use sel::{Column, Error};
    /// # fn main() -> Result<(), Error> {
    /// let fields = vec![Column::from_values(&["Ada", "Grace"])?, Column::from_values(&[36u8, 85])?];
    /// assert_eq!(Column::new_struct(2, fields, Some(&[true, false]))?.to_text()?, r#"[("Ada",36),null]"#);
    /// # Ok(())
    /// # }
    /// ```
    pub fn new_struct(len: usize, fields: Vec<Column>, validity: Option<&[bool]>) -> Result<Column, Error> {
        let (validity, mut handles) = (Validity::new(validity, len)?, HandleArray::of(fields)?);
        Column::made_with(&validity, |bits, bits_len, has_bits, out| {
            let (at, count) = (handles.at_mut(), handles.len());
            // SAFETY: the bits and handles are valid for their lengths, and all handles are distinct; the fields are
            // dropped as in `new_list`.
            unsafe { raw::sel_struct_new(len, bits, bits_len, has_bits, at, count, out) }
        })
    }

    /// Makes a column of struct values without nulls; the errors are those of [`new_struct`](Column::new_struct).
    ///
    /// ```
    /// # use sel::{Column, Error};
    /// # fn main() -> Result<(), Error> {
    /// assert_eq!(Column::tuples(1, vec![Column::from_values(&[36u8])?])?.to_text()?, "[(36)]");
    /// # Ok(())
    /// # }
    /// ```
    pub fn tuples(len: usize, fields: Vec<Column>) -> Result<Column, Error> {
        Column::new_struct(len, fields, None)
    }

    /// Returns the offsets of a column of lists or binary values: the start of each row in the child or the bytes, and the
    /// end of the last one.
    ///
    /// The first offset of a slice may be above 0.
    ///
    /// # Errors
    /// [`Error::WrongArgument`] if the column has another kind; [`Error::OutOfMemory`].
    ///
    /// ```
    /// # use sel::{Column, Error};
    /// # fn main() -> Result<(), Error> {
    /// let lists = Column::parse("list<i64>", "[[1,2],[],[3]]")?;
    /// assert_eq!(lists.offsets()?, [0, 2, 2, 3]);
    /// assert_eq!(lists.slice(1, 2)?.offsets()?, [2, 2, 3]);
    /// # Ok(())
    /// # }
    /// ```
    pub fn offsets(&self) -> Result<Vec<i64>, Error> {
        if self.kind() != Kind::Binary {
            self.expect_kind(Kind::List)?;
        }
        let mut offsets = zeroed::<i64>(self.len().checked_add(1).ok_or(Error::OutOfMemory)?)?;
        // SAFETY: the offsets are valid for their length, and the handle is owned by the column.
        checked(unsafe { raw::sel_offsets(self.at(), offsets.as_mut_ptr(), offsets.len()) })?;
        Ok(offsets)
    }

    /// Returns the child of a column of lists or fixed-size lists, which shares its memory.
    ///
    /// The child of lists has all rows, those outside of the lists too.
    ///
    /// # Errors
    /// [`Error::WrongArgument`] if the column has another kind; [`Error::OutOfMemory`].
    ///
    /// ```
    /// # use sel::{Column, Error};
    /// # fn main() -> Result<(), Error> {
    /// assert_eq!(Column::parse("list<i64>", "[[1,2],[],[3]]")?.child()?.to_text()?, "[1,2,3]");
    /// # Ok(())
    /// # }
    /// ```
    pub fn child(&self) -> Result<Column, Error> {
        // SAFETY: two distinct handles.
        Column::made(|out| unsafe { raw::sel_child(self.at(), out) })
    }

    /// Returns the list size of a column of fixed-size lists.
    ///
    /// # Errors
    /// [`Error::WrongArgument`] if the column has another kind.
    ///
    /// ```
    /// # use sel::{Column, Error};
    /// # fn main() -> Result<(), Error> {
    /// assert_eq!(Column::parse("fixed<2,i64>", "[]")?.list_size()?, 2);
    /// # Ok(())
    /// # }
    /// ```
    pub fn list_size(&self) -> Result<usize, Error> {
        let mut list_size = 0;
        // SAFETY: the handle is owned by the column.
        checked(unsafe { raw::sel_fixed_size_list_size(self.at(), &mut list_size) })?;
        Ok(list_size)
    }

    /// Returns the number of fields of a struct column.
    ///
    /// # Errors
    /// [`Error::WrongArgument`] if the column has another kind.
    ///
    /// ```
    /// # use sel::{Column, Error};
    /// # fn main() -> Result<(), Error> {
    /// assert_eq!(Column::parse("struct<i64,bool>", "[]")?.field_count()?, 2);
    /// # Ok(())
    /// # }
    /// ```
    pub fn field_count(&self) -> Result<usize, Error> {
        let mut count = 0;
        // SAFETY: the handle is owned by the column.
        checked(unsafe { raw::sel_field_count(self.at(), &mut count) })?;
        Ok(count)
    }

    /// Returns field `i` of a struct column, which shares its memory.
    ///
    /// A row of the field at a null struct value is whatever the column holds there.
    ///
    /// # Errors
    /// [`Error::OutOfBounds`] if there is no such field, as in a column of a different type; [`Error::OutOfMemory`].
    ///
    /// ```
    /// # use sel::{Column, Error};
    /// # fn main() -> Result<(), Error> {
    /// assert_eq!(Column::parse("struct<i64,bool>", "[(1,true)]")?.field(1)?.to_text()?, "[true]");
    /// # Ok(())
    /// # }
    /// ```
    pub fn field(&self, i: usize) -> Result<Column, Error> {
        // SAFETY: two distinct handles.
        Column::made(|out| unsafe { raw::sel_field(self.at(), i, out) })
    }
}
