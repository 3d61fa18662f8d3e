//! Masks that are prepared once, to filter any number of columns.

use crate::column::Column;
use crate::error::{checked, Error};
use crate::raw::{self, SelectionHandle};
use std::fmt;

/// The rows that a mask selects, counted once, to filter any number of columns of as many rows.
///
/// # Threads
/// A selection is [`Send`] and [`Sync`]: several threads may filter by it at the same time.
///
/// ```
/// # use sel::{Column, Error, Selection};
/// # fn main() -> Result<(), Error> {
/// let selection = Selection::new(&Column::from_options(&[Some(true), None, Some(false), Some(true)])?)?;
/// assert_eq!((selection.len(), selection.count()), (4, 2));
/// let (names, ages) = (Column::from_values(&["Ada", "Bo", "Cy", "Di"])?, Column::from_values(&[36i64, 27, 45, 31])?);
/// assert_eq!(names.filter_selection(&selection)?.to_text()?, r#"["Ada","Di"]"#);
/// assert_eq!(ages.filter_selection(&selection)?.to_text()?, "[36,31]");
/// # Ok(())
/// # }
/// ```
pub struct Selection {
    handle: SelectionHandle,
    len: usize,
    count: usize,
}

// SAFETY: a handle is one pointer to a mask on the heap, which never changes, and no function of the library depends on
// the thread that calls it; the memory of the mask may be shared with columns, by reference counts that are atomic.
unsafe impl Send for Selection {}

// SAFETY: a shared reference gives only a pointer to const, and `sel.h` ("Threads") allows functions that take a handle by
// such a pointer to read it at the same time, from any threads. What frees the handle takes it by value.
unsafe impl Sync for Selection {}

impl Selection {
    /// Returns the selection of the rows where `mask`, a boolean column, is true; a null in it counts as false.
    ///
    /// # Errors
    /// [`Error::WrongArgument`] if the mask is not boolean; [`Error::OutOfMemory`].
    pub fn new(mask: &Column) -> Result<Selection, Error> {
        // SAFETY: two handles that do not overlap.
        Selection::made(|out| unsafe { raw::sel_selection_new(mask.at(), out) })
    }

    /// Returns the selection of the rows whose bit in `mask` is set, of `len` bits packed with the least significant bit
    /// first.
    ///
    /// # Errors
    /// [`Error::WrongArgument`] if the mask has fewer than `len` bits; [`Error::OutOfMemory`].
    ///
    /// ```
    /// # use sel::{Error, Selection};
    /// # fn main() -> Result<(), Error> {
    /// assert_eq!(Selection::from_bits(&[0b101], 3)?.count(), 2);
    /// assert_eq!(Selection::from_bits(&[0b101], 9).err(), Some(Error::WrongArgument(5)));
    /// # Ok(())
    /// # }
    /// ```
    pub fn from_bits(mask: &[u8], len: usize) -> Result<Selection, Error> {
        // SAFETY: the mask is valid for its length.
        Selection::made(|out| unsafe { raw::sel_selection_of_bits(mask.as_ptr(), mask.len(), len, out) })
    }

    fn made(call: impl FnOnce(*mut SelectionHandle) -> u32) -> Result<Selection, Error> {
        let mut made = Selection { handle: SelectionHandle::EMPTY, len: 0, count: 0 };
        checked(call(&mut made.handle))?;
        // SAFETY: the handle has a mask, and the number is a field next to it.
        checked(unsafe { raw::sel_selection_len(&made.handle, &mut made.len) })?;
        // SAFETY: as before.
        checked(unsafe { raw::sel_selection_count(&made.handle, &mut made.count) })?;
        Ok(made)
    }

    /// Returns the number of rows of the mask, and of the columns that it can filter.
    pub fn len(&self) -> usize {
        self.len
    }

    /// Returns whether the mask has no rows.
    pub fn is_empty(&self) -> bool {
        self.len == 0
    }

    /// Returns the number of rows that are selected.
    pub fn count(&self) -> usize {
        self.count
    }
}

impl Drop for Selection {
    fn drop(&mut self) {
        // SAFETY: the handle has a mask or none, and is not used again.
        unsafe { raw::sel_selection_free(&mut self.handle) }
    }
}

impl fmt::Debug for Selection {
    fn fmt(&self, f: &mut fmt::Formatter<'_>) -> fmt::Result {
        f.debug_struct("Selection").field("len", &self.len).field("count", &self.count).finish()
    }
}

impl Column {
    /// Returns the rows that `selection` selects, as [`filter`](Column::filter) does by its mask.
    ///
    /// # Errors
    /// [`Error::WrongArgument`] if the column has not `selection.len()` rows; [`Error::OutOfMemory`].
    ///
    /// ```
    /// # use sel::{Column, Error, Selection};
    /// # fn main() -> Result<(), Error> {
    /// let selection = Selection::from_bits(&[0b110], 3)?;
    /// assert_eq!(Column::from_values(&[1i64, 2, 3])?.filter_selection(&selection)?.to_text()?, "[2,3]");
    /// assert_eq!(Column::from_values(&[1i64])?.filter_selection(&selection).err(), Some(Error::WrongArgument(5)));
    /// # Ok(())
    /// # }
    /// ```
    pub fn filter_selection(&self, selection: &Selection) -> Result<Column, Error> {
        // SAFETY: the handles are valid, and `out` is another one.
        Column::made(|out| unsafe { raw::sel_filter_selection(self.at(), &selection.handle, out) })
    }
}
