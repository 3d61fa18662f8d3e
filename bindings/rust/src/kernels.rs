//! Kernels: rows that are filtered, taken, chosen, gathered from several columns, and elements of lists.

use crate::bits::Validity;
use crate::column::Column;
use crate::error::{checked, Error};
use crate::handle::{HandleArray, OwnedHandle};
use crate::memory::collect;
use crate::raw::{self, Handle, RawRowRef};

impl Column {
    /// Returns the rows where `mask`, a boolean column of the same length, is true; a null in it counts as false.
    ///
    /// # Errors
    /// [`Error::WrongArgument`] if the mask is not boolean or has another length; [`Error::OutOfMemory`].
    ///
    /// ```
    /// # use sel::{Column, Error};
    /// # fn main() -> Result<(), Error> {
    /// let mask = Column::from_options(&[Some(true), None, Some(false)])?;
    /// assert_eq!(Column::from_values(&[1i64, 2, 3])?.filter(&mask)?.to_text()?, "[1]");
    /// # Ok(())
    /// # }
    /// ```
    pub fn filter(&self, mask: &Column) -> Result<Column, Error> {
        // SAFETY: the handles are valid; those that are read may be the same, and `out` is another one.
        Column::made(|out| unsafe { raw::sel_filter(self.at(), mask.at(), out) })
    }

    /// Returns the rows whose bit in `mask` is set, of `len` bits packed with the least significant bit first.
    ///
    /// # Errors
    /// [`Error::WrongArgument`] if the column has not `len` rows or the mask fewer than `len` bits;
    /// [`Error::OutOfMemory`].
    ///
    /// ```
    /// # use sel::{Column, Error};
    /// # fn main() -> Result<(), Error> {
    /// let numbers = Column::from_values(&[1i64, 2, 3])?;
    /// assert_eq!(numbers.filter_bits(&[0b101], 3)?.to_text()?, "[1,3]");
    /// assert_eq!(numbers.filter_bits(&[0b101], usize::MAX).err(), Some(Error::WrongArgument(5)));
    /// # Ok(())
    /// # }
    /// ```
    pub fn filter_bits(&self, mask: &[u8], len: usize) -> Result<Column, Error> {
        // SAFETY: the mask is valid for its length, and the two handles are distinct.
        Column::made(|out| unsafe { raw::sel_filter_bits(self.at(), mask.as_ptr(), mask.len(), len, out) })
    }

    /// Returns the rows at `indices`, a `u32` column; a null index gives a null row.
    ///
    /// # Errors
    /// [`Error::WrongArgument`] if the indices are not `u32`; [`Error::OutOfBounds`] if a valid index is not less than the
    /// number of rows; [`Error::Limit`]; [`Error::OutOfMemory`].
    ///
    /// ```
    /// # use sel::{Column, Error};
    /// # fn main() -> Result<(), Error> {
    /// let indices = Column::from_options(&[Some(2u32), None, Some(2)])?;
    /// assert_eq!(Column::from_values(&[1i64, 2, 3])?.take(&indices)?.to_text()?, "[3,null,3]");
    /// # Ok(())
    /// # }
    /// ```
    pub fn take(&self, indices: &Column) -> Result<Column, Error> {
        // SAFETY: as in `filter`.
        Column::made(|out| unsafe { raw::sel_take(self.at(), indices.at(), out) })
    }

    /// Returns the rows at `indices`; `None` gives a null row.
    ///
    /// # Errors
    /// [`Error::OutOfBounds`] if an index is not less than the number of rows; [`Error::Limit`]; [`Error::Malformed`] for
    /// more than 4,294,967,295 indices; [`Error::OutOfMemory`].
    ///
    /// ```
    /// # use sel::{Column, Error};
    /// # fn main() -> Result<(), Error> {
    /// let numbers = Column::from_values(&[1i64, 2, 3])?;
    /// assert_eq!(numbers.take_rows(&[Some(2), None, Some(2)])?.to_text()?, "[3,null,3]");
    /// # Ok(())
    /// # }
    /// ```
    pub fn take_rows(&self, indices: &[Option<u32>]) -> Result<Column, Error> {
        let rows = collect(indices.iter().map(|index| index.unwrap_or_default()))?;
        Column::made_with(&Validity::of_options(indices)?, |bits, bits_len, has_bits, out| {
            // SAFETY: both slices are valid for their lengths, and the two handles are distinct.
            unsafe { raw::sel_take_rows(self.at(), rows.as_ptr(), rows.len(), bits, bits_len, has_bits, out) }
        })
    }

    /// Returns the element at `index` of each list, or null where there is none; a negative index counts from the end.
    ///
    /// # Errors
    /// [`Error::WrongArgument`] if the column has no lists; [`Error::Limit`]; [`Error::OutOfMemory`].
    ///
    /// ```
    /// # use sel::{Column, Error};
    /// # fn main() -> Result<(), Error> {
    /// let lists = Column::parse("list<i64>", "[[1,2],[],null,[3]]")?;
    /// assert_eq!(lists.list_get(-1)?.to_text()?, "[2,null,null,3]");
    /// # Ok(())
    /// # }
    /// ```
    pub fn list_get(&self, index: i64) -> Result<Column, Error> {
        // SAFETY: two distinct handles.
        Column::made(|out| unsafe { raw::sel_list_get(self.at(), index, out) })
    }

    /// Returns whether `index` is out of bounds of a valid list.
    ///
    /// # Errors
    /// [`Error::WrongArgument`] if the column has no lists.
    ///
    /// ```
    /// # use sel::{Column, Error};
    /// # fn main() -> Result<(), Error> {
    /// let lists = Column::parse("list<i64>", "[[1,2],null,[3]]")?;
    /// assert!(!lists.list_index_is_oob(0)? && lists.list_index_is_oob(1)?);
    /// # Ok(())
    /// # }
    /// ```
    pub fn list_index_is_oob(&self, index: i64) -> Result<bool, Error> {
        let mut is_oob = false;
        // SAFETY: the handle is owned by the column.
        checked(unsafe { raw::sel_list_index_is_oob(self.at(), index, &mut is_oob) })?;
        Ok(is_oob)
    }

    /// Returns the element at `index` of each fixed-size list; a negative index counts from the end.
    ///
    /// A null list gives null, and so does an index out of bounds if `null_on_oob`.
    ///
    /// # Errors
    /// [`Error::WrongArgument`] if the column has no fixed-size lists; [`Error::OutOfBounds`] without `null_on_oob`, if the
    /// index is out of bounds and a list is valid; [`Error::Limit`]; [`Error::OutOfMemory`].
    ///
    /// ```
    /// # use sel::{Column, Error};
    /// # fn main() -> Result<(), Error> {
    /// let pairs = Column::parse("fixed<2,i64>", "[[1,2],null]")?;
    /// assert_eq!(pairs.fixed_size_list_get(-1, false)?.to_text()?, "[2,null]");
    /// assert_eq!(pairs.fixed_size_list_get(2, true)?.to_text()?, "[null,null]");
    /// assert_eq!(pairs.fixed_size_list_get(2, false).err(), Some(Error::OutOfBounds(7)));
    /// # Ok(())
    /// # }
    /// ```
    pub fn fixed_size_list_get(&self, index: i64, null_on_oob: bool) -> Result<Column, Error> {
        // SAFETY: two distinct handles.
        Column::made(|out| unsafe { raw::sel_fixed_size_list_get(self.at(), index, null_on_oob, out) })
    }

    /// Returns the element of each fixed-size list at its own index, of `indices`, an `i64` column.
    ///
    /// A null list gives null, and so does an index that is null or out of bounds if `null_on_oob`.
    ///
    /// # Errors
    /// [`Error::WrongArgument`] if the column has no fixed-size lists, the indices are not `i64` or not as many;
    /// [`Error::OutOfBounds`] without `null_on_oob`, if the index of a valid list is null or out of bounds;
    /// [`Error::Limit`]; [`Error::OutOfMemory`].
    ///
    /// ```
    /// # use sel::{Column, Error};
    /// # fn main() -> Result<(), Error> {
    /// let pairs = Column::parse("fixed<2,i64>", "[[1,2],[3,4],null]")?;
    /// let indices = Column::from_values(&[0i64, -1, 7])?;
    /// assert_eq!(pairs.fixed_size_list_get_each(&indices, false)?.to_text()?, "[1,4,null]");
    /// # Ok(())
    /// # }
    /// ```
    pub fn fixed_size_list_get_each(&self, indices: &Column, null_on_oob: bool) -> Result<Column, Error> {
        // SAFETY: as in `filter`.
        Column::made(|out| unsafe { raw::sel_fixed_size_list_get_each(self.at(), indices.at(), null_on_oob, out) })
    }

    /// Returns the same as [`list_get`](Column::list_get).
    ///
    /// ```
    /// # fn main() -> Result<(), sel::Error> {
    /// assert_eq!(sel::Column::parse("list<i64>", "[[1,2],[]]")?.sublist_get(0)?.to_text()?, "[1,null]");
    /// # Ok(())
    /// # }
    /// ```
    pub fn sublist_get(&self, index: i64) -> Result<Column, Error> {
        self.list_get(index)
    }

    /// Returns the same as [`list_index_is_oob`](Column::list_index_is_oob).
    ///
    /// ```
    /// # fn main() -> Result<(), sel::Error> {
    /// assert!(sel::Column::parse("list<i64>", "[[1,2],[]]")?.index_is_oob(0)?);
    /// # Ok(())
    /// # }
    /// ```
    pub fn index_is_oob(&self, index: i64) -> Result<bool, Error> {
        self.list_index_is_oob(index)
    }

    /// Returns the same as [`fixed_size_list_get`](Column::fixed_size_list_get).
    ///
    /// ```
    /// # fn main() -> Result<(), sel::Error> {
    /// assert_eq!(sel::Column::parse("fixed<2,i64>", "[[1,2],null]")?.fixed_get(1, false)?.to_text()?, "[2,null]");
    /// # Ok(())
    /// # }
    /// ```
    pub fn fixed_get(&self, index: i64, null_on_oob: bool) -> Result<Column, Error> {
        self.fixed_size_list_get(index, null_on_oob)
    }

    /// Returns the same as [`fixed_size_list_get_each`](Column::fixed_size_list_get_each).
    ///
    /// ```
    /// # use sel::{Column, Error};
    /// # fn main() -> Result<(), Error> {
    /// let indices = Column::from_values(&[1i64, 0])?;
    /// assert_eq!(Column::parse("fixed<2,i64>", "[[1,2],[3,4]]")?.fixed_get_each(&indices, false)?.to_text()?, "[2,3]");
    /// # Ok(())
    /// # }
    /// ```
    pub fn fixed_get_each(&self, indices: &Column, null_on_oob: bool) -> Result<Column, Error> {
        self.fixed_size_list_get_each(indices, null_on_oob)
    }

    /// Returns the rows in reverse order.
    ///
    /// # Errors
    /// [`Error::OutOfMemory`].
    ///
    /// ```
    /// # use sel::{Column, Error};
    /// # fn main() -> Result<(), Error> {
    /// assert_eq!(Column::from_options(&[Some(1i64), None, Some(3)])?.reverse()?.to_text()?, "[3,null,1]");
    /// # Ok(())
    /// # }
    /// ```
    pub fn reverse(&self) -> Result<Column, Error> {
        // SAFETY: two distinct handles.
        Column::made(|out| unsafe { raw::sel_reverse(self.at(), out) })
    }

    /// Returns a column of lists, each of which has the row as its only element.
    ///
    /// # Errors
    /// [`Error::Limit`] if the column has 128 levels of lists and structs; [`Error::OutOfMemory`].
    ///
    /// ```
    /// # use sel::{Column, Error};
    /// # fn main() -> Result<(), Error> {
    /// assert_eq!(Column::from_options(&[Some(1i64), None])?.unit_list()?.to_text()?, "[[1],[null]]");
    /// # Ok(())
    /// # }
    /// ```
    pub fn unit_list(&self) -> Result<Column, Error> {
        // SAFETY: two distinct handles.
        Column::made(|out| unsafe { raw::sel_unit_list(self.at(), out) })
    }
}

type IfThenElse = unsafe extern "C" fn(*const Handle, *const Handle, *const Handle, *mut Handle) -> u32;

fn if_then_else_by(call: IfThenElse, mask: &Column, if_true: &Column, if_false: &Column) -> Result<Column, Error> {
    // SAFETY: the handles are valid; those that are read may be the same, and `out` is another one.
    Column::made(|out| unsafe { call(mask.at(), if_true.at(), if_false.at(), out) })
}

/// Returns the rows of `if_true` where `mask`, a boolean column, is true, and those of `if_false` elsewhere.
///
/// Both have the same type, and as many rows as the mask; a null in the mask counts as false.
///
/// # Errors
/// [`Error::WrongArgument`] if the mask is not boolean, the types differ or the lengths differ; [`Error::Limit`];
/// [`Error::OutOfMemory`].
///
/// ```
/// # use sel::{if_then_else, Column, Error};
/// # fn main() -> Result<(), Error> {
/// let mask = Column::from_options(&[Some(true), None, Some(false)])?;
/// let (yes, no) = (Column::from_values(&[1i64, 2, 3])?, Column::from_values(&[10i64, 20, 30])?);
/// assert_eq!(if_then_else(&mask, &yes, &no)?.to_text()?, "[1,20,30]");
/// # Ok(())
/// # }
/// ```
pub fn if_then_else(mask: &Column, if_true: &Column, if_false: &Column) -> Result<Column, Error> {
    if_then_else_by(raw::sel_if_then_else, mask, if_true, if_false)
}

/// Returns the same as [`if_then_else`] with the only row of `if_true` for each row where `mask` is true.
///
/// # Errors
/// As [`if_then_else`]; [`Error::WrongArgument`] if `if_true` has not one row.
///
/// ```
/// # use sel::{if_then_else_broadcast_true, Column, Error};
/// # fn main() -> Result<(), Error> {
/// let (mask, zero) = (Column::from_bools(&[true, false])?, Column::from_values(&[0i64])?);
/// assert_eq!(if_then_else_broadcast_true(&mask, &zero, &Column::from_values(&[1i64, 2])?)?.to_text()?, "[0,2]");
/// # Ok(())
/// # }
/// ```
pub fn if_then_else_broadcast_true(mask: &Column, if_true: &Column, if_false: &Column) -> Result<Column, Error> {
    if_then_else_by(raw::sel_if_then_else_broadcast_true, mask, if_true, if_false)
}

/// Returns the same as [`if_then_else`] with the only row of `if_false` for each row where `mask` is not true.
///
/// # Errors
/// As [`if_then_else`]; [`Error::WrongArgument`] if `if_false` has not one row.
///
/// ```
/// # use sel::{if_then_else_broadcast_false, Column, Error};
/// # fn main() -> Result<(), Error> {
/// let (mask, zero) = (Column::from_bools(&[true, false])?, Column::from_values(&[0i64])?);
/// assert_eq!(if_then_else_broadcast_false(&mask, &Column::from_values(&[1i64, 2])?, &zero)?.to_text()?, "[1,0]");
/// # Ok(())
/// # }
/// ```
pub fn if_then_else_broadcast_false(mask: &Column, if_true: &Column, if_false: &Column) -> Result<Column, Error> {
    if_then_else_by(raw::sel_if_then_else_broadcast_false, mask, if_true, if_false)
}

/// Returns the same as [`if_then_else`] with the only row of `if_true` and the only row of `if_false`. The result has as many
/// rows as the mask.
///
/// # Errors
/// As [`if_then_else`]; [`Error::WrongArgument`] if `if_true` or `if_false` has not one row.
///
/// ```
/// # use sel::{if_then_else_broadcast_both, Column, Error};
/// # fn main() -> Result<(), Error> {
/// let mask = Column::from_options(&[Some(true), None])?;
/// let (yes, no) = (Column::from_values(&["yes"])?, Column::from_values(&["no"])?);
/// assert_eq!(if_then_else_broadcast_both(&mask, &yes, &no)?.to_text()?, r#"["yes","no"]"#);
/// # Ok(())
/// # }
/// ```
pub fn if_then_else_broadcast_both(mask: &Column, if_true: &Column, if_false: &Column) -> Result<Column, Error> {
    if_then_else_by(raw::sel_if_then_else_broadcast_both, mask, if_true, if_false)
}

/// Returns the same as [`if_then_else`].
///
/// ```
/// # use sel::{choose, Column, Error};
/// # fn main() -> Result<(), Error> {
/// let mask = Column::from_bools(&[true, false])?;
/// let (yes, no) = (Column::from_values(&[1i64, 2])?, Column::from_values(&[3i64, 4])?);
/// assert_eq!(choose(&mask, &yes, &no)?.to_text()?, "[1,4]");
/// # Ok(())
/// # }
/// ```
pub fn choose(mask: &Column, if_true: &Column, if_false: &Column) -> Result<Column, Error> {
    if_then_else(mask, if_true, if_false)
}

/// Returns the same as [`if_then_else_broadcast_true`].
///
/// ```
/// # use sel::{choose_one, Column, Error};
/// # fn main() -> Result<(), Error> {
/// let mask = Column::from_bools(&[true, false])?;
/// let (yes, no) = (Column::from_values(&[1i64])?, Column::from_values(&[3i64, 4])?);
/// assert_eq!(choose_one(&mask, &yes, &no)?.to_text()?, "[1,4]");
/// # Ok(())
/// # }
/// ```
pub fn choose_one(mask: &Column, if_true: &Column, if_false: &Column) -> Result<Column, Error> {
    if_then_else_broadcast_true(mask, if_true, if_false)
}

/// Returns the same as [`if_then_else_broadcast_false`].
///
/// ```
/// # use sel::{choose_or_one, Column, Error};
/// # fn main() -> Result<(), Error> {
/// let mask = Column::from_bools(&[true, false])?;
/// let (yes, no) = (Column::from_values(&[1i64, 2])?, Column::from_values(&[3i64])?);
/// assert_eq!(choose_or_one(&mask, &yes, &no)?.to_text()?, "[1,3]");
/// # Ok(())
/// # }
/// ```
pub fn choose_or_one(mask: &Column, if_true: &Column, if_false: &Column) -> Result<Column, Error> {
    if_then_else_broadcast_false(mask, if_true, if_false)
}

/// Returns the same as [`if_then_else_broadcast_both`].
///
/// ```
/// # use sel::{choose_of_two, Column, Error};
/// # fn main() -> Result<(), Error> {
/// let mask = Column::from_bools(&[true, false])?;
/// let (yes, no) = (Column::from_values(&[1i64])?, Column::from_values(&[3i64])?);
/// assert_eq!(choose_of_two(&mask, &yes, &no)?.to_text()?, "[1,3]");
/// # Ok(())
/// # }
/// ```
pub fn choose_of_two(mask: &Column, if_true: &Column, if_false: &Column) -> Result<Column, Error> {
    if_then_else_broadcast_both(mask, if_true, if_false)
}

/// Concatenates columns row by row: row `r` of `height` has `widths[i]` rows of column `i`, from `r * widths[i]` on, for
/// each column in order.
///
/// A column with only `widths[i]` rows gives them for each of the `height` rows.
///
/// # Errors
/// [`Error::WrongArgument`] if the types differ, there are no columns or not as many widths, a width is 0, or a column has
/// neither `height * widths[i]` nor `widths[i]` rows; [`Error::Limit`]; [`Error::OutOfMemory`].
///
/// ```
/// # use sel::{flatten, Column, Error};
/// # fn main() -> Result<(), Error> {
/// let (left, right) = (Column::from_values(&[1i64, 2, 3, 4])?, Column::from_values(&[0i64])?);
/// assert_eq!(flatten(&[&left, &right], &[2, 1], 2)?.to_text()?, "[1,2,0,3,4,0]");
/// # Ok(())
/// # }
/// ```
pub fn flatten(columns: &[&Column], widths: &[usize], height: usize) -> Result<Column, Error> {
    let handles = HandleArray::shares(columns)?;
    Column::made(|out| {
        // SAFETY: the handles and the widths are valid for their lengths, and `out` is another handle.
        unsafe { raw::sel_flatten(handles.at(), handles.len(), widths.as_ptr(), widths.len(), height, out) }
    })
}

/// Gathers rows from several columns of the same type: each pick is the number of a column and of a row in it; `None`
/// gives a null row.
///
/// # Errors
/// [`Error::WrongArgument`] if the types differ or there are no columns; [`Error::OutOfBounds`] if a pick refers to no row;
/// [`Error::Limit`]; [`Error::Malformed`] for more than 4,294,967,295 picks; [`Error::OutOfMemory`].
///
/// ```
/// # use sel::{collect_rows, Column, Error};
/// # fn main() -> Result<(), Error> {
/// let (first, second) = (Column::from_values(&["a", "b"])?, Column::from_values(&["c"])?);
/// let rows = collect_rows(&[&first, &second], &[Some((1, 0)), None, Some((0, 1))])?;
/// assert_eq!(rows.to_text()?, r#"["c",null,"b"]"#);
/// # Ok(())
/// # }
/// ```
pub fn collect_rows(columns: &[&Column], picks: &[Option<(u32, u32)>]) -> Result<Column, Error> {
    let validity = Validity::of_options(picks)?;
    let rows = picks.iter().map(|pick| pick.unwrap_or_default());
    let picks = collect(rows.map(|(source, row)| RawRowRef { source, row }))?;
    let handles = HandleArray::shares(columns)?;
    Column::made_with(&validity, |bits, bits_len, has_bits, out| {
        let (at, count) = (handles.at(), handles.len());
        // SAFETY: the handles, picks and bits are valid for their lengths, and `out` is another handle.
        unsafe { raw::sel_collect_rows(at, count, picks.as_ptr(), picks.len(), bits, bits_len, has_bits, out) }
    })
}

/// Returns the keys and values of a dictionary without its null values: a key of a null value becomes null.
///
/// The values keep their order, and each key that stays valid refers to the same value as before.
///
/// # Errors
/// [`Error::WrongArgument`] if the keys are not `u32` or the values not strings; [`Error::OutOfBounds`] if a valid key
/// refers to no value; [`Error::OutOfMemory`].
///
/// ```
/// # use sel::{propagate_dictionary, Column, Error};
/// # fn main() -> Result<(), Error> {
/// let (keys, values) = (Column::from_values(&[0u32, 1, 2])?, Column::from_texts(&[Some("a"), None, Some("b")])?);
/// let (keys, values) = propagate_dictionary(&keys, &values)?;
/// assert_eq!((keys.to_text()?, values.to_text()?), ("[0,null,1]".to_string(), r#"["a","b"]"#.to_string()));
/// # Ok(())
/// # }
/// ```
pub fn propagate_dictionary(keys: &Column, values: &Column) -> Result<(Column, Column), Error> {
    let (mut new_keys, mut new_values) = (OwnedHandle::empty(), OwnedHandle::empty());
    // SAFETY: the handles are valid, and the two that are written are others.
    checked(unsafe { raw::sel_propagate_dictionary(keys.at(), values.at(), new_keys.at_mut(), new_values.at_mut()) })?;
    Ok((Column::of(new_keys)?, Column::of(new_values)?))
}
