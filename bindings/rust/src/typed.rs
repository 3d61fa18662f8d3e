//! Columns with their logical types, which the kernels keep.

use crate::arrow::{ArrowArray, ArrowSchema};
use crate::arrow_type::{common_type, ArrowType};
use crate::column::{infallible, Column};
use crate::error::{status, Error};
use crate::kernels;
use crate::kind::Kind;
use crate::memory::collect;
use crate::selection::Selection;
use std::ptr;

/// A column with its logical type: kernels return columns of the type that the result has in Arrow.
///
/// ```
/// # use sel::{ArrowType, Column, Error, TypedColumn};
/// # fn main() -> Result<(), Error> {
/// let dates = TypedColumn::new(Column::from_values(&[0i32, 1, 2])?, ArrowType::new("tdD", &[])?)?;
/// let kept = dates.filter(&Column::from_bools(&[true, false, true])?)?;
/// assert_eq!((kept.column().to_string(), kept.arrow_type().to_string()), ("[0,2]".into(), "date32[day]".into()));
/// let (array, schema) = kept.to_arrow()?;
/// // SAFETY: both were written for the same column.
/// assert_eq!(unsafe { TypedColumn::from_arrow(array, &schema)? }, kept);
/// # Ok(())
/// # }
/// ```
///
/// # Errors
/// Each function returns the errors of the function of [`Column`] that has its name. Functions of several columns return
/// those of [`common_type`] too.
///
/// # Equality
/// Two columns are equal by `==` if they have equal types and the same rows. Keys are compared by the values of the
/// dictionary that they refer to, and floats by their bits; values in null slots are ignored. If an allocation fails, `==`
/// aborts, as that of [`Column`] does, and it panics if a column without its dictionaries would exceed a size limit. Use
/// [`try_eq`](TypedColumn::try_eq), which returns these errors, for columns with dictionaries whose values may be large.
///
/// ```
/// # use sel::{ArrowType, Column, Error, TypedColumn};
/// # fn main() -> Result<(), Error> {
/// let words = |words: &[&str], keys: &[u8]| {
///     let coded = ArrowType::dictionary("C", &Column::from_values(words)?, None, false)?;
///     TypedColumn::new(Column::from_values(keys)?, coded)
/// };
/// assert_eq!(words(&["a", "b"], &[0, 1])?, words(&["b", "a"], &[1, 0])?);
/// assert_ne!(words(&["a", "b"], &[0, 1])?, words(&["b", "a"], &[0, 1])?);
/// # Ok(())
/// # }
/// ```
#[derive(Clone, Debug)]
pub struct TypedColumn {
    column: Column,
    arrow_type: ArrowType,
}

/// Returns the columns of several typed columns in one type.
fn joined(columns: &[&TypedColumn]) -> Result<(Vec<Column>, ArrowType), Error> {
    common_type(&collect(columns.iter().map(|it| (&it.column, Some(&it.arrow_type))))?)
}

type IfThenElse = fn(&Column, &Column, &Column) -> Result<Column, Error>;

/// Returns what a kernel chooses of the rows of two columns in one type.
fn chosen(
    kernel: IfThenElse,
    mask: &Column,
    if_true: &TypedColumn,
    if_false: &TypedColumn,
) -> Result<TypedColumn, Error> {
    let (columns, arrow_type) = joined(&[if_true, if_false])?;
    Ok(TypedColumn { column: kernel(mask, &columns[0], &columns[1])?, arrow_type })
}

impl TypedColumn {
    /// Returns a column with its type.
    ///
    /// # Errors
    /// [`Error::WrongArgument`] if the column does not have the storage of the type; [`Error::OutOfBounds`] if a key has no
    /// row in its dictionary; [`Error::Arrow`] for a dictionary without values; [`Error::OutOfMemory`].
    pub fn new(column: Column, arrow_type: ArrowType) -> Result<TypedColumn, Error> {
        common_type(&[(&column, Some(&arrow_type))])?;
        Ok(TypedColumn { column, arrow_type })
    }

    /// Returns a column with the type of its storage, see [`ArrowType::of_storage`].
    ///
    /// # Errors
    /// [`Error::OutOfMemory`].
    pub fn of_storage(column: Column) -> Result<TypedColumn, Error> {
        let arrow_type = ArrowType::of_storage(&column)?;
        Ok(TypedColumn { column, arrow_type })
    }

    /// Makes a column of an array of the Arrow C data interface, as [`Column::from_arrow_with_type`] does.
    ///
    /// # Errors
    /// As [`Column::from_arrow_with_type`].
    ///
    /// # Safety
    /// As for [`Column::from_arrow`].
    pub unsafe fn from_arrow(array: ArrowArray, schema: &ArrowSchema) -> Result<TypedColumn, Error> {
        // SAFETY: the caller ensures that they belong together.
        let (column, arrow_type) = unsafe { Column::from_arrow_with_type(array, schema)? };
        Ok(TypedColumn { column, arrow_type })
    }

    /// Returns an array of the Arrow C data interface, which shares the buffers of the column, as [`Column::to_arrow_as`] does.
    ///
    /// # Errors
    /// As [`Column::to_arrow_as`].
    pub fn to_arrow(&self) -> Result<(ArrowArray, ArrowSchema), Error> {
        self.column.to_arrow_as(&self.arrow_type)
    }

    /// Returns the column.
    pub fn column(&self) -> &Column {
        &self.column
    }

    /// Returns the logical type.
    pub fn arrow_type(&self) -> &ArrowType {
        &self.arrow_type
    }

    /// Returns a second column of the same rows and type, which shares the memory of the column; [`Clone`] aborts if an
    /// allocation fails.
    ///
    /// # Errors
    /// [`Error::OutOfMemory`].
    pub fn try_clone(&self) -> Result<TypedColumn, Error> {
        self.like(self.column.try_clone()?)
    }

    /// Returns the column and its type.
    pub fn into_parts(self) -> (Column, ArrowType) {
        (self.column, self.arrow_type)
    }

    /// Returns a column of the type of this one.
    fn like(&self, column: Column) -> Result<TypedColumn, Error> {
        Ok(TypedColumn { column, arrow_type: self.arrow_type.try_clone()? })
    }

    /// Returns a column of the type of this one, or of the nullable one.
    fn like_nullable(&self, column: Column, is_nullable: bool) -> Result<TypedColumn, Error> {
        if is_nullable {
            Ok(TypedColumn { column, arrow_type: self.arrow_type.as_nullable()? })
        } else {
            self.like(column)
        }
    }

    /// Returns a column of elements of the lists of this one. Fixed-size binary values and decimals of 256 bits are no lists, although
    /// their storage is.
    fn elements(&self, column: Column) -> Result<TypedColumn, Error> {
        if self.arrow_type.child_count() == 0 {
            return Err(Error::of(status::UNSUPPORTED_TYPE));
        }
        Ok(TypedColumn { column, arrow_type: self.arrow_type.child(0)?.as_field("", true)? })
    }

    /// Returns the rows where the mask is true.
    pub fn filter(&self, mask: &Column) -> Result<TypedColumn, Error> {
        self.like(self.column.filter(mask)?)
    }

    /// Returns the rows whose bit in `mask` is set, of `len` bits packed with the least significant bit first.
    pub fn filter_bits(&self, mask: &[u8], len: usize) -> Result<TypedColumn, Error> {
        self.like(self.column.filter_bits(mask, len)?)
    }

    /// Returns the rows that `selection` selects.
    pub fn filter_selection(&self, selection: &Selection) -> Result<TypedColumn, Error> {
        self.like(self.column.filter_selection(selection)?)
    }

    /// Returns the rows at the indices. The result is nullable if an index is null.
    pub fn take(&self, indices: &Column) -> Result<TypedColumn, Error> {
        self.like_nullable(self.column.take(indices)?, indices.null_count() > 0)
    }

    /// Returns the rows at the indices; `None` gives a null row. The result is nullable if an index is `None`.
    pub fn take_rows(&self, indices: &[Option<u32>]) -> Result<TypedColumn, Error> {
        self.like_nullable(self.column.take_rows(indices)?, indices.contains(&None))
    }

    /// Returns `len` rows from row `offset` on.
    pub fn slice(&self, offset: usize, len: usize) -> Result<TypedColumn, Error> {
        self.like(self.column.slice(offset, len)?)
    }

    /// Returns the rows in reverse order.
    pub fn reverse(&self) -> Result<TypedColumn, Error> {
        self.like(self.column.reverse()?)
    }

    /// Returns the element of each list at the index, null if there is none. The result is nullable and has no name.
    pub fn list_get(&self, index: i64) -> Result<TypedColumn, Error> {
        self.elements(self.column.list_get(index)?)
    }

    /// Returns whether the index is out of bounds of a valid list.
    pub fn list_index_is_oob(&self, index: i64) -> Result<bool, Error> {
        self.column.list_index_is_oob(index)
    }

    /// Returns the element of each fixed-size list at the index; if `null_on_oob`, null if there is none. The result is nullable and
    /// has no name. Fixed-size binary values and decimals are no lists: [`Error::WrongArgument`].
    pub fn fixed_size_list_get(&self, index: i64, null_on_oob: bool) -> Result<TypedColumn, Error> {
        self.elements(self.column.fixed_size_list_get(index, null_on_oob)?)
    }

    /// Returns the element of each fixed-size list at its own index, as [`fixed_size_list_get`](TypedColumn::fixed_size_list_get)
    /// does.
    pub fn fixed_size_list_get_each(&self, indices: &Column, null_on_oob: bool) -> Result<TypedColumn, Error> {
        self.elements(self.column.fixed_size_list_get_each(indices, null_on_oob)?)
    }

    /// Returns a column of lists, each of which has the row as its only element. The elements have the type of this column and
    /// the name `item`; the lists are nullable and have no name.
    pub fn unit_list(&self) -> Result<TypedColumn, Error> {
        let column = self.column.unit_list()?;
        let item = self.arrow_type.as_field("item", self.arrow_type.to_schema()?.is_nullable())?;
        Ok(TypedColumn { column, arrow_type: ArrowType::new("+L", &[&item])? })
    }

    /// Returns a field of structs. A row of it at a null struct value is whatever the column holds there. The result is nullable
    /// if structs and rows of the field are null.
    pub fn field(&self, number: usize) -> Result<TypedColumn, Error> {
        let (column, arrow_type) = (self.column.field(number)?, self.arrow_type.child(number)?);
        if self.column.null_count() == 0 || column.null_count() == 0 {
            return Ok(TypedColumn { column, arrow_type });
        }
        Ok(TypedColumn { column, arrow_type: arrow_type.as_nullable()? })
    }

    /// Returns the field of structs with this name, the first one if there are several; `None` if there is none, as in a
    /// column of a different type. A field without a name has the empty one.
    pub fn field_named(&self, name: &str) -> Result<Option<TypedColumn>, Error> {
        let count = if self.column.kind() == Kind::Struct { self.arrow_type.child_count() } else { 0 };
        for number in 0..count {
            if self.arrow_type.child(number)?.name_bytes() == name.as_bytes() {
                return self.field(number).map(Some);
            }
        }
        Ok(None)
    }

    /// Returns the column without dictionaries, at every depth.
    pub fn decode(&self) -> Result<TypedColumn, Error> {
        let (column, arrow_type) = self.column.decode(&self.arrow_type)?;
        Ok(TypedColumn { column, arrow_type })
    }

    /// Returns the rows of `if_true` where the mask is true, and else those of `if_false`.
    pub fn if_then_else(mask: &Column, if_true: &TypedColumn, if_false: &TypedColumn) -> Result<TypedColumn, Error> {
        chosen(kernels::if_then_else, mask, if_true, if_false)
    }

    /// Returns the only row of `if_true` where the mask is true, and else the rows of `if_false`.
    pub fn if_then_else_broadcast_true(
        mask: &Column,
        if_true: &TypedColumn,
        if_false: &TypedColumn,
    ) -> Result<TypedColumn, Error> {
        chosen(kernels::if_then_else_broadcast_true, mask, if_true, if_false)
    }

    /// Returns the rows of `if_true` where the mask is true, and else the only row of `if_false`.
    pub fn if_then_else_broadcast_false(
        mask: &Column,
        if_true: &TypedColumn,
        if_false: &TypedColumn,
    ) -> Result<TypedColumn, Error> {
        chosen(kernels::if_then_else_broadcast_false, mask, if_true, if_false)
    }

    /// Returns the only row of `if_true` where the mask is true, and else the only row of `if_false`.
    pub fn if_then_else_broadcast_both(
        mask: &Column,
        if_true: &TypedColumn,
        if_false: &TypedColumn,
    ) -> Result<TypedColumn, Error> {
        chosen(kernels::if_then_else_broadcast_both, mask, if_true, if_false)
    }

    /// Concatenates columns row by row, as [`flatten`](crate::flatten) does.
    pub fn flatten(columns: &[&TypedColumn], widths: &[usize], height: usize) -> Result<TypedColumn, Error> {
        let (columns, arrow_type) = joined(columns)?;
        Ok(TypedColumn { column: kernels::flatten(&collect(&columns)?, widths, height)?, arrow_type })
    }

    /// Returns the rows that the picks name, as [`collect_rows`](crate::collect_rows) does. The result is nullable if a pick is null.
    pub fn collect_rows(columns: &[&TypedColumn], picks: &[Option<(u32, u32)>]) -> Result<TypedColumn, Error> {
        let (columns, arrow_type) = joined(columns)?;
        let column = kernels::collect_rows(&collect(&columns)?, picks)?;
        if picks.iter().all(Option::is_some) {
            return Ok(TypedColumn { column, arrow_type });
        }
        Ok(TypedColumn { column, arrow_type: arrow_type.as_nullable()? })
    }
}

impl TypedColumn {
    /// Returns whether both columns have equal types and the same rows, with the values of dictionaries in place of keys, as `==` does.
    ///
    /// # Errors
    /// [`Error::Limit`] if a column without its dictionaries would exceed a size limit; [`Error::OutOfMemory`].
    ///
    /// ```
    /// # use sel::{ArrowType, Column, Error, TypedColumn};
    /// # fn main() -> Result<(), Error> {
    /// // each value is a list of two billion nulls, which need no buffer
    /// let long = Column::new_fixed_size_list(1 << 31, 1, Column::new_null(1 << 31)?, None)?;
    /// let keys = Column::from_values(&[0u8, 0])?;
    /// let coded = TypedColumn::new(keys, ArrowType::dictionary("C", &long, None, false)?)?;
    /// assert_eq!(coded.try_eq(&coded.reverse()?), Err(Error::Limit(8)));
    /// # Ok(())
    /// # }
    /// ```
    pub fn try_eq(&self, other: &TypedColumn) -> Result<bool, Error> {
        let may_be_equal = self.arrow_type == other.arrow_type && self.column.len() == other.column.len();
        Ok(may_be_equal && self.decode()?.column.equals(&other.decode()?.column)?)
    }
}

impl PartialEq for TypedColumn {
    /// Returns whether both columns have equal types and the same rows.
    fn eq(&self, other: &TypedColumn) -> bool {
        ptr::eq(self, other) || infallible(self.try_eq(other))
    }
}

impl Eq for TypedColumn {}
