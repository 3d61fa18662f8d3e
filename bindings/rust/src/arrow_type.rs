//! Logical types: the Arrow types of columns beside their storage, and dictionaries.

use crate::arrow::ArrowSchema;
use crate::column::Column;
use crate::error::{checked, status, Error};
use crate::handle::{HandleArray, OwnedHandle};
use crate::memory::{collect, try_collect, zeroed};
use crate::raw::{self, Handle, TypeHandle};
use std::alloc::{handle_alloc_error, Layout};
use std::ffi::{c_char, CStr, CString};
use std::{fmt, ptr, str};

/// The logical type of a column: the Arrow schema that it came with, at every depth, and its dictionaries.
///
/// It goes beside the column: a filtered or gathered column has the type of the column that it was made of. It prints as in
/// `timestamp[ms, tz=UTC]`. Types are immutable; clones share memory.
///
/// ```
/// # use sel::{ArrowType, Column, Error};
/// # fn main() -> Result<(), Error> {
/// let time = ArrowType::new("tsm:UTC", &[])?;
/// assert_eq!(time.to_string(), "timestamp[ms, tz=UTC]");
/// let (array, schema) = Column::from_values(&[0i64, 1000])?.to_arrow_as(&time)?;
/// // SAFETY: both were written for the same column.
/// let (column, again) = unsafe { Column::from_arrow_with_type(array, &schema)? };
/// assert_eq!((column.to_string(), again), ("[0,1000]".to_string(), time));
/// # Ok(())
/// # }
/// ```
///
/// # Equality
/// Two types are equal if their schemas are: formats, names, metadata, flags, children and the types of dictionaries. The
/// values of dictionaries are not compared.
pub struct ArrowType {
    handle: TypeHandle,
}

// SAFETY: `sel_arrow.h` allows any thread to read and to free a type: types are never changed, and their reference counts
// are atomic.
unsafe impl Send for ArrowType {}

// SAFETY: shared references only read the type, which `sel_arrow.h` allows from any threads at the same time.
unsafe impl Sync for ArrowType {}

/// Returns a text for C. A text with a zero byte is no format and no name of a field.
fn c_text(text: &str) -> Result<CString, Error> {
    // the capacity is the length, so that the string takes the vector's memory and does not allocate
    let bytes = collect(text.bytes().chain([0]))?;
    CString::from_vec_with_nul(bytes).map_err(|_| Error::of(status::ARROW_FORMAT))
}

/// Returns the bytes of a text of the library, which lives as long as what it belongs to; empty if there is none.
///
/// # Safety
/// The pointer is null, or that of a string which ends with a zero and lives as long as the result is used.
unsafe fn bytes_of<'a>(text: *const c_char) -> &'a [u8] {
    if text.is_null() {
        return &[];
    }
    // SAFETY: the caller ensures that the pointer is that of a string.
    unsafe { CStr::from_ptr(text) }.to_bytes()
}

impl ArrowType {
    pub(crate) const fn empty() -> ArrowType {
        ArrowType { handle: TypeHandle::EMPTY }
    }

    /// Returns the type that a function writes into an empty handle.
    pub(crate) fn made(call: impl FnOnce(*mut TypeHandle) -> u32) -> Result<ArrowType, Error> {
        let mut made = ArrowType::empty();
        checked(call(made.at_mut()))?;
        Ok(made)
    }

    pub(crate) fn at(&self) -> *const TypeHandle {
        &self.handle
    }

    pub(crate) fn at_mut(&mut self) -> *mut TypeHandle {
        &mut self.handle
    }

    /// Returns a handle for functions that only read it: the borrowed type owns what is in it.
    fn borrowed(&self) -> TypeHandle {
        TypeHandle { at: self.handle.at }
    }

    /// Returns the nullable type of an Arrow format, such as `g`, `tdD` or `+l`, with these children, whose names are kept.
    ///
    /// # Errors
    /// [`Error::Arrow`] for a format that is unsupported or has another number of children; [`Error::Malformed`] for a list
    /// size of more than 4,294,967,295; [`Error::Limit`] for more than 128 levels; [`Error::OutOfMemory`].
    pub fn new(format: &str, children: &[&ArrowType]) -> Result<ArrowType, Error> {
        let format = c_text(format)?;
        let handles = collect(children.iter().map(|child| child.borrowed()))?;
        // SAFETY: the text and the handles are valid, and the length is that of the handles.
        ArrowType::made(|out| unsafe { raw::sel_type_new(format.as_ptr(), handles.as_ptr(), handles.len(), out) })
    }

    /// Returns the type of keys of a dictionary. The format is that of the keys: `c`, `C`, `s`, `S`, `i`, `I`, `l` or `L`.
    /// Without a type the values have that of their storage.
    ///
    /// ```
    /// # use sel::{ArrowType, Column, Error};
    /// # fn main() -> Result<(), Error> {
    /// let words = Column::from_values(&["a", "b"])?;
    /// let coded = ArrowType::dictionary("I", &words, None, false)?;
    /// assert_eq!(coded.to_string(), "dictionary<u32, string_view>");
    /// let (plain, _) = Column::from_values(&[1u32, 1, 0])?.decode(&coded)?;
    /// assert_eq!(plain.to_string(), r#"["b","b","a"]"#);
    /// # Ok(())
    /// # }
    /// ```
    ///
    /// # Errors
    /// [`Error::Arrow`] for another format, or if the type of the values has a dictionary without values;
    /// [`Error::WrongArgument`] if the values do not have the storage of their type; [`Error::OutOfBounds`] if a value is a key
    /// that has no row in its dictionary; [`Error::Limit`] for more than 128 levels; [`Error::OutOfMemory`].
    pub fn dictionary(
        format: &str,
        values: &Column,
        value_type: Option<&ArrowType>,
        is_ordered: bool,
    ) -> Result<ArrowType, Error> {
        let format = c_text(format)?;
        let at = value_type.map_or(ptr::null(), ArrowType::at);
        // SAFETY: the text, the column and the type are valid, and the type may be a null pointer.
        ArrowType::made(|out| unsafe {
            raw::sel_type_dictionary_new(format.as_ptr(), values.at(), at, is_ordered, out)
        })
    }

    /// Returns the type with which a column without another one is exported.
    ///
    /// # Errors
    /// [`Error::OutOfMemory`].
    pub fn of_storage(column: &Column) -> Result<ArrowType, Error> {
        // SAFETY: the handle is owned by the column.
        ArrowType::made(|out| unsafe { raw::sel_type_of_storage(column.at(), out) })
    }

    /// Returns the type of a schema, without the values of its dictionaries: no column can be exported, decoded or joined with a
    /// type that lacks them.
    ///
    /// # Errors
    /// [`Error::Arrow`] if the schema is released, or has an unsupported format or another number of children than its format
    /// has; [`Error::Malformed`] for a list size of more than 4,294,967,295; [`Error::Limit`] for more than 128 levels;
    /// [`Error::OutOfMemory`].
    ///
    /// # Safety
    /// The schema is released, or one that the Arrow C data interface allows.
    pub unsafe fn from_schema(schema: &ArrowSchema) -> Result<ArrowType, Error> {
        // SAFETY: the caller ensures that the schema is valid.
        ArrowType::made(|out| unsafe { raw::sel_type_import(schema, out) })
    }

    /// Returns the schema of the type.
    ///
    /// # Errors
    /// [`Error::OutOfMemory`].
    pub fn to_schema(&self) -> Result<ArrowSchema, Error> {
        let mut schema = ArrowSchema::empty();
        // SAFETY: the type is valid, and the schema is released.
        checked(unsafe { raw::sel_type_export(self.at(), &mut schema) })?;
        Ok(schema)
    }

    /// Returns the type as a field with this name, nullable or not. The metadata and the other flags are kept.
    ///
    /// # Errors
    /// [`Error::Arrow`] for a name with a zero byte; [`Error::OutOfMemory`].
    pub fn as_field(&self, name: &str, is_nullable: bool) -> Result<ArrowType, Error> {
        let name = c_text(name)?;
        // SAFETY: the type and the text are valid.
        ArrowType::made(|out| unsafe { raw::sel_type_as_field(self.at(), name.as_ptr(), is_nullable, out) })
    }

    /// Returns the type as a nullable field. The name is kept, also if there is none, or one that is not UTF-8.
    pub(crate) fn as_nullable(&self) -> Result<ArrowType, Error> {
        // SAFETY: the type is valid, and its name, which may be a null pointer, lives as long as the type.
        ArrowType::made(|out| unsafe { raw::sel_type_as_field(self.at(), raw::sel_type_name(self.at()), true, out) })
    }

    /// Returns the Arrow format; empty if it is not UTF-8, as with such a time zone.
    pub fn format(&self) -> &str {
        // SAFETY: the text lives as long as the type.
        str::from_utf8(unsafe { bytes_of(raw::sel_type_arrow_format(self.at())) }).unwrap_or_default()
    }

    /// Returns the name as a field; empty if it has none, or none in UTF-8.
    pub fn name(&self) -> &str {
        str::from_utf8(self.name_bytes()).unwrap_or_default()
    }

    /// Returns the bytes of the name as a field; empty if it has none.
    pub(crate) fn name_bytes(&self) -> &[u8] {
        // SAFETY: the text lives as long as the type.
        unsafe { bytes_of(raw::sel_type_name(self.at())) }
    }

    /// Returns the number of children: 1 for lists, the number of fields for structs, and 0 for others. The values of a
    /// dictionary are not among them.
    pub fn child_count(&self) -> usize {
        // SAFETY: the type is valid.
        unsafe { raw::sel_type_child_count(self.at()) }
    }

    /// Returns a child: the element of lists, or a field of a struct.
    ///
    /// # Errors
    /// [`Error::OutOfBounds`] if there is no such child.
    pub fn child(&self, number: usize) -> Result<ArrowType, Error> {
        // SAFETY: the type is valid.
        ArrowType::made(|out| unsafe { raw::sel_type_child(self.at(), number, out) })
    }

    /// Returns the values of the dictionary and their type, if the type has a dictionary with values.
    ///
    /// # Errors
    /// [`Error::OutOfMemory`].
    pub fn dictionary_values(&self) -> Result<Option<(Column, ArrowType)>, Error> {
        let (mut values, mut value_type) = (OwnedHandle::empty(), ArrowType::empty());
        // SAFETY: the type is valid, and both handles are empty.
        match unsafe { raw::sel_type_dictionary(self.at(), values.at_mut(), value_type.at_mut()) } {
            status::ARROW_DICTIONARY => Ok(None),
            other => checked(other).and_then(|()| Ok(Some((Column::of(values)?, value_type)))),
        }
    }

    /// Returns the same type, which shares its memory; [`Clone`] aborts if an allocation fails.
    ///
    /// # Errors
    /// [`Error::OutOfMemory`].
    pub fn try_clone(&self) -> Result<ArrowType, Error> {
        // SAFETY: the type is valid.
        ArrowType::made(|out| unsafe { raw::sel_type_share(self.at(), out) })
    }

    fn to_text(&self) -> Result<String, Error> {
        let mut len = 0;
        // SAFETY: no byte is written where the length is 0.
        checked(unsafe { raw::sel_type_format(self.at(), ptr::null_mut(), 0, &mut len) })?;
        let mut text = zeroed(len)?;
        // SAFETY: the buffer has as many bytes as its length says.
        checked(unsafe { raw::sel_type_format(self.at(), text.as_mut_ptr(), text.len(), &mut len) })?;
        Ok(String::from_utf8_lossy(&text).into_owned())
    }
}

impl Drop for ArrowType {
    fn drop(&mut self) {
        // SAFETY: the handle has a type or none, and is not used again.
        unsafe { raw::sel_type_free(&mut self.handle) }
    }
}

impl Clone for ArrowType {
    fn clone(&self) -> ArrowType {
        self.try_clone().unwrap_or_else(|_| handle_alloc_error(Layout::new::<TypeHandle>()))
    }
}

impl PartialEq for ArrowType {
    fn eq(&self, other: &ArrowType) -> bool {
        // SAFETY: both types are valid.
        unsafe { raw::sel_type_equal(self.at(), other.at()) }
    }
}

impl Eq for ArrowType {}

impl fmt::Display for ArrowType {
    fn fmt(&self, f: &mut fmt::Formatter<'_>) -> fmt::Result {
        let text = self.to_text().unwrap_or_else(|_| handle_alloc_error(Layout::new::<TypeHandle>()));
        f.pad(&text)
    }
}

impl fmt::Debug for ArrowType {
    fn fmt(&self, f: &mut fmt::Formatter<'_>) -> fmt::Result {
        fmt::Display::fmt(self, f)
    }
}

impl Column {
    /// Returns the column without dictionaries, at every depth, and its type: each key is replaced by the value that it
    /// names.
    ///
    /// # Errors
    /// [`Error::WrongArgument`] if the column does not have the storage of the type; [`Error::Arrow`] if a dictionary has no
    /// values; [`Error::OutOfBounds`] if a key has no row in its dictionary; [`Error::Limit`]; [`Error::OutOfMemory`].
    pub fn decode(&self, of_type: &ArrowType) -> Result<(Column, ArrowType), Error> {
        let mut found = ArrowType::empty();
        // SAFETY: the column and the type are valid, and both results are empty.
        let made = Column::made(|out| unsafe { raw::sel_decode(self.at(), of_type.at(), out, found.at_mut()) })?;
        Ok((made, found))
    }
}

/// Returns columns for a function that joins them, such as [`if_then_else`](crate::if_then_else), and their common type.
///
/// They are shared if all have the same dictionaries, or dictionaries with equal rows; else those with dictionaries are
/// decoded. A column without a type has that of its storage. The common type has the formats and names of the first one,
/// and is nullable where one of them is.
///
/// # Errors
/// [`Error::WrongArgument`] if there is no column, if the types differ, or if a column does not have the storage of its
/// type; [`Error::Arrow`] if a dictionary has no values; [`Error::OutOfBounds`] if a key has no row in its dictionary;
/// [`Error::Limit`]; [`Error::OutOfMemory`].
///
/// ```
/// # use sel::{common_type, ArrowType, Column, Error};
/// # fn main() -> Result<(), Error> {
/// let keys = Column::from_values(&[1u8, 0])?;
/// let first = ArrowType::dictionary("C", &Column::from_values(&["a", "b"])?, None, false)?;
/// let second = ArrowType::dictionary("C", &Column::from_values(&["x", "y"])?, None, false)?;
/// let (columns, common) = common_type(&[(&keys, Some(&first)), (&keys, Some(&second))])?;
/// assert_eq!(common.to_string(), "string_view");
/// assert_eq!(columns[1].to_string(), r#"["y","x"]"#);
/// # Ok(())
/// # }
/// ```
pub fn common_type(columns: &[(&Column, Option<&ArrowType>)]) -> Result<(Vec<Column>, ArrowType), Error> {
    let given = collect(columns.iter().map(|(column, _)| *column))?;
    let handles = HandleArray::shares(&given)?;
    let types = collect(columns.iter().map(|(_, of_type)| of_type.map_or(TypeHandle::EMPTY, ArrowType::borrowed)))?;
    let mut made = collect(given.iter().map(|_| OwnedHandle::empty()))?;
    let mut out = collect(given.iter().map(|_| Handle::EMPTY))?;
    let mut common = ArrowType::empty();
    // SAFETY: the arrays have as many handles as there are columns, and the results are empty.
    let found =
        unsafe { raw::sel_common_type(handles.at(), types.as_ptr(), given.len(), out.as_mut_ptr(), common.at_mut()) };
    for (owned, handle) in made.iter_mut().zip(out) {
        // SAFETY: both pointers are valid, and the handle is moved.
        unsafe { ptr::write(owned.at_mut(), handle) };
    }
    checked(found)?;
    Ok((try_collect(made.into_iter().map(Column::of))?, common))
}
