//! Columns in and out by the Arrow C data interface.

use crate::arrow_type::ArrowType;
use crate::column::Column;
use crate::error::{checked, Error};
use crate::raw::{self, TypeHandle};
use std::ffi::{c_char, c_void, CStr};
use std::{fmt, ptr};

/// An array of the Arrow C data interface, in the layout of its `struct ArrowArray`. Dropping it releases it.
///
/// [`Column::to_arrow`] writes one; [`ArrowArray::from_raw`] moves one out of the memory of another producer. To hand one
/// to a consumer, move it to the consumer's structure, as by [`ptr::write`].
///
/// ```
/// # use sel::{ArrowArray, Column, Error};
/// # fn main() -> Result<(), Error> {
/// let (mut array, schema) = Column::from_values(&[1i64, 2])?.to_arrow()?;
/// // SAFETY: the array is one of the library.
/// let moved = unsafe { ArrowArray::from_raw(&mut array) };
/// assert!(array.is_released() && !moved.is_released());
/// assert!(ArrowArray::empty().is_released());
/// # Ok(())
/// # }
/// ```
#[repr(C)]
pub struct ArrowArray {
    length: i64,
    null_count: i64,
    offset: i64,
    n_buffers: i64,
    n_children: i64,
    buffers: *mut *const c_void,
    children: *mut *mut ArrowArray,
    dictionary: *mut ArrowArray,
    release: Option<unsafe extern "C" fn(*mut ArrowArray)>,
    private_data: *mut c_void,
}

/// The type of an array of the Arrow C data interface, in the layout of its `struct ArrowSchema`. Dropping it releases
/// it.
///
/// [`Column::to_arrow`] writes one; [`ArrowSchema::from_raw`] moves one out of the memory of another producer.
///
/// ```
/// # use sel::{ArrowSchema, Column, Error};
/// # fn main() -> Result<(), Error> {
/// let (array, mut schema) = Column::from_values(&[1i64, 2])?.to_arrow()?;
/// // SAFETY: the schema is one of the library.
/// let moved = unsafe { ArrowSchema::from_raw(&mut schema) };
/// assert!(schema.is_released() && !moved.is_released());
/// assert!(ArrowSchema::empty().is_released());
/// # Ok(())
/// # }
/// ```
#[repr(C)]
pub struct ArrowSchema {
    format: *const c_char,
    name: *const c_char,
    metadata: *const c_char,
    flags: i64,
    n_children: i64,
    children: *mut *mut ArrowSchema,
    dictionary: *mut ArrowSchema,
    release: Option<unsafe extern "C" fn(*mut ArrowSchema)>,
    private_data: *mut c_void,
}

/// A stream of arrays of one type by the Arrow C stream interface, in the layout of its `struct ArrowArrayStream`. Dropping
/// it releases it.
///
/// [`export_stream`](crate::export_stream) writes one; [`StreamReader`](crate::StreamReader) reads one.
#[repr(C)]
pub struct ArrowArrayStream {
    get_schema: Option<unsafe extern "C" fn(*mut ArrowArrayStream, *mut ArrowSchema) -> i32>,
    get_next: Option<unsafe extern "C" fn(*mut ArrowArrayStream, *mut ArrowArray) -> i32>,
    get_last_error: Option<unsafe extern "C" fn(*mut ArrowArrayStream) -> *const c_char>,
    release: Option<unsafe extern "C" fn(*mut ArrowArrayStream)>,
    private_data: *mut c_void,
}

impl ArrowArrayStream {
    /// Returns a released stream, for a producer to write to. It must write one that meets the conditions of
    /// [`from_raw`](Self::from_raw).
    pub const fn empty() -> ArrowArrayStream {
        ArrowArrayStream {
            get_schema: None,
            get_next: None,
            get_last_error: None,
            release: None,
            private_data: ptr::null_mut(),
        }
    }

    /// Returns the producer's message of its last error, as after an error of
    /// [`StreamReader::open_from`](crate::StreamReader::open_from); `None` if there is none, or if the stream is released.
    pub fn message(&mut self) -> Option<String> {
        self.release?;
        let get_last_error = self.get_last_error?;
        // SAFETY: the stream is not released, and the text lives up to the next call.
        unsafe { owned_text(get_last_error(self)) }
    }
}

impl ArrowArray {
    /// Returns a released array, for a producer to write to. It must write one that meets the conditions of
    /// [`from_raw`](Self::from_raw).
    pub const fn empty() -> ArrowArray {
        ArrowArray {
            length: 0,
            null_count: 0,
            offset: 0,
            n_buffers: 0,
            n_children: 0,
            buffers: ptr::null_mut(),
            children: ptr::null_mut(),
            dictionary: ptr::null_mut(),
            release: None,
            private_data: ptr::null_mut(),
        }
    }
}

/// `ARROW_FLAG_NULLABLE` in `include/sel_arrow.h`.
const NULLABLE: i64 = 2;

impl ArrowSchema {
    /// Returns whether a row may be null.
    pub(crate) fn is_nullable(&self) -> bool {
        self.flags & NULLABLE != 0
    }

    /// Returns a released schema, for a producer to write to. It must write one that meets the conditions of
    /// [`from_raw`](Self::from_raw).
    pub const fn empty() -> ArrowSchema {
        ArrowSchema {
            format: ptr::null(),
            name: ptr::null(),
            metadata: ptr::null(),
            flags: 0,
            n_children: 0,
            children: ptr::null_mut(),
            dictionary: ptr::null_mut(),
            release: None,
            private_data: ptr::null_mut(),
        }
    }
}

macro_rules! structures {
    ($($name:ident)*) => {$(
        impl $name {
            /// Moves a structure out of the memory of its producer, which is left released.
            ///
            /// # Safety
            /// The pointer is valid and aligned for reads and writes, and the structure at it is one that the Arrow C data or
            /// stream interface allows: released, or valid until its release is called. Nobody writes to the buffers of an
            /// array until it is released, which may be done on any thread. This holds for the arrays of a stream too: they
            /// have the type that its schema describes, and buffers as long as this type and their lengths require. The
            /// `get_last_error` of a stream may be called at any time before its release, also if no call has failed.
            #[must_use = "the structure is released when it is dropped"]
            pub unsafe fn from_raw(at: *mut $name) -> $name {
                // SAFETY: the caller ensures that the pointer is valid.
                unsafe { ptr::replace(at, $name::empty()) }
            }

            /// Returns whether the structure is released, or was never written.
            pub fn is_released(&self) -> bool {
                self.release.is_none()
            }
        }

        impl Default for $name {
            /// Returns a released structure.
            fn default() -> $name {
                $name::empty()
            }
        }

        impl Drop for $name {
            fn drop(&mut self) {
                if let Some(release) = self.release {
                    // SAFETY: the structure is not released, and is not used again.
                    unsafe { release(self) }
                }
            }
        }

        impl fmt::Debug for $name {
            fn fmt(&self, f: &mut fmt::Formatter<'_>) -> fmt::Result {
                f.debug_struct(stringify!($name)).field("is_released", &self.is_released()).finish_non_exhaustive()
            }
        }
    )*};
}

structures! { ArrowArray ArrowSchema ArrowArrayStream }

/// Returns a copy of a text of C; `None` for a null pointer.
///
/// # Safety
/// The pointer is null, or that of a string which ends with a zero.
pub(crate) unsafe fn owned_text(text: *const c_char) -> Option<String> {
    // SAFETY: the caller ensures that the pointer is that of a string if it is not null.
    (!text.is_null()).then(|| unsafe { CStr::from_ptr(text) }.to_string_lossy().into_owned())
}

/// Returns the first format of a schema, at any depth, that [`Column::from_arrow`] does not support; `None` if there is none, or
/// none before a level below 128 others.
///
/// # Safety
/// The schema is released, or one that the Arrow C data interface allows.
pub unsafe fn unsupported_format(schema: &ArrowSchema) -> Option<String> {
    // SAFETY: the caller ensures that the schema is valid, and the text lives as long as the schema.
    unsafe { owned_text(raw::sel_unsupported_format(schema)) }
}

impl Column {
    /// Makes a column of an array of the Arrow C data interface, which is dropped on an error.
    ///
    /// The column reads the array's buffers, without a copy of most of them: `include/sel_arrow.h` has a table. The array is
    /// released after the last column over them is dropped. The column has the storage of the array's type: floats and times
    /// are integers, strings views. Its type is lost; [`from_arrow_with_type`](Column::from_arrow_with_type) returns it too.
    /// Unions and dictionaries are errors.
    ///
    /// # Errors
    /// [`Error::Arrow`] if the array or the schema is released, has an unsupported format, other buffers or children than
    /// its format has, a length, an offset or a null count out of range, or nulls among run ends; [`Error::Malformed`] if its
    /// values break a rule of columns, or for more than 4,294,967,295 rows; [`Error::Limit`] for more than 128 levels of lists
    /// and structs, or if the lists and values that list views and runs become exceed a size limit; [`Error::OutOfMemory`].
    /// Whether a field that is not nullable has nulls is checked by an export, not here.
    ///
    /// # Safety
    /// The array is of the type that the schema describes, and its buffers are as long as this type and its length
    /// require. Nobody writes to them until the array is released, which may be done on any thread.
    ///
    /// ```
    /// # use sel::{Column, Error};
    /// # fn main() -> Result<(), Error> {
    /// let column = Column::parse("list<utf8>", r#"[["Ada",null],null]"#)?;
    /// let (array, schema) = column.to_arrow()?;
    /// // SAFETY: both were written for the same column.
    /// let copy = unsafe { Column::from_arrow(array, &schema)? };
    /// assert_eq!(copy, column);
    /// # Ok(())
    /// # }
    /// ```
    pub unsafe fn from_arrow(mut array: ArrowArray, schema: &ArrowSchema) -> Result<Column, Error> {
        // SAFETY: both structures are valid or released, and the caller ensures that they belong together.
        Column::made(|out| unsafe { raw::sel_import(&mut array, schema, out, ptr::null_mut()) })
    }

    /// Makes a column of an array of the Arrow C data interface, as [`from_arrow`](Column::from_arrow) does, and returns its
    /// logical type too. Keys of a dictionary stay keys, and the dictionary is a part of the type.
    ///
    /// # Errors
    /// As [`from_arrow`](Column::from_arrow), except that dictionaries are imported; [`Error::OutOfBounds`] if a key has no
    /// row in its dictionary.
    ///
    /// # Safety
    /// As for [`from_arrow`](Column::from_arrow).
    pub unsafe fn from_arrow_with_type(
        mut array: ArrowArray,
        schema: &ArrowSchema,
    ) -> Result<(Column, ArrowType), Error> {
        let mut of_type = ArrowType::empty();
        // SAFETY: both structures are valid or released, and the caller ensures that they belong together.
        let column = Column::made(|out| unsafe { raw::sel_import(&mut array, schema, out, of_type.at_mut()) })?;
        Ok((column, of_type))
    }

    /// Returns an array of the Arrow C data interface, which shares the buffers of the column, and its schema.
    ///
    /// Binary values have the format `Z`, views `vz` and `vu`, lists `+L`, signed 128-bit integers `d:38,0,128`, unsigned
    /// ones `w:16` with the extension name `sel.uint128`. The fields of struct values have their numbers as names.
    ///
    /// # Errors
    /// [`Error::Arrow`] for a signed 128-bit integer of more than 38 digits, and for a view whose length or offset in a data
    /// buffer is more than 2,147,483,647; [`Error::OutOfMemory`].
    ///
    /// ```
    /// # use sel::{Column, Error};
    /// # fn main() -> Result<(), Error> {
    /// let (array, schema) = Column::from_values(&[1i64, 2])?.to_arrow()?;
    /// assert!(!array.is_released() && !schema.is_released());
    /// assert_eq!(Column::from_values(&[i128::MAX])?.to_arrow().err(), Some(Error::Arrow(71)));
    /// # Ok(())
    /// # }
    /// ```
    pub fn to_arrow(&self) -> Result<(ArrowArray, ArrowSchema), Error> {
        self.exported(ptr::null())
    }

    /// Returns an array of the Arrow C data interface, as [`to_arrow`](Column::to_arrow) does, with exactly the schema of a type.
    ///
    /// # Errors
    /// [`Error::WrongArgument`] if the column does not have the storage of the type; [`Error::OutOfBounds`] if a key has no
    /// row in its dictionary; [`Error::Arrow`] for a dictionary without values, for a value that the format cannot represent,
    /// and for a null in a field that is not nullable; [`Error::OutOfMemory`].
    pub fn to_arrow_as(&self, of_type: &ArrowType) -> Result<(ArrowArray, ArrowSchema), Error> {
        self.exported(of_type.at())
    }

    fn exported(&self, of_type: *const TypeHandle) -> Result<(ArrowArray, ArrowSchema), Error> {
        let (mut array, mut schema) = (ArrowArray::empty(), ArrowSchema::empty());
        // SAFETY: the handle is owned by the column, the type is valid or a null pointer, and both structures are released.
        checked(unsafe { raw::sel_export(self.at(), of_type, &mut array, &mut schema) })?;
        Ok((array, schema))
    }
}
