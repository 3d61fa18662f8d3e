//! Handles of the library, which are freed when they are dropped.

use crate::column::Column;
use crate::error::Error;
use crate::raw::{self, Handle};
use std::mem;

/// A handle with a column, which may have other handles too, or with none.
pub(crate) struct OwnedHandle {
    handle: Handle,
}

// SAFETY: a handle is one pointer to a column on the heap, and no function of the library depends on the thread that
// calls it: `sel.h` ("Threads") allows any thread to read and to free a handle. Handles on several threads may have the
// same column, or columns that share buffers: columns are never changed, and their reference counts are atomic, so that
// the last handle frees a column on whatever thread it is.
unsafe impl Send for OwnedHandle {}

// SAFETY: a shared reference gives only `at`, a pointer to const, and `sel.h` ("Threads") allows functions that take a
// handle by such a pointer to read the same handle at the same time, from any threads. What writes or frees a handle
// takes it by `at_mut`, which borrows it mutably, or by value.
unsafe impl Sync for OwnedHandle {}

impl OwnedHandle {
    /// Returns a handle without a column.
    pub(crate) const fn empty() -> OwnedHandle {
        OwnedHandle { handle: Handle::EMPTY }
    }

    /// Returns the pointer for functions that read the handle.
    pub(crate) fn at(&self) -> *const Handle {
        &self.handle
    }

    /// Returns the pointer for functions that write the handle.
    pub(crate) fn at_mut(&mut self) -> *mut Handle {
        &mut self.handle
    }

    fn into_raw(mut self) -> Handle {
        mem::replace(&mut self.handle, Handle::EMPTY)
    }
}

impl Drop for OwnedHandle {
    fn drop(&mut self) {
        // SAFETY: the handle has a column or none, and is not used again.
        unsafe { raw::sel_free(&mut self.handle) }
    }
}

/// Handles next to each other in memory, as functions over several columns take them.
pub(crate) struct HandleArray {
    handles: Vec<Handle>,
}

impl HandleArray {
    /// Moves columns into an array of handles.
    pub(crate) fn of(columns: Vec<Column>) -> Result<HandleArray, Error> {
        let mut array = HandleArray::with_capacity(columns.len())?;
        array.handles.extend(columns.into_iter().map(|column| column.into_handle().into_raw()));
        Ok(array)
    }

    /// Returns second handles of columns, some of which may be the same.
    pub(crate) fn shares(columns: &[&Column]) -> Result<HandleArray, Error> {
        let mut array = HandleArray::with_capacity(columns.len())?;
        for column in columns {
            array.handles.push(column.try_clone()?.into_handle().into_raw());
        }
        Ok(array)
    }

    fn with_capacity(len: usize) -> Result<HandleArray, Error> {
        let mut handles = Vec::new();
        handles.try_reserve_exact(len).map_err(|_| Error::OutOfMemory)?;
        Ok(HandleArray { handles })
    }

    /// Returns the pointer to the first handle, for functions that read the handles.
    pub(crate) fn at(&self) -> *const Handle {
        self.handles.as_ptr()
    }

    /// Returns the pointer to the first handle, for functions that write the handles.
    pub(crate) fn at_mut(&mut self) -> *mut Handle {
        self.handles.as_mut_ptr()
    }

    /// Returns the number of handles.
    pub(crate) fn len(&self) -> usize {
        self.handles.len()
    }
}

impl Drop for HandleArray {
    fn drop(&mut self) {
        for handle in &mut self.handles {
            // SAFETY: each handle has a column or none, and is not used again.
            unsafe { raw::sel_free(handle) }
        }
    }
}
