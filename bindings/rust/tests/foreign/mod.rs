//! The array of the Arrow C data interface as another library declares it.

use std::ffi::c_void;

/// An array as another library declares it.
#[repr(C)]
pub struct ForeignArray {
    pub length: i64,
    pub null_count: i64,
    pub offset: i64,
    pub n_buffers: i64,
    pub n_children: i64,
    pub buffers: *mut *const c_void,
    pub children: *mut *mut ForeignArray,
    pub dictionary: *mut ForeignArray,
    pub release: Option<unsafe extern "C" fn(*mut ForeignArray)>,
    pub private_data: *mut c_void,
}
