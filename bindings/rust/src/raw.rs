//! Declares all functions and structures of `include/sel.h` and `include/sel_arrow.h`.

use crate::arrow::{ArrowArray, ArrowArrayStream, ArrowSchema};
use crate::views::View;
use std::ffi::{c_char, c_void};

/// A handle of a column: `sel_column`.
#[repr(C)]
pub struct Handle {
    pub at: *mut c_void,
}

/// A handle of a prepared mask: `sel_selection`.
#[repr(C)]
pub struct SelectionHandle {
    pub at: *mut c_void,
}

impl SelectionHandle {
    /// A handle without a mask.
    pub const EMPTY: SelectionHandle = SelectionHandle { at: std::ptr::null_mut() };
}

impl Handle {
    /// A handle without a column.
    pub const EMPTY: Handle = Handle { at: std::ptr::null_mut() };
}

/// A handle of a logical type: `sel_type`.
#[repr(C)]
pub struct TypeHandle {
    pub at: *mut c_void,
}

impl TypeHandle {
    /// A handle without a type.
    pub const EMPTY: TypeHandle = TypeHandle { at: std::ptr::null_mut() };
}

/// A handle of a stream that is read: `sel_stream`.
#[repr(C)]
pub struct StreamHandle {
    pub at: *mut c_void,
}

/// A producer of batches: `sel_next_batch`.
pub type NextBatch = unsafe extern "C" fn(*mut c_void, *mut Handle, *mut TypeHandle) -> u32;

/// Frees the context of a producer: `sel_free_context`.
pub type FreeContext = unsafe extern "C" fn(*mut c_void);

/// A 128-bit integer as two words: `sel_int128`.
#[repr(C)]
#[derive(Clone, Copy, Debug, Default, PartialEq)]
pub struct RawInt128 {
    pub low: u64,
    pub high: u64,
}

/// Bytes of the caller: `sel_bytes_ref`.
#[repr(C)]
pub struct RawBytesRef {
    pub at: *const u8,
    pub len: usize,
}

impl RawBytesRef {
    /// Returns the pointer and length of bytes, which must outlive their use.
    pub fn of(bytes: &[u8]) -> RawBytesRef {
        RawBytesRef { at: bytes.as_ptr(), len: bytes.len() }
    }
}

/// A row of one of several columns: `sel_row_ref`.
#[repr(C)]
#[derive(Clone, Copy)]
pub struct RawRowRef {
    pub source: u32,
    pub row: u32,
}

extern "C" {
    pub fn sel_slice(of: *const Handle, off: usize, len: usize, out: *mut Handle) -> u32;
    pub fn sel_share(of: *const Handle, out: *mut Handle) -> u32;
    pub fn sel_free(of: *mut Handle);
    pub fn sel_null_new(len: usize, out: *mut Handle) -> u32;
    pub fn sel_boolean_new(
        values: *const u8,
        values_len: usize,
        len: usize,
        bits: *const u8,
        bits_len: usize,
        has_bits: bool,
        out: *mut Handle,
    ) -> u32;
    pub fn sel_int8_new(
        values: *const i8,
        values_len: usize,
        bits: *const u8,
        bits_len: usize,
        has_bits: bool,
        out: *mut Handle,
    ) -> u32;
    pub fn sel_int16_new(
        values: *const i16,
        values_len: usize,
        bits: *const u8,
        bits_len: usize,
        has_bits: bool,
        out: *mut Handle,
    ) -> u32;
    pub fn sel_int32_new(
        values: *const i32,
        values_len: usize,
        bits: *const u8,
        bits_len: usize,
        has_bits: bool,
        out: *mut Handle,
    ) -> u32;
    pub fn sel_int64_new(
        values: *const i64,
        values_len: usize,
        bits: *const u8,
        bits_len: usize,
        has_bits: bool,
        out: *mut Handle,
    ) -> u32;
    pub fn sel_uint8_new(
        values: *const u8,
        values_len: usize,
        bits: *const u8,
        bits_len: usize,
        has_bits: bool,
        out: *mut Handle,
    ) -> u32;
    pub fn sel_uint16_new(
        values: *const u16,
        values_len: usize,
        bits: *const u8,
        bits_len: usize,
        has_bits: bool,
        out: *mut Handle,
    ) -> u32;
    pub fn sel_uint32_new(
        values: *const u32,
        values_len: usize,
        bits: *const u8,
        bits_len: usize,
        has_bits: bool,
        out: *mut Handle,
    ) -> u32;
    pub fn sel_uint64_new(
        values: *const u64,
        values_len: usize,
        bits: *const u8,
        bits_len: usize,
        has_bits: bool,
        out: *mut Handle,
    ) -> u32;
    pub fn sel_int128_new(
        values: *const RawInt128,
        values_len: usize,
        bits: *const u8,
        bits_len: usize,
        has_bits: bool,
        out: *mut Handle,
    ) -> u32;
    pub fn sel_int128_values(of: *const Handle, out: *mut RawInt128, out_len: usize) -> u32;
    pub fn sel_uint128_new(
        values: *const RawInt128,
        values_len: usize,
        bits: *const u8,
        bits_len: usize,
        has_bits: bool,
        out: *mut Handle,
    ) -> u32;
    pub fn sel_uint128_values(of: *const Handle, out: *mut RawInt128, out_len: usize) -> u32;
    pub fn sel_binary_new(
        offsets: *const i64,
        offsets_len: usize,
        values: *const u8,
        values_len: usize,
        bits: *const u8,
        bits_len: usize,
        has_bits: bool,
        out: *mut Handle,
    ) -> u32;
    pub fn sel_list_new(
        offsets: *const i64,
        offsets_len: usize,
        bits: *const u8,
        bits_len: usize,
        has_bits: bool,
        child: *mut Handle,
        out: *mut Handle,
    ) -> u32;
    pub fn sel_fixed_size_list_new(
        width: usize,
        len: usize,
        bits: *const u8,
        bits_len: usize,
        has_bits: bool,
        child: *mut Handle,
        out: *mut Handle,
    ) -> u32;
    pub fn sel_struct_new(
        len: usize,
        bits: *const u8,
        bits_len: usize,
        has_bits: bool,
        fields: *mut Handle,
        fields_len: usize,
        out: *mut Handle,
    ) -> u32;
    pub fn sel_binary_view_new(
        views: *const View,
        views_len: usize,
        buffers: *const RawBytesRef,
        buffers_len: usize,
        bits: *const u8,
        bits_len: usize,
        has_bits: bool,
        out: *mut Handle,
    ) -> u32;
    pub fn sel_string_view_new(
        views: *const View,
        views_len: usize,
        buffers: *const RawBytesRef,
        buffers_len: usize,
        bits: *const u8,
        bits_len: usize,
        has_bits: bool,
        out: *mut Handle,
    ) -> u32;
    pub fn sel_views(of: *const Handle, out: *mut View, out_len: usize) -> u32;
    pub fn sel_buffer_count(of: *const Handle, count: *mut usize) -> u32;
    pub fn sel_buffer_len(of: *const Handle, i: usize, len: *mut usize) -> u32;
    pub fn sel_buffer(of: *const Handle, i: usize, out: *mut u8, out_len: usize) -> u32;
    pub fn sel_len(of: *const Handle) -> usize;
    pub fn sel_null_count(of: *const Handle) -> usize;
    pub fn sel_type_of(of: *const Handle) -> u32;
    pub fn sel_validity(of: *const Handle, out: *mut u8, out_len: usize, has: *mut bool) -> u32;
    pub fn sel_boolean_values(of: *const Handle, out: *mut u8, out_len: usize) -> u32;
    pub fn sel_int8_values(of: *const Handle, out: *mut i8, out_len: usize) -> u32;
    pub fn sel_int16_values(of: *const Handle, out: *mut i16, out_len: usize) -> u32;
    pub fn sel_int32_values(of: *const Handle, out: *mut i32, out_len: usize) -> u32;
    pub fn sel_int64_values(of: *const Handle, out: *mut i64, out_len: usize) -> u32;
    pub fn sel_uint8_values(of: *const Handle, out: *mut u8, out_len: usize) -> u32;
    pub fn sel_uint16_values(of: *const Handle, out: *mut u16, out_len: usize) -> u32;
    pub fn sel_uint32_values(of: *const Handle, out: *mut u32, out_len: usize) -> u32;
    pub fn sel_uint64_values(of: *const Handle, out: *mut u64, out_len: usize) -> u32;
    pub fn sel_offsets(of: *const Handle, out: *mut i64, out_len: usize) -> u32;
    pub fn sel_bytes_len(of: *const Handle, len: *mut usize) -> u32;
    pub fn sel_bytes(of: *const Handle, out: *mut u8, out_len: usize) -> u32;
    pub fn sel_filter(of: *const Handle, mask: *const Handle, out: *mut Handle) -> u32;
    pub fn sel_filter_bits(of: *const Handle, mask: *const u8, mask_len: usize, len: usize, out: *mut Handle) -> u32;
    pub fn sel_selection_new(mask: *const Handle, out: *mut SelectionHandle) -> u32;
    pub fn sel_selection_of_bits(mask: *const u8, mask_len: usize, len: usize, out: *mut SelectionHandle) -> u32;
    pub fn sel_selection_len(of: *const SelectionHandle, len: *mut usize) -> u32;
    pub fn sel_selection_count(of: *const SelectionHandle, count: *mut usize) -> u32;
    pub fn sel_filter_selection(of: *const Handle, by: *const SelectionHandle, out: *mut Handle) -> u32;
    pub fn sel_selection_free(of: *mut SelectionHandle);
    pub fn sel_take(of: *const Handle, indices: *const Handle, out: *mut Handle) -> u32;
    pub fn sel_take_rows(
        of: *const Handle,
        indices: *const u32,
        indices_len: usize,
        bits: *const u8,
        bits_len: usize,
        has_bits: bool,
        out: *mut Handle,
    ) -> u32;
    pub fn sel_if_then_else(
        mask: *const Handle,
        if_true: *const Handle,
        if_false: *const Handle,
        out: *mut Handle,
    ) -> u32;
    pub fn sel_if_then_else_broadcast_true(
        mask: *const Handle,
        if_true: *const Handle,
        if_false: *const Handle,
        out: *mut Handle,
    ) -> u32;
    pub fn sel_if_then_else_broadcast_false(
        mask: *const Handle,
        if_true: *const Handle,
        if_false: *const Handle,
        out: *mut Handle,
    ) -> u32;
    pub fn sel_if_then_else_broadcast_both(
        mask: *const Handle,
        if_true: *const Handle,
        if_false: *const Handle,
        out: *mut Handle,
    ) -> u32;
    pub fn sel_list_get(of: *const Handle, index: i64, out: *mut Handle) -> u32;
    pub fn sel_list_index_is_oob(of: *const Handle, index: i64, out: *mut bool) -> u32;
    pub fn sel_reverse(of: *const Handle, out: *mut Handle) -> u32;
    pub fn sel_unit_list(of: *const Handle, out: *mut Handle) -> u32;
    pub fn sel_fixed_size_list_get(of: *const Handle, index: i64, null_on_oob: bool, out: *mut Handle) -> u32;
    pub fn sel_fixed_size_list_get_each(
        of: *const Handle,
        indices: *const Handle,
        null_on_oob: bool,
        out: *mut Handle,
    ) -> u32;
    pub fn sel_flatten(
        columns: *const Handle,
        columns_len: usize,
        widths: *const usize,
        widths_len: usize,
        height: usize,
        out: *mut Handle,
    ) -> u32;
    pub fn sel_collect_rows(
        sources: *const Handle,
        sources_len: usize,
        picks: *const RawRowRef,
        picks_len: usize,
        bits: *const u8,
        bits_len: usize,
        has_bits: bool,
        out: *mut Handle,
    ) -> u32;
    pub fn sel_propagate_dictionary(
        keys: *const Handle,
        values: *const Handle,
        out_keys: *mut Handle,
        out_values: *mut Handle,
    ) -> u32;
    pub fn sel_equal_rows(of: *const Handle, other: *const Handle, equal: *mut bool) -> u32;
    pub fn sel_print(of: *const Handle, out: *mut u8, out_len: usize, len: *mut usize) -> u32;
    pub fn sel_print_type(of: *const Handle, out: *mut u8, out_len: usize, len: *mut usize) -> u32;
    pub fn sel_parse(
        dtype: *const u8,
        dtype_len: usize,
        text: *const u8,
        text_len: usize,
        at: *mut usize,
        out: *mut Handle,
    ) -> u32;
    pub fn sel_child(of: *const Handle, out: *mut Handle) -> u32;
    pub fn sel_fixed_size_list_size(of: *const Handle, width: *mut usize) -> u32;
    pub fn sel_field_count(of: *const Handle, count: *mut usize) -> u32;
    pub fn sel_field(of: *const Handle, i: usize, out: *mut Handle) -> u32;
    pub fn sel_import(
        array: *mut ArrowArray,
        schema: *const ArrowSchema,
        out: *mut Handle,
        r#type: *mut TypeHandle,
    ) -> u32;
    pub fn sel_export(
        of: *const Handle,
        r#type: *const TypeHandle,
        array: *mut ArrowArray,
        schema: *mut ArrowSchema,
    ) -> u32;
    pub fn sel_unsupported_format(schema: *const ArrowSchema) -> *const c_char;
    pub fn sel_borrow_values(of: *const Handle, values: *mut *const c_void, len: *mut usize) -> u32;
    pub fn sel_type_import(schema: *const ArrowSchema, out: *mut TypeHandle) -> u32;
    pub fn sel_type_export(of: *const TypeHandle, schema: *mut ArrowSchema) -> u32;
    pub fn sel_type_of_storage(of: *const Handle, out: *mut TypeHandle) -> u32;
    pub fn sel_type_new(
        format: *const c_char,
        children: *const TypeHandle,
        children_len: usize,
        out: *mut TypeHandle,
    ) -> u32;
    pub fn sel_type_dictionary_new(
        format: *const c_char,
        values: *const Handle,
        r#type: *const TypeHandle,
        is_ordered: bool,
        out: *mut TypeHandle,
    ) -> u32;
    pub fn sel_type_as_field(
        of: *const TypeHandle,
        name: *const c_char,
        is_nullable: bool,
        out: *mut TypeHandle,
    ) -> u32;
    pub fn sel_type_share(of: *const TypeHandle, out: *mut TypeHandle) -> u32;
    pub fn sel_type_free(of: *mut TypeHandle);
    pub fn sel_type_equal(of: *const TypeHandle, other: *const TypeHandle) -> bool;
    pub fn sel_type_child_count(of: *const TypeHandle) -> usize;
    pub fn sel_type_child(of: *const TypeHandle, i: usize, out: *mut TypeHandle) -> u32;
    pub fn sel_type_name(of: *const TypeHandle) -> *const c_char;
    pub fn sel_type_arrow_format(of: *const TypeHandle) -> *const c_char;
    pub fn sel_type_format(of: *const TypeHandle, out: *mut u8, out_len: usize, len: *mut usize) -> u32;
    pub fn sel_type_dictionary(of: *const TypeHandle, values: *mut Handle, r#type: *mut TypeHandle) -> u32;
    pub fn sel_decode(of: *const Handle, r#type: *const TypeHandle, out: *mut Handle, out_type: *mut TypeHandle)
        -> u32;
    pub fn sel_common_type(
        columns: *const Handle,
        types: *const TypeHandle,
        len: usize,
        out: *mut Handle,
        out_type: *mut TypeHandle,
    ) -> u32;
    pub fn sel_stream_open(source: *mut ArrowArrayStream, out: *mut StreamHandle) -> u32;
    pub fn sel_stream_type(of: *const StreamHandle, r#type: *mut TypeHandle) -> u32;
    pub fn sel_stream_next(of: *mut StreamHandle, out: *mut Handle, r#type: *mut TypeHandle) -> u32;
    pub fn sel_stream_message(of: *mut StreamHandle) -> *const c_char;
    pub fn sel_stream_free(of: *mut StreamHandle);
    pub fn sel_stream_export(
        r#type: *const TypeHandle,
        next: NextBatch,
        context: *mut c_void,
        free_context: FreeContext,
        out: *mut ArrowArrayStream,
    ) -> u32;
    pub fn sel_status_string(status: u32) -> *const c_char;
    pub fn sel_version() -> *const c_char;
}
