//! Filters, gathers and combines Arrow columns of any nesting: safe types over the proved kernels of the C library
//! `libsel`.
//!
//! A [`Column`] is made of values ([`Column::from_values`], [`Column::from_options`], `TryFrom`), of other columns
//! ([`Column::new_list`], [`Column::new_struct`]), from text ([`Column::parse`]) or from an Arrow array
//! ([`Column::from_arrow`]). The kernels return new columns:
//!
//! ```
//! use sel::Column;
//! # fn main() -> Result<(), sel::Error> {
//! let ages = Column::try_from([Some(31i64), None, Some(27), Some(45)])?;
//! let mask = Column::try_from([true, true, false, true])?;
//! let kept = ages.filter(&mask)?;
//! assert_eq!(kept.to_options::<i64>()?, [Some(31), None, Some(45)]);
//! assert_eq!(kept.iter::<i64>()?.flatten().max(), Some(45));
//! assert_eq!(kept, Column::parse("i64", "[31, null, 45]")?);
//! # Ok(())
//! # }
//! ```
//!
//! Functions over several columns:
//!
//! ```
//! use sel::{collect_rows, flatten, if_then_else, if_then_else_broadcast_true, propagate_dictionary, Column};
//! # fn main() -> Result<(), sel::Error> {
//! let (ages, others) = (Column::try_from([Some(31i64), None])?, Column::try_from([1i64, 2])?);
//! let (mask, zero) = (Column::try_from([true, false])?, Column::try_from([0i64])?);
//! assert_eq!(if_then_else(&mask, &ages, &others)?.to_string(), "[31,2]");
//! assert_eq!(if_then_else_broadcast_true(&mask, &zero, &ages)?.to_string(), "[0,null]");
//! assert_eq!(flatten(&[&ages, &zero], &[1, 1], 2)?.to_string(), "[31,0,null,0]");
//! assert_eq!(collect_rows(&[&ages, &others], &[Some((1, 1)), None, Some((0, 0))])?.to_string(), "[2,null,31]");
//! let (keys, names) = (Column::try_from([0u32, 1])?, Column::try_from([None, Some("Ada")])?);
//! let (keys, names) = propagate_dictionary(&keys, &names)?;
//! assert_eq!((keys.to_string(), names.to_string()), ("[null,0]".to_string(), r#"["Ada"]"#.to_string()));
//! # Ok(())
//! # }
//! ```
//!
//! # Requirements
//! The crate has no dependencies and requires Rust 1.73. It links `libsel.a`, or `libsel.so` if the environment variable
//! `SEL_LIBRARY_KIND` is `dylib` at build time, from the folder that `SEL_LIBRARY_DIR` names by an absolute path, or else from the
//! checkout's `build`. An empty variable counts as not set.
//!
//! # Threads
//! A [`Column`] and a [`Selection`] are `Send` and `Sync`: threads may read the same column at the same time, and move and drop columns that
//! share memory. So are an [`ArrowType`] and a [`TypedColumn`], but not a [`StreamReader`] and the structures of the
//! Arrow C interfaces, whose producer may depend on its thread. `examples/threads.rs` filters the columns of a batch on several threads.
//!
//! # Errors and panics
//! Functions return an [`Error`], and none panics. Those that return no `Result`, such as cloning, comparison, formatting and
//! [`StreamReader::message`], abort if an allocation fails (see [`Column`]), and `==` of a [`TypedColumn`] panics if a size limit
//! would be exceeded, which [`TypedColumn::try_eq`] returns as an error. [`Error`], [`Kind`] and [`DataType`] may get more variants.
//!
//! # The functions of the C headers
//!
//! | in the headers | in this crate |
//! |---|---|
//! | `sel_slice` | [`Column::slice`], [`Column::sliced`] |
//! | `sel_share` | [`Column::try_clone`], [`Column::share`], [`Clone`] |
//! | `sel_free` | dropping a [`Column`] |
//! | `sel_null_new` | [`Column::new_null`] |
//! | `sel_boolean_new` | [`Column::from_bools`]; [`Column::from_values`], [`Column::from_options`] and [`Column::from_values_with_validity`] of `bool` |
//! | `sel_int8_new`, `sel_int16_new`, `sel_int32_new`, `sel_int64_new`, `sel_int128_new` | the same of `i8` to `i128` |
//! | `sel_uint8_new`, `sel_uint16_new`, `sel_uint32_new`, `sel_uint64_new`, `sel_uint128_new` | the same of `u8` to `u128` |
//! | `sel_int8_values`, `sel_int16_values`, `sel_int32_values`, `sel_int64_values`, `sel_int128_values` | [`Column::values`], [`Column::to_options`] and [`Column::iter`] of `i8` to `i128` |
//! | `sel_uint8_values`, `sel_uint16_values`, `sel_uint32_values`, `sel_uint64_values`, `sel_uint128_values` | the same of `u8` to `u128` |
//! | `sel_boolean_values` | [`Column::to_bools`]; [`Column::to_options`] and [`Column::iter`] of `bool` |
//! | `sel_binary_new` | [`Column::new_binary`], [`Column::from_bytes`]; [`Column::from_values`] and [`Column::from_options`] of `&[u8]` and `Vec<u8>` |
//! | `sel_bytes_len`, `sel_bytes` | [`Column::bytes`], [`Column::to_bytes`] |
//! | `sel_list_new` | [`Column::new_list`], [`Column::lists`] |
//! | `sel_fixed_size_list_new` | [`Column::new_fixed_size_list`], [`Column::fixed_lists`] |
//! | `sel_struct_new` | [`Column::new_struct`], [`Column::tuples`] |
//! | `sel_binary_view_new` | [`Column::new_binary_view`], [`Column::from_byte_views`] |
//! | `sel_string_view_new` | [`Column::new_string_view`], [`Column::from_texts`]; [`Column::from_values`] and [`Column::from_options`] of `&str` and `String` |
//! | `sel_views` | [`Column::views`], [`Column::to_texts`], [`Column::to_bytes`] |
//! | `sel_buffer_count`, `sel_buffer_len`, `sel_buffer` | [`Column::buffers`], [`Column::to_texts`], [`Column::to_bytes`] |
//! | `sel_len` | [`Column::len`] |
//! | `sel_null_count` | [`Column::null_count`] |
//! | `sel_type_of` | [`Column::kind`], [`Column::data_type`] |
//! | `sel_validity` | [`Column::validity`], [`Column::valid`] |
//! | `sel_offsets` | [`Column::offsets`] |
//! | `sel_filter` | [`Column::filter`] |
//! | `sel_filter_bits` | [`Column::filter_bits`] |
//! | `sel_selection_new` | [`Selection::new`] |
//! | `sel_selection_of_bits` | [`Selection::from_bits`] |
//! | `sel_selection_len`, `sel_selection_count` | [`Selection::len`], [`Selection::count`] |
//! | `sel_filter_selection` | [`Column::filter_selection`] |
//! | `sel_selection_free` | dropping a [`Selection`] |
//! | `sel_take` | [`Column::take`] |
//! | `sel_take_rows` | [`Column::take_rows`] |
//! | `sel_reverse` | [`Column::reverse`] |
//! | `sel_if_then_else` | [`if_then_else`], [`choose`] |
//! | `sel_if_then_else_broadcast_true` | [`if_then_else_broadcast_true`], [`choose_one`] |
//! | `sel_if_then_else_broadcast_false` | [`if_then_else_broadcast_false`], [`choose_or_one`] |
//! | `sel_if_then_else_broadcast_both` | [`if_then_else_broadcast_both`], [`choose_of_two`] |
//! | `sel_list_get` | [`Column::list_get`] |
//! | `sel_list_index_is_oob` | [`Column::list_index_is_oob`] |
//! | `sel_unit_list` | [`Column::unit_list`] |
//! | `sel_fixed_size_list_get` | [`Column::fixed_size_list_get`] |
//! | `sel_fixed_size_list_get_each` | [`Column::fixed_size_list_get_each`] |
//! | `sel_flatten` | [`flatten`] |
//! | `sel_collect_rows` | [`collect_rows`] |
//! | `sel_propagate_dictionary` | [`propagate_dictionary`] |
//! | `sel_equal_rows` | [`Column::equals`], `==` |
//! | `sel_print` | [`Column::to_text`], [`Display`](std::fmt::Display) |
//! | `sel_print_type` | [`Column::type_to_text`] |
//! | `sel_parse` | [`Column::parse`], the [`FromStr`](std::str::FromStr) of [`DataType`] |
//! | `sel_child` | [`Column::child`] |
//! | `sel_fixed_size_list_size` | [`Column::list_size`] |
//! | `sel_field_count` | [`Column::field_count`] |
//! | `sel_field` | [`Column::field`] |
//! | `sel_import` | [`Column::from_arrow`], [`Column::from_arrow_with_type`] |
//! | `sel_export` | [`Column::to_arrow`], [`Column::to_arrow_as`] |
//! | `sel_unsupported_format` | [`unsupported_format`] |
//! | `sel_borrow_values` | [`Column::as_slice`], [`TypedColumn::as_slice`] |
//! | `sel_type_import`, `sel_type_export` | [`ArrowType::from_schema`], [`ArrowType::to_schema`] |
//! | `sel_type_of_storage` | [`ArrowType::of_storage`] |
//! | `sel_type_new`, `sel_type_as_field` | [`ArrowType::new`], [`ArrowType::as_field`] |
//! | `sel_type_dictionary_new`, `sel_type_dictionary` | [`ArrowType::dictionary`], [`ArrowType::dictionary_values`] |
//! | `sel_type_share`, `sel_type_free`, `sel_type_equal` | the [`Clone`], [`Drop`] and [`PartialEq`] of [`ArrowType`] |
//! | `sel_type_child_count`, `sel_type_child` | [`ArrowType::child_count`], [`ArrowType::child`] |
//! | `sel_type_name`, `sel_type_arrow_format` | [`ArrowType::name`], [`ArrowType::format`] |
//! | `sel_type_format` | the [`Display`](std::fmt::Display) of [`ArrowType`] |
//! | `sel_decode` | [`Column::decode`] |
//! | `sel_common_type` | [`common_type`] |
//! | `sel_stream_open`, `sel_stream_free` | [`StreamReader::open`], [`StreamReader::open_from`], its [`Drop`] |
//! | `sel_stream_next` | the [`Iterator`] of [`StreamReader`] |
//! | `sel_stream_type`, `sel_stream_message` | [`StreamReader::arrow_type`], [`StreamReader::message`] |
//! | `sel_stream_export` | [`export_stream`] |
//! | `sel_status_string` | the [`Display`](std::fmt::Display) of [`Error`] |
//! | `sel_version` | [`version`] |
#![deny(
    clippy::as_conversions,
    clippy::cast_lossless,
    clippy::cast_possible_truncation,
    clippy::cast_possible_wrap,
    clippy::cast_precision_loss,
    clippy::cast_sign_loss,
    clippy::undocumented_unsafe_blocks,
    missing_docs,
    unsafe_op_in_unsafe_fn
)]

mod arrow;
mod arrow_type;
mod binary;
mod bits;
mod column;
mod data_type;
mod error;
mod handle;
mod kernels;
mod kind;
mod leaves;
mod memory;
mod nested;
mod number;
mod raw;
mod selection;
mod slices;
mod stream;
mod typed;
mod value;
mod views;

pub use arrow::{unsupported_format, ArrowArray, ArrowArrayStream, ArrowSchema};
pub use arrow_type::{common_type, ArrowType};
pub use column::Column;
pub use data_type::DataType;
pub use error::{status, Error};
pub use kernels::{
    choose, choose_of_two, choose_one, choose_or_one, collect_rows, flatten, if_then_else, if_then_else_broadcast_both,
    if_then_else_broadcast_false, if_then_else_broadcast_true, propagate_dictionary,
};
pub use kind::Kind;
pub use number::Number;
pub use selection::Selection;
pub use slices::{Element, Native};
pub use stream::{export_stream, Batch, StreamReader};
pub use typed::TypedColumn;
pub use value::{Iter, OwnedValue, Value};
pub use views::View;

/// Returns the version of the library.
///
/// ```
/// assert_eq!(sel::version(), "0.3.0");
/// ```
pub fn version() -> &'static str {
    // SAFETY: the function returns a string that ends with a zero and is never freed.
    let version = unsafe { std::ffi::CStr::from_ptr(raw::sel_version()) };
    version.to_str().unwrap_or_default()
}
