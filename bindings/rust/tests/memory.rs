//! Each allocation of the crate fails in turn: a call returns `OutOfMemory` if one failed, and else its result.

use sel::{collect_rows, common_type, export_stream, flatten, ArrowType, Column, DataType, Error, TypedColumn};
use std::alloc::{GlobalAlloc, Layout, System};
use std::cell::Cell;
use std::iter::empty;

thread_local! {
    /// How many allocations of this thread succeed before one fails; with `None` all succeed.
    static LEFT: Cell<Option<usize>> = const { Cell::new(None) };
    /// Whether an allocation failed.
    static HAS_FAILED: Cell<bool> = const { Cell::new(false) };
    /// The bytes of the largest allocation since this was set to 0.
    static LARGEST: Cell<usize> = const { Cell::new(0) };
}

/// The allocator of the system, one allocation of which fails.
struct Failing;

fn fails() -> bool {
    match LEFT.get() {
        None => false,
        Some(0) => {
            LEFT.set(None);
            HAS_FAILED.set(true);
            true
        }
        Some(left) => {
            LEFT.set(Some(left - 1));
            false
        }
    }
}

// SAFETY: all memory comes from the allocator of the system.
unsafe impl GlobalAlloc for Failing {
    unsafe fn alloc(&self, layout: Layout) -> *mut u8 {
        if fails() {
            return std::ptr::null_mut();
        }
        LARGEST.set(LARGEST.get().max(layout.size()));
        // SAFETY: as the caller ensures.
        unsafe { System.alloc(layout) }
    }

    unsafe fn dealloc(&self, at: *mut u8, layout: Layout) {
        // SAFETY: as the caller ensures.
        unsafe { System.dealloc(at, layout) }
    }

    unsafe fn realloc(&self, at: *mut u8, layout: Layout, size: usize) -> *mut u8 {
        if fails() {
            return std::ptr::null_mut();
        }
        LARGEST.set(LARGEST.get().max(size));
        // SAFETY: as the caller ensures.
        unsafe { System.realloc(at, layout, size) }
    }
}

#[global_allocator]
static ALLOCATOR: Failing = Failing;

/// Lets each allocation of a call fail in turn; returns how many there are.
fn fail_each<T>(call: impl Fn() -> Result<T, Error>) -> usize {
    for number in 0.. {
        HAS_FAILED.set(false);
        LEFT.set(Some(number));
        let result = call();
        LEFT.set(None);
        match result.err() {
            None => {
                assert!(!HAS_FAILED.get(), "allocation {number} failed, and the call did not");
                return number;
            }
            Some(error) => {
                assert!(HAS_FAILED.get(), "{error:?}, although no allocation failed");
                assert_eq!(error, Error::OutOfMemory);
            }
        }
    }
    unreachable!("each call has an end of its allocations")
}

#[test]
fn columns_are_made_or_out_of_memory() {
    let texts = [Some("a text of 21 bytes..."), None, Some("short"), Some("another long text....")];
    assert!(fail_each(|| Column::from_options(&[Some(1i64), None])) >= 2);
    assert!(fail_each(|| Column::from_options(&[Some(1i128), None])) >= 2);
    assert!(fail_each(|| Column::from_values(&[true, false])) >= 1);
    assert!(fail_each(|| Column::from_texts(&texts)) >= 3);
    assert!(fail_each(|| Column::from_bytes(&[Some(b"abc"), None])) >= 3);
    assert!(fail_each(|| Column::from_byte_views(&[Some(b"thirteen bytes"), None])) >= 3);
    assert!(fail_each(|| Column::try_from_iter((0..100u8).map(Some).filter(Option::is_some))) >= 3);
    assert!(fail_each(|| Column::new_binary(&[0, 1], b"a", Some(&[false]))) >= 1);
}

#[test]
fn columns_are_read_or_out_of_memory() {
    let of = |dtype: &str, rows: &str| Column::parse(dtype, rows).expect("a column");
    let (numbers, wide) = (of("i64", "[1,null]"), of("u128", "[1,null]"));
    assert!(fail_each(|| numbers.to_options::<i64>()) >= 4);
    assert!(fail_each(|| wide.to_options::<u128>()) >= 4);
    assert!(fail_each(|| numbers.iter::<i64>()) >= 4);
    assert!(fail_each(|| numbers.validity()) >= 2);
    assert!(fail_each(|| of("bool", "[true,null]").to_bools()) >= 3);
    assert!(fail_each(|| of("utf8", r#"["a",null,"a text of 21 bytes..."]"#).to_texts()) >= 6);
    assert!(fail_each(|| of("binary", r#"[h"61",null]"#).to_bytes()) >= 5);
    assert!(fail_each(|| of("list<i8>", "[[1],null]").offsets()) >= 1);
    assert!(fail_each(|| numbers.to_text()) >= 1);
    assert_eq!(fail_each(|| numbers.as_slice::<i64>().map(<[i64]>::len)), 0);
}

#[test]
fn data_buffers_of_other_rows_are_not_copied() {
    let long = "a long text ".repeat(10_000);
    let texts = Column::from_texts(&[Some(&long), Some("short"), None]).expect("a column");
    let bytes = Column::from_byte_views(&[Some(long.as_bytes()), Some(b"short"), None]).expect("a column");
    let (texts_part, bytes_part) = (texts.slice(1, 2).expect("a slice"), bytes.slice(1, 2).expect("a slice"));
    LARGEST.set(0);
    assert_eq!(texts_part.to_texts(), Ok(vec![Some("short".to_string()), None]));
    assert_eq!(bytes_part.to_bytes(), Ok(vec![Some(b"short".to_vec()), None]));
    assert!(LARGEST.get() < 10_000, "{} bytes at once", LARGEST.get());
    assert_eq!(texts.to_texts(), Ok(vec![Some(long), Some("short".to_string()), None]));
    assert!(LARGEST.get() >= 120_000);
}

#[test]
fn kernels_return_columns_or_are_out_of_memory() {
    let numbers = Column::from_values(&[1i64, 2]).expect("a column");
    assert!(fail_each(|| numbers.take_rows(&[Some(1), None])) >= 2);
    assert!(fail_each(|| collect_rows(&[&numbers, &numbers], &[Some((1, 0)), None])) >= 3);
    assert!(fail_each(|| flatten(&[&numbers, &numbers], &[1, 1], 2)) >= 1);
    assert!(fail_each(|| Column::new_struct(2, Vec::new(), Some(&[true, false]))) >= 1);
    assert_eq!(fail_each(|| numbers.slice(0, 1)), 0);
}

#[test]
fn types_are_made_or_out_of_memory() {
    let numbers = Column::from_values(&[1i64]).expect("a column");
    let of_type = ArrowType::new("l", &[]).expect("a type");
    assert!(fail_each(|| ArrowType::new("+s", &[&of_type, &of_type])) >= 2);
    assert!(fail_each(|| of_type.as_field("a name", false)) >= 1);
    let nested = Column::parse("list<struct<i8,fixed<2,list<utf8>>>>", "[]").expect("a column");
    assert!(fail_each(|| nested.data_type()) >= 4);
    assert!(fail_each(|| nested.try_eq(&nested.slice(0, 0)?)) >= 8);
    assert!(fail_each(|| "list<struct<i8,fixed<2,utf8>>>".parse::<DataType>()) >= 3);
    assert!(fail_each(|| ArrowType::dictionary("C", &numbers, Some(&of_type), false)) >= 1);
    assert!(fail_each(|| common_type(&[(&numbers, Some(&of_type)), (&numbers, None)])) >= 6);
}

#[test]
fn typed_columns_are_joined_or_out_of_memory() {
    let typed = TypedColumn::of_storage(Column::from_values(&[1i64]).expect("a column")).expect("a typed column");
    assert!(fail_each(|| TypedColumn::flatten(&[&typed, &typed], &[1, 1], 1)) >= 9);
    assert!(fail_each(|| TypedColumn::collect_rows(&[&typed, &typed], &[Some((1, 0)), None])) >= 11);
    assert!(fail_each(|| typed.take_rows(&[Some(0), None])) >= 2);
    assert!(fail_each(|| typed.unit_list()) >= 2);
    let mask = Column::from_values(&[true]).expect("a column");
    assert!(fail_each(|| TypedColumn::if_then_else_broadcast_both(&mask, &typed, &typed)) >= 6);
    assert_eq!(fail_each(|| typed.slice(0, 1)), 0);
}

#[test]
fn streams_are_exported_or_out_of_memory() {
    let of_type = ArrowType::new("i", &[]).expect("a type");
    assert!(fail_each(|| export_stream(&of_type, empty())) >= 1);
}

#[test]
fn columns_of_another_kind_are_errors_before_memory_is_allocated() {
    let nulls = Column::new_null(1_000_000).expect("a column of nulls");
    LARGEST.set(0);
    assert_eq!(nulls.offsets().err(), Some(Error::WrongArgument(3)));
    assert_eq!(nulls.views().err(), Some(Error::WrongArgument(3)));
    assert_eq!(nulls.bytes().err(), Some(Error::WrongArgument(3)));
    assert_eq!(nulls.to_bools().err(), Some(Error::WrongArgument(3)));
    assert_eq!(nulls.values::<i64>().err(), Some(Error::WrongArgument(3)));
    assert_eq!(LARGEST.get(), 0);
}
