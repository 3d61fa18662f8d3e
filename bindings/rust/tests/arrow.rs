//! Columns in and out by the Arrow C data interface, with structures of another producer and another consumer.

mod foreign;

use foreign::ForeignArray;
use sel::{ArrowArray, ArrowSchema, ArrowType, Column, Error, TypedColumn};
use std::cell::Cell;
use std::ffi::{c_char, c_void, CStr};
use std::mem::size_of;
use std::ptr::{addr_of_mut, null, null_mut};
use std::rc::Rc;
use std::sync::atomic::{AtomicUsize, Ordering};
use std::sync::Arc;
use std::thread::sleep;
use std::time::Duration;

/// A schema as another library declares it.
#[repr(C)]
struct ForeignSchema {
    format: *const c_char,
    name: *const c_char,
    metadata: *const c_char,
    flags: i64,
    n_children: i64,
    children: *mut *mut ForeignSchema,
    dictionary: *mut ForeignSchema,
    release: Option<unsafe extern "C" fn(*mut ForeignSchema)>,
    private_data: *mut c_void,
}

/// What an array owns until its release.
struct Owned {
    buffers: Vec<*const c_void>,
    _values: Vec<Vec<u8>>,
    releases: Arc<AtomicUsize>,
}

unsafe extern "C" fn release_array(array: *mut ForeignArray) {
    // SAFETY: the private data is that of `array_of`, and this is called once.
    let owned = unsafe { Box::from_raw((*array).private_data.cast::<Owned>()) };
    owned.releases.fetch_add(1, Ordering::SeqCst);
    // SAFETY: the array is valid.
    unsafe { (*array).release = None };
}

unsafe extern "C" fn release_schema(schema: *mut ForeignSchema) {
    // SAFETY: the private data is that of `schema_of`, and this is called once.
    let releases = unsafe { Box::from_raw((*schema).private_data.cast::<Rc<Cell<usize>>>()) };
    releases.set(releases.get() + 1);
    // SAFETY: the schema is valid.
    unsafe { (*schema).release = None };
}

/// Returns an array of these buffers; an empty one is missing. Its release is counted.
fn array_of(length: i64, offset: i64, values: Vec<Vec<u8>>, releases: &Arc<AtomicUsize>) -> ArrowArray {
    let buffers = values.iter().map(|bytes| if bytes.is_empty() { null() } else { bytes.as_ptr().cast() }).collect();
    let mut owned = Box::new(Owned { buffers, _values: values, releases: releases.clone() });
    let mut array = ForeignArray {
        length,
        null_count: -1,
        offset,
        n_buffers: i64::try_from(owned.buffers.len()).expect("few buffers"),
        n_children: 0,
        buffers: owned.buffers.as_mut_ptr(),
        children: null_mut(),
        dictionary: null_mut(),
        release: Some(release_array),
        private_data: Box::into_raw(owned).cast(),
    };
    assert_eq!(size_of::<ArrowArray>(), size_of::<ForeignArray>());
    // SAFETY: both types have the layout of the C structure. The array is valid until it is released, on whatever thread, and
    // its buffers are never written.
    let moved = unsafe { ArrowArray::from_raw(addr_of_mut!(array).cast()) };
    assert!(array.release.is_none() && array.private_data.is_null());
    moved
}

/// Returns the schema of a format without children, as a nullable field with a name or without one. Its release is counted.
fn schema_of(format: &'static CStr, name: Option<&'static CStr>, releases: &Rc<Cell<usize>>) -> ArrowSchema {
    let mut schema = ForeignSchema {
        format: format.as_ptr(),
        name: name.map_or(null(), CStr::as_ptr),
        metadata: null(),
        flags: 2,
        n_children: 0,
        children: null_mut(),
        dictionary: null_mut(),
        release: Some(release_schema),
        private_data: Box::into_raw(Box::new(releases.clone())).cast(),
    };
    assert_eq!(size_of::<ArrowSchema>(), size_of::<ForeignSchema>());
    // SAFETY: both types have the layout of the C structure, and the schema is valid until it is released.
    unsafe { ArrowSchema::from_raw(addr_of_mut!(schema).cast()) }
}

fn c_text(text: &'static [u8]) -> &'static CStr {
    CStr::from_bytes_with_nul(text).expect("a text with a zero at its end")
}

fn bytes_of(words: &[i32]) -> Vec<u8> {
    words.iter().flat_map(|word| word.to_le_bytes()).collect()
}

/// Waits until an array is released once: the thread that frees any column may do it.
fn assert_released(releases: &AtomicUsize) {
    for _ in 0..2000 {
        if releases.load(Ordering::SeqCst) > 0 {
            break;
        }
        sleep(Duration::from_millis(1));
    }
    assert_eq!(releases.load(Ordering::SeqCst), 1);
}

/// Imports an array, checks that the schema is not released, and reads the result. Checks that the array is released once,
/// after the column is dropped.
fn imported(format: &'static [u8], length: i64, offset: i64, values: Vec<Vec<u8>>) -> Result<String, Error> {
    let (arrays, schemas) = (Arc::default(), Rc::default());
    let (array, schema) = (array_of(length, offset, values, &arrays), schema_of(c_text(format), None, &schemas));
    // SAFETY: the tests give the buffers that the format and the length require.
    let result = unsafe { Column::from_arrow(array, &schema) };
    assert_eq!(schemas.get(), 0);
    assert!(!schema.is_released());
    drop(schema);
    assert_eq!(schemas.get(), 1);
    let text = result.map(|column| format!("{column:?}"));
    assert_released(&arrays);
    text
}

#[test]
fn arrays_of_other_producers_are_read_and_released() -> Result<(), Error> {
    let numbers = imported(b"i\0", 3, 1, vec![vec![0b1011], bytes_of(&[9, -1, 8, 7])])?;
    assert_eq!(numbers, "i32 [-1,null,7]");
    let texts = imported(b"u\0", 3, 0, vec![vec![], bytes_of(&[0, 1, 1, 18]), b"aanother long text".to_vec()])?;
    assert_eq!(texts, r#"utf8 ["a","","another long text"]"#);
    let bits = imported(b"b\0", 4, 3, vec![vec![], vec![0b0101_1000]])?;
    assert_eq!(bits, "bool [true,true,false,true]");
    let nulls = imported(b"n\0", 2, 0, vec![])?;
    assert_eq!(nulls, "null [null,null]");
    Ok(())
}

/// A format, a length, an offset, buffers, and the error of their import.
type Wrong = (&'static [u8], i64, i64, Vec<Vec<u8>>, Error);

#[test]
fn arrays_that_cannot_be_imported_are_released_too() {
    let four = || vec![vec![], bytes_of(&[1, 2, 3, 4])];
    let wrong: [Wrong; 8] = [
        (b"+us:0\0", 2, 0, four(), Error::Arrow(65)),
        (b"\0", 2, 0, four(), Error::Arrow(65)),
        (b"i\0", 2, 0, vec![vec![]], Error::Arrow(66)),
        (b"i\0", 2, 0, vec![vec![], vec![]], Error::Arrow(66)),
        (b"+l\0", 2, 0, four(), Error::Arrow(67)),
        (b"i\0", -1, 0, four(), Error::Arrow(68)),
        (b"i\0", i64::MAX, i64::MAX, four(), Error::Malformed(19)),
        (b"i\0", 0, i64::MIN, four(), Error::Arrow(68)),
    ];
    for (format, length, offset, values, error) in wrong {
        assert_eq!(imported(format, length, offset, values).err(), Some(error), "{format:?} {length} {offset}");
    }
    let decreasing = vec![vec![], bytes_of(&[0, 3, 2]), b"abc".to_vec()];
    assert_eq!(imported(b"z\0", 2, 0, decreasing).err(), Some(Error::Malformed(18)));
    let not_utf8 = vec![vec![], bytes_of(&[0, 1]), vec![0xff]];
    assert_eq!(imported(b"u\0", 1, 0, not_utf8).err(), Some(Error::Malformed(28)));
}

#[test]
fn released_structures_are_errors() -> Result<(), Error> {
    let (array, schema) = Column::from_values(&[1i64])?.to_arrow()?;
    // SAFETY: a released array has no buffers.
    assert_eq!(unsafe { Column::from_arrow(ArrowArray::default(), &schema) }.err(), Some(Error::Arrow(64)));
    // SAFETY: a released schema has no type.
    assert_eq!(unsafe { Column::from_arrow(array, &ArrowSchema::default()) }.err(), Some(Error::Arrow(64)));
    Ok(())
}

const ROWS: [(&str, &str); 20] = [
    ("null", "[null,null,null]"),
    ("bool", "[true,null,false]"),
    ("i8", "[-128,null,127]"),
    ("i16", "[-32768,null,32767]"),
    ("i32", "[1,null,-2147483648]"),
    ("i64", "[1,null,9223372036854775807]"),
    ("i128", "[-99999999999999999999999999999999999999,null,99999999999999999999999999999999999999]"),
    ("u8", "[0,null,255]"),
    ("u16", "[0,null,65535]"),
    ("u32", "[0,null,4294967295]"),
    ("u64", "[0,null,18446744073709551615]"),
    ("u128", "[0,null,340282366920938463463374607431768211455]"),
    ("list<u128>", "[[0],null,[null,1]]"),
    ("binary", r#"[h"00ff",null,h""]"#),
    ("binview", r#"[h"000102030405060708090a0b0c",null,h"0f"]"#),
    ("utf8", r#"["a string of 21 bytes.",null,"é"]"#),
    ("list<utf8>", r#"[["a",null],null,["another string of 28 bytes.."]]"#),
    ("fixed<2,i8>", "[[1,null],null,[3,4]]"),
    ("struct<bool,list<i8>>", "[(true,[1]),null,(null,null)]"),
    ("fixed<0,struct<>>", "[[],null,[]]"),
];

#[test]
fn columns_of_all_types_are_exported_and_imported() -> Result<(), Error> {
    for (dtype, rows) in ROWS {
        let column = Column::parse(dtype, rows)?;
        for part in [column.try_clone()?, column.slice(1, 2)?, column.slice(2, 1)?, column.slice(3, 0)?] {
            let (array, schema) = part.to_arrow()?;
            // SAFETY: both were written for the same column.
            let copy = unsafe { Column::from_arrow(array, &schema)? };
            assert_eq!(copy, part, "{dtype}");
        }
    }
    Ok(())
}

#[test]
fn values_without_a_format_are_errors() -> Result<(), Error> {
    for (dtype, rows, status) in [
        ("i128", "[100000000000000000000000000000000000000]", 71),
        ("list<i128>", "[[null,-100000000000000000000000000000000000000]]", 71),
    ] {
        assert_eq!(Column::parse(dtype, rows)?.to_arrow().err(), Some(Error::Arrow(status)), "{dtype}");
    }
    Ok(())
}

#[test]
fn columns_of_128_levels_come_back_from_arrow() -> Result<(), Error> {
    let mut lists = Column::from_values(&[1i8])?;
    for _ in 0..128 {
        lists = lists.unit_list()?;
    }
    let (array, schema) = lists.to_arrow()?;
    // SAFETY: both were written for the same column.
    let copy = unsafe { Column::from_arrow(array, &schema)? };
    assert_eq!(copy.to_text()?, format!("[{}1{}]", "[".repeat(128), "]".repeat(128)));
    assert_eq!(copy, lists);
    Ok(())
}

#[test]
fn a_consumer_reads_and_releases_what_is_exported() -> Result<(), Error> {
    let (mut array, mut schema) = Column::parse("list<i32>", "[[7,null],[9]]")?.to_arrow()?;
    // SAFETY: the types have the layout of the C structures, which the consumer moves out.
    let (foreign, foreign_schema) = unsafe {
        let at = addr_of_mut!(array).cast::<ForeignArray>();
        let schema_at = addr_of_mut!(schema).cast::<ForeignSchema>();
        let moved = (at.read(), schema_at.read());
        ((*at).release, (*schema_at).release) = (None, None);
        moved
    };
    assert!(array.is_released() && schema.is_released());
    let (mut foreign, mut foreign_schema) = (foreign, foreign_schema);
    // SAFETY: the structures are valid until their release.
    unsafe {
        assert_eq!((foreign.length, foreign.null_count, foreign.n_children), (2, 0, 1));
        let child = &**foreign.children;
        assert_eq!((child.length, child.null_count, child.n_buffers), (3, 1, 2));
        let values = (*child.buffers.add(1)).cast::<i32>();
        assert_eq!((values.read(), values.add(2).read()), (7, 9));
        assert_eq!(CStr::from_ptr(foreign_schema.format).to_bytes(), b"+L");
        assert_eq!(CStr::from_ptr((**foreign_schema.children).format).to_bytes(), b"i");
        foreign.release.expect("a release")(&mut foreign);
        foreign_schema.release.expect("a release")(&mut foreign_schema);
    }
    assert!(foreign.release.is_none() && foreign_schema.release.is_none());
    Ok(())
}

#[test]
fn a_null_index_changes_no_name_of_a_nullable_type() -> Result<(), Error> {
    for name in [None, Some(c_text(b"\xff\0")), Some(c_text(b"a\0"))] {
        let schema = schema_of(c_text(b"i\0"), name, &Rc::default());
        // SAFETY: the schema is valid.
        let nullable = unsafe { ArrowType::from_schema(&schema)? };
        let column = TypedColumn::new(Column::from_values(&[1i32, 2])?, nullable.try_clone()?)?;
        let taken = column.take(&Column::from_options(&[Some(1u32), None])?)?;
        assert_eq!(taken.arrow_type(), &nullable, "{name:?}");
        let collected = TypedColumn::collect_rows(&[&column], &[Some((0, 1)), None])?;
        assert_eq!(collected, taken, "{name:?}");
    }
    Ok(())
}

#[test]
fn a_field_is_found_by_the_bytes_of_its_name() -> Result<(), Error> {
    let named = |name: Option<&'static CStr>| {
        let schema = schema_of(c_text(b"i\0"), name, &Rc::default());
        // SAFETY: the schema is valid.
        unsafe { ArrowType::from_schema(&schema) }
    };
    let (odd, a, none) = (named(Some(c_text(b"\xff\0")))?, named(Some(c_text(b"a\0")))?, named(None)?);
    assert_eq!((odd.name(), a.name(), none.name()), ("", "a", ""));
    let found = |types: &[&ArrowType], name: &str| {
        let columns =
            (1..).zip(types).map(|(row, _): (i32, _)| Column::from_values(&[row])).collect::<Result<_, _>>()?;
        let rows = TypedColumn::new(Column::tuples(1, columns)?, ArrowType::new("+s", types)?)?;
        Ok(rows.field_named(name)?.map(|field| field.column().to_string()))
    };
    assert_eq!(found(&[&odd, &a, &none], ""), Ok(Some("[3]".to_string())));
    assert_eq!(found(&[&odd, &a, &a], "a"), Ok(Some("[2]".to_string())));
    assert_eq!(found(&[&odd, &a], ""), Ok::<_, Error>(None));
    let lists = TypedColumn::new(Column::from_values(&[1i32])?.unit_list()?, ArrowType::new("+l", &[&a])?)?;
    assert_eq!(lists.field_named("a")?, None);
    Ok(())
}

#[test]
fn structures_are_formatted_without_their_pointers() -> Result<(), Error> {
    let (array, schema) = Column::from_values(&[1i64])?.to_arrow()?;
    assert_eq!(
        format!("{array:?} {schema:?}"),
        "ArrowArray { is_released: false, .. } ArrowSchema { is_released: false, .. }"
    );
    assert_eq!(format!("{:?}", ArrowArray::empty()), "ArrowArray { is_released: true, .. }");
    Ok(())
}
