//! The values of columns as slices: those of an imported array are the producer's, at the addresses that it gave.

mod foreign;

use foreign::ForeignArray;
use sel::{ArrowArray, ArrowSchema, ArrowType, Column, Error, Native, Number, TypedColumn};
use std::ffi::c_void;
use std::ptr::{addr_of_mut, null, null_mut};
use std::sync::atomic::{AtomicUsize, Ordering};
use std::sync::Arc;
use std::thread;

const WRONG_KIND: Error = Error::WrongArgument(3);

/// What an array owns until its release: its values, the bits of its validity, and the addresses of both.
struct Owned<T> {
    buffers: [*const c_void; 2],
    _values: Vec<T>,
    _bits: Option<Vec<u8>>,
    releases: Arc<AtomicUsize>,
}

unsafe extern "C" fn release<T>(array: *mut ForeignArray) {
    // SAFETY: the private data is that of `array_of` with the same type, and this is called once.
    let owned = unsafe { Box::from_raw((*array).private_data.cast::<Owned<T>>()) };
    owned.releases.fetch_add(1, Ordering::SeqCst);
    // SAFETY: the array is valid.
    unsafe { (*array).release = None };
}

/// Returns an array of all values but the first `offset`, and the address of the first of these. Its releases are counted.
fn array_of<T>(
    values: Vec<T>,
    offset: usize,
    bits: Option<Vec<u8>>,
    releases: &Arc<AtomicUsize>,
) -> (ArrowArray, *const T) {
    let (count, at) = (values.len() - offset, values[offset..].as_ptr());
    let validity = bits.as_ref().map_or(null(), |bits| bits.as_ptr().cast());
    let buffers = [validity, values.as_ptr().cast()];
    let mut owned = Box::new(Owned { buffers, _values: values, _bits: bits, releases: Arc::clone(releases) });
    let mut array = ForeignArray {
        length: i64::try_from(count).expect("few rows"),
        null_count: if validity.is_null() { 0 } else { -1 },
        offset: i64::try_from(offset).expect("few rows"),
        n_buffers: 2,
        n_children: 0,
        buffers: owned.buffers.as_mut_ptr(),
        children: null_mut(),
        dictionary: null_mut(),
        release: Some(release::<T>),
        private_data: Box::into_raw(owned).cast(),
    };
    // SAFETY: both types have the layout of the C structure. The array is valid until it is released, on whatever thread, and
    // its buffers are never written.
    (unsafe { ArrowArray::from_raw(addr_of_mut!(array).cast()) }, at)
}

/// Returns the schema of columns of a type.
fn schema_of<T: Number>() -> Result<ArrowSchema, Error> {
    Ok(Column::from_values(&[T::default()])?.to_arrow()?.1)
}

/// Returns a column over an array, the address of its first value, and the count of the array's releases.
fn lent<T: Number>(
    values: Vec<T>,
    offset: usize,
    bits: Option<Vec<u8>>,
) -> Result<(Column, *const T, Arc<AtomicUsize>), Error> {
    let releases = Arc::default();
    let (array, at) = array_of(values, offset, bits, &releases);
    // SAFETY: the array has the schema's type, and nobody writes to its buffers.
    let column = unsafe { Column::from_arrow(array, &schema_of::<T>()?)? };
    Ok((column, at, releases))
}

/// Imports an array with an offset, and compares slices of the column, their slices and their shares with its values.
fn has_the_producers_values<T: Native + PartialEq + std::fmt::Debug>(values: Vec<T>) -> Result<(), Error> {
    for offset in [0, 1, 7, 64] {
        let rows = values[offset..].to_vec();
        let (column, at, releases) = lent(values.clone(), offset, None)?;
        assert_eq!(column.as_slice::<T>()?, rows);
        assert_eq!(column.as_slice::<T>()?.as_ptr(), at);
        for first in [0, 1, 7, 64, rows.len() - 1] {
            let part = column.slice(first, rows.len() - first)?;
            assert_eq!(part.as_slice::<T>()?, &rows[first..]);
            assert_eq!(part.as_slice::<T>()?.as_ptr(), column.as_slice::<T>()?[first..].as_ptr());
        }
        assert_eq!(column.slice(rows.len(), 0)?.as_slice::<T>()?, []);
        let moved = column.share()?;
        drop(column);
        let moved = Box::new(moved);
        assert_eq!((moved.as_slice::<T>()?.as_ptr(), releases.load(Ordering::SeqCst)), (at, 0));
        assert_eq!(moved.as_slice::<T>()?, rows);
    }
    Ok(())
}

#[test]
fn slices_are_the_memory_of_the_producer() -> Result<(), Error> {
    macro_rules! each {
        ($($type:ty)*) => {$(
            has_the_producers_values((0..200u8).map(|row| <$type>::MAX - <$type>::try_from(row / 2).expect("a small number")).collect::<Vec<$type>>())?;
        )*};
    }
    each! { i8 i16 i32 i64 u8 u16 u32 u64 }
    Ok(())
}

#[test]
fn null_slots_have_their_values() -> Result<(), Error> {
    let (column, at, _) = lent((0..16i64).collect(), 3, Some(vec![0b1010_1010, 0b0101_0101]))?;
    assert_eq!(column.as_slice::<i64>()?, (3..16).collect::<Vec<i64>>());
    assert_eq!(column.as_slice::<i64>()?.as_ptr(), at);
    let valid = column.validity()?.expect("a validity");
    let rows: Vec<Option<i64>> =
        column.as_slice::<i64>()?.iter().zip(&valid).map(|(value, valid)| valid.then_some(*value)).collect();
    assert_eq!(rows, column.to_options::<i64>()?);
    assert_eq!(rows[..4], [Some(3), None, Some(5), None]);
    Ok(())
}

#[test]
fn columns_of_the_library_have_slices_too() -> Result<(), Error> {
    let numbers = Column::from_options(&[Some(31i32), None, Some(27), Some(45)])?;
    let values = numbers.as_slice::<i32>()?;
    assert_eq!((values[0], values.len()), (31, 4));
    assert_eq!(numbers.clone().as_slice::<i32>()?.as_ptr(), values.as_ptr());
    let mask = Column::from_bools(&[true, false, true, false])?;
    assert_eq!(numbers.filter(&mask)?.as_slice::<i32>()?, [31, 27]);
    assert_eq!(Column::parse("list<u8>", "[[1,2],null,[3]]")?.child()?.as_slice::<u8>()?, [1, 2, 3]);
    assert_eq!(Column::from_values::<u64>(&[])?.as_slice::<u64>()?, []);
    assert_eq!(Column::from_values::<i8>(&[])?.as_slice::<i8>()?, []);
    Ok(())
}

#[test]
fn other_kinds_are_errors() -> Result<(), Error> {
    let kinds = ["null", "bool", "i8", "i16", "i32", "i64", "i128", "u8", "u16", "u32", "u64", "u128"];
    for kind in kinds.into_iter().chain(["binary", "binview", "utf8", "list<i64>", "fixed<1,i64>", "struct<i64>"]) {
        let column = Column::parse(kind, "[null]")?;
        let slices = [
            ("i8", column.as_slice::<i8>().map(<[i8]>::len)),
            ("i16", column.as_slice::<i16>().map(<[i16]>::len)),
            ("i32", column.as_slice::<i32>().map(<[i32]>::len)),
            ("i64", column.as_slice::<i64>().map(<[i64]>::len)),
            ("u8", column.as_slice::<u8>().map(<[u8]>::len)),
            ("u16", column.as_slice::<u16>().map(<[u16]>::len)),
            ("u32", column.as_slice::<u32>().map(<[u32]>::len)),
            ("u64", column.as_slice::<u64>().map(<[u64]>::len)),
        ];
        for (name, slice) in slices {
            assert_eq!(slice, if name == kind { Ok(1) } else { Err(WRONG_KIND) }, "{name} of {kind}");
        }
    }
    Ok(())
}

#[test]
fn floats_have_the_logical_type() -> Result<(), Error> {
    let typed = |column: Column, format: &str| TypedColumn::new(column, ArrowType::new(format, &[])?);
    let (values, wide) = (vec![1.5f32, -0.0, f32::NAN, f32::MIN], vec![0.1f64, f64::INFINITY]);
    let (single, at, _) = lent(values.iter().map(|value| value.to_bits()).collect(), 0, None)?;
    let single = typed(single, "f")?;
    let found = single.as_slice::<f32>()?;
    assert_eq!(found.as_ptr(), at.cast());
    assert_eq!(found.iter().map(|value| value.to_bits()).collect::<Vec<_>>(), single.as_slice::<u32>()?);
    assert_eq!((found[0], found[3], found[2].is_nan()), (1.5, f32::MIN, true));
    assert_eq!(single.as_slice::<f64>(), Err(WRONG_KIND));
    let double = typed(Column::from_values(&wide.iter().map(|value| value.to_bits()).collect::<Vec<_>>())?, "g")?;
    assert_eq!(double.slice(1, 1)?.as_slice::<f64>()?, &wide[1..]);
    assert_eq!(double.as_slice::<i64>(), Err(WRONG_KIND));
    let (numbers, dates) = (Column::from_values(&[7u64])?, Column::from_values(&[19_000i32])?);
    assert_eq!(TypedColumn::of_storage(numbers)?.as_slice::<f64>(), Err(WRONG_KIND));
    assert_eq!(typed(dates.clone(), "tdD")?.as_slice::<i32>()?, [19_000]);
    assert_eq!(typed(dates, "tdD")?.as_slice::<f32>(), Err(WRONG_KIND));
    Ok(())
}

#[test]
fn threads_read_one_slice_while_shares_are_dropped() -> Result<(), Error> {
    let (column, at, releases) = lent((0..10_000i64).collect(), 0, None)?;
    let values = column.as_slice::<i64>()?;
    thread::scope(|scope| {
        for _ in 0..8 {
            let shares: Vec<Column> = (0..50).flat_map(|first| column.slice(first, 100)).collect();
            assert_eq!(shares.len(), 50);
            scope.spawn(move || {
                for (first, share) in shares.into_iter().enumerate() {
                    assert_eq!(share.as_slice::<i64>().expect("integers"), &values[first..first + 100]);
                    drop(share);
                    assert_eq!(values.iter().sum::<i64>(), 49_995_000);
                }
            });
        }
    });
    assert_eq!((values.as_ptr(), releases.load(Ordering::SeqCst)), (at, 0));
    Ok(())
}
