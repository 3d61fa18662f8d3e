//! The integer types of columns.

use crate::bits::Validity;
use crate::column::Column;
use crate::error::{checked, Error};
use crate::kind::Kind;
use crate::memory::{collect, zeroed};
use crate::raw::{self, Handle, RawInt128};
use crate::value::OwnedValue;

pub(crate) mod sealed {
    use super::*;

    /// Makes and reads columns of an integer type.
    pub trait Integer: Sized {
        #[doc(hidden)]
        fn make_integers(values: &[Self], validity: &Validity) -> Result<Column, Error>;
        #[doc(hidden)]
        fn read_integers(column: &Column) -> Result<Vec<Self>, Error>;
    }
}

/// An integer type that the rows of a column can have: `i8` to `i128` and `u8` to `u128`. The trait is sealed.
pub trait Number: OwnedValue + Copy + Default + sealed::Integer {
    /// The kind of the columns.
    const KIND: Kind;
}

type Maker<T> = unsafe extern "C" fn(*const T, usize, *const u8, usize, bool, *mut Handle) -> u32;

type Reader<T> = unsafe extern "C" fn(*const Handle, *mut T, usize) -> u32;

fn make_by<T>(call: Maker<T>, values: &[T], validity: &Validity) -> Result<Column, Error> {
    Column::made_with(validity, |bits, bits_len, has_bits, out| {
        // SAFETY: both slices are valid for their lengths, and the handle is empty.
        unsafe { call(values.as_ptr(), values.len(), bits, bits_len, has_bits, out) }
    })
}

fn read_by<T: Clone + Default>(call: Reader<T>, kind: Kind, column: &Column) -> Result<Vec<T>, Error> {
    column.expect_kind(kind)?;
    let mut values = zeroed::<T>(column.len())?;
    // SAFETY: the values are valid for their length, and the handle is owned by the column.
    checked(unsafe { call(column.at(), values.as_mut_ptr(), values.len()) })?;
    Ok(values)
}

macro_rules! words {
    ($($type:ty, $kind:ident, $make:ident, $read:ident;)*) => {$(
        impl Number for $type {
            const KIND: Kind = Kind::$kind;
        }

        impl sealed::Integer for $type {
            fn make_integers(values: &[$type], validity: &Validity) -> Result<Column, Error> {
                make_by(raw::$make, values, validity)
            }

            fn read_integers(column: &Column) -> Result<Vec<$type>, Error> {
                read_by(raw::$read, Kind::$kind, column)
            }
        }
    )*};
}

words! {
    i8, Int8, sel_int8_new, sel_int8_values;
    i16, Int16, sel_int16_new, sel_int16_values;
    i32, Int32, sel_int32_new, sel_int32_values;
    i64, Int64, sel_int64_new, sel_int64_values;
    u8, UInt8, sel_uint8_new, sel_uint8_values;
    u16, UInt16, sel_uint16_new, sel_uint16_values;
    u32, UInt32, sel_uint32_new, sel_uint32_values;
    u64, UInt64, sel_uint64_new, sel_uint64_values;
}

/// Returns the two words of a 128-bit integer with these little-endian bytes.
fn split(bytes: [u8; 16]) -> RawInt128 {
    let (mut low, mut high) = ([0; 8], [0; 8]);
    low.copy_from_slice(&bytes[..8]);
    high.copy_from_slice(&bytes[8..]);
    RawInt128 { low: u64::from_le_bytes(low), high: u64::from_le_bytes(high) }
}

/// Returns the little-endian bytes of a 128-bit integer with these two words.
fn join(wide: RawInt128) -> [u8; 16] {
    let mut bytes = [0; 16];
    bytes[..8].copy_from_slice(&wide.low.to_le_bytes());
    bytes[8..].copy_from_slice(&wide.high.to_le_bytes());
    bytes
}

macro_rules! pairs_of_words {
    ($($type:ty, $kind:ident, $make:ident, $read:ident;)*) => {$(
        impl Number for $type {
            const KIND: Kind = Kind::$kind;
        }

        impl sealed::Integer for $type {
            fn make_integers(values: &[$type], validity: &Validity) -> Result<Column, Error> {
                make_by(raw::$make, &collect(values.iter().map(|value| split(value.to_le_bytes())))?, validity)
            }

            fn read_integers(column: &Column) -> Result<Vec<$type>, Error> {
                let values = read_by(raw::$read, Kind::$kind, column)?;
                collect(values.into_iter().map(|value| <$type>::from_le_bytes(join(value))))
            }
        }
    )*};
}

pairs_of_words! {
    i128, Int128, sel_int128_new, sel_int128_values;
    u128, UInt128, sel_uint128_new, sel_uint128_values;
}

#[cfg(test)]
mod tests {
    use super::*;

    #[test]
    fn wide_integers_are_two_words_in_twos_complement() {
        assert_eq!(split((1u128 << 64 | 7).to_le_bytes()), RawInt128 { low: 7, high: 1 });
        assert_eq!(split((-2i128).to_le_bytes()), RawInt128 { low: u64::MAX - 1, high: u64::MAX });
        for value in [0, 1, -1, i128::MIN, i128::MAX, 1 << 64, -(1 << 64)] {
            assert_eq!(i128::from_le_bytes(join(split(value.to_le_bytes()))), value);
        }
    }
}
