//! Columns with the rows of a line, built by the makers of the crate in several layouts.

use super::notation::Value;
use sel::{Column, DataType, Error, Number, View};

/// How many rows of another column come before those of a slice; 0 is the plain layout, without a slice.
pub const OFFSETS: [usize; 6] = [0, 1, 7, 8, 63, 64];

const ROWS_AFTER: usize = 3;

/// The longest fixed-size lists that are laid out as slices: longer ones would take too much memory.
const MOST_ITEMS: usize = 1000;

/// Returns whether a type has fixed-size lists that are too long for other layouts than the plain one.
pub fn is_only_plain(dtype: &DataType) -> bool {
    match dtype {
        DataType::FixedSizeList(child, list_size) => *list_size > MOST_ITEMS || is_only_plain(child),
        DataType::List(child) => is_only_plain(child),
        DataType::Struct(fields) => fields.iter().any(is_only_plain),
        _ => false,
    }
}

/// Builds the column of these rows, as a slice at the offset of a longer column whose other rows have other values.
///
/// Children are laid out at the same offset. In null slots there are other values, and in strings also bytes that are not
/// UTF-8.
pub fn build(offset: usize, dtype: &DataType, rows: &[Value]) -> Result<Column, Error> {
    if offset == 0 || is_only_plain(dtype) {
        return build_plain(dtype, rows);
    }
    let before = (0..offset).map(|place| padding(dtype, place));
    let after = (0..ROWS_AFTER).map(|place| padding(dtype, place));
    let all: Vec<Value> = before.chain(rows.iter().cloned()).chain(after).collect();
    build_whole(offset, dtype, &all)?.slice(offset, rows.len())
}

/// Returns a value of the type that is not null, except in a column of nulls.
fn other_value(dtype: &DataType, seed: usize) -> Value {
    const TEXTS: [&str; 4] = ["~few", "~more than twelve bytes", "~twelve byte", ""];
    let number = 90 + seed % 32;
    match dtype {
        DataType::Null => Value::Null,
        DataType::Boolean => Value::Boolean(true),
        DataType::Int8 | DataType::Int16 | DataType::Int32 | DataType::Int64 => {
            Value::Signed(i128::try_from(number).unwrap_or(90))
        }
        DataType::Int128 => Value::Signed(i128::MIN + i128::try_from(number).unwrap_or(90)),
        DataType::UInt8 | DataType::UInt16 | DataType::UInt32 | DataType::UInt64 => {
            Value::Unsigned(u128::try_from(number).unwrap_or(90))
        }
        DataType::UInt128 => Value::Unsigned(u128::MAX - u128::try_from(number).unwrap_or(90)),
        DataType::Binary | DataType::BinaryView | DataType::StringView => Value::Bytes(TEXTS[seed % 4].into()),
        DataType::List(_) if is_only_plain(dtype) => Value::Items(Vec::new()),
        DataType::List(child) => Value::Items((0..1 + seed % 3).map(|i| other_value(child, seed + i)).collect()),
        DataType::FixedSizeList(child, _) if **child == DataType::Null => Value::Items(Vec::new()),
        DataType::FixedSizeList(child, list_size) => {
            Value::Items((0..*list_size).map(|i| other_value(child, seed + i)).collect())
        }
        DataType::Struct(fields) => {
            Value::Items(fields.iter().enumerate().map(|(i, field)| other_value(field, seed + i)).collect())
        }
        other => panic!("a type that the tests do not know: {other}"),
    }
}

/// Returns a row before or after those of a slice: null or another value.
fn padding(dtype: &DataType, place: usize) -> Value {
    if place % 3 == 1 {
        Value::Null
    } else {
        other_value(dtype, place)
    }
}

/// Returns what is in a null slot.
fn null_slot(dtype: &DataType, place: usize) -> Value {
    match dtype {
        DataType::StringView if place % 2 == 0 => Value::Bytes(vec![0xff, 0xfe]),
        _ => other_value(dtype, place),
    }
}

/// Rows to build: the value of each slot, and which of the rows are valid.
struct Slots<'a> {
    offset: usize,
    dtype: &'a DataType,
    values: Vec<Value>,
    validity: Vec<bool>,
}

fn build_plain(dtype: &DataType, rows: &[Value]) -> Result<Column, Error> {
    build_whole(0, dtype, rows)
}

fn build_whole(offset: usize, dtype: &DataType, rows: &[Value]) -> Result<Column, Error> {
    let slot = |(place, value): (usize, &Value)| match value {
        Value::Null => null_slot(dtype, place),
        value => value.clone(),
    };
    let values = rows.iter().enumerate().map(slot).collect();
    let validity = rows.iter().map(|value| *value != Value::Null).collect();
    Slots { offset, dtype, values, validity }.build()
}

fn wrong_value<T>(value: &Value) -> T {
    panic!("a value of another type: {value:?}")
}

impl Slots<'_> {
    /// Returns the validity, which the plain layout leaves out where all rows are valid.
    fn validity(&self) -> Option<&[bool]> {
        let is_given = self.offset > 0 || self.validity.contains(&false);
        is_given.then_some(&self.validity)
    }

    fn build(&self) -> Result<Column, Error> {
        match self.dtype {
            DataType::Null => Column::new_null(self.values.len()),
            DataType::Boolean => self.booleans(),
            DataType::Int8 => self.integers::<i8>(),
            DataType::Int16 => self.integers::<i16>(),
            DataType::Int32 => self.integers::<i32>(),
            DataType::Int64 => self.integers::<i64>(),
            DataType::Int128 => self.integers::<i128>(),
            DataType::UInt8 => self.integers::<u8>(),
            DataType::UInt16 => self.integers::<u16>(),
            DataType::UInt32 => self.integers::<u32>(),
            DataType::UInt64 => self.integers::<u64>(),
            DataType::UInt128 => self.integers::<u128>(),
            DataType::Binary => self.binary(),
            DataType::BinaryView | DataType::StringView => self.views(),
            DataType::List(child) => self.lists(child),
            DataType::FixedSizeList(child, list_size) => self.fixed_size_lists(child, *list_size),
            DataType::Struct(fields) => self.struct_values(fields),
            other => panic!("a type that the tests do not know: {other}"),
        }
    }

    fn of_values<T: sel::Value>(&self, values: &[T]) -> Result<Column, Error> {
        match self.validity() {
            None => Column::from_values(values),
            Some(validity) => Column::from_values_with_validity(values, validity),
        }
    }

    fn booleans(&self) -> Result<Column, Error> {
        let boolean = |value: &Value| match value {
            Value::Boolean(value) => *value,
            other => wrong_value(other),
        };
        self.of_values(&self.values.iter().map(boolean).collect::<Vec<_>>())
    }

    fn integers<T: Number + TryFrom<i128> + TryFrom<u128>>(&self) -> Result<Column, Error> {
        let integer = |value: &Value| match value {
            Value::Signed(number) => T::try_from(*number).unwrap_or_else(|_| wrong_value(value)),
            Value::Unsigned(number) => T::try_from(*number).unwrap_or_else(|_| wrong_value(value)),
            other => wrong_value(other),
        };
        self.of_values(&self.values.iter().map(integer).collect::<Vec<_>>())
    }

    /// Returns the bytes of each slot.
    fn bytes(&self) -> impl Iterator<Item = &[u8]> {
        self.values.iter().map(|value| match value {
            Value::Bytes(bytes) => bytes.as_slice(),
            other => wrong_value(other),
        })
    }

    /// Builds binary values; in other layouts than the plain one there are bytes before and after them.
    fn binary(&self) -> Result<Column, Error> {
        let (before, after): (&[u8], &[u8]) = if self.offset == 0 { (b"", b"") } else { (b"bef", b"be") };
        let mut bytes = before.to_vec();
        let mut offsets = vec![place(bytes.len())];
        for value in self.bytes() {
            bytes.extend_from_slice(value);
            offsets.push(place(bytes.len()));
        }
        bytes.extend_from_slice(after);
        Column::new_binary(&offsets, &bytes, self.validity())
    }

    /// Builds views: over one buffer, or over three that begin with other bytes, of which two have the long values in turn.
    fn views(&self) -> Result<Column, Error> {
        let mut buffers =
            if self.offset == 0 { vec![vec![]] } else { vec![b"o".to_vec(), b"ot".to_vec(), b"oth".to_vec()] };
        let mut views = Vec::new();
        for (i, value) in self.bytes().enumerate() {
            let buffer = if self.offset == 0 { 0 } else { 1 + i % 2 };
            views.push(view_of(value, buffer, &mut buffers[buffer], if self.offset == 0 { 0 } else { 0x7e }));
        }
        let buffers: Vec<&[u8]> = buffers.iter().map(Vec::as_slice).collect();
        match self.dtype {
            DataType::StringView => Column::new_string_view(&views, &buffers, self.validity()),
            _ => Column::new_binary_view(&views, &buffers, self.validity()),
        }
    }

    /// Returns the items of each slot.
    fn items(&self) -> impl Iterator<Item = &[Value]> {
        self.values.iter().map(|value| match value {
            Value::Items(items) => items.as_slice(),
            other => wrong_value(other),
        })
    }

    /// Builds lists; in other layouts than the plain one there are items before the first list and after the last.
    fn lists(&self, child: &DataType) -> Result<Column, Error> {
        let (before, after) = if self.offset == 0 { (0, 0) } else { (2, 1) };
        let mut items: Vec<Value> = (0..before).map(|place| padding(child, place)).collect();
        let mut offsets = vec![place(items.len())];
        for list in self.items() {
            items.extend_from_slice(list);
            offsets.push(place(items.len()));
        }
        items.extend((0..after).map(|place| padding(child, place)));
        Column::new_list(&offsets, build(self.offset, child, &items)?, self.validity())
    }

    fn fixed_size_lists(&self, child: &DataType, list_size: usize) -> Result<Column, Error> {
        let child = match child {
            DataType::Null => Column::new_null(self.values.len() * list_size)?,
            child => build(self.offset, child, &self.items().flatten().cloned().collect::<Vec<_>>())?,
        };
        Column::new_fixed_size_list(list_size, self.values.len(), child, self.validity())
    }

    fn struct_values(&self, fields: &[DataType]) -> Result<Column, Error> {
        let field = |(i, dtype): (usize, &DataType)| {
            let values: Vec<Value> = self.items().map(|items| items[i].clone()).collect();
            build(self.offset, dtype, &values)
        };
        let columns = fields.iter().enumerate().map(field).collect::<Result<Vec<_>, _>>()?;
        Column::new_struct(self.values.len(), columns, self.validity())
    }
}

/// Returns a length as an offset.
fn place(len: usize) -> i64 {
    i64::try_from(len).expect("a length of the suite fits an offset")
}

/// Returns the view of bytes, which are appended to the buffer if they are more than 12.
fn view_of(value: &[u8], number: usize, buffer: &mut Vec<u8>, after: u8) -> View {
    let word = |number: usize| u32::try_from(number).expect("a length of the suite fits a view");
    let mut space = [after; 12];
    if value.len() > 12 {
        space[..4].copy_from_slice(&value[..4]);
        space[4..8].copy_from_slice(&word(number).to_le_bytes());
        space[8..].copy_from_slice(&word(buffer.len()).to_le_bytes());
        buffer.extend_from_slice(value);
    } else {
        space[..value.len()].copy_from_slice(value);
    }
    let part = |at: usize| u32::from_le_bytes([space[at], space[at + 1], space[at + 2], space[at + 3]]);
    View { length: word(value.len()), prefix: part(0), buffer: part(4), offset: part(8) }
}
