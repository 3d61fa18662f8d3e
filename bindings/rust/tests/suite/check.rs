//! Comparisons of columns with the rows of a line.

use super::layout::{build, is_only_plain};
use super::notation::{Rows, Value};
use sel::{Column, DataType, Error, OwnedValue};
use std::fmt::Debug;

fn same<T: PartialEq + Debug>(what: &str, got: T, expected: T) -> Result<(), String> {
    if got == expected {
        Ok(())
    } else {
        Err(format!("{what}: expected {expected:?}, got {got:?}"))
    }
}

fn done<T>(what: &str, result: Result<T, Error>) -> Result<T, String> {
    result.map_err(|error| format!("{what}: {error}"))
}

/// Checks a column by its text, length, null count, type and validity, and by the rows that are read of it.
pub fn check_column(column: &Column, expected: &Rows) -> Result<(), String> {
    same("the rows", done("the rows", column.to_text())?.as_str(), expected.text.as_str())?;
    same("the length", column.len(), expected.values.len())?;
    same("the null count", column.null_count(), expected.null_count())?;
    same("the type", &done("the type", column.data_type())?, &expected.dtype)?;
    let valid: Vec<bool> = expected.values.iter().map(|value| *value != Value::Null).collect();
    same("the valid rows", done("the valid rows", column.valid())?, valid)?;
    if !is_only_plain(&expected.dtype) {
        same("the rows that are read", &done("the rows that are read", read(column))?, &expected.values)?;
    }
    Ok(())
}

/// Checks a column that a function made, also by its equality with a column of another layout and through Arrow.
pub fn check_made(column: &Column, expected: &Rows) -> Result<(), String> {
    check_column(column, expected)?;
    let other = done("a column to compare with", build(7, &expected.dtype, &expected.values))?;
    same("the equality with the expected rows", *column == other, true)?;
    check_through_arrow(column, expected)
}

/// Returns whether an integer among the values has more than 38 digits.
fn has_39_digits(values: &[Value]) -> bool {
    const LIMIT: u128 = 10u128.pow(38);
    values.iter().any(|value| match value {
        Value::Signed(number) => number.unsigned_abs() >= LIMIT,
        Value::Items(items) => has_39_digits(items),
        _ => false,
    })
}

fn check_through_arrow(column: &Column, expected: &Rows) -> Result<(), String> {
    let exported = column.to_arrow();
    if has_39_digits(&expected.values) {
        return same("the export of integers of 39 digits", exported.err(), Some(Error::Arrow(71)));
    }
    let (array, schema) = done("the export to Arrow", exported)?;
    // SAFETY: both were written for the same column.
    let imported = unsafe { Column::from_arrow(array, &schema) };
    check_column(&done("the import from Arrow", imported)?, expected).map_err(|error| format!("through Arrow, {error}"))
}

/// Checks the rows of a child that lie in the lists that are not null.
pub fn check_items(lists: &Column, child: &Column, expected: &Rows) -> Result<(), String> {
    let items = done("the items", items_of(lists, child))?;
    let all: Vec<Value> = items.into_iter().flatten().flatten().collect();
    same("the items", &all, &expected.values)?;
    same("the type", &done("the type", child.data_type())?, &expected.dtype)
}

/// Checks the rows of a field at the struct values that are not null.
pub fn check_field(structs: &Column, field: &Column, expected: &Rows) -> Result<(), String> {
    let (valid, rows) = (done("the valid rows", structs.valid())?, done("the rows of the field", read(field))?);
    same("the length", rows.len(), expected.values.len())?;
    for (i, valid) in valid.into_iter().enumerate() {
        same(&format!("row {i}"), if valid { &rows[i] } else { &Value::Null }, &expected.values[i])?;
    }
    same("the type", &done("the type", field.data_type())?, &expected.dtype)
}

// ---- rows that are read by the functions of the crate ----

fn rows_of<T: OwnedValue>(column: &Column, value: impl Fn(T) -> Value) -> Result<Vec<Value>, Error> {
    Ok(column.iter::<T>()?.map(|row| row.map_or(Value::Null, &value)).collect())
}

fn read(column: &Column) -> Result<Vec<Value>, Error> {
    match column.data_type()? {
        DataType::Null => Ok(vec![Value::Null; column.len()]),
        DataType::Boolean => rows_of(column, Value::Boolean),
        DataType::Int8 => rows_of(column, |number: i8| Value::Signed(number.into())),
        DataType::Int16 => rows_of(column, |number: i16| Value::Signed(number.into())),
        DataType::Int32 => rows_of(column, |number: i32| Value::Signed(number.into())),
        DataType::Int64 => rows_of(column, |number: i64| Value::Signed(number.into())),
        DataType::Int128 => rows_of(column, Value::Signed),
        DataType::UInt8 => rows_of(column, |number: u8| Value::Unsigned(number.into())),
        DataType::UInt16 => rows_of(column, |number: u16| Value::Unsigned(number.into())),
        DataType::UInt32 => rows_of(column, |number: u32| Value::Unsigned(number.into())),
        DataType::UInt64 => rows_of(column, |number: u64| Value::Unsigned(number.into())),
        DataType::UInt128 => rows_of(column, Value::Unsigned),
        DataType::Binary | DataType::BinaryView => rows_of(column, Value::Bytes),
        DataType::StringView => rows_of(column, |text: String| Value::Bytes(text.into_bytes())),
        DataType::List(_) | DataType::FixedSizeList(..) => {
            let lists = items_of(column, &column.child()?)?;
            Ok(lists.into_iter().map(|items| items.map_or(Value::Null, Value::Items)).collect())
        }
        DataType::Struct(fields) => {
            let fields = (0..fields.len()).map(|i| read(&column.field(i)?)).collect::<Result<Vec<_>, _>>()?;
            let row = |(i, valid): (usize, bool)| match valid {
                true => Value::Items(fields.iter().map(|rows| rows[i].clone()).collect()),
                false => Value::Null,
            };
            Ok(column.valid()?.into_iter().enumerate().map(row).collect())
        }
        other => panic!("a type that the tests do not know: {other}"),
    }
}

/// Returns the items of each list, or `None` where it is null.
fn items_of(lists: &Column, child: &Column) -> Result<Vec<Option<Vec<Value>>>, Error> {
    let items = read(child)?;
    let place = |offset: &i64| usize::try_from(*offset).expect("an offset of a list is not negative");
    let offsets: Vec<usize> = match lists.data_type()? {
        DataType::FixedSizeList(_, list_size) => (0..=lists.len()).map(|i| i * list_size).collect(),
        _ => lists.offsets()?.iter().map(place).collect(),
    };
    let rows = lists.valid()?.into_iter().enumerate();
    Ok(rows.map(|(i, valid)| valid.then(|| items[offsets[i]..offsets[i + 1]].to_vec())).collect())
}
