//! The standard traits of columns: clones, comparison, formatting, conversions and iterators.

use sel::{ArrowType, Column, DataType, Error, Kind, StreamReader, TypedColumn, Value};
use std::collections::HashSet;
use std::iter::FusedIterator;

#[test]
fn clones_outlive_their_column() -> Result<(), Error> {
    let column = Column::parse("list<utf8>", r#"[["a string of 21 bytes"],null]"#)?;
    let clones: Vec<Column> = vec![column.clone(), column.try_clone()?, column.share()?, column.slice(0, 2)?];
    drop(column);
    for clone in &clones {
        assert_eq!(clone.to_text()?, r#"[["a string of 21 bytes"],null]"#);
        assert_eq!(clone, &clones[0]);
    }
    Ok(())
}

#[test]
fn equal_columns_have_the_same_type_and_rows() -> Result<(), Error> {
    let types = [
        "list<i8>",
        "list<i16>",
        "fixed<0,i8>",
        "fixed<1,i8>",
        "struct<i8>",
        "struct<i8,i8>",
        "null",
        "i8",
        "utf8",
        "binview",
    ];
    for (i, first) in types.iter().enumerate() {
        for (j, second) in types.iter().enumerate() {
            assert_eq!(Column::parse(first, "[]")? == Column::parse(second, "[]")?, i == j, "{first} {second}");
        }
    }
    let column = Column::parse("list<i8>", "[[1,null],null]")?;
    assert_eq!(column, Column::parse("list<i8>", "[[1,null],null]")?);
    assert_ne!(column, Column::parse("list<i8>", "[[1,null]]")?);
    assert_ne!(column, Column::parse("list<i8>", "[[1,null],[]]")?);
    assert_ne!(column, Column::parse("list<i16>", "[[1,null],null]")?);
    Ok(())
}

#[test]
fn values_in_null_slots_do_not_matter_for_equality() -> Result<(), Error> {
    let first = Column::from_values_with_validity(&[1i64, 2], &[true, false])?;
    let second = Column::from_values_with_validity(&[1i64, 3], &[true, false])?;
    assert_eq!(first, second);
    assert!(first.equals(&second)? && first.equals(&first)?);
    Ok(())
}

#[test]
fn columns_are_formatted_as_text() -> Result<(), Error> {
    let column = Column::parse("struct<utf8,bool>", r#"[("a\n\"",true),null]"#)?;
    assert_eq!(column.to_string(), r#"[("a\n\"",true),null]"#);
    assert_eq!(format!("{column:?}"), r#"struct<utf8,bool> [("a\n\"",true),null]"#);
    let (numbers, date) = (Column::from_values(&[1i64, 2])?, ArrowType::new("tdD", &[])?);
    assert_eq!(format!("{numbers:>8}|{numbers:.3}|{date:<12}|"), "   [1,2]|[1,|date32[day] |");
    Ok(())
}

#[test]
fn types_are_formatted_with_the_width_and_the_precision() {
    let pairs = DataType::FixedSizeList(Box::new(DataType::Int8), 2);
    let rows = DataType::Struct(vec![pairs, DataType::StringView]);
    let text = "struct<fixed<2,i8>,utf8>";
    assert_eq!(format!("{rows}|{rows:26}|{rows:>26}|{rows:.6}"), format!("{text}|{text}  |  {text}|struct"));
}

/// Makes the same column in all ways from these rows.
fn converted<T: Value + Clone, const N: usize>(rows: [Option<T>; N], text: &str) -> Result<(), Error> {
    let columns = [
        Column::try_from(rows.to_vec())?,
        Column::try_from(&rows[..])?,
        Column::try_from(&rows)?,
        Column::try_from_iter(rows.iter().cloned())?,
        Column::try_from(rows.clone())?,
    ];
    for column in columns {
        assert_eq!(format!("{column:?}"), text);
    }
    let values: Vec<T> = rows.into_iter().flatten().collect();
    let columns = [
        Column::try_from(&values[..])?,
        Column::try_from_iter_values(values.iter().cloned())?,
        Column::from_values(&values)?,
        Column::try_from(values)?,
    ];
    for column in columns {
        assert_eq!(format!("{column:?}"), text.replace(",null", ""));
    }
    Ok(())
}

#[test]
fn slices_vectors_arrays_and_iterators_are_converted() -> Result<(), Error> {
    converted([Some(1i64), None, Some(-2)], "i64 [1,null,-2]")?;
    converted([Some(1u128), None], "u128 [1,null]")?;
    converted([Some(true), None, Some(false)], "bool [true,null,false]")?;
    converted([Some("a"), None, Some("")], r#"utf8 ["a",null,""]"#)?;
    converted([Some("a".to_string()), None], r#"utf8 ["a",null]"#)?;
    converted([Some(&b"a"[..]), None], r#"binary [h"61",null]"#)?;
    converted([Some(vec![1u8]), None], r#"binary [h"01",null]"#)?;
    assert_eq!(Column::try_from([1i64, 2])?, Column::try_from(&[1i64, 2])?);
    Ok(())
}

#[test]
fn an_iterator_without_an_end_is_out_of_memory() {
    let endless = std::iter::repeat(Some(1i64));
    assert_eq!(Column::try_from_iter(endless).err(), Some(Error::OutOfMemory));
}

#[test]
fn rows_are_iterated_from_both_ends() -> Result<(), Error> {
    let column = Column::parse("utf8", r#"["a",null,"c","d"]"#)?;
    let mut rows = column.iter::<String>()?;
    assert_eq!(rows.len(), 4);
    assert_eq!(rows.next(), Some(Some("a".to_string())));
    assert_eq!(rows.next_back(), Some(Some("d".to_string())));
    assert_eq!((rows.len(), rows.size_hint()), (2, (2, Some(2))));
    assert_eq!(rows.nth(1), Some(Some("c".to_string())));
    assert_eq!((rows.next(), rows.next(), rows.next_back()), (None, None, None));
    assert_eq!(column.iter::<i64>().err(), Some(Error::WrongArgument(3)));
    Ok(())
}

#[test]
fn errors_are_standard_errors() {
    let error: Box<dyn std::error::Error + Send + Sync> = Box::new(Error::OutOfMemory);
    assert_eq!(error.to_string(), "out of memory");
    assert!(error.source().is_none());
}

#[test]
fn kinds_are_printed_as_their_types_begin() -> Result<(), Error> {
    let nested = ["list<i8>", "fixed<2,i8>", "struct<i8>"];
    let leaves = "null bool i8 i16 i32 i64 i128 u8 u16 u32 u64 u128 binary binview utf8";
    for text in leaves.split(' ').chain(nested) {
        let column = Column::parse(text, "[]")?;
        assert_eq!(Some(column.kind().to_string().as_str()), text.split('<').next());
        assert_eq!(column.data_type()?.to_string(), text);
    }
    assert_eq!(format!("{:>6}|{:<6}|", Kind::Int64, Kind::List), "   i64|list  |");
    Ok(())
}

fn is_eq<T: Eq>() {}

fn is_fused<T: FusedIterator>() {}

#[test]
fn types_have_the_traits_that_collections_need() -> Result<(), Error> {
    is_eq::<Column>();
    is_eq::<ArrowType>();
    is_eq::<TypedColumn>();
    is_fused::<StreamReader>();
    let errors: HashSet<Error> = [Error::OutOfMemory, Error::Limit(8), Error::Limit(8)].into_iter().collect();
    assert_eq!(errors.len(), 2);
    let typed = TypedColumn::of_storage(Column::from_values(&[1i64])?)?;
    assert_eq!(typed.try_clone()?, typed.clone());
    Ok(())
}
