//! Columns made of parts: integers of all widths, booleans, bytes, views, nulls, and nested columns with nulls.

use sel::{Column, DataType, Error, Kind, Number, View};
use std::fmt::Debug;

/// Makes a column of the least, the greatest and a null integer, and compares what is read.
fn extremes<T: Number + Debug + PartialEq>(least: T, greatest: T, name: &str, text: &str) -> Result<(), Error> {
    let rows = [Some(least), None, Some(greatest)];
    let column = Column::from_options(&rows)?;
    assert_eq!((column.kind(), column.data_type()?.to_string()), (T::KIND, name.to_string()));
    assert_eq!((column.len(), column.null_count(), column.to_text()?), (3, 1, text.to_string()));
    assert_eq!(column.to_options::<T>()?, rows);
    assert_eq!(column.iter::<T>()?.collect::<Vec<_>>(), rows);
    let values = Column::from_values_with_validity(&[least, greatest, greatest], &[true, false, true])?;
    assert_eq!(values, column);
    assert_eq!(values.values::<T>()?, [least, greatest, greatest]);
    assert_eq!(values.slice(1, 2)?.values::<T>()?, [greatest, greatest]);
    assert_eq!(Column::from_values(&[least, greatest])?.values::<T>()?, [least, greatest]);
    Ok(())
}

#[test]
fn integers_of_all_widths_keep_their_extremes() -> Result<(), Error> {
    extremes(i8::MIN, i8::MAX, "i8", "[-128,null,127]")?;
    extremes(i16::MIN, i16::MAX, "i16", "[-32768,null,32767]")?;
    extremes(i32::MIN, i32::MAX, "i32", "[-2147483648,null,2147483647]")?;
    extremes(i64::MIN, i64::MAX, "i64", "[-9223372036854775808,null,9223372036854775807]")?;
    let text = "[-170141183460469231731687303715884105728,null,170141183460469231731687303715884105727]";
    extremes(i128::MIN, i128::MAX, "i128", text)?;
    extremes(u8::MIN, u8::MAX, "u8", "[0,null,255]")?;
    extremes(u16::MIN, u16::MAX, "u16", "[0,null,65535]")?;
    extremes(u32::MIN, u32::MAX, "u32", "[0,null,4294967295]")?;
    extremes(u64::MIN, u64::MAX, "u64", "[0,null,18446744073709551615]")?;
    extremes(u128::MIN, u128::MAX, "u128", "[0,null,340282366920938463463374607431768211455]")
}

#[test]
fn booleans_have_nulls() -> Result<(), Error> {
    let rows = [Some(true), None, Some(false), Some(true)];
    let column = Column::from_options(&rows)?;
    assert_eq!(
        (column.kind(), column.to_text()?, column.null_count()),
        (Kind::Boolean, "[true,null,false,true]".into(), 1)
    );
    assert_eq!((column.to_bools()?, column.validity()?), (rows.to_vec(), Some(vec![true, false, true, true])));
    let values = Column::from_values_with_validity(&[true, true, false, true], &[true, false, true, true])?;
    assert_eq!(values, column);
    assert_eq!(values.filter(&values)?.to_text()?, "[true,true]");
    Ok(())
}

#[test]
fn binary_values_and_views_are_read_by_their_kind() -> Result<(), Error> {
    let long = [7u8; 300];
    let rows: [Option<&[u8]>; 5] = [Some(b""), None, Some(&[0, 255]), Some(&long), Some(b"twelve bytes")];
    let owned: Vec<Option<Vec<u8>>> = rows.iter().map(|row| row.map(<[u8]>::to_vec)).collect();
    let (binary, views) = (Column::from_bytes(&rows)?, Column::from_byte_views(&rows)?);
    assert_eq!((binary.kind(), views.kind()), (Kind::Binary, Kind::BinaryView));
    for column in [&binary, &views, &Column::from_options(&owned)?] {
        assert_eq!((column.to_bytes()?, column.iter()?.collect::<Vec<_>>()), (owned.clone(), owned.clone()));
        assert_eq!(column.slice(2, 3)?.to_bytes()?, owned[2..]);
    }
    assert!(binary.equals(&views)? && binary != views);
    assert_eq!(binary.to_texts().err(), Some(Error::WrongArgument(3)));
    assert_eq!(views.to_texts().err(), Some(Error::WrongArgument(3)));
    assert_eq!(binary.slice(2, 1)?.offsets()?, [0, 2]);
    assert_eq!(binary.bytes()?.len(), 314);
    Ok(())
}

#[test]
fn null_slots_of_binary_values_keep_their_bytes() -> Result<(), Error> {
    let column = Column::new_binary(&[1, 2, 4, 4], b"abcdef", Some(&[true, false, true]))?;
    assert_eq!(column.to_bytes()?, [Some(b"b".to_vec()), None, Some(vec![])]);
    assert_eq!((column.null_count(), column.to_text()?), (1, r#"[h"62",null,h""]"#.to_string()));
    Ok(())
}

#[test]
fn views_share_a_buffer() -> Result<(), Error> {
    let view =
        |length, prefix: &[u8; 4], offset| View { length, prefix: u32::from_le_bytes(*prefix), buffer: 1, offset };
    let buffers: [&[u8]; 2] = [b"", b"a text that two views overlap in"];
    let column = Column::new_string_view(&[view(20, b"a te", 0), view(13, b"two ", 12)], &buffers, None)?;
    assert_eq!(column.to_text()?, r#"["a text that two view","two views ove"]"#);
    assert_eq!(column.views()?[1], view(13, b"two ", 12));
    assert_eq!(column.buffers()?, buffers);
    let wrong = Column::new_string_view(&[view(20, b"A te", 0)], &buffers, None);
    assert_eq!(wrong.err(), Some(Error::Malformed(27)));
    Ok(())
}

#[test]
fn nested_columns_have_nulls() -> Result<(), Error> {
    let child = || Column::from_options(&[Some(1i64), None, Some(3), Some(4)]);
    let lists = Column::new_list(&[0, 1, 3, 3, 4], child()?, Some(&[true, false, true, true]))?;
    assert_eq!((lists.to_text()?, lists.null_count()), ("[[1],null,[],[4]]".to_string(), 1));
    let pairs = Column::new_fixed_size_list(2, 2, child()?, Some(&[false, true]))?;
    assert_eq!((pairs.to_text()?, pairs.list_size()?), ("[null,[3,4]]".to_string(), 2));
    let rows = Column::new_struct(4, vec![child()?, lists], Some(&[true, true, false, true]))?;
    assert_eq!((rows.to_text()?, rows.field_count()?), ("[(1,[1]),(null,null),null,(4,[4])]".to_string(), 2));
    assert_eq!(rows.field(1)?.to_text()?, "[[1],null,[],[4]]");
    assert_eq!(rows.data_type()?, "struct<i64,list<i64>>".parse::<DataType>()?);
    Ok(())
}

#[test]
fn a_maker_that_fails_frees_its_children() -> Result<(), Error> {
    let child = Column::from_values(&[1i64, 2])?;
    assert_eq!(Column::lists(&[0, 3], child.try_clone()?).err(), Some(Error::Malformed(22)));
    assert_eq!(Column::fixed_lists(2, 2, child.try_clone()?).err(), Some(Error::Malformed(23)));
    let fields = vec![child.try_clone()?, Column::new_null(3)?];
    assert_eq!(Column::tuples(2, fields).err(), Some(Error::Malformed(24)));
    assert_eq!(child.to_text()?, "[1,2]");
    Ok(())
}

#[test]
fn a_column_has_at_most_128_levels() -> Result<(), Error> {
    let too_deep = Some(Error::Limit(12));
    let mut deep = Column::from_values(&[1i8, 2])?;
    for level in 0..128 {
        deep = match level % 3 {
            0 => Column::lists(&[0, 1, 2], deep)?,
            1 => Column::fixed_lists(1, 2, deep)?,
            _ => Column::tuples(2, vec![Column::new_null(2)?, deep])?,
        };
    }
    assert_eq!(deep.unit_list().err(), too_deep);
    assert_eq!(Column::lists(&[0, 1, 2], deep.clone()).err(), too_deep);
    assert_eq!(Column::fixed_lists(1, 2, deep.clone()).err(), too_deep);
    assert_eq!(Column::tuples(2, vec![Column::new_null(2)?, deep.clone()]).err(), too_deep);
    assert_eq!((deep.len(), deep.slice(1, 1)?.len(), deep.equals(&deep)?), (2, 1, true));
    Ok(())
}

#[test]
fn types_are_printed_and_parsed() -> Result<(), Error> {
    let leaves = "null bool i8 i16 i32 i64 i128 u8 u16 u32 u64 u128 binary binview utf8";
    let nested = ["list<null>", "fixed<0,bool>", "fixed<4294967295,utf8>", "struct<>", "struct<i8,list<struct<u8>>>"];
    for text in leaves.split(' ').chain(nested) {
        let parsed: DataType = text.parse()?;
        assert_eq!(parsed.to_string(), text);
        assert_eq!(parsed.kind(), Column::parse(text, "[]")?.kind());
    }
    assert_eq!("list<i7>".parse::<DataType>(), Err(Error::Text { status: 32, at: 6 }));
    assert_eq!("".parse::<DataType>(), Err(Error::Text { status: 32, at: 0 }));
    Ok(())
}
