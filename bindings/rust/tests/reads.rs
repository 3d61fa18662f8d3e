//! Columns that are read into vectors: linear in their rows, and without a panic whatever the layout.

use sel::{choose, collect_rows, Column, Error, Kind};

#[test]
fn many_long_strings_are_read_in_one_pass() -> Result<(), Error> {
    // One copy of the data buffer for each row would be a terabyte.
    let strings: Vec<String> = (0..200_000u32).map(|row| format!("string number {row:09}")).collect();
    let rows: Vec<Option<&str>> = strings.iter().map(|text| (!text.ends_with('7')).then_some(text.as_str())).collect();
    let read = Column::from_texts(&rows)?.to_texts()?;
    assert_eq!(read.len(), rows.len());
    assert!(read.iter().zip(rows).all(|(read, row)| read.as_deref() == row));
    Ok(())
}

#[test]
fn strings_of_many_data_buffers_are_read() -> Result<(), Error> {
    let strings: Vec<String> = (0..500u32).map(|row| format!("a string in buffer {row}")).collect();
    let columns = strings.iter().map(|text| Column::from_texts(&[Some(text)])).collect::<Result<Vec<_>, _>>()?;
    let references: Vec<&Column> = columns.iter().collect();
    let picks: Vec<_> = (0..500u32).rev().map(|source| Some((source, 0))).collect();
    let gathered = collect_rows(&references, &picks)?.to_texts()?;
    assert!(gathered.iter().eq(strings.iter().rev().map(|text| Some(text.clone())).collect::<Vec<_>>().iter()));
    Ok(())
}

#[test]
fn null_slots_keep_other_values_unread() -> Result<(), Error> {
    let mask = Column::parse("bool", "[true,false,null,false]")?;
    let (left, right) =
        (Column::parse("utf8", r#"["a",null,"b",null]"#)?, Column::parse("utf8", r#"[null,"c",null,null]"#)?);
    assert_eq!(choose(&mask, &left, &right)?.to_texts()?, [Some("a".into()), Some("c".into()), None, None]);
    let numbers = Column::parse("i8", "[null,-128,127,null]")?;
    assert_eq!(numbers.to_options::<i8>()?, [None, Some(-128), Some(127), None]);
    assert_eq!(mask.to_bools()?, [Some(true), Some(false), None, Some(false)]);
    Ok(())
}

#[test]
fn slices_of_lists_have_the_offsets_of_their_rows() -> Result<(), Error> {
    let lists = Column::parse("list<utf8>", r#"[["a","b"],null,[],["c"],["d",null]]"#)?;
    let part = lists.sliced(3, 2)?;
    assert_eq!(part.to_text()?, r#"[["c"],["d",null]]"#);
    let (offsets, child) = (part.offsets()?, part.child()?.to_texts()?);
    assert_eq!(offsets, [2, 3, 5]);
    assert_eq!(child.len(), 5);
    assert_eq!(child[2..5], [Some("c".to_string()), Some("d".to_string()), None]);
    assert_eq!(lists.sliced(5, 0)?.offsets()?, [5]);
    Ok(())
}

#[test]
fn bits_of_slices_are_read_from_their_first_row() -> Result<(), Error> {
    let rows: Vec<Option<bool>> = (0..130).map(|row| (row % 5 != 0).then_some(row % 3 == 0)).collect();
    let text: Vec<String> = rows.iter().map(|row| row.map_or("null".to_string(), |value| value.to_string())).collect();
    let column = Column::parse("bool", &format!("[{}]", text.join(",")))?;
    for (offset, len) in [(0, 130), (1, 129), (7, 64), (8, 65), (63, 2), (64, 66), (130, 0)] {
        let part = column.sliced(offset, len)?;
        assert_eq!(part.to_bools()?, rows[offset..offset + len], "{offset} {len}");
        let valid: Vec<bool> = rows[offset..offset + len].iter().map(Option::is_some).collect();
        assert_eq!(part.valid()?, valid, "{offset} {len}");
    }
    Ok(())
}

#[test]
fn columns_without_rows_and_columns_of_nulls_are_read() -> Result<(), Error> {
    let nulls = Column::parse("null", "[null,null]")?;
    assert_eq!((nulls.kind(), nulls.valid()?, nulls.null_count()), (Kind::Null, vec![false, false], 2));
    assert_eq!(Column::from_texts(&[])?.to_texts()?, Vec::<Option<String>>::new());
    assert_eq!(Column::from_values::<u8>(&[])?.to_options::<u8>()?, []);
    assert_eq!(Column::from_bools(&[])?.to_bools()?, []);
    assert_eq!(Column::parse("list<i8>", "[]")?.offsets()?, [0]);
    Ok(())
}

#[test]
fn reading_another_kind_is_an_error() -> Result<(), Error> {
    let wrong_kind = Some(Error::WrongArgument(3));
    for column in
        [Column::parse("null", "[null]")?, Column::parse("struct<i8>", "[(1)]")?, Column::parse("i64", "[1]")?]
    {
        assert_eq!(column.to_options::<i8>().err(), wrong_kind);
        assert_eq!(column.to_bools().err(), wrong_kind);
        assert_eq!(column.to_texts().err(), wrong_kind);
        assert_eq!(column.offsets().err(), wrong_kind);
        assert_eq!(column.list_get(0).err(), wrong_kind);
    }
    Ok(())
}

#[test]
fn a_column_can_be_its_own_mask_and_its_own_indices() -> Result<(), Error> {
    let mask = Column::parse("bool", "[true,null,false,true]")?;
    assert_eq!(mask.filter(&mask)?.to_text()?, "[true,true]");
    assert_eq!(choose(&mask, &mask, &mask)?, mask);
    let indices = Column::parse("u32", "[2,null,1,0]")?;
    assert_eq!(indices.take(&indices)?.to_text()?, "[1,null,null,2]");
    Ok(())
}
