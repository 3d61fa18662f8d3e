//! Logical types beside columns, dictionaries and streams.

use sel::{
    common_type, export_stream, unsupported_format, ArrowArrayStream, ArrowType, Batch, Column, Error, Selection,
    StreamReader, TypedColumn,
};
use std::cell::Cell;
use std::panic::{catch_unwind, panic_any, AssertUnwindSafe};
use std::rc::Rc;

const FORMATS: [(&str, &str, &str); 16] = [
    ("e", "u16", "halffloat"),
    ("f", "u32", "float"),
    ("g", "u64", "double"),
    ("tdD", "i32", "date32[day]"),
    ("tdm", "i64", "date64[ms]"),
    ("tts", "i32", "time32[s]"),
    ("ttn", "i64", "time64[ns]"),
    ("tsu:Europe/Vienna", "i64", "timestamp[us, tz=Europe/Vienna]"),
    ("tDn", "i64", "duration[ns]"),
    ("tin", "u128", "month_day_nano_interval"),
    ("d:9,2,32", "i32", "decimal32(9, 2)"),
    ("d:38,10", "i128", "decimal128(38, 10)"),
    ("z", "binary", "binary"),
    ("u", "utf8", "string"),
    ("U", "utf8", "large_string"),
    ("vu", "utf8", "string_view"),
];

/// Exports a column with its type and imports it again.
fn around(column: &Column, of_type: &ArrowType) -> Result<(Column, ArrowType), Error> {
    let (array, schema) = column.to_arrow_as(of_type)?;
    // SAFETY: both were written for the same column.
    unsafe { Column::from_arrow_with_type(array, &schema) }
}

#[test]
fn each_format_comes_back() -> Result<(), Error> {
    for (format, storage, text) in FORMATS {
        let rows = match storage {
            "utf8" => r#"["a",null,"more than twelve bytes"]"#,
            "binary" => r#"[h"00",null,h""]"#,
            _ => "[1,null,3]",
        };
        let (column, of_type) = (Column::parse(storage, rows)?, ArrowType::new(format, &[])?);
        assert_eq!((of_type.to_string().as_str(), of_type.format()), (text, format));
        let (again, same) = around(&column, &of_type)?;
        assert_eq!((&again, &same), (&column, &of_type), "{format}");
        let taken = again.take(&Column::from_options(&[Some(2u32), None])?)?;
        assert_eq!(around(&taken, &same)?.0, taken, "{format}");
        let list = ArrowType::new("+l", &[&of_type.as_field("element", true)?])?;
        let lists = column.unit_list()?;
        assert_eq!(around(&lists, &list)?, (lists, list.clone()), "{format}");
        assert_eq!(list.to_string(), format!("list<element: {text}>"));
    }
    Ok(())
}

#[test]
fn types_have_parts() -> Result<(), Error> {
    let (id, name) =
        (ArrowType::new("l", &[])?.as_field("id", false)?, ArrowType::new("u", &[])?.as_field("name", true)?);
    let record = ArrowType::new("+s", &[&id, &name])?;
    assert_eq!(record.to_string(), "struct<id: i64 not null, name: string>");
    assert_eq!((record.child_count(), record.child(1)?.name().to_string()), (2, "name".to_string()));
    assert_eq!(record.child(2).err(), Some(Error::OutOfBounds(6)));
    assert!(record.dictionary_values()?.is_none());
    let schema = record.to_schema()?;
    // SAFETY: the schema is one of the library.
    unsafe {
        assert_eq!(ArrowType::from_schema(&schema)?, record);
        assert_eq!(unsupported_format(&schema), None);
    }
    assert_ne!(record, ArrowType::new("+s", &[&name, &id])?);
    for (format, error) in [
        ("x", Error::Arrow(65)),
        ("+us:0", Error::Arrow(65)),
        ("+l", Error::Arrow(67)),
        ("g\0", Error::Arrow(65)),
        ("g\0g", Error::Arrow(65)),
    ] {
        assert_eq!(ArrowType::new(format, &[]).err(), Some(error), "{format}");
    }
    let storage = ArrowType::of_storage(&Column::parse("list<u128>", "[[1]]")?)?;
    assert_eq!(storage.to_string(), "large_list<item: u128>");
    Ok(())
}

#[test]
fn what_does_not_fit_is_an_error() -> Result<(), Error> {
    let (integers, nulls) = (Column::from_values(&[1i64])?, Column::from_options(&[None::<i64>])?);
    let (double, strict) = (ArrowType::new("g", &[])?, ArrowType::new("l", &[])?.as_field("strict", false)?);
    assert_eq!(integers.to_arrow_as(&double).err(), Some(Error::WrongArgument(4)));
    assert_eq!(nulls.to_arrow_as(&strict).err(), Some(Error::Arrow(72)));
    assert!(integers.to_arrow_as(&strict).is_ok());
    assert_eq!(integers.decode(&double).err(), Some(Error::WrongArgument(4)));
    assert_eq!(
        common_type(&[(&integers, None), (&integers, Some(&ArrowType::new("tdm", &[])?))]).err(),
        Some(Error::WrongArgument(4))
    );
    assert_eq!(common_type(&[]).err(), Some(Error::WrongArgument(5)));
    Ok(())
}

#[test]
fn dictionaries_are_kept_and_decoded() -> Result<(), Error> {
    let words = Column::from_options(&[Some("a"), None, Some("fourteen chars")])?;
    let keys = Column::from_options(&[Some(2i16), Some(0), None, Some(1)])?;
    let coded = ArrowType::dictionary("s", &words, None, true)?;
    assert_eq!(coded.to_string(), "dictionary<i16, string_view, ordered>");
    let (again, same) = around(&keys, &coded)?;
    assert_eq!((&again, &same), (&keys, &coded));
    let (values, value_type) = same.dictionary_values()?.expect("a dictionary");
    assert_eq!((values, value_type.to_string().as_str()), (words, "string_view"));
    let (plain, plain_type) = again.decode(&same)?;
    assert_eq!(plain.to_text()?, r#"["fourteen chars","a",null,null]"#);
    assert_eq!(plain_type.to_string(), "string_view");
    let (columns, common) = common_type(&[(&keys, Some(&coded)), (&again, Some(&same))])?;
    assert_eq!((columns, common), (vec![keys.clone(), keys.clone()], coded.clone()));
    let (columns, common) = common_type(&[(&keys, Some(&coded)), (&plain, None)])?;
    assert_eq!((columns, common.to_string().as_str()), (vec![plain.clone(), plain], "string_view"));
    assert_eq!(Column::from_values(&[3i16])?.to_arrow_as(&coded).err(), Some(Error::OutOfBounds(6)));
    Ok(())
}

#[test]
fn a_dictionary_needs_a_type() -> Result<(), Error> {
    let coded = ArrowType::dictionary("C", &Column::from_values(&["a"])?, None, false)?;
    let (array, schema) = Column::from_values(&[0u8])?.to_arrow_as(&coded)?;
    // SAFETY: both were written for the same column.
    assert_eq!(unsafe { Column::from_arrow(array, &schema) }.err(), Some(Error::Arrow(69)));
    Ok(())
}

#[test]
fn streams_pass_batch_by_batch() -> Result<(), Error> {
    let asked = Rc::new(Cell::new(0));
    let (seen, date) = (Rc::clone(&asked), ArrowType::new("tdD", &[])?);
    let batches = (0..3i32).map(move |number| -> Batch {
        seen.set(seen.get() + 1);
        if number == 1 {
            return Err(Error::Limit(8));
        }
        Ok((Column::from_values(&[number])?, None))
    });
    let mut reader = StreamReader::open(export_stream(&date, batches)?)?;
    assert_eq!((reader.arrow_type()?, asked.get()), (date.clone(), 0));
    let (first, of_first) = reader.next().expect("a batch")?;
    assert_eq!((first.to_string().as_str(), of_first, asked.get()), ("[0]", date.clone(), 1));
    assert_eq!(reader.next().expect("an error").err(), Some(Error::Arrow(73)));
    assert_eq!(reader.message().as_deref(), Some("size limit exceeded: rows"));
    assert_eq!(reader.next().expect("a batch")?.0.to_string(), "[2]");
    assert!(reader.next().is_none() && reader.next().is_none());
    drop(reader);
    assert_eq!(Rc::strong_count(&asked), 1);
    Ok(())
}

#[test]
fn errors_of_streams() -> Result<(), Error> {
    assert_eq!(StreamReader::open(ArrowArrayStream::empty()).err(), Some(Error::Arrow(64)));
    let date = ArrowType::new("tdD", &[])?;
    let dropped = Rc::new(Cell::new(0));
    let kept = Rc::clone(&dropped);
    let batches = (0..2i64).map(move |number| -> Batch {
        kept.set(0);
        Ok((Column::from_values(&[number])?, None))
    });
    let mut reader = StreamReader::open(export_stream(&date, batches)?)?;
    assert_eq!(reader.next().expect("an error").err(), Some(Error::Arrow(73)));
    assert_eq!(reader.message().as_deref(), Some("column types do not match"));
    drop(reader);
    assert_eq!(Rc::strong_count(&dropped), 1);
    let panics = std::iter::once_with(|| -> Batch { panic!("a producer that panics") });
    let mut reader = StreamReader::open(export_stream(&date, panics)?)?;
    assert_eq!(reader.next().expect("an error").err(), Some(Error::Arrow(73)));
    Ok(())
}

/// A producer that panics in each call and in its drop, and is the payload of the panic itself.
struct Panics;

impl Iterator for Panics {
    type Item = Batch;

    fn next(&mut self) -> Option<Batch> {
        panic_any(Panics)
    }
}

impl Drop for Panics {
    fn drop(&mut self) {
        panic_any(Panics)
    }
}

#[test]
fn a_drop_that_panics_does_not_pass_through_a_stream() -> Result<(), Error> {
    let date = ArrowType::new("tdD", &[])?;
    drop(export_stream(&date, Panics)?);
    let mut reader = StreamReader::open(export_stream(&date, Panics)?)?;
    assert_eq!(reader.next().expect("an error").err(), Some(Error::Arrow(73)));
    drop(reader);
    Ok(())
}

#[test]
fn types_are_shared_by_threads() -> Result<(), Error> {
    let words = Column::from_values(&["a", "b"])?;
    let coded = ArrowType::dictionary("C", &words, None, false)?;
    let keys = Column::from_values(&[1u8, 0])?;
    std::thread::scope(|scope| {
        for _ in 0..4 {
            scope.spawn(|| {
                for _ in 0..50 {
                    let (plain, _) = keys.decode(&coded.clone()).expect("memory");
                    assert_eq!(plain.to_string(), r#"["b","a"]"#);
                }
            });
        }
    });
    Ok(())
}

fn typed(format: &str, column: Result<Column, Error>) -> Result<TypedColumn, Error> {
    TypedColumn::new(column?, ArrowType::new(format, &[])?)
}

fn shows(column: &TypedColumn, rows: &str, text: &str) {
    assert_eq!((column.column().to_string().as_str(), column.arrow_type().to_string().as_str()), (rows, text));
}

#[test]
fn kernels_keep_the_type() -> Result<(), Error> {
    let dates = typed("tdD", Column::from_options(&[Some(1i32), None, Some(3)]))?;
    let (mask, indices) = (Column::from_bools(&[true, false, true])?, Column::from_options(&[Some(2u32), None])?);
    shows(&dates.filter(&mask)?, "[1,3]", "date32[day]");
    shows(&dates.take(&indices)?, "[3,null]", "date32[day]");
    shows(&dates.slice(1, 2)?, "[null,3]", "date32[day]");
    let others = typed("tdD", Column::from_values(&[7i32, 8, 9]))?;
    shows(&TypedColumn::if_then_else(&mask, &dates, &others)?, "[1,8,3]", "date32[day]");
    shows(&TypedColumn::flatten(&[&dates, &others], &[3, 3], 1)?, "[1,null,3,7,8,9]", "date32[day]");
    shows(&TypedColumn::collect_rows(&[&dates, &others], &[Some((1, 0)), None])?, "[7,null]", "date32[day]");
    shows(&dates.filter_bits(&[0b101], 3)?, "[1,3]", "date32[day]");
    shows(&dates.filter_selection(&Selection::new(&mask)?)?, "[1,3]", "date32[day]");
    shows(&dates.take_rows(&[Some(2), None])?, "[3,null]", "date32[day]");
    shows(&dates.reverse()?, "[3,null,1]", "date32[day]");
    shows(&dates.unit_list()?, "[[1],[null],[3]]", "large_list<item: date32[day]>");
    let one = typed("tdD", Column::from_values(&[0i32]))?;
    shows(&TypedColumn::if_then_else_broadcast_true(&mask, &one, &dates)?, "[0,null,0]", "date32[day]");
    shows(&TypedColumn::if_then_else_broadcast_false(&mask, &dates, &one)?, "[1,0,3]", "date32[day]");
    shows(&TypedColumn::if_then_else_broadcast_both(&mask, &one, &others.slice(2, 1)?)?, "[0,9,0]", "date32[day]");
    let times = typed("tts", Column::from_values(&[7i32, 8, 9]))?;
    assert_eq!(TypedColumn::if_then_else(&mask, &dates, &times).err(), Some(Error::WrongArgument(4)));
    let time = times.slice(0, 1)?;
    for found in [
        TypedColumn::if_then_else_broadcast_true(&mask, &time, &dates),
        TypedColumn::if_then_else_broadcast_false(&mask, &dates, &time),
        TypedColumn::if_then_else_broadcast_both(&mask, &one, &time),
    ] {
        assert_eq!(found.err(), Some(Error::WrongArgument(4)));
    }
    assert_eq!(typed("g", Column::from_values(&[1i64])).err(), Some(Error::WrongArgument(4)));
    Ok(())
}

/// Returns a column of keys of a dictionary.
fn coded(words: &[Option<&str>], keys: &[Option<i16>]) -> Result<TypedColumn, Error> {
    let of_type = ArrowType::dictionary("s", &Column::from_options(words)?, None, false)?;
    TypedColumn::new(Column::from_options(keys)?, of_type)
}

/// Returns a column of lists of one key each.
fn lists_of(keys: TypedColumn) -> Result<TypedColumn, Error> {
    let (column, of_type) = keys.into_parts();
    TypedColumn::new(column.unit_list()?, ArrowType::new("+l", &[&of_type])?)
}

#[test]
fn keys_are_compared_by_the_values_of_their_dictionary() -> Result<(), Error> {
    let first = || coded(&[Some("a"), Some("b"), None], &[Some(0), Some(1), None]);
    let same = || coded(&[Some("b"), None, Some("a"), Some("b")], &[Some(2), Some(3), Some(1)]);
    let other = || coded(&[Some("x"), Some("y"), None], &[Some(0), Some(1), None]);
    assert_eq!(first()?.arrow_type(), other()?.arrow_type());
    assert_eq!(first()?.column(), other()?.column());
    assert!(first()? == same()? && first()? != other()? && same()? != other()?);
    assert_eq!((first()?.try_eq(&same()?), first()?.try_eq(&other()?)), (Ok(true), Ok(false)));
    assert!(lists_of(first()?)? == lists_of(same()?)? && lists_of(first()?)? != lists_of(other()?)?);
    assert_ne!(first()?, first()?.decode()?);
    assert_ne!(first()?, first()?.slice(0, 2)?);
    Ok(())
}

#[test]
fn kernels_keep_dictionaries() -> Result<(), Error> {
    let words = coded(&[Some("a"), Some("b"), None], &[Some(0), Some(1), None, Some(2)])?;
    let text = "dictionary<i16, string_view>";
    shows(&words.filter_bits(&[0b1010], 4)?, "[1,2]", text);
    shows(&words.filter_selection(&Selection::from_bits(&[0b0101], 4)?)?, "[0,null]", text);
    shows(&words.take_rows(&[Some(1), None])?, "[1,null]", text);
    shows(&words.reverse()?, "[2,null,1,0]", text);
    let lists = words.unit_list()?;
    shows(&lists, "[[0],[1],[null],[2]]", "large_list<item: dictionary<i16, string_view>>");
    shows(&lists.decode()?, r#"[["a"],["b"],[null],[null]]"#, "large_list<item: string_view>");
    assert!(lists.list_get(0)?.try_eq(&words)? && !lists.list_index_is_oob(-1)? && lists.list_index_is_oob(1)?);
    // values of one dictionary keep their keys, those of two are decoded
    let mask = Column::from_bools(&[true, false, true, false])?;
    shows(&TypedColumn::if_then_else_broadcast_true(&mask, &words.slice(1, 1)?, &words)?, "[1,1,1,2]", text);
    let other = coded(&[Some("x"), Some("b")], &[Some(0)])?;
    let chosen = TypedColumn::if_then_else_broadcast_false(&mask, &words, &other)?;
    shows(&chosen, r#"["a","x",null,"x"]"#, "string_view");
    let chosen = TypedColumn::if_then_else_broadcast_both(&mask, &other, &words.slice(0, 1)?)?;
    shows(&chosen, r#"["x","a","x","a"]"#, "string_view");
    Ok(())
}

#[test]
fn elements_of_fixed_size_lists_have_their_type() -> Result<(), Error> {
    let strict = ArrowType::new("g", &[])?.as_field("price", false)?;
    let pairs = Column::parse("fixed<2,u64>", "[[1,2],[3,4],null]")?;
    let pairs = TypedColumn::new(pairs, ArrowType::new("+w:2", &[&strict])?)?;
    let indices = Column::from_values(&[0i64, -1, 5])?;
    for (found, rows) in [
        (pairs.fixed_size_list_get(-1, false)?, "[2,4,null]"),
        (pairs.fixed_size_list_get(2, true)?, "[null,null,null]"),
        (pairs.fixed_size_list_get_each(&indices, false)?, "[1,4,null]"),
        (pairs.fixed_size_list_get_each(&indices.reverse()?, true)?, "[null,4,null]"),
    ] {
        shows(&found, rows, "double");
        assert_eq!(found.arrow_type(), &ArrowType::new("g", &[])?.as_field("", true)?);
        assert!(found.to_arrow().is_ok());
    }
    assert_eq!(pairs.fixed_size_list_get(2, false).err(), Some(Error::OutOfBounds(7)));
    assert_eq!(pairs.list_get(0).err(), Some(Error::WrongArgument(3)));
    // the storage of these is a list of bytes
    for (format, rows) in [("w:3", "[[1,2,3]]".to_string()), ("d:9,2,256", format!("[[{}0]]", "0,".repeat(31)))] {
        let storage = if format == "w:3" { "fixed<3,u8>" } else { "fixed<32,u8>" };
        let bytes = typed(format, Column::parse(storage, &rows))?;
        assert_eq!(bytes.fixed_size_list_get(0, true).err(), Some(Error::WrongArgument(3)));
        let first = Column::from_values(&[0i64])?;
        assert_eq!(bytes.fixed_size_list_get_each(&first, true).err(), Some(Error::WrongArgument(3)));
        assert_eq!(bytes.reverse()?, bytes);
    }
    Ok(())
}

#[test]
fn comparison_returns_limits() -> Result<(), Error> {
    // each value is a list of two billion nulls, which need no buffer
    let long = Column::new_fixed_size_list(1 << 31, 1, Column::new_null(1 << 31)?, None)?;
    let coded = ArrowType::dictionary("C", &long, None, false)?;
    let of = |keys: &[u8]| TypedColumn::new(Column::from_values(keys)?, coded.clone());
    let two = [of(&[0, 0])?, of(&[0, 0])?];
    assert_eq!(two[0].try_eq(&two[1]), Err(Error::Limit(8)));
    assert!(catch_unwind(AssertUnwindSafe(|| two[0] == two[1])).is_err());
    let numbers = Column::from_options(&[Some(1i64), None])?;
    assert_eq!(numbers.try_eq(&numbers.slice(0, 2)?), Ok(true));
    for other in ["[1,2]", "[1]", "[null,1]"] {
        assert_eq!(numbers.try_eq(&Column::parse("i64", other)?), Ok(false), "{other}");
    }
    assert_eq!(numbers.try_eq(&Column::parse("i8", "[1,null]")?), Ok(false));
    Ok(())
}

#[test]
fn nulls_make_a_type_nullable() -> Result<(), Error> {
    let strict = ArrowType::new("g", &[])?.as_field("strict", false)?;
    let column = TypedColumn::new(Column::from_values(&[1u64, 2])?, strict.clone())?;
    let rows = Column::from_values(&[1u32])?;
    assert_eq!(column.take(&rows)?.arrow_type(), &strict);
    let with_null = column.take(&Column::from_options(&[Some(0u32), None])?)?;
    assert_eq!(with_null.arrow_type(), &strict.as_field("strict", true)?);
    assert!(with_null.to_arrow().is_ok());
    assert_eq!(column.take_rows(&[Some(1), Some(0)])?.arrow_type(), &strict);
    assert_eq!(column.take_rows(&[Some(0), None])?.arrow_type(), &strict.as_field("strict", true)?);
    assert_eq!(column.unit_list()?.arrow_type().to_string(), "large_list<item: double not null>");
    assert_eq!(with_null.unit_list()?.arrow_type().to_string(), "large_list<item: double>");
    assert!(column.unit_list()?.to_arrow().is_ok());
    assert!(TypedColumn::collect_rows(&[&column], &[Some((0, 0)), None])?.to_arrow().is_ok());
    Ok(())
}

#[test]
fn a_field_of_null_structs_is_nullable() -> Result<(), Error> {
    let strict = ArrowType::new("l", &[])?.as_field("id", false)?;
    let record = ArrowType::new("+s", &[&strict])?;
    let field_of = |rows: [Option<i64>; 2], validity: [bool; 2]| {
        let column = Column::new_struct(2, vec![Column::from_options(&rows)?], Some(&validity))?;
        TypedColumn::new(column, record.clone())?.field(0)
    };
    let field = field_of([Some(1), None], [true, false])?;
    assert_eq!((field.column().to_string().as_str(), field.arrow_type()), ("[1,null]", &strict.as_field("id", true)?));
    assert!(field.to_arrow().is_ok());
    assert_eq!(field_of([Some(1), Some(2)], [true, false])?.arrow_type(), &strict);
    // a null that no null struct hides is an error of the export
    assert_eq!(field_of([Some(1), None], [true, true])?.to_arrow().err(), Some(Error::Arrow(72)));
    Ok(())
}

#[test]
fn parts_have_their_types() -> Result<(), Error> {
    let (id, price) =
        (ArrowType::new("l", &[])?.as_field("id", false)?, ArrowType::new("g", &[])?.as_field("price", true)?);
    let record = ArrowType::new("+s", &[&id, &price])?;
    let rows = TypedColumn::new(Column::parse("struct<i64,u64>", "[(1,5),(2,null)]")?, record)?;
    shows(&rows.field(0)?, "[1,2]", "i64");
    shows(&rows.field_named("price")?.expect("a field"), "[5,null]", "double");
    assert!(rows.field_named("other")?.is_none());
    assert_eq!(rows.field(2).err(), Some(Error::OutOfBounds(6)));
    let lists = TypedColumn::new(Column::parse("list<u64>", "[[1,2],[],null]")?, ArrowType::new("+l", &[&price])?)?;
    shows(&lists.list_get(-1)?, "[2,null,null]", "double");
    shows(&TypedColumn::of_storage(Column::from_values(&["a"])?)?, r#"["a"]"#, "string_view");
    let words = Column::from_values(&["a", "b"])?;
    let coded = TypedColumn::new(Column::from_values(&[1u8, 0])?, ArrowType::dictionary("C", &words, None, false)?)?;
    shows(&coded.decode()?, r#"["b","a"]"#, "string_view");
    let plain = TypedColumn::of_storage(words)?;
    shows(
        &TypedColumn::if_then_else(&Column::from_bools(&[true, false])?, &coded, &plain)?,
        r#"["b","b"]"#,
        "string_view",
    );
    let (column, arrow_type) = coded.into_parts();
    assert_eq!(
        (column.to_string().as_str(), arrow_type.to_string().as_str()),
        ("[1,0]", "dictionary<u8, string_view>")
    );
    Ok(())
}
