//! Threads that read the same columns, and columns that are moved to other threads and dropped there.

use sel::{collect_rows, flatten, if_then_else, ArrowType, Column, DataType, Error, Kind, Selection, TypedColumn};
use std::sync::mpsc::channel;
use std::sync::{Arc, Barrier};
use std::thread;

const THREADS: usize = 8;
const ROUNDS: usize = 50;

fn is_send_sync<T: Send + Sync>() {}

#[test]
fn columns_selections_types_and_errors_are_send_and_sync() {
    is_send_sync::<Column>();
    is_send_sync::<Selection>();
    is_send_sync::<ArrowType>();
    is_send_sync::<TypedColumn>();
    is_send_sync::<Error>();
    is_send_sync::<Kind>();
    is_send_sync::<DataType>();
}

/// Returns what is read from a column and from a mask of as many rows, as text.
fn read(column: &Column, mask: &Column) -> Result<String, Error> {
    let count = u32::try_from(column.len()).expect("few rows");
    let reversed: Vec<Option<u32>> = (0..count).rev().map(Some).chain([None]).collect();
    let all = [
        column.clone(),
        column.filter(mask)?,
        column.filter_selection(&Selection::new(mask)?)?,
        column.take_rows(&reversed)?,
        column.slice(1, column.len() - 1)?,
        if_then_else(mask, column, column)?,
        flatten(&[column, column], &[1, 1], column.len())?,
        collect_rows(&[column, column], &[Some((1, 0)), None, Some((0, 1))])?,
        column.reverse()?,
        column.unit_list()?,
    ];
    let texts: Result<Vec<String>, Error> = all.iter().map(Column::to_text).collect();
    assert_eq!(all[0], *column);
    let (array, schema) = column.to_arrow()?;
    // SAFETY: both were written for the same column.
    let copy = unsafe { Column::from_arrow(array, &schema)? };
    Ok(format!("{copy:?} {} {} {}", column.null_count(), column.equals(&copy)?, texts?.join(" ")))
}

#[test]
fn eight_threads_read_the_same_columns() -> Result<(), Error> {
    let mask = Column::parse("bool", "[true,null,false,true,true]")?;
    let columns = [
        Column::parse("i64", "[1,null,-3,4,5]")?,
        Column::parse("utf8", r#"["a",null,"a string of more than twelve bytes","","b"]"#)?,
        Column::parse("list<utf8>", r#"[["a",null],[],null,["a string of more than twelve bytes"],[null]]"#)?,
        Column::parse("struct<fixed<2,i8>,list<bool>>", "[([1,2],[true]),null,(null,null),([null,4],[]),([5,6],[])]")?,
        mask.clone(),
    ];
    let wanted: Vec<String> = columns.iter().map(|column| read(column, &mask)).collect::<Result<_, _>>()?;
    let start = Barrier::new(THREADS);
    let results: Vec<Result<usize, Error>> = thread::scope(|scope| {
        let threads: Vec<_> = (0..THREADS)
            .map(|number| {
                let (columns, wanted, mask, start) = (&columns, &wanted, &mask, &start);
                scope.spawn(move || {
                    start.wait();
                    let mut compared = 0;
                    for round in 0..ROUNDS {
                        for i in 0..columns.len() {
                            // in every other round all threads read the same column at once
                            let at = (i + round % 2 * number) % columns.len();
                            assert_eq!(read(&columns[at], mask)?, wanted[at]);
                            compared += 1;
                        }
                    }
                    Ok(compared)
                })
            })
            .collect();
        threads.into_iter().map(|thread| thread.join().expect("no thread panics")).collect()
    });
    for result in results {
        assert_eq!(result?, ROUNDS * columns.len());
    }
    for (column, text) in columns.iter().zip(&wanted) {
        assert_eq!(&read(column, &mask)?, text);
    }
    Ok(())
}

#[test]
fn the_last_clone_is_dropped_on_another_thread() -> Result<(), Error> {
    let text = r#"[["a string of more than twelve bytes"],null,["b"]]"#;
    for _ in 0..ROUNDS {
        let (send, receive) = channel::<Column>();
        let column = Column::parse("list<utf8>", text)?;
        let clones: Vec<Column> = (0..THREADS).map(|_| column.try_clone()).collect::<Result<_, _>>()?;
        let part = column.slice(1, 2)?;
        drop(column);
        let reader = thread::spawn(move || receive.into_iter().map(|clone| clone.to_text()).collect::<Vec<_>>());
        thread::scope(|scope| {
            for clone in clones {
                let send = send.clone();
                scope.spawn(move || send.send(clone).expect("the reader runs"));
            }
        });
        drop(send);
        let read = reader.join().expect("the reader does not panic");
        assert_eq!(read, vec![Ok(text.to_string()); THREADS]);
        assert_eq!(part.to_text()?, r#"[null,["b"]]"#);
    }
    Ok(())
}

#[test]
fn a_column_is_shared_by_reference_counts() -> Result<(), Error> {
    let column = Arc::new(Column::parse("struct<i64,utf8>", r#"[(1,"a"),null]"#)?);
    let threads: Vec<_> = (0..THREADS)
        .map(|_| {
            let column = Arc::clone(&column);
            thread::spawn(move || column.field(1).and_then(|field| field.to_text()))
        })
        .collect();
    for thread in threads {
        assert!(thread.join().expect("no thread panics")?.starts_with(r#"["a","#));
    }
    Ok(())
}
