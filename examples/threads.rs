//! Filters the columns of a batch, each on a thread of its own. All threads read the same mask, and two of them the same column.

use sel::{Column, Error};
use std::thread;

/// Returns the rows of each column where the mask is true.
fn filter_batch(batch: &[&Column], mask: &Column) -> Result<Vec<Column>, Error> {
    thread::scope(|scope| {
        let threads: Vec<_> = batch
            .iter()
            .map(|column| scope.spawn(|| column.filter(mask)))
            .collect();
        threads
            .into_iter()
            .map(|thread| thread.join().expect("a filter does not panic"))
            .collect()
    })
}

fn main() -> Result<(), Error> {
    let ages = Column::from_options(&[Some(31i64), None, Some(27), Some(45)])?;
    let names = Column::from_texts(&[
        Some("Ada"),
        Some("Grace"),
        None,
        Some("Barbara of the thirteenth"),
    ])?;
    let cities = Column::parse("list<utf8>", r#"[["London"],[],null,["Paris","Rome"]]"#)?;
    let mask = Column::from_bools(&[true, true, false, true])?;

    let kept = filter_batch(&[&ages, &names, &cities, &ages], &mask)?;
    for column in &kept {
        println!("{column:?}");
    }

    // A column may be moved to another thread, and dropped there while this one still reads the memory that they share.
    let shared = kept[1].clone();
    let nulls = thread::spawn(move || shared.null_count())
        .join()
        .expect("a count does not panic");
    println!("{nulls} of {} names are null", kept[1].len());

    // An error of one filter is returned.
    let short = Column::from_bools(&[true])?;
    println!(
        "{}",
        filter_batch(&[&names], &short)
            .err()
            .map_or(String::new(), |error| error.to_string())
    );
    Ok(())
}
