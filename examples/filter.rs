//! Filters and takes rows of columns of integers and of strings.

use sel::{Column, Error};

fn main() -> Result<(), Error> {
    let ages = Column::from_options(&[Some(31i64), None, Some(27), Some(45)])?;
    let mask = Column::from_bools(&[true, true, false, true])?;
    let rows = Column::from_values(&[3u32, 0])?;
    let kept = ages.filter(&mask)?;
    let taken = ages.take(&rows)?;
    assert_eq!(kept.to_options::<i64>()?, [Some(31), None, Some(45)]);
    assert_eq!(taken.to_options::<i64>()?, [Some(45), Some(31)]);

    let names = Column::from_texts(&[
        Some("Ada"),
        Some("Grace"),
        None,
        Some("Barbara of the thirteenth"),
    ])?;
    println!("{:?}", names.filter(&mask)?.to_texts()?);

    // A mask of another length is an error.
    let short = Column::from_bools(&[true])?;
    println!(
        "{}",
        ages.filter(&short)
            .err()
            .map_or(String::new(), |error| error.to_string())
    );
    Ok(())
}
