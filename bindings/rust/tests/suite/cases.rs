//! Lines, run by all functions that stand for their call and in all layouts of their columns.

use super::arguments::{error, flag, Arguments};
use super::calls::{call_of, Call, Comparison, Outcome};
use super::check::{check_column, check_field, check_items, check_made};
use super::layout::{build, OFFSETS};
use super::lines::Line;
use super::notation::{read_type, Rows};
use sel::{Column, DataType, Error};

/// The result of a line.
enum Expected {
    Error(u32, Option<usize>),
    Rows(Vec<Rows>),
    Flag(bool),
    /// A type, and the text that it is printed as.
    Type(DataType, String),
}

impl Expected {
    fn read(call: &Call, given: &Arguments, fields: &[&str]) -> Result<Expected, String> {
        let types = (call.result_types)(given);
        if let Some(text) = fields.first().and_then(|text| text.strip_prefix("error ")) {
            let (status, position) = error(text)?;
            return match fields.len() {
                1 => Ok(Expected::Error(status, position)),
                count => Err(format!("{count} results in place of an error")),
            };
        }
        let count = types.as_ref().map_or(1, Vec::len);
        if fields.len() != count {
            return Err(format!("{} results in place of {count}", fields.len()));
        }
        match call.comparison {
            Comparison::Flag => flag(fields[0]).map(Expected::Flag),
            Comparison::Type => Ok(Expected::Type(read_type(fields[0])?, fields[0].to_string())),
            _ => {
                let types = types.ok_or("these arguments have no rows for a result")?;
                types
                    .iter()
                    .zip(fields)
                    .map(|(dtype, text)| Rows::read(dtype, text))
                    .collect::<Result<_, _>>()
                    .map(Expected::Rows)
            }
        }
    }

    fn check_error(&self, error: Error) -> Result<(), String> {
        let position = match error {
            Error::Text { at, .. } => Some(at),
            _ => None,
        };
        match self {
            Expected::Error(status, at) if *status == error.status() && *at == position => Ok(()),
            Expected::Error(status, at) => Err(format!("expected the error {status} {at:?}, got {error:?}")),
            _ => Err(format!("the error {error:?}")),
        }
    }

    fn check(&self, comparison: Comparison, columns: &[Column], outcome: Outcome) -> Result<(), String> {
        match (self, outcome) {
            (Expected::Rows(rows), Outcome::Columns(made)) => {
                made.iter().zip(rows).try_for_each(|(column, rows)| match comparison {
                    Comparison::Items => check_items(&columns[0], column, rows),
                    Comparison::FieldRows => check_field(&columns[0], column, rows),
                    _ => check_made(column, rows),
                })
            }
            (Expected::Rows(rows), Outcome::Text(text)) if text == rows[0].text => Ok(()),
            (Expected::Rows(rows), Outcome::Text(text)) => Err(format!("expected {}, got {text}", rows[0].text)),
            (Expected::Flag(expected), Outcome::Flag(flag)) if flag == *expected => Ok(()),
            (Expected::Type(expected, text), Outcome::Type(dtype)) if dtype == *expected => {
                if dtype.to_string() == *text {
                    Ok(())
                } else {
                    Err(format!("the type is printed as {dtype}"))
                }
            }
            (Expected::Type(_, text), Outcome::Type(dtype)) => Err(format!("expected {text}, got {dtype}")),
            (Expected::Error(status, _), Outcome::Columns(columns)) => {
                Err(format!("expected the error {status}, got {columns:?}"))
            }
            (Expected::Error(status, _), _) => Err(format!("expected the error {status}, got a result")),
            _ => Err("another result".to_string()),
        }
    }
}

/// Returns the offsets of the columns in each case: the same for all of them, or one for each.
fn cases(columns: usize) -> Vec<Vec<usize>> {
    let same = OFFSETS.iter().map(|offset| vec![*offset; columns]);
    let mixed =
        (0..OFFSETS.len()).map(|place| (0..columns).map(|column| OFFSETS[(place + 1 + 2 * column) % 6]).collect());
    match columns {
        0 => vec![vec![]],
        1 => same.collect(),
        _ => same.chain(mixed).collect(),
    }
}

/// Calls a function with columns in one layout; returns whether it is for these arguments.
fn run_case(
    call: &Call,
    way: usize,
    given: &Arguments,
    expected: &Expected,
    offsets: &[usize],
) -> Result<bool, String> {
    let built = given.columns.iter().zip(offsets).map(|(rows, offset)| build(*offset, &rows.dtype, &rows.values));
    let columns = built.collect::<Result<Vec<_>, _>>().map_err(|error| format!("an argument: {error}"))?;
    let (_, function) = call.ways[way];
    let Some(result) = function(given, &columns) else { return Ok(false) };
    match result {
        Ok(outcome) => expected.check(call.comparison, &columns, outcome)?,
        Err(error) => expected.check_error(error)?,
    }
    for (i, (column, rows)) in columns.iter().zip(&given.columns).enumerate() {
        check_column(column, rows).map_err(|error| format!("argument {} after the call: {error}", i + 1))?;
    }
    Ok(true)
}

/// Runs a line; returns how many calls it made.
pub fn run_line(line: &Line) -> Result<usize, String> {
    let fields = line.fields();
    let call = call_of(fields[0])?;
    let count = call.fields.len();
    if fields.len() < count + 2 {
        return Err(format!("{} fields in place of {}", fields.len(), count + 2));
    }
    let given = Arguments::read(call.fields, &fields[1..=count])?;
    let expected = Expected::read(call, &given, &fields[count + 1..])?;
    let mut calls = 0;
    for (way, (name, _)) in call.ways.iter().enumerate() {
        for offsets in cases(given.columns.len()) {
            let is_called = run_case(call, way, &given, &expected, &offsets);
            calls += usize::from(is_called.map_err(|error| format!("{name} at the offsets {offsets:?}: {error}"))?);
        }
    }
    if calls == 0 {
        Err("no function is for these arguments".to_string())
    } else {
        Ok(calls)
    }
}
