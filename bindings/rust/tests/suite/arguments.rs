//! The arguments and results of a line.

use super::notation::{read_type, Rows, Value};
use sel::DataType;

/// What a field of a line is.
#[derive(Clone, Copy)]
pub enum Field {
    /// A type, which the following rows have.
    Type,
    /// Rows of the last type.
    Rows,
    /// Rows of booleans.
    Mask,
    /// Rows of `u32`.
    Indices,
    /// Rows of `i64`.
    Positions,
    /// Rows of strings.
    Strings,
    /// Columns, each a type and rows.
    Columns,
    /// A length, an offset, or another unsigned integer.
    Number,
    /// An index into lists.
    Index,
    /// `true` or `false`.
    Flag,
    /// Offsets, as rows of `i64`.
    Offsets,
    /// A validity, as rows of booleans, or nothing.
    Validity,
    /// List sizes of columns.
    Widths,
    /// References to rows of columns.
    Picks,
    /// A text that is an argument itself.
    Text,
}

/// The arguments of a line.
#[derive(Default)]
pub struct Arguments {
    pub dtype: Option<DataType>,
    pub columns: Vec<Rows>,
    pub numbers: Vec<usize>,
    pub index: i64,
    pub flag: bool,
    pub offsets: Vec<i64>,
    pub validity: Option<Vec<bool>>,
    pub widths: Vec<usize>,
    pub picks: Vec<Option<(u32, u32)>>,
    pub texts: Vec<String>,
}

fn number<T: std::str::FromStr>(text: &str) -> Result<T, String> {
    text.parse().map_err(|_| format!("no number: {text:?}"))
}

pub fn flag(text: &str) -> Result<bool, String> {
    text.parse().map_err(|_| format!("neither true nor false: {text:?}"))
}

/// Returns the parts of a text, of which an empty one has none.
fn parts<'a>(text: &'a str, separator: &'a str) -> impl Iterator<Item = &'a str> {
    text.split(separator).filter(move |_| !text.is_empty())
}

/// Reads picks: `COLUMN:ROW`, `_` for a null row, and runs `COLUMN:ROW+COUNT`, `_+COUNT`.
fn picks(text: &str) -> Result<Vec<Option<(u32, u32)>>, String> {
    let mut picks = Vec::new();
    for part in parts(text, " ") {
        let (first, count) = part.split_once('+').unwrap_or((part, "1"));
        let count = number::<u32>(count)?;
        if first == "_" {
            picks.extend((0..count).map(|_| None));
            continue;
        }
        let (source, row) = first.split_once(':').ok_or(format!("no pick: {part:?}"))?;
        let (source, row) = (number(source)?, number::<u32>(row)?);
        picks.extend((0..count).map(|i| Some((source, row + i))));
    }
    Ok(picks)
}

impl Arguments {
    /// Reads the arguments of these fields.
    pub fn read(fields: &[Field], texts: &[&str]) -> Result<Arguments, String> {
        let mut arguments = Arguments::default();
        for (field, text) in fields.iter().zip(texts) {
            arguments.add(*field, text)?;
        }
        Ok(arguments)
    }

    fn add(&mut self, field: Field, text: &str) -> Result<(), String> {
        match field {
            Field::Type => self.dtype = Some(read_type(text)?),
            Field::Rows => {
                let dtype = self.dtype.clone().ok_or("rows without a type")?;
                self.add_rows(&dtype, text)?;
            }
            Field::Mask => self.add_rows(&DataType::Boolean, text)?,
            Field::Indices => self.add_rows(&DataType::UInt32, text)?,
            Field::Positions => self.add_rows(&DataType::Int64, text)?,
            Field::Strings => self.add_rows(&DataType::StringView, text)?,
            Field::Columns => parts(text, " ; ").try_for_each(|part| self.add_column(part))?,
            Field::Number => self.numbers.push(number(text)?),
            Field::Index => self.index = number(text)?,
            Field::Flag => self.flag = flag(text)?,
            Field::Offsets => self.offsets = offsets(text)?,
            Field::Validity if text.is_empty() => self.validity = None,
            Field::Validity => self.validity = Some(booleans(&Rows::read(&DataType::Boolean, text)?)?),
            Field::Widths => self.widths = parts(text, " ").map(number).collect::<Result<_, _>>()?,
            Field::Picks => self.picks = picks(text)?,
            Field::Text => self.texts.push(text.to_string()),
        }
        Ok(())
    }

    /// Adds a column of a type, or of the one that the text names itself.
    fn add_rows(&mut self, dtype: &DataType, text: &str) -> Result<(), String> {
        if !text.starts_with('[') {
            return self.add_column(text);
        }
        self.columns.push(Rows::read(dtype, text)?);
        Ok(())
    }

    fn add_column(&mut self, text: &str) -> Result<(), String> {
        let (dtype, rows) = text.split_once(' ').ok_or(format!("no column: {text:?}"))?;
        self.columns.push(Rows::read(&read_type(dtype)?, rows)?);
        Ok(())
    }
}

fn offsets(text: &str) -> Result<Vec<i64>, String> {
    let rows = Rows::read(&DataType::Int64, text)?;
    let offset = |value: &Value| match value {
        Value::Signed(number) => i64::try_from(*number).map_err(|error| error.to_string()),
        other => Err(format!("no offset: {other:?}")),
    };
    rows.values.iter().map(offset).collect()
}

/// Returns booleans, none of which may be null.
pub fn booleans(rows: &Rows) -> Result<Vec<bool>, String> {
    let boolean = |value: &Value| match value {
        Value::Boolean(value) => Ok(*value),
        other => Err(format!("no boolean: {other:?}")),
    };
    rows.values.iter().map(boolean).collect()
}

/// Returns indices, `None` where they are null.
pub fn indices(rows: &Rows) -> Result<Vec<Option<u32>>, String> {
    let index = |value: &Value| match value {
        Value::Null => Ok(None),
        Value::Unsigned(number) => u32::try_from(*number).map(Some).map_err(|error| error.to_string()),
        other => Err(format!("no index: {other:?}")),
    };
    rows.values.iter().map(index).collect()
}

/// The names of errors in `tests/README.md`, with their statuses.
const ERRORS: [(&str, u32); 24] = [
    ("out_of_memory", 1),
    ("unsupported_type", 3),
    ("type_mismatch", 4),
    ("length_mismatch", 5),
    ("index_out_of_bounds", 6),
    ("list_index_out_of_bounds", 7),
    ("row_limit", 8),
    ("offset_limit", 9),
    ("buffer_limit", 10),
    ("view_limit", 11),
    ("no_offsets", 16),
    ("negative_offset", 17),
    ("decreasing_offset", 18),
    ("too_many_rows", 19),
    ("too_many_buffers", 20),
    ("list_size", 21),
    ("offset_range", 22),
    ("child_length", 23),
    ("field_length", 24),
    ("validity_length", 25),
    ("type_syntax", 32),
    ("row_syntax", 33),
    ("row_type_mismatch", 34),
    ("text_limit", 35),
];

/// Reads `error NAME` or `error NAME POSITION`; returns the status and the position.
pub fn error(text: &str) -> Result<(u32, Option<usize>), String> {
    let (name, position) = match text.split_once(' ') {
        Some((name, position)) => (name, Some(number(position)?)),
        None => (text, None),
    };
    let (_, status) =
        ERRORS.iter().find(|(other, _)| *other == name).ok_or(format!("no name of an error: {name:?}"))?;
    match (matches!(status, 32..=34), position) {
        (true, None) | (false, Some(_)) => Err(format!("an error with a wrong position: {text:?}")),
        _ => Ok((*status, position)),
    }
}
