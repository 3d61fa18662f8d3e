//! The calls of the suite, each by all functions of the crate that stand for it.

use super::arguments::{booleans, indices, Arguments, Field};
use sel::{
    collect_rows, flatten, if_then_else, if_then_else_broadcast_both, if_then_else_broadcast_false,
    if_then_else_broadcast_true, propagate_dictionary, Column, DataType, Error, Selection,
};

/// What a function returns.
pub enum Outcome {
    Columns(Vec<Column>),
    Flag(bool),
    Text(String),
    Type(DataType),
}

/// How the result of a line is compared.
#[derive(Clone, Copy, PartialEq)]
pub enum Comparison {
    /// All rows.
    Rows,
    /// The rows of the child that lie in lists that are not null.
    Items,
    /// The rows of a field at struct values that are not null.
    FieldRows,
    Flag,
    Type,
}

/// A way to make a call; `None` if it is not for these arguments.
type Way = fn(&Arguments, &[Column]) -> Option<Result<Outcome, Error>>;

/// A call of the suite.
pub struct Call {
    pub name: &'static str,
    pub fields: &'static [Field],
    pub comparison: Comparison,
    /// The types of the columns in the result.
    pub result_types: fn(&Arguments) -> Option<Vec<DataType>>,
    pub ways: &'static [(&'static str, Way)],
}

fn one(column: Result<Column, Error>) -> Option<Result<Outcome, Error>> {
    Some(column.map(|column| Outcome::Columns(vec![column])))
}

fn flag(flag: Result<bool, Error>) -> Option<Result<Outcome, Error>> {
    Some(flag.map(Outcome::Flag))
}

// ---- the types of results ----

fn of_line(given: &Arguments) -> Option<Vec<DataType>> {
    given.dtype.clone().map(|dtype| vec![dtype])
}

fn of_first_column(given: &Arguments) -> Option<Vec<DataType>> {
    given.columns.first().map(|rows| vec![rows.dtype.clone()])
}

fn of_item(given: &Arguments) -> Option<Vec<DataType>> {
    match given.dtype.clone()? {
        DataType::List(child) | DataType::FixedSizeList(child, _) => Some(vec![*child]),
        _ => None,
    }
}

fn of_field(given: &Arguments) -> Option<Vec<DataType>> {
    match given.dtype.clone()? {
        DataType::Struct(fields) => fields.get(given.numbers[0]).map(|field| vec![field.clone()]),
        _ => None,
    }
}

fn of_lists(given: &Arguments) -> Option<Vec<DataType>> {
    given.dtype.clone().map(|child| vec![DataType::List(Box::new(child))])
}

fn of_fixed_size_lists(given: &Arguments) -> Option<Vec<DataType>> {
    given.dtype.clone().map(|child| vec![DataType::FixedSizeList(Box::new(child), given.numbers[0])])
}

fn of_struct_values(given: &Arguments) -> Option<Vec<DataType>> {
    Some(vec![DataType::Struct(given.columns.iter().map(|rows| rows.dtype.clone()).collect())])
}

fn of_dictionary(_: &Arguments) -> Option<Vec<DataType>> {
    Some(vec![DataType::UInt32, DataType::StringView])
}

/// The type that a text names, which may have spaces between its parts.
fn of_text(given: &Arguments) -> Option<Vec<DataType>> {
    super::notation::read_type(&given.texts[0].replace(' ', "")).ok().map(|dtype| vec![dtype])
}

fn none(_: &Arguments) -> Option<Vec<DataType>> {
    None
}

// ---- the functions ----

fn print(_: &Arguments, columns: &[Column]) -> Option<Result<Outcome, Error>> {
    Some(columns[0].to_text().map(Outcome::Text))
}

fn display(_: &Arguments, columns: &[Column]) -> Option<Result<Outcome, Error>> {
    Some(Ok(Outcome::Text(columns[0].to_string())))
}

fn read_back(given: &Arguments, _: &[Column]) -> Option<Result<Outcome, Error>> {
    one(Column::parse(&given.columns[0].dtype.to_string(), &given.columns[0].text))
}

/// Filters by packed bits, if the mask is one without nulls.
fn filter_bits(given: &Arguments, columns: &[Column]) -> Option<Result<Outcome, Error>> {
    if given.columns[1].dtype != DataType::Boolean {
        return None;
    }
    let mask = booleans(&given.columns[1]).ok()?;
    let byte = |bits: &[bool]| bits.iter().rev().fold(0xff, |byte, bit| byte << 1 | u8::from(*bit));
    let packed: Vec<u8> = mask.chunks(8).map(byte).collect();
    one(columns[0].filter_bits(&packed, mask.len()))
}

/// Filters by a mask that is prepared.
fn filter_selection(columns: &[Column]) -> Result<Column, Error> {
    columns[0].filter_selection(&Selection::new(&columns[1])?)
}

/// Takes rows at indices that are no column, if they are `u32`.
fn take_rows(given: &Arguments, columns: &[Column]) -> Option<Result<Outcome, Error>> {
    if given.columns[1].dtype != DataType::UInt32 {
        return None;
    }
    one(columns[0].take_rows(&indices(&given.columns[1]).ok()?))
}

fn new_list(given: &Arguments, columns: &[Column]) -> Option<Result<Outcome, Error>> {
    one(Column::new_list(&given.offsets, columns[0].clone(), given.validity.as_deref()))
}

fn new_fixed_size_list(given: &Arguments, columns: &[Column]) -> Option<Result<Outcome, Error>> {
    let (list_size, len) = (given.numbers[0], given.numbers[1]);
    one(Column::new_fixed_size_list(list_size, len, columns[0].clone(), given.validity.as_deref()))
}

fn new_struct(given: &Arguments, columns: &[Column]) -> Option<Result<Outcome, Error>> {
    one(Column::new_struct(given.numbers[0], columns.to_vec(), given.validity.as_deref()))
}

fn flattened(given: &Arguments, columns: &[Column]) -> Option<Result<Outcome, Error>> {
    one(flatten(&columns.iter().collect::<Vec<_>>(), &given.widths, given.numbers[0]))
}

fn collected(given: &Arguments, columns: &[Column]) -> Option<Result<Outcome, Error>> {
    one(collect_rows(&columns.iter().collect::<Vec<_>>(), &given.picks))
}

fn dictionary(_: &Arguments, columns: &[Column]) -> Option<Result<Outcome, Error>> {
    Some(propagate_dictionary(&columns[0], &columns[1]).map(|(keys, values)| Outcome::Columns(vec![keys, values])))
}

/// Compares by `==`, if the types are the same.
fn equal(given: &Arguments, columns: &[Column]) -> Option<Result<Outcome, Error>> {
    (given.columns[0].dtype == given.columns[1].dtype).then(|| Ok(Outcome::Flag(columns[0] == columns[1])))
}

fn parsed_type(given: &Arguments, _: &[Column]) -> Option<Result<Outcome, Error>> {
    Some(given.texts[0].parse().map(Outcome::Type))
}

use Comparison::{FieldRows, Items, Rows as AllRows};
use Field::{
    Columns, Flag, Index, Indices, Mask, Number, Offsets, Picks, Positions, Rows, Strings, Text, Type, Validity, Widths,
};

pub const CALLS: [Call; 23] = [
    Call {
        name: "rows",
        fields: &[Type, Rows],
        comparison: AllRows,
        result_types: of_line,
        ways: &[
            ("to_text", print),
            ("to_string", display),
            ("parse", read_back),
            ("try_clone", |_, columns| one(columns[0].try_clone())),
        ],
    },
    Call {
        name: "filter",
        fields: &[Type, Rows, Mask],
        comparison: AllRows,
        result_types: of_line,
        ways: &[
            ("filter", |_, columns| one(columns[0].filter(&columns[1]))),
            ("filter_bits", filter_bits),
            ("filter_selection", |_, columns| one(filter_selection(columns))),
        ],
    },
    Call {
        name: "take",
        fields: &[Type, Rows, Indices],
        comparison: AllRows,
        result_types: of_line,
        ways: &[("take", |_, columns| one(columns[0].take(&columns[1]))), ("take_rows", take_rows)],
    },
    Call {
        name: "if_then_else",
        fields: &[Type, Mask, Rows, Rows],
        comparison: AllRows,
        result_types: of_line,
        ways: &[("if_then_else", |_, columns| one(if_then_else(&columns[0], &columns[1], &columns[2])))],
    },
    Call {
        name: "if_then_else_broadcast_true",
        fields: &[Type, Mask, Rows, Rows],
        comparison: AllRows,
        result_types: of_line,
        ways: &[("if_then_else_broadcast_true", |_, columns| {
            one(if_then_else_broadcast_true(&columns[0], &columns[1], &columns[2]))
        })],
    },
    Call {
        name: "if_then_else_broadcast_false",
        fields: &[Type, Mask, Rows, Rows],
        comparison: AllRows,
        result_types: of_line,
        ways: &[("if_then_else_broadcast_false", |_, columns| {
            one(if_then_else_broadcast_false(&columns[0], &columns[1], &columns[2]))
        })],
    },
    Call {
        name: "if_then_else_broadcast_both",
        fields: &[Type, Mask, Rows, Rows],
        comparison: AllRows,
        result_types: of_line,
        ways: &[("if_then_else_broadcast_both", |_, columns| {
            one(if_then_else_broadcast_both(&columns[0], &columns[1], &columns[2]))
        })],
    },
    Call {
        name: "list_get",
        fields: &[Type, Rows, Index],
        comparison: AllRows,
        result_types: of_item,
        ways: &[("sublist_get", |given, columns| one(columns[0].list_get(given.index)))],
    },
    Call {
        name: "index_is_oob",
        fields: &[Type, Rows, Index],
        comparison: Comparison::Flag,
        result_types: none,
        ways: &[("index_is_oob", |given, columns| flag(columns[0].list_index_is_oob(given.index)))],
    },
    Call {
        name: "fixed_size_list_get",
        fields: &[Type, Rows, Index, Flag],
        comparison: AllRows,
        result_types: of_item,
        ways: &[("fixed_get", |given, columns| one(columns[0].fixed_size_list_get(given.index, given.flag)))],
    },
    Call {
        name: "fixed_size_list_get_each",
        fields: &[Type, Rows, Positions, Flag],
        comparison: AllRows,
        result_types: of_item,
        ways: &[("fixed_get_each", |given, columns| one(columns[0].fixed_size_list_get_each(&columns[1], given.flag)))],
    },
    Call {
        name: "unit_list",
        fields: &[Type, Rows],
        comparison: AllRows,
        result_types: of_lists,
        ways: &[("unit_list", |_, columns| one(columns[0].unit_list()))],
    },
    Call {
        name: "reverse",
        fields: &[Type, Rows],
        comparison: AllRows,
        result_types: of_line,
        ways: &[("reverse", |_, columns| one(columns[0].reverse()))],
    },
    Call {
        name: "slice",
        fields: &[Type, Rows, Number, Number],
        comparison: AllRows,
        result_types: of_line,
        ways: &[("slice", |given, columns| one(columns[0].slice(given.numbers[0], given.numbers[1])))],
    },
    Call {
        name: "child",
        fields: &[Type, Rows],
        comparison: Items,
        result_types: of_item,
        ways: &[("child", |_, columns| one(columns[0].child()))],
    },
    Call {
        name: "field",
        fields: &[Type, Rows, Number],
        comparison: FieldRows,
        result_types: of_field,
        ways: &[("field", |given, columns| one(columns[0].field(given.numbers[0])))],
    },
    Call {
        name: "list_new",
        fields: &[Type, Rows, Offsets, Validity],
        comparison: AllRows,
        result_types: of_lists,
        ways: &[("new_list", new_list)],
    },
    Call {
        name: "fixed_size_list_new",
        fields: &[Type, Rows, Number, Number, Validity],
        comparison: AllRows,
        result_types: of_fixed_size_lists,
        ways: &[("new_fixed_size_list", new_fixed_size_list)],
    },
    Call {
        name: "struct_new",
        fields: &[Columns, Number, Validity],
        comparison: AllRows,
        result_types: of_struct_values,
        ways: &[("new_struct", new_struct)],
    },
    Call {
        name: "flatten",
        fields: &[Columns, Widths, Number],
        comparison: AllRows,
        result_types: of_first_column,
        ways: &[("flatten", flattened)],
    },
    Call {
        name: "collect_rows",
        fields: &[Columns, Picks],
        comparison: AllRows,
        result_types: of_first_column,
        ways: &[("collect_rows", collected)],
    },
    Call {
        name: "dictionary",
        fields: &[Indices, Strings],
        comparison: AllRows,
        result_types: of_dictionary,
        ways: &[("propagate_dictionary", dictionary)],
    },
    Call {
        name: "equal",
        fields: &[Type, Rows, Type, Rows],
        comparison: Comparison::Flag,
        result_types: none,
        ways: &[
            ("equals", |_, columns| flag(columns[0].equals(&columns[1]))),
            ("equals, turned", |_, columns| flag(columns[1].equals(&columns[0]))),
            ("==", equal),
        ],
    },
];

/// The calls whose arguments are texts and not columns.
pub const TEXT_CALLS: [Call; 2] = [
    Call {
        name: "parse",
        fields: &[Text, Text],
        comparison: AllRows,
        result_types: of_text,
        ways: &[("parse", |given, _| one(Column::parse(&given.texts[0], &given.texts[1])))],
    },
    Call {
        name: "parse_type",
        fields: &[Text],
        comparison: Comparison::Type,
        result_types: none,
        ways: &[("parse of a type", parsed_type)],
    },
];

/// Returns the call of a name. The crate lacks none of the calls of `tests/README.md`.
pub fn call_of(name: &str) -> Result<&'static Call, String> {
    static ALL: [&[Call]; 2] = [&CALLS, &TEXT_CALLS];
    ALL.into_iter().flatten().find(|call| call.name == name).ok_or(format!("no call of the suite: {name:?}"))
}
