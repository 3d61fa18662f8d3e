//! Types and rows as text, read without the library: `list<i64>`, `[[1,null],null]`.

use sel::DataType;
use std::str::FromStr;

/// The value of a row.
#[derive(Clone, Debug, PartialEq)]
pub enum Value {
    Null,
    Boolean(bool),
    Signed(i128),
    Unsigned(u128),
    /// The bytes of a binary value or of a string.
    Bytes(Vec<u8>),
    /// The items of a list, or the fields of a struct value.
    Items(Vec<Value>),
}

/// Rows of a type, with the text that they were read from.
#[derive(Clone, Debug)]
pub struct Rows {
    pub dtype: DataType,
    pub values: Vec<Value>,
    pub text: String,
}

impl Rows {
    /// Reads rows of a type.
    pub fn read(dtype: &DataType, text: &str) -> Result<Rows, String> {
        let mut reader = Reader { text, rest: text };
        let values = reader.items(dtype)?;
        reader.end()?;
        Ok(Rows { dtype: dtype.clone(), values, text: text.to_string() })
    }

    pub fn null_count(&self) -> usize {
        self.values.iter().filter(|value| **value == Value::Null).count()
    }
}

/// Reads a type.
pub fn read_type(text: &str) -> Result<DataType, String> {
    let mut reader = Reader { text, rest: text };
    let dtype = reader.dtype()?;
    reader.end()?;
    Ok(dtype)
}

struct Reader<'a> {
    text: &'a str,
    rest: &'a str,
}

impl<'a> Reader<'a> {
    fn stop<T>(&self, reason: &str) -> Result<T, String> {
        Err(format!("{reason} at {:?} of {}", self.rest, self.text))
    }

    fn end(&self) -> Result<(), String> {
        if self.rest.is_empty() {
            Ok(())
        } else {
            self.stop("the text does not end")
        }
    }

    fn passes(&mut self, word: &str) -> bool {
        let rest = self.rest.strip_prefix(word);
        self.rest = rest.unwrap_or(self.rest);
        rest.is_some()
    }

    fn expects(&mut self, word: &str) -> Result<(), String> {
        if self.passes(word) {
            Ok(())
        } else {
            self.stop(&format!("no {word}"))
        }
    }

    /// Returns the longest text of such characters that comes next.
    fn word(&mut self, is_part: impl Fn(char) -> bool) -> &'a str {
        let len = self.rest.find(|letter| !is_part(letter)).unwrap_or(self.rest.len());
        let (word, rest) = self.rest.split_at(len);
        self.rest = rest;
        word
    }

    fn dtype(&mut self) -> Result<DataType, String> {
        Ok(match self.word(|letter| letter.is_ascii_alphanumeric()) {
            "null" => DataType::Null,
            "bool" => DataType::Boolean,
            "i8" => DataType::Int8,
            "i16" => DataType::Int16,
            "i32" => DataType::Int32,
            "i64" => DataType::Int64,
            "i128" => DataType::Int128,
            "u8" => DataType::UInt8,
            "u16" => DataType::UInt16,
            "u32" => DataType::UInt32,
            "u64" => DataType::UInt64,
            "u128" => DataType::UInt128,
            "binary" => DataType::Binary,
            "binview" => DataType::BinaryView,
            "utf8" => DataType::StringView,
            "list" => {
                self.expects("<")?;
                DataType::List(Box::new(self.last_child()?))
            }
            "fixed" => {
                self.expects("<")?;
                let digits = self.word(|letter| letter.is_ascii_digit());
                let list_size = digits.parse().or_else(|_| self.stop("no list size"))?;
                self.expects(",")?;
                DataType::FixedSizeList(Box::new(self.last_child()?), list_size)
            }
            "struct" => self.fields()?,
            _ => self.stop("no name of a type")?,
        })
    }

    fn last_child(&mut self) -> Result<DataType, String> {
        let child = self.dtype()?;
        self.expects(">")?;
        Ok(child)
    }

    fn fields(&mut self) -> Result<DataType, String> {
        self.expects("<")?;
        let mut fields = Vec::new();
        while !self.passes(">") {
            if !fields.is_empty() {
                self.expects(",")?;
            }
            fields.push(self.dtype()?);
        }
        Ok(DataType::Struct(fields))
    }

    fn value(&mut self, dtype: &DataType) -> Result<Value, String> {
        if self.passes("null") {
            return Ok(Value::Null);
        }
        match dtype {
            DataType::Null => self.stop("a value in a column of nulls"),
            DataType::Boolean if self.passes("true") => Ok(Value::Boolean(true)),
            DataType::Boolean => self.expects("false").map(|()| Value::Boolean(false)),
            DataType::Binary | DataType::BinaryView => self.bytes(),
            DataType::StringView => self.string(),
            DataType::List(child) => self.items(child).map(Value::Items),
            DataType::FixedSizeList(child, list_size) => match self.items(child)? {
                items if items.len() == *list_size => Ok(Value::Items(items)),
                _ => self.stop("another list size"),
            },
            DataType::Struct(fields) => self.struct_value(fields),
            DataType::Int8 => self.integer::<i8>().map(|number| Value::Signed(number.into())),
            DataType::Int16 => self.integer::<i16>().map(|number| Value::Signed(number.into())),
            DataType::Int32 => self.integer::<i32>().map(|number| Value::Signed(number.into())),
            DataType::Int64 => self.integer::<i64>().map(|number| Value::Signed(number.into())),
            DataType::Int128 => self.integer().map(Value::Signed),
            DataType::UInt8 => self.integer::<u8>().map(|number| Value::Unsigned(number.into())),
            DataType::UInt16 => self.integer::<u16>().map(|number| Value::Unsigned(number.into())),
            DataType::UInt32 => self.integer::<u32>().map(|number| Value::Unsigned(number.into())),
            DataType::UInt64 => self.integer::<u64>().map(|number| Value::Unsigned(number.into())),
            DataType::UInt128 => self.integer().map(Value::Unsigned),
            other => self.stop(&format!("a type that the tests do not know: {other}")),
        }
    }

    fn integer<T: FromStr>(&mut self) -> Result<T, String> {
        let digits = self.word(|letter| letter == '-' || letter.is_ascii_digit());
        digits.parse().or_else(|_| self.stop(&format!("no integer of this type: {digits:?}")))
    }

    fn items(&mut self, dtype: &DataType) -> Result<Vec<Value>, String> {
        self.expects("[")?;
        let mut items = Vec::new();
        while !self.passes("]") {
            if !items.is_empty() {
                self.expects(",")?;
            }
            items.push(self.value(dtype)?);
        }
        Ok(items)
    }

    fn struct_value(&mut self, fields: &[DataType]) -> Result<Value, String> {
        self.expects("(")?;
        let mut values = Vec::new();
        for (i, field) in fields.iter().enumerate() {
            if i > 0 {
                self.expects(",")?;
            }
            values.push(self.value(field)?);
        }
        self.expects(")")?;
        Ok(Value::Items(values))
    }

    fn hex_byte(&mut self) -> Result<u8, String> {
        let digits = self.rest.get(..2).and_then(|digits| u8::from_str_radix(digits, 16).ok());
        let Some(byte) = digits else { return self.stop("no byte of two hexadecimal digits") };
        self.rest = &self.rest[2..];
        Ok(byte)
    }

    fn bytes(&mut self) -> Result<Value, String> {
        self.expects("h\"")?;
        let mut bytes = Vec::new();
        while !self.passes("\"") {
            bytes.push(self.hex_byte()?);
        }
        Ok(Value::Bytes(bytes))
    }

    fn string(&mut self) -> Result<Value, String> {
        const ESCAPES: [(&str, u8); 7] =
            [("\\\"", b'"'), ("\\\\", b'\\'), ("\\n", b'\n'), ("\\r", b'\r'), ("\\t", b'\t'), ("\\b", 8), ("\\f", 12)];
        self.expects("\"")?;
        let mut bytes = Vec::new();
        while !self.passes("\"") {
            if let Some((_, byte)) = ESCAPES.iter().find(|(escape, _)| self.passes(escape)) {
                bytes.push(*byte);
            } else if self.passes("\\u00") {
                bytes.push(self.hex_byte()?);
            } else {
                match self.word(|letter| letter != '"' && letter != '\\') {
                    "" => return self.stop("no end of a string"),
                    letters => bytes.extend_from_slice(letters.as_bytes()),
                }
            }
        }
        Ok(Value::Bytes(bytes))
    }
}

#[test]
fn types_and_rows_are_read() {
    let dtype = read_type("struct<list<utf8>,fixed<2,i8>,binary,u128>").expect("a type");
    let text = r#"[(["a\n\u001f\"é",null],[-128,null],h"00ff",340282366920938463463374607431768211455),null]"#;
    let rows = Rows::read(&dtype, text).expect("rows");
    let strings = Value::Items(vec![Value::Bytes("a\n\u{1f}\"é".into()), Value::Null]);
    let pair = Value::Items(vec![Value::Signed(-128), Value::Null]);
    let first = Value::Items(vec![strings, pair, Value::Bytes(vec![0, 255]), Value::Unsigned(u128::MAX)]);
    assert_eq!((rows.values.clone(), rows.null_count()), (vec![first, Value::Null], 1));
}

#[test]
fn misspelled_types_and_rows_are_errors() {
    for text in ["", "i7", "list<i8", "list<>", "fixed<i8>", "struct<i8,>", "i8 ", "fixed<2,i8>>"] {
        assert!(read_type(text).is_err(), "{text}");
    }
    for (dtype, text) in [
        ("i8", "[1"),
        ("i8", "[1,]"),
        ("i8", "[x]"),
        ("u8", "[-1]"),
        ("i8", "[128]"),
        ("null", "[1]"),
        ("utf8", "[\"a]"),
        ("fixed<2,i8>", "[[1]]"),
        ("struct<i8>", "[()]"),
        ("binary", "[h\"0\"]"),
        ("i8", "[1] "),
    ] {
        let dtype = read_type(dtype).expect("a type");
        assert!(Rows::read(&dtype, text).is_err(), "{text}");
    }
}
