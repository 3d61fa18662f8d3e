//! Runs the conformance suite of the repository, `tests/rows/*.txt`, by the functions of the crate.

mod suite;

use suite::cases::run_line;
use suite::lines::{folder, read_all, read_file, Line};

/// How many failures are shown.
const MOST_SHOWN: usize = 20;

#[test]
fn each_line_of_the_suite_has_its_result() {
    let lines = read_all(&folder()).expect("the lines of the suite");
    let (mut calls, mut failed) = (0, Vec::new());
    for line in &lines {
        match run_line(line) {
            Ok(count) => calls += count,
            Err(error) => failed.push(format!("{}: {}\n    {error}", line.place, line.text)),
        }
    }
    let shown = failed.iter().take(MOST_SHOWN).cloned().collect::<Vec<_>>().join("\n");
    assert!(failed.is_empty(), "{} of {} lines failed:\n{shown}", failed.len(), lines.len());
    assert!(!lines.is_empty(), "no line was read from {}", folder().display());
    println!("{} lines, {calls} calls", lines.len());
}

#[test]
fn each_wrong_line_of_the_suite_fails() {
    let lines = read_file(&folder(), &folder().join("wrong.txt")).expect("the wrong lines of the suite");
    let passed: Vec<&Line> = lines.iter().filter(|line| run_line(line).is_ok()).collect();
    assert!(passed.is_empty(), "{passed:#?}");
    assert!(!lines.is_empty(), "no line was read");
}

fn run(text: &str) -> Result<usize, String> {
    run_line(&Line { place: "here".to_string(), text: text.to_string() })
}

#[test]
fn right_lines_pass_in_all_layouts() {
    let lines = [
        ("rows | list<utf8> | [[\"a\",null],null] | [[\"a\",null],null]", 24),
        ("filter | i64 | [1,null,3] | [true,true,false] | [1,null]", 36),
        ("filter | i64 | [1,null,3] | [true,null,false] | [1]", 24),
        ("filter | i64 | [1] | i8 [1] | error unsupported_type", 24),
        ("take | fixed<2,i8> | [[1,2],null] | [1,null,0] | [null,null,[1,2]]", 24),
        ("child | list<i8> | [[1],null,[2,3]] | [1,2,3]", 6),
        ("field | struct<i8,utf8> | [(1,\"a\"),null] | 1 | [\"a\",null]", 6),
        ("list_new | i8 | [1,2] | [0,1,2] | [true,false] | [[1],null]", 6),
        ("list_new | i8 | [1,2] | [0,1,2] |  | [[1],[2]]", 6),
        ("struct_new | i8 [1] ; utf8 [\"a\"] | 1 |  | [(1,\"a\")]", 12),
        ("struct_new |  | 2 |  | [(),()]", 1),
        ("flatten | i64 [1,2] ; i64 [3] | 1 1 | 2 | [1,3,2,3]", 12),
        ("collect_rows | i64 [1,2,3] ; i64 [4] | 0:1+2 _ 1:0 _+2 | [2,3,null,4,null,null]", 12),
        ("dictionary | [0,1,null] | [null,\"a\"] | [null,0,null] | [\"a\"]", 12),
        ("equal | i8 | [1] | i64 | [1] | true", 24),
        ("equal | i8 | [1] | i8 | [2] | false", 36),
        ("parse | list< i8 > | [ [1], null ] | [[1],null]", 1),
        ("parse | i8 | [300] | error row_type_mismatch 1", 1),
        ("parse_type | list<i7> | error type_syntax 6", 1),
        ("parse_type | struct< i8 , bool > | struct<i8,bool>", 1),
    ];
    for (text, calls) in lines {
        assert_eq!(run(text), Ok(calls), "{text}");
    }
}

#[test]
fn wrong_lines_fail() {
    let lines = [
        ("filter | i64 | [1,2] | [true,false] | [2]", "the rows"),
        ("filter | i64 | [1,2] | [true,false] | error length_mismatch", "expected the error 5"),
        ("filter | i64 | [1,2] | [true] | [1]", "the error WrongArgument(5)"),
        ("filter | i64 | [1,2] | [true] | error unsupported_type", "got WrongArgument(5)"),
        ("filter | i64 | [1,2] | [true,true] | [1,2] | [1,2]", "2 results"),
        ("filter | i64 | [1,2] | [true,true]", "4 fields"),
        ("filter | i64 | [1,2] | [true,true] | error mistake", "no name of an error"),
        ("filter | i65 | [1,2] | [true,true] | [1,2]", "no name of a type"),
        ("sieve | i64 | [1,2] | [true,true] | [1,2]", "no call"),
        ("child | list<i8> | [[1],null,[2,3]] | [1,2]", "the items"),
        ("field | struct<i8> | [(1),null] | 0 | [2,null]", "row 0"),
        ("field | struct<i8> | [(1),null] | 0 | [1,2]", "row 1"),
        ("equal | i8 | [1] | i64 | [1] | false", "another result"),
        ("parse | i8 | [300] | error row_type_mismatch 2", "expected the error 34"),
        ("parse_type | i8 | i16", "expected i16"),
        ("parse_type | fixed<2,i8> | fixed<02,i8>", "the type is printed as fixed<2,i8>"),
        ("index_is_oob | list<i8> | [[1]] | 0 | true", "another result"),
        ("index_is_oob | list<i8> | [[1]] | 0 | yes", "neither true nor false"),
        ("collect_rows | i64 [1] | 0.0 | [1]", "no pick"),
    ];
    for (text, reason) in lines {
        let error = run(text).expect_err(text);
        assert!(error.contains(reason), "{text}: {error}");
    }
}
