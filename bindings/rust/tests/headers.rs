//! Compares the declarations of `src/raw.rs` and the table of the crate's documentation with the C headers.

use sel::{Error, Kind};
use std::collections::BTreeMap;

const HEADERS: [&str; 2] = [include_str!("../../../include/sel.h"), include_str!("../../../include/sel_arrow.h")];
const RAW: &str = include_str!("../src/raw.rs");
const DOCUMENTATION: &str = include_str!("../src/lib.rs");

/// The types of a function's parameters and of what it returns, in the notation of Rust.
type Signature = (Vec<String>, Option<String>);

/// Returns C source without its comments and preprocessor lines.
fn without_comments(source: &str) -> String {
    let parts = source.split("/*").enumerate();
    let code: String =
        parts.map(|(i, part)| if i == 0 { part } else { part.split_once("*/").map_or("", |(_, code)| code) }).collect();
    code.lines().filter(|line| !line.trim_start().starts_with('#')).collect::<Vec<_>>().join("\n")
}

/// Returns the type in Rust of a C parameter or result, without the name.
fn rust_type(c_type: &str) -> String {
    let words: Vec<&str> = c_type.split_whitespace().filter(|word| *word != "struct").collect();
    let is_constant = words.contains(&"const");
    let name = words.into_iter().find(|word| *word != "const").expect("a type has a name");
    let name = match name {
        "size_t" => "usize",
        "bool" => "bool",
        "char" => "c_char",
        "void" => "c_void",
        "sel_column" => "Handle",
        "sel_type" => "TypeHandle",
        "sel_selection" => "SelectionHandle",
        "sel_stream" => "StreamHandle",
        "sel_next_batch" => "NextBatch",
        "sel_free_context" => "FreeContext",
        "sel_status" | "sel_type_id" => "u32",
        "sel_int128" => "RawInt128",
        "sel_view" => "View",
        "sel_bytes_ref" => "RawBytesRef",
        "sel_row_ref" => "RawRowRef",
        "uint8_t" => "u8",
        "uint16_t" => "u16",
        "uint32_t" => "u32",
        "uint64_t" => "u64",
        "int8_t" => "i8",
        "int16_t" => "i16",
        "int32_t" => "i32",
        "int64_t" => "i64",
        other => other,
    };
    name.to_string() + if is_constant { " const" } else { "" }
}

/// Returns the type in Rust of a C declarator such as `const uint8_t *bits`, `const void **values` or `const char *`.
fn declared_type(declarator: &str) -> String {
    let Some((pointee, rest)) = declarator.split_once('*') else {
        return rust_type(declarator);
    };
    let (pointee, outer) = (rust_type(pointee), "*mut ".repeat(rest.matches('*').count()));
    match pointee.strip_suffix(" const") {
        Some(constant) => format!("{outer}*const {constant}"),
        None => format!("{outer}*mut {pointee}"),
    }
}

/// Returns the signature of a C function with this result and the parameters before the last parenthesis.
fn signature_of_header(result: &str, parameters: &str) -> Signature {
    let parameters = parameters.trim_end().strip_suffix(')').expect("a function's declaration ends with a parenthesis");
    let parameters = parameters.split(',').filter(|parameter| *parameter != "void");
    let result = result.trim();
    (parameters.map(declared_type).collect(), (result != "void").then(|| declared_type(result)))
}

/// Returns the functions that the headers declare.
fn functions_of_headers() -> BTreeMap<String, Signature> {
    let mut functions = BTreeMap::new();
    for statement in HEADERS.map(without_comments).join("\n").split([';', '{', '}']) {
        let Some((before, parameters)) = statement.split_once('(') else { continue };
        if before.trim_start().starts_with("typedef") {
            continue;
        }
        let Some(start) = before.rfind("sel_") else { continue };
        functions.insert(before[start..].to_string(), signature_of_header(&before[..start], parameters));
    }
    functions
}

/// Returns the signature of a type of functions that the headers declare.
fn function_type_of_header(name: &str) -> Signature {
    let source = HEADERS.map(without_comments).join("\n");
    let parts = source.split(';').find_map(|statement| statement.split_once(&format!("(*{name})(")));
    let (before, parameters) = parts.expect("a header has the type");
    let result = before.trim().strip_prefix("typedef ").expect("a type is declared by typedef");
    signature_of_header(result, parameters)
}

/// Returns the functions that `raw.rs` declares.
fn functions_of_raw() -> BTreeMap<String, Signature> {
    let (_, block) = RAW.split_once("extern \"C\" {").expect("raw.rs has a block of declarations");
    let mut functions = BTreeMap::new();
    for statement in block.split(';') {
        let Some((_, declaration)) = statement.split_once("pub fn ") else { continue };
        let (name, rest) = declaration.split_once('(').expect("parameters follow the name");
        let (parameters, result) = rest.rsplit_once(')').expect("parameters end with a parenthesis");
        let types = parameters.split(',').filter_map(|parameter| parameter.split_once(':'));
        let result = result.trim().strip_prefix("-> ").map(str::to_string);
        functions.insert(name.to_string(), (types.map(|(_, one)| one.trim().to_string()).collect(), result));
    }
    functions
}

/// Returns the signature of a type of functions that `raw.rs` declares.
fn function_type_of_raw(name: &str) -> Signature {
    let head = format!("pub type {name} = unsafe extern \"C\" fn(");
    let (_, rest) = RAW.split_once(&head).expect("raw.rs has the type");
    let (declaration, _) = rest.split_once(';').expect("a declaration ends with a semicolon");
    let (parameters, result) = declaration.rsplit_once(')').expect("parameters end with a parenthesis");
    let types = parameters.split(',').map(|one| one.trim().to_string()).collect();
    (types, result.trim().strip_prefix("-> ").map(str::to_string))
}

#[test]
fn the_types_of_functions_have_the_signatures_of_the_header() {
    let next = function_type_of_header("sel_next_batch");
    assert_eq!(next.0, ["*mut c_void", "*mut Handle", "*mut TypeHandle"]);
    assert_eq!(function_type_of_raw("NextBatch"), next);
    assert_eq!(function_type_of_raw("FreeContext"), function_type_of_header("sel_free_context"));
}

#[test]
fn each_function_of_the_headers_is_declared_with_its_types() {
    let (headers, raw) = (functions_of_headers(), functions_of_raw());
    assert!(headers.len() >= 90, "{headers:?}");
    assert_eq!(
        headers["sel_share"],
        (vec!["*const Handle".to_string(), "*mut Handle".to_string()], Some("u32".to_string()))
    );
    for (name, signature) in &headers {
        assert_eq!(raw.get(name), Some(signature), "{name}");
    }
    let unknown: Vec<&String> = raw.keys().filter(|name| !headers.contains_key(*name)).collect();
    assert!(unknown.is_empty(), "the headers do not declare {unknown:?}");
}

#[test]
fn each_function_of_the_headers_is_in_the_table() {
    let headers = functions_of_headers();
    let first_cells = DOCUMENTATION.lines().filter_map(|line| line.strip_prefix("//! |")?.split('|').next());
    let listed: Vec<&str> =
        first_cells.flat_map(|cell| cell.split('`')).filter(|word| word.starts_with("sel_")).collect();
    for name in headers.keys() {
        assert_eq!(listed.iter().filter(|other| *other == name).count(), 1, "{name}");
    }
    assert_eq!(listed.len(), headers.len(), "{listed:?}");
}

/// Returns the fields of a C structure with their types in Rust.
fn fields_of_header(name: &str) -> Vec<String> {
    let source = HEADERS.map(without_comments).join("\n");
    let (_, body) = source.split_once(&format!("struct {name} {{")).expect("the header has the structure");
    let (body, _) = body.split_once('}').expect("a structure ends with a brace");
    body.split(';').filter(|field| !field.trim().is_empty()).map(field).collect()
}

fn field(declarator: &str) -> String {
    let name = declarator.rsplit([' ', '*']).next().expect("a field has a name");
    format!("{name}: {}", declared_type(declarator))
}

/// Returns the fields of a structure of `raw.rs` or `views.rs` with their types.
fn fields_of_rust(name: &str) -> Vec<String> {
    let source = [RAW, include_str!("../src/views.rs")].join("\n");
    let (_, body) = source.split_once(&format!("pub struct {name} {{")).expect("the crate has the structure");
    let (body, _) = body.split_once('}').expect("a structure ends with a brace");
    body.lines()
        .filter_map(|line| line.trim().strip_prefix("pub "))
        .map(|field| field.trim_end_matches(',').to_string())
        .collect()
}

#[test]
fn the_structures_have_the_fields_of_the_header() {
    for (c, rust) in [
        ("sel_int128", "RawInt128"),
        ("sel_view", "View"),
        ("sel_bytes_ref", "RawBytesRef"),
        ("sel_row_ref", "RawRowRef"),
    ] {
        let fields = fields_of_header(c);
        assert!(fields.len() >= 2, "{c} {fields:?}");
        assert_eq!(fields_of_rust(rust), fields, "{c}");
    }
    for (c, rust) in [
        ("sel_column", "Handle"),
        ("sel_selection", "SelectionHandle"),
        ("sel_type", "TypeHandle"),
        ("sel_stream", "StreamHandle"),
    ] {
        assert_eq!(fields_of_header(c), ["at: *mut c_void"], "{c}");
        assert_eq!(fields_of_rust(rust), ["at: *mut c_void"], "{rust}");
    }
}

/// Returns the numbers of the enumeration of kinds, by their names.
fn kinds_of_header() -> Vec<(String, u32)> {
    let source = HEADERS.map(without_comments).join("\n");
    let (_, body) = source.split_once("enum sel_type_id {").expect("the header has the enumeration");
    let (body, _) = body.split_once('}').expect("an enumeration ends with a brace");
    let pairs = body.split(',').filter_map(|pair| pair.split_once('='));
    let pairs = pairs.filter(|(name, _)| name.trim() != "SEL_TYPE_ID_FORCE_32_BITS");
    pairs.map(|(name, number)| (name.trim().to_string(), number.trim().parse().expect("a number"))).collect()
}

#[test]
fn each_kind_of_the_header_has_its_number() {
    let kinds = kinds_of_header();
    assert_eq!(kinds.len(), 19, "{kinds:?}");
    for (name, number) in kinds {
        let kind = Kind::try_from(number).map(|kind| format!("{kind:?}").to_uppercase());
        match name.as_str() {
            "SEL_TYPE_NONE" => assert_eq!(kind, Err(Error::UnknownKind(number))),
            _ => assert_eq!(kind, Ok(name.replace("SEL_TYPE_", "").replace('_', ""))),
        }
    }
}
