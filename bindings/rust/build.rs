//! Links `libsel.a`, or `libsel.so` if `SEL_LIBRARY_KIND` is `dylib`, from the folder that `SEL_LIBRARY_DIR` names or else
//! from the checkout's `build`.

use std::env::{self, VarError};
use std::path::Path;

/// Returns a variable of the environment, or the default if it is not set or empty.
fn variable(name: &str, default: &str) -> String {
    println!("cargo:rerun-if-env-changed={name}");
    match env::var(name) {
        Ok(value) if !value.is_empty() => value,
        Ok(_) | Err(VarError::NotPresent) => default.to_string(),
        Err(error) => panic!("{name}: {error}"),
    }
}

fn main() {
    let crate_folder = env::var("CARGO_MANIFEST_DIR").expect("cargo sets CARGO_MANIFEST_DIR");
    let folder = variable("SEL_LIBRARY_DIR", &format!("{crate_folder}/../../build"));
    let kind = variable("SEL_LIBRARY_KIND", "static");
    let library = match kind.as_str() {
        "static" => format!("{folder}/libsel.a"),
        "dylib" => format!("{folder}/libsel.so"),
        other => panic!("SEL_LIBRARY_KIND is static or dylib, not {other}"),
    };
    let is_built = Path::new(&library).exists();
    if !is_built {
        // not an error, since cargo check, clippy and doc need no library
        println!(
            "cargo:warning={library} is missing: run `make lib`, or set SEL_LIBRARY_DIR to the absolute path of the folder with the library"
        );
    }
    if is_built && kind == "dylib" {
        // the program reads it when it is run
        println!("cargo:rerun-if-changed=build.rs");
    } else {
        println!("cargo:rerun-if-changed={library}");
    }
    println!("cargo:rustc-link-search=native={folder}");
    println!("cargo:rustc-link-lib={kind}=sel");
}
