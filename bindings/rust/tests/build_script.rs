//! What the build script prints for cargo, with a built library in a folder and without one.

use std::ffi::OsString;
use std::path::{Path, PathBuf};
use std::process::{Command, Output};
use std::{env, fs};

/// Compiles the build script in a folder, whose path has a space.
fn compiled() -> (PathBuf, PathBuf) {
    let folder = Path::new(env!("CARGO_TARGET_TMPDIR")).join("build script");
    fs::create_dir_all(&folder).expect("a folder");
    let program = folder.join("program");
    let rustc = env::var_os("RUSTC").unwrap_or_else(|| OsString::from("rustc"));
    let mut command = Command::new(rustc);
    command.arg("--edition=2021").arg("-o").arg(&program).arg(concat!(env!("CARGO_MANIFEST_DIR"), "/build.rs"));
    assert!(command.status().expect("rustc runs").success());
    (program, folder)
}

/// Runs the build script of a package in `/package`, with these values of its two variables.
fn run(program: &Path, folder: &str, kind: &str) -> Output {
    let mut command = Command::new(program);
    command.env("CARGO_MANIFEST_DIR", "/package").env("SEL_LIBRARY_DIR", folder).env("SEL_LIBRARY_KIND", kind);
    command.output().expect("the build script runs")
}

fn lines_of(output: &Output) -> Vec<String> {
    assert!(output.status.success(), "{output:?}");
    String::from_utf8_lossy(&output.stdout).lines().map(str::to_string).collect()
}

fn warnings_of(lines: &[String]) -> Vec<&str> {
    lines.iter().filter_map(|line| line.strip_prefix("cargo:warning=")).collect()
}

#[test]
fn a_missing_library_is_a_warning_that_says_what_to_do() {
    let (program, folder) = compiled();
    let text = folder.to_str().expect("a path in UTF-8");
    for (kind, name) in [("static", "libsel.a"), ("", "libsel.a"), ("dylib", "libsel.so")] {
        let library = folder.join(name);
        let path = library.to_str().expect("a path in UTF-8");
        let lines = lines_of(&run(&program, text, kind));
        let expected = format!(
            "{path} is missing: run `make lib`, or set SEL_LIBRARY_DIR to the absolute path of the folder with the library"
        );
        assert_eq!(warnings_of(&lines), [expected]);
        assert!(lines.contains(&format!("cargo:rerun-if-changed={path}")), "{lines:?}");
        fs::write(&library, "").expect("a file");
        let lines = lines_of(&run(&program, text, kind));
        fs::remove_file(&library).expect("the file");
        assert!(warnings_of(&lines).is_empty(), "{lines:?}");
        let linked = format!("cargo:rustc-link-lib={}=sel", if kind.is_empty() { "static" } else { kind });
        assert!(lines.contains(&linked), "{lines:?}");
        assert!(lines.contains(&format!("cargo:rustc-link-search=native={text}")), "{lines:?}");
    }
    let default = lines_of(&run(&program, "", ""));
    assert!(default.contains(&"cargo:rustc-link-search=native=/package/../../build".to_string()), "{default:?}");
    let wrong = run(&program, text, "shared");
    assert!(!wrong.status.success());
    assert!(String::from_utf8_lossy(&wrong.stderr).contains("SEL_LIBRARY_KIND is static or dylib, not shared"));
}
