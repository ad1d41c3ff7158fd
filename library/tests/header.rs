//! The C header: a C program that includes it is compiled, linked with the static library and run; and
//! header and program have every function that the library exports.

use std::fs;
use std::io::ErrorKind;
use std::path::{Path, PathBuf};
use std::process::Command;

#[test]
fn a_c_program_calls_every_function() {
    compile_and_run("cc", &["-std=c99", "-pedantic"], "caller");
}

#[test]
fn a_cxx_program_may_include_it() {
    compile_and_run("c++", &["-x", "c++"], "caller_cxx");
}

#[test]
fn header_and_program_have_every_function() {
    let package = Path::new(env!("CARGO_MANIFEST_DIR"));
    let text = |file: &str| fs::read_to_string(package.join(file)).unwrap();
    let exports = text("src/exports.rs");
    let (header, program) = (text("../include/dowrhesk.h"), text("tests/caller.c"));
    let named = exports
        .lines()
        .filter_map(|line| line.trim().strip_prefix("pub fn "));
    let names: Vec<&str> = named.collect();
    assert_eq!(names.len(), 20);
    for name in names {
        assert!(header.contains(&format!(" {name}")), "{name} in the header");
        assert!(program.contains(name), "{name} in the program");
    }
}

/// Compiles `caller.c` with warnings as errors and runs it; says so where there is no compiler.
fn compile_and_run(compiler: &str, language: &[&str], name: &str) {
    let package = Path::new(env!("CARGO_MANIFEST_DIR"));
    let program = PathBuf::from(env!("CARGO_TARGET_TMPDIR")).join(name);
    let made = Command::new(compiler)
        .args(["-Wall", "-Wextra", "-Werror"])
        .args(language)
        .arg("-I")
        .arg(package.join("../include"))
        .arg(package.join("tests/caller.c"))
        .args(["-x", "none"])
        .arg(package.join("../crates/capi/out/libcapi.a"))
        .arg("-o")
        .arg(&program)
        .output();
    let made = match made {
        Err(error) if error.kind() == ErrorKind::NotFound => {
            println!("skipped: {compiler} is not installed");
            return;
        }
        made => made.unwrap(),
    };
    assert!(made.status.success(), "{made:?}");
    let run = Command::new(&program).output().unwrap();
    assert!(run.status.success(), "{run:?}");
}
