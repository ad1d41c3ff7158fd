//! Links the static library of the proved code. It stops where the archive is missing, or older
//! than a source file of a crate: a stale archive would answer in silence.

use std::fs;
use std::path::{Path, PathBuf};
use std::process::exit;
use std::time::SystemTime;

fn main() {
    let top = Path::new(env!("CARGO_MANIFEST_DIR")).join("..");
    let folder = top.join("crates/capi/out");
    let archive = folder.join("libcapi.a");
    let crates = top.join("crates");
    println!("cargo:rerun-if-changed={}", archive.display());
    println!(
        "cargo:rerun-if-changed={}",
        top.join("crates.txt").display()
    );

    let Some(made) = modified(&archive) else {
        stop("there is no crates/capi/out/libcapi.a");
    };
    let sources = sources(&crates);
    if sources.is_empty() {
        stop("there is no source file below crates/");
    }
    for source in &sources {
        if modified(source).is_none_or(|edited| edited > made) {
            let name = source.strip_prefix(&top).unwrap_or(source);
            stop(&format!(
                "crates/capi/out/libcapi.a is older than {}",
                name.display()
            ));
        }
    }
    for source in &sources {
        println!("cargo:rerun-if-changed={}", source.display());
    }
    println!("cargo:rustc-link-search=native={}", folder.display());
    println!("cargo:rustc-link-lib=static=capi");
}

fn stop(reason: &str) -> ! {
    eprintln!("{reason}: run `rt lib` in crates/capi");
    exit(1);
}

fn modified(file: &Path) -> Option<SystemTime> {
    fs::metadata(file).and_then(|data| data.modified()).ok()
}

/// The files below a folder from which code is compiled. What a build leaves in `out` has copies of them.
fn sources(folder: &Path) -> Vec<PathBuf> {
    let mut found = Vec::new();
    for entry in fs::read_dir(folder).into_iter().flatten().flatten() {
        let path = entry.path();
        if path.ends_with("out") {
            continue;
        }
        if path.is_dir() {
            found.extend(sources(&path));
        } else if path.extension().is_some_and(|kind| kind == "rt") {
            found.push(path);
        }
    }
    found
}
