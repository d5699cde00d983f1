//! Links the static libraries that hold every call on books, on clause files, on sheets and on the
//! lines of orders.
//!
//! `tools/build-library`, run at the repository's top, writes them to
//! `target/staticlib/libc_calls.a`, `libc_book_calls.a`, `libc_sheet_calls.a` and
//! `libc_line_calls.a`.  The environment variable `ND_STATICLIB_DIR` names another folder to take
//! them from.

use std::env;
use std::path::{Path, PathBuf};

/// Links one of them.
fn link(folder: &Path, name: &str) {
    let archive = folder.join(format!("lib{name}.a"));
    println!("cargo:rerun-if-changed={}", archive.display());
    if !archive.is_file() {
        panic!(
            "no {}: run `tools/build-library` at the repository's top",
            archive.display()
        );
    }
    println!("cargo:rustc-link-lib=static={name}");
}

fn main() {
    let folder = match env::var_os("ND_STATICLIB_DIR") {
        Some(folder) => PathBuf::from(folder),
        // This package lies two levels below the repository's top.
        None => PathBuf::from(env::var_os("CARGO_MANIFEST_DIR").expect("set by cargo"))
            .join("../../target/staticlib"),
    };
    println!("cargo:rerun-if-env-changed=ND_STATICLIB_DIR");
    println!("cargo:rustc-link-search=native={}", folder.display());
    link(&folder, "c_calls");
    link(&folder, "c_book_calls");
    link(&folder, "c_sheet_calls");
    link(&folder, "c_line_calls");
}
