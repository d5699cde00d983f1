//! Links the static libraries that hold the C-callable functions: the two of `c_calls`,
//! those of `c_sheet_calls`, on sheets and indexes, and that of `c_book_calls`, the import.
//!
//! `tools/build-library`, run at the repository's top, writes them to `target/staticlib`.
//! The environment variable `ND_STATICLIB_DIR` names another folder to take `libc_calls.a`,
//! `libc_sheet_calls.a` and `libc_book_calls.a` from.

use std::env;
use std::path::PathBuf;

fn main() {
    let folder = match env::var_os("ND_STATICLIB_DIR") {
        Some(folder) => PathBuf::from(folder),
        // This package lies two levels below the repository's top.
        None => PathBuf::from(env::var_os("CARGO_MANIFEST_DIR").expect("set by cargo"))
            .join("../../target/staticlib"),
    };
    println!("cargo:rerun-if-env-changed=ND_STATICLIB_DIR");
    let Ok(folder) = folder.canonicalize() else {
        panic!(
            "no folder {}: run `tools/build-library` at the repository's top",
            folder.display()
        );
    };
    println!("cargo:rustc-link-search=native={}", folder.display());
    for name in ["c_calls", "c_sheet_calls", "c_book_calls"] {
        let archive = folder.join(format!("lib{name}.a"));
        println!("cargo:rerun-if-changed={}", archive.display());
        if !archive.is_file() {
            panic!(
                "no {}: run `tools/build-library` at the repository's top",
                archive.display()
            );
        }
        println!("cargo:rustc-link-lib=static={name}");
    }
}
