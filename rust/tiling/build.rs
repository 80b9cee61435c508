//! Finds libtiling_c.a, which `rust/library.sh` makes, and links it.
//!
//! The folder comes from TILING_LIB; without it, `target/staticlib` of the
//! repository's root is taken.

use std::env;
use std::path::{Path, PathBuf};

const ARCHIVE: &str = "libtiling_c.a";

fn main() {
    println!("cargo:rerun-if-env-changed=TILING_LIB");
    let folder = folder();
    let archive = folder.join(ARCHIVE);
    println!("cargo:rerun-if-changed={}", archive.display());
    if !archive.is_file() {
        panic!(
            "{ARCHIVE} is not in {}: run `rust/library.sh` in the repository's root, \
             or set TILING_LIB to the folder that holds it",
            folder.display()
        );
    }
    println!("cargo:rustc-link-search=native={}", folder.display());
    println!("cargo:rustc-link-lib=static=tiling_c");
}

/// A relative TILING_LIB is meant from the repository's root.
fn folder() -> PathBuf {
    let here = env::var_os("CARGO_MANIFEST_DIR").expect("cargo names the package's folder");
    let repository = Path::new(&here).join("../..");
    repository.join(env::var_os("TILING_LIB").unwrap_or_else(|| "target/staticlib".into()))
}
