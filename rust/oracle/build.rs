//! Finds the original's sources and tells the wrapper modules where they are.
//!
//! The path comes from UNDERSTORY_SRC; without it, the folder that stands
//! beside the repository is taken. The sources are never copied in here. Where
//! they are not at hand, all is built without the original: the cfg `original`
//! says that it is there.

use std::env;
use std::path::PathBuf;

const FILES: [&str; 5] = ["tree.rs", "util.rs", "spec.rs", "snapshot.rs", "frame.rs"];

fn main() {
    println!("cargo:rerun-if-env-changed=UNDERSTORY_SRC");
    println!("cargo:rustc-check-cfg=cfg(original)");
    let folder = sources();
    let paths = FILES.map(|file| folder.join(file));
    for path in &paths {
        println!("cargo:rerun-if-changed={}", path.display());
    }
    match paths.iter().find(|path| !path.is_file()) {
        None => {
            println!("cargo:rustc-cfg=original");
            println!("cargo:original=1");
            println!("cargo:rustc-env=UNDERSTORY_SRC={}", folder.display());
        }
        Some(missing) => println!(
            "cargo:warning=the original is left out, since {} is not there: \
             UNDERSTORY_SRC names the folder that holds it",
            missing.display()
        ),
    }
}

fn sources() -> PathBuf {
    match env::var_os("UNDERSTORY_SRC") {
        Some(path) => absolute(PathBuf::from(path)),
        None => repository().join("../shared/docs/src/understory_tiling/src"),
    }
}

/// A relative UNDERSTORY_SRC is meant from the repository's root.
fn absolute(path: PathBuf) -> PathBuf {
    if path.is_absolute() { path } else { repository().join(path) }
}

fn repository() -> PathBuf {
    let here = env::var_os("CARGO_MANIFEST_DIR").expect("cargo names the package's folder");
    PathBuf::from(here).join("../..")
}
