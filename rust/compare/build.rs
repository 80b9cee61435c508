//! Tells whether the oracle was built with the original in it.

fn main() {
    println!("cargo:rustc-check-cfg=cfg(original)");
    println!("cargo:rerun-if-env-changed=DEP_ORACLE_ORIGINAL");
    if std::env::var_os("DEP_ORACLE_ORIGINAL").is_some() {
        println!("cargo:rustc-cfg=original");
    }
}
