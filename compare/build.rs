//! Links the proved library's archive, libexports.a, into the program `compare`; its folder is SLOTS_LIB_DIR, or where
//! `rt lib` in crates/exports writes it. With the feature `mock` there is nothing to link, and nothing for `second`.

use std::env;
use std::path::PathBuf;

fn main() {
    println!("cargo:rerun-if-env-changed=SLOTS_LIB_DIR");
    if env::var_os("CARGO_FEATURE_MOCK").is_some() {
        return;
    }
    let here = PathBuf::from(env::var_os("CARGO_MANIFEST_DIR").expect("set by cargo"));
    let folder = env::var_os("SLOTS_LIB_DIR").map_or(here.join("../crates/exports/out"), PathBuf::from);
    let archive = folder.join("libexports.a");
    println!("cargo:rerun-if-changed={}", archive.display());
    println!("cargo:rustc-link-arg-bin=compare={}", archive.display());
}
