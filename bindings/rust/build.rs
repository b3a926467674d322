//! Links the proved library's archive, libexports.a; its folder is SLOTS_LIB_DIR, or where `rt lib` in
//! crates/exports writes it.

use std::env;
use std::path::PathBuf;

fn main() {
    let here = PathBuf::from(env::var_os("CARGO_MANIFEST_DIR").expect("set by cargo"));
    let folder = env::var_os("SLOTS_LIB_DIR").map_or(here.join("../../crates/exports/out"), PathBuf::from);
    println!("cargo:rerun-if-env-changed=SLOTS_LIB_DIR");
    println!("cargo:rerun-if-changed={}", folder.join("libexports.a").display());
    println!("cargo:rustc-link-search=native={}", folder.display());
    println!("cargo:rustc-link-lib=static=exports");
}
