//! Links libtallowmarch.a: from the folder that TALLOWMARCH_LIB names, or from the repository's out/, which tools/library fills.
use std::env;
use std::path::PathBuf;

fn main() {
    println!("cargo:rerun-if-env-changed=TALLOWMARCH_LIB");
    let own = || PathBuf::from(env::var_os("CARGO_MANIFEST_DIR").expect("cargo sets it")).join("../../out");
    let folder = env::var_os("TALLOWMARCH_LIB").map_or_else(own, PathBuf::from);
    let archive = folder.join("libtallowmarch.a");
    println!("cargo:rerun-if-changed={}", archive.display());
    if !archive.exists() {
        println!("cargo:warning=there is no {}: build it with tools/library, or name its folder in TALLOWMARCH_LIB", archive.display());
    }
    println!("cargo:rustc-link-search=native={}", folder.display());
    println!("cargo:rustc-link-lib=static=tallowmarch");
}
