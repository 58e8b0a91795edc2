// Links the static library that bindings/archive writes. DANISKOL_LIB names its folder; by default it is this repository's.
use std::{env, path::PathBuf};

fn main() {
    println!("cargo:rerun-if-env-changed=DANISKOL_LIB");
    let folder = env::var_os("DANISKOL_LIB").map(PathBuf::from).unwrap_or_else(|| {
        PathBuf::from(env::var_os("CARGO_MANIFEST_DIR").unwrap()).join("../../target/staticlib")
    });
    let archive = folder.join("libexports.a");
    println!("cargo:rerun-if-changed={}", archive.display());
    if !archive.exists() {
        println!("cargo:warning={} is missing: run bindings/archive first", archive.display());
    }
    println!("cargo:rustc-link-search=native={}", folder.display());
    println!("cargo:rustc-link-lib=static=exports");
}
