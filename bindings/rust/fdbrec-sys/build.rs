//! Links libfdbrec.a: of the folder that FDBREC_LIB names, else of that in which ./build-library leaves it.
use std::env;
use std::path::PathBuf;

fn main() {
    println!("cargo::rerun-if-env-changed=FDBREC_LIB");
    let built = PathBuf::from(env!("CARGO_MANIFEST_DIR")).join("../../../build/lib");
    let folder = env::var_os("FDBREC_LIB").map_or(built, PathBuf::from);
    let archive = folder.join("libfdbrec.a");
    println!("cargo::rerun-if-changed={}", archive.display());
    if !archive.exists() {
        panic!("there is no {}: ./build-library makes it, and FDBREC_LIB names its folder", archive.display());
    }
    println!("cargo::rustc-link-search=native={}", folder.display());
    println!("cargo::rustc-link-lib=static=fdbrec");
}
