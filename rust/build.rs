//! Links liblurvetta.a, which ./build-c makes in the folder lib; LURVETTA_LIB names another folder.
use std::{env, path::PathBuf};

fn main() {
    let folder = env::var_os("LURVETTA_LIB").map_or_else(
        || PathBuf::from(env::var_os("CARGO_MANIFEST_DIR").unwrap_or_default()).join("../lib"),
        PathBuf::from,
    );
    println!("cargo:rustc-link-search=native={}", folder.display());
    println!("cargo:rustc-link-lib=static=lurvetta");
    println!("cargo:rerun-if-env-changed=LURVETTA_LIB");
    println!("cargo:rerun-if-changed={}", folder.join("liblurvetta.a").display());
}
