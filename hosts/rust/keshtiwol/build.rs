//! Links the engine's archive, libkeshtiwol.a, from the folder in KESHTIWOL_LIB (an absolute path) or else from the repository's
//! crates/keshtiwol/out.

use std::{env, path::PathBuf};

fn main() {
    let folder = match env::var_os("KESHTIWOL_LIB") {
        Some(folder) => absolute(PathBuf::from(folder)),
        None => PathBuf::from(env::var_os("CARGO_MANIFEST_DIR").unwrap()).join("../../../crates/keshtiwol/out"),
    };
    let archive = folder.join("libkeshtiwol.a");
    if !archive.exists() {
        println!("cargo:warning=no archive at {}; set KESHTIWOL_LIB to the folder that holds libkeshtiwol.a", archive.display());
    }
    println!("cargo:rustc-link-search=native={}", folder.display());
    println!("cargo:rustc-link-lib=static=keshtiwol");
    println!("cargo:rerun-if-env-changed=KESHTIWOL_LIB");
    println!("cargo:rerun-if-changed={}", archive.display());
    println!("cargo:rerun-if-changed=build.rs");
}

/// A path from elsewhere would be looked for in this crate's folder.
fn absolute(folder: PathBuf) -> PathBuf {
    assert!(folder.is_absolute(), "KESHTIWOL_LIB must be an absolute path, and is {}", folder.display());
    folder
}
