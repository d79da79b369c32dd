//! Finds libbulk.a in the folder that BULK_LIB_DIR names, or where front/link puts it, and links it.
//! The only build script here: `face::FOLDER` tells that folder to the others.

use std::path::PathBuf;

/// Tells cargo where the library lies.
fn main() {
    println!("cargo:rerun-if-env-changed=BULK_LIB_DIR");
    let folder = match std::env::var_os("BULK_LIB_DIR") {
        Some(folder) => PathBuf::from(folder),
        None => PathBuf::from(env!("CARGO_MANIFEST_DIR")).join("../../target/front"),
    };
    let folder = folder.canonicalize().unwrap_or(folder);
    let library = folder.join("libbulk.a");
    assert!(library.exists(), "{} is missing: run front/link first", library.display());
    println!("cargo:rerun-if-changed={}", library.display());
    println!("cargo:rustc-link-search=native={}", folder.display());
    println!("cargo:rustc-link-lib=static=bulk");
    println!("cargo:rustc-env=BULK_FOLDER={}", folder.display());
}
