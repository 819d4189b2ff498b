//! Shows the linker where the proved library lies: `target/staticlib` at the top of the repository, or the folder that `CAPI_FOLDER` names where it
//! is not empty.

use std::env;
use std::path::PathBuf;
use std::process::exit;

fn main() {
    println!("cargo:rerun-if-changed=build.rs");
    println!("cargo:rerun-if-env-changed=CAPI_FOLDER");
    let home = PathBuf::from(env::var_os("CARGO_MANIFEST_DIR").unwrap_or_default()).join("..");
    let folder = match env::var_os("CAPI_FOLDER") {
        Some(named) if !named.is_empty() => home.join(named),
        _ => home.join("../target/staticlib"),
    };
    let library = folder.join("libcapi.a");
    if !library.is_file() {
        eprintln!("There is no {}.", library.display());
        eprintln!("Run `tools/library` at the top of the repository, or name the library's folder in CAPI_FOLDER.");
        exit(1);
    }
    println!("cargo:rustc-link-search=native={}", folder.display());
    println!("cargo:rerun-if-changed={}", library.display());
}
