//! Links libyardbook.a from YARDBOOK_LIB, or from where `tools/archive` writes it in this repository.
use std::env;
use std::path::PathBuf;

fn main() {
    println!("cargo:rerun-if-env-changed=YARDBOOK_LIB");
    let folder = match env::var_os("YARDBOOK_LIB") {
        Some(folder) => PathBuf::from(folder),
        None => PathBuf::from(env!("CARGO_MANIFEST_DIR")).join("../../target/staticlib"),
    };
    println!("cargo:rerun-if-changed={}", folder.join("libyardbook.a").display());
    println!("cargo:rustc-link-search=native={}", folder.display());
    println!("cargo:rustc-link-lib=static=yardbook");
}
