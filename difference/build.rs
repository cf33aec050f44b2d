//! Links the proved static library from the folder that the environment names.

const FOLDER: &str = "YARDBOOK_LIBRARY";

fn main() {
    println!("cargo:rerun-if-env-changed={FOLDER}");
    let Ok(folder) = std::env::var(FOLDER) else {
        panic!("{FOLDER} must name the folder of libyardbook.a; tests/difference.sh sets it");
    };
    println!("cargo:rerun-if-changed={folder}/libyardbook.a");
    println!("cargo:rustc-link-search=native={folder}");
}
