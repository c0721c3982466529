//! Links libyay.a from YAY_LIB_DIR, or from where `make yay` has it made.

use std::path::Path;

fn main() {
    println!("cargo:rerun-if-env-changed=YAY_LIB_DIR");
    let here = std::env::var("CARGO_MANIFEST_DIR").expect("cargo sets it");
    let folder = std::env::var("YAY_LIB_DIR").unwrap_or(format!("{here}/../../build/lib"));
    println!("cargo:rerun-if-changed={folder}/libyay.a");
    if !Path::new(&folder).join("libyay.a").is_file() {
        eprintln!("the proved library is missing: there is no {folder}/libyay.a.");
        eprintln!(
            "Run `make yay` in the project's folder, which proves and makes it, or name its folder in YAY_LIB_DIR."
        );
        std::process::exit(1);
    }
    println!("cargo:rustc-link-search=native={folder}");
    println!("cargo:rustc-link-lib=static=yay");
}
